"""A map of pages and frames, with a hand that goes round the frames."""


class Pages:
    def __init__(self, pages, frames):
        self.pages, self.frames, self.hand = pages, [None] * frames, 0

    def frame_of(self, page):
        return self.frames.index(page) if page in self.frames else None

    def text_of(self, name, numbers):
        """What the command on the map prints."""
        plain = {"victim": ("page", self.victim), "free": ("frame", lambda: self.frame_of(None))}
        paged = {"put": self.put, "remove": self.remove, "page": self.frame_of}
        if not numbers and name in plain:
            word, call = plain[name]
            found = call()
        elif numbers and name in paged:
            word, found = "frame", paged[name](numbers[0])
        else:
            return "no command"
        return f"{word} {'none' if found is None else found}"

    def victim(self):
        """The page in the first occupied frame from the hand on, which goes behind that frame."""
        for distance in range(len(self.frames)):
            frame = (self.hand + distance) % len(self.frames)
            if self.frames[frame] is not None:
                self.hand = (frame + 1) % len(self.frames)
                return self.frames[frame]
        return None

    def put(self, page):
        frame = self.frame_of(None)
        if self.pages <= page or page in self.frames or frame is None:
            return None
        self.frames[frame] = page
        return frame

    def remove(self, page):
        frame = self.frame_of(page)
        if frame is not None:
            self.frames[frame] = None
        return frame

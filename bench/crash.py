#!/usr/bin/env python3
"""crash.py [CRASHES [SECONDS [PROGRAM [KIND]]]]

Crashes a real file system under the program (crates/dude/out/dude, or PROGRAM), at most CRASHES (200) times in about SECONDS
(300). The image stands on a file system of a kind (ext4) that is made in a file, on a loop device. While a load, or a run of
one to four files, goes on, the file system is shut down at a random moment, without its log being flushed: from then on each
call on it fails, and what was in the system's cache and not on the device is lost, as at a loss of power. Each sync waits for a
millisecond before it begins (faults/failing.c), so that there is mostly something to lose, and meanwhile random pages of the
image are told to be written at once, so that the device may have later words of some pages and not of others. Then the file
system is mounted again, which takes up its log, and the image is recovered.

The command has to end with status 6, or well where it was through. The program and recover.py have to recover the same number
and rows, at least the last number told, and those of prefixes of the command's files. Syncs reach the file that stands for the
device, so this tries the order of writes and syncs over a real file system and its cache; it tries no disk.

Outside the gate. Needs root, losetup, mkfs of the kind and a C compiler. Prints how many crashes there were, what came, how often words that
weren't synced were lost, and how far the images recovered over the last number told. Ends with 1 and says why where something
is wrong, and leaves its folder below /dev/shm then.
"""
import collections
import ctypes
import fcntl
import mmap
import os
import random
import shutil
import struct
import subprocess
import sys
import tempfile
import threading
import time

import recover
from soak import MOST_FILES, write_requests

HERE = os.path.dirname(os.path.abspath(__file__))
SUBSCRIBERS, RINGS, CELLS = 400, 8, 64
IMAGE_WORDS = 262_144
PAGE = 4096
# Both file systems take this call: they go down, and the flag leaves their log unflushed.
GOING_DOWN, NO_LOG_FLUSH = 0x8004587D, 2
# Each sync begins a millisecond late.
SLOWLY = {"LD_PRELOAD": "./failing.so", "FAULT_KIND": "sync", "FAULT_CALL": "1", "FAULT_LASTING": "1", "FAULT_WAIT": "1"}
WRITE_PAGES = 2


class Disk:
    """A file system in a file, mounted at `mount`."""

    def __init__(self, kind):
        with open("disk", "wb") as file:
            file.truncate(512 * 2**20)
        self.device = subprocess.run(["losetup", "-f", "--show", "disk"], check=True, capture_output=True, text=True).stdout.strip()
        subprocess.run([f"mkfs.{kind}", "-q", self.device], check=True)
        os.mkdir("mount")
        self.mount()

    def mount(self):
        subprocess.run(["mount", self.device, "mount"], check=True)

    def unmount(self):
        for _ in range(100):
            if subprocess.run(["umount", "mount"], stderr=subprocess.DEVNULL).returncode == 0:
                return
            time.sleep(0.01)
        raise recover.Wrong("the file system can't be unmounted")

    def shut_down(self):
        folder = os.open("mount", os.O_RDONLY)
        fcntl.ioctl(folder, GOING_DOWN, struct.pack("I", NO_LOG_FLUSH))
        os.close(folder)

    def drop(self):
        self.unmount()
        subprocess.run(["losetup", "-d", self.device], check=True)


class Writer(threading.Thread):
    """Has random pages of the image written at once, until it is told to stop."""

    def __init__(self, draw):
        super().__init__()
        self.draw, self.is_through = draw, False
        self.image = os.open("mount/image", os.O_RDONLY)
        self.cache = mmap.mmap(self.image, 8 * IMAGE_WORDS, prot=mmap.PROT_READ)
        self.library = ctypes.CDLL(None)

    def run(self):
        pages = 8 * IMAGE_WORDS // PAGE
        while not self.is_through:
            self.library.sync_file_range(self.image, ctypes.c_int64(PAGE * self.draw.randrange(pages)), ctypes.c_int64(PAGE), WRITE_PAGES)
            time.sleep(0.0002)


class Crashes:
    """The disk, the program, and what was counted."""

    def __init__(self, program, kind):
        self.program, self.draw = program, random.Random(1)
        self.counts, self.furthest, self.void = collections.Counter(), 0, 0
        self.disk = Disk(kind)
        with open("mount/image", "wb") as file:
            file.write(bytes(8 * IMAGE_WORDS))
        subprocess.run(
            [program, "mount/image", "format", str(SUBSCRIBERS), str(12 * SUBSCRIBERS), str(RINGS), str(CELLS)],
            check=True, stdout=subprocess.DEVNULL, stderr=subprocess.DEVNULL,
        )
        folder = os.open("mount", os.O_RDONLY)
        os.fsync(folder)
        os.close(folder)

    def words(self):
        """The next command."""
        if self.draw.randrange(2):
            return ["drive", str(self.draw.randrange(10**6)), "3000", str(self.draw.choice([1, 2, 4]))]
        names = write_requests(self.draw, self.draw.randrange(1, MOST_FILES + 1), SUBSCRIBERS, 3000)
        return ["run", *names]

    def crash(self):
        """Carries a command out, with a crash under it, and judges what is left."""
        shutil.copy("mount/image", "before")
        words, writer = self.words(), Writer(self.draw)
        with open("output", "wb") as out, open("errors", "wb") as err:
            with subprocess.Popen([self.program, "mount/image", *words], stdin=subprocess.DEVNULL, stdout=out, stderr=err, env=os.environ | SLOWLY) as ran:
                writer.start()
                time.sleep(self.draw.uniform(0, 1) ** 2)
                self.disk.shut_down()
                ran.wait()
        cached = self.cached(writer)
        self.disk.unmount()
        self.disk.mount()
        shutil.copy("mount/image", "image")
        with open("errors", errors="replace") as errors, open("told", "w") as told:
            lines = errors.readlines()
            told.writelines(line for line in lines if line.startswith("durable "))
        if ran.returncode not in (0, 6) or ran.returncode == 6 and lines[-1:] != ["device\n"]:
            raise recover.Wrong(f"{' '.join(words)} ended with {ran.returncode}: {lines[-1:]}")
        self.judge(ran.returncode == 0, words)
        self.counts[f"of status {ran.returncode}"] += 1
        with open("image", "rb") as file:
            self.counts["with words lost"] += cached != file.read()

    def cached(self, writer):
        """Ends the writer, and gives what the system still has of the image in its cache, as the program left it."""
        writer.is_through = True
        writer.join()
        left = bytes(writer.cache)
        writer.cache.close()
        os.close(writer.image)
        return left

    def judge(self, is_ended, words):
        shutil.copy("image", "copy")
        dumped = subprocess.run([self.program, "copy", "dump"], stdin=subprocess.DEVNULL, stdout=subprocess.PIPE, stderr=subprocess.DEVNULL, check=True)
        least, number, void = map(int, recover.judged(is_ended, dumped.stdout.decode(), "before", "image", "told", *words).split())
        self.counts["before the first tell"] += not recover.numbers_told("told")
        self.furthest, self.void = max(self.furthest, number - least), self.void + void


def main(words):
    most, limit = int(words[0]) if words else 200, float(words[1]) if len(words) > 1 else 300
    program = os.path.abspath(words[2] if len(words) > 2 else f"{os.path.dirname(HERE)}/crates/dude/out/dude")
    if not os.access(program, os.X_OK):
        sys.exit(f"no program: {program}; ./dude --version builds it")
    room = tempfile.mkdtemp(prefix="crash.", dir="/dev/shm")
    os.chdir(room)
    subprocess.run(["cc", "-O2", "-shared", "-fPIC", "-o", "failing.so", f"{HERE}/faults/failing.c"], check=True)
    crashes, begun, count = Crashes(program, words[3] if len(words) > 3 else "ext4"), time.monotonic(), 0
    try:
        while count < most and time.monotonic() - begun < limit:
            crashes.crash()
            count += 1
    except (recover.Wrong, subprocess.CalledProcessError) as why:
        print(f"crash: after {count} crashes: {why}. What is left stands in {room}", file=sys.stderr)
        raise SystemExit(1) from None
    finally:
        crashes.disk.drop()
    shutil.rmtree(room)
    said = ", ".join(f"{times} {kind}" for kind, times in sorted(crashes.counts.items()))
    print(f"{count} crashes in {time.monotonic() - begun:.0f} s: {said}; each image recovered to at least the last number told, and")
    print(f"at most {crashes.furthest} over it, with the rows of prefixes of its files; at least {crashes.void} numbers had no request")


main(sys.argv[1:])

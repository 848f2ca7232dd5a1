#!/usr/bin/env python3
"""stops.py [PROGRAM [FOLDER]]

Stops the built program (crates/dude/out/dude, or PROGRAM) as a system may, in a folder below FOLDER (/dev/shm):

- by signals, each at some random moments of a load of four files;
- by limits of its processor time, of the memory that it may map, of the size of a file, and of open files;
- by streams that are closed;
- by a file system that is full, for a new image and for one with holes, and by one that may only be read (needs root).

Each status is the one that README names, or the signal's. After each stop the program and recover.py have to recover the same
number and rows, at least the last number told, and those of prefixes of the command's files; a refused command has to leave its
image as it was. Outside the gate. Prints a line for each kind. Ends with 1 where something is wrong, and leaves the folder then.
"""
import collections
import contextlib
import os
import random
import resource
import shutil
import signal
import subprocess
import sys
import tempfile
import time

import recover

HERE = os.path.dirname(os.path.abspath(__file__))
SIZES = ("100", "1200", "4", "64")
LOAD = ("drive", "7", "5000", "4")
SIGNALS = (signal.SIGHUP, signal.SIGINT, signal.SIGQUIT, signal.SIGALRM, signal.SIGTERM, signal.SIGUSR1, signal.SIGXCPU)
MEGABYTE = 2**20
TIMES = 10


class Wrong(Exception):
    """What a stop left isn't what it has to be."""


class Stops:
    """The program and its image."""

    def __init__(self, program):
        self.program, self.draw = program, random.Random(1)
        with open("opening", "wb") as file:
            file.truncate(MEGABYTE)
        self.call("opening", "format", *SIZES)

    def start(self, image, *words, **how):
        with open("output", "wb") as out, open("errors", "wb") as err:
            return subprocess.Popen([self.program, image, *words], **{"stdin": subprocess.DEVNULL, "stdout": out, "stderr": err} | how)

    def call(self, image, *words, **how):
        """The status of a command."""
        return self.start(image, *words, **how).wait()

    def line(self):
        """The last line on standard error."""
        with open("errors", errors="replace") as file:
            return file.read().rstrip("\n").split("\n")[-1]

    def must(self, status, line, image, *words, **how):
        """A command has to end with this status, and with this line."""
        found = self.call(image, *words, **how)
        if (found, self.line()) != (status, line):
            raise Wrong(f"{' '.join(words)}: status {found} and {self.line()!r} in place of {status} and {line!r}")

    def judge(self, is_ended):
        """Judges the image after a load. What was told is what stands in whole lines."""
        with open("errors", errors="replace") as errors, open("told", "w") as told:
            told.writelines(line for line in errors if line.startswith("durable ") and line.endswith("\n"))
        shutil.copy("image", "copy")
        dumped = subprocess.run([self.program, "copy", "dump"], stdin=subprocess.DEVNULL, stdout=subprocess.PIPE, stderr=subprocess.DEVNULL, check=True)
        recover.judged(is_ended, dumped.stdout.decode(), "opening", "image", "told", *LOAD)

    def load(self, statuses, **how):
        """A load on a fresh image, whose status has to be one of these, judged."""
        shutil.copy("opening", "image")
        status = self.call("image", *LOAD, **how)
        if status not in statuses:
            raise Wrong(f"the load ended with {status} and {self.line()!r}, and not with one of {statuses}")
        self.judge(status == 0)
        return status

    def signals(self):
        shutil.copy("opening", "image")
        begun = time.monotonic()
        self.call("image", *LOAD)
        whole, came = time.monotonic() - begun, 0
        for number in SIGNALS:
            for _ in range(TIMES):
                shutil.copy("opening", "image")
                ran = self.start("image", *LOAD)
                time.sleep(self.draw.uniform(0, whole))
                ran.send_signal(number)
                status = ran.wait()
                if status not in (0, -number):
                    raise Wrong(f"signal {number}: status {status}")
                came += status != 0
                self.judge(status == 0)
        say(f"signals: {len(SIGNALS)} of them, {came} of {TIMES * len(SIGNALS)} loads ended by one")

    def limits(self):
        def limited(kind, *values):
            return lambda: resource.setrlimit(kind, values if len(values) == 2 else values * 2)

        shutil.copy("opening", "image")
        said = self.call("image", "drive", "7", "99999", "4", preexec_fn=limited(resource.RLIMIT_CPU, 1, 2))
        if said not in (0, -signal.SIGXCPU, -signal.SIGKILL):
            raise Wrong(f"a limit of processor time: status {said}")
        self.recovers()
        came = collections.Counter(self.load_in(size * MEGABYTE) for size in range(2, 42, 2))
        say(f"limits: processor time, status {said}; memory from 2 to 40 MB, {dict(came)}")
        # Nobody handles the signal, or it is ignored: then the write fails.
        for ignored in (False, True):
            def limit(ignored=ignored):
                if ignored:
                    signal.signal(signal.SIGXFSZ, signal.SIG_IGN)
                resource.setrlimit(resource.RLIMIT_FSIZE, (MEGABYTE, MEGABYTE))

            status = self.call("new.img", "format", *SIZES, preexec_fn=limit)
            if status != (6 if ignored else -signal.SIGXFSZ) or os.path.exists("new.img"):
                raise Wrong(f"a limit of file size: status {status}")
            for name in [it for it in os.listdir(".") if it.startswith("new.img")]:
                os.remove(name)
        self.must(6, "device", "image", "recover", preexec_fn=limited(resource.RLIMIT_NOFILE, 4))
        say("limits: a file's size, status 6 or the signal; open files, status 6")

    def load_in(self, size):
        """The status of a load with so much memory to map. Where it is too little to be loaded at all, the loader says so."""
        shutil.copy("opening", "image")
        status = self.call("image", *LOAD, preexec_fn=lambda: resource.setrlimit(resource.RLIMIT_AS, (size, size)))
        if status not in (0, 8, 127, -signal.SIGSEGV) or status == 8 and self.line() != "memory":
            raise Wrong(f"{size} bytes of memory: status {status} and {self.line()!r}")
        self.judge(status == 0)
        return status

    def recovers(self):
        if self.call("image", "recover"):
            raise Wrong(f"the image doesn't recover: {self.line()!r}")

    def streams(self):
        for closed, statuses in ((1, (6, 7)), (2, (6,))):
            self.load(statuses, preexec_fn=lambda closed=closed: os.close(closed))
        self.load((0,), preexec_fn=lambda: os.close(0))
        self.load((6,), preexec_fn=lambda: [os.close(at) for at in (0, 1, 2)])
        say("closed streams: each of them, and all")

    def file_systems(self):
        if os.geteuid():
            say("file systems: not tried, for want of root")
            return
        os.mkdir("mount")
        subprocess.run(["mount", "-t", "tmpfs", "-o", "size=8m", "tmpfs", "mount"], check=True)
        try:
            self.must(6, "device", "mount/new.img", "format", *SIZES)
            if os.listdir("mount"):
                raise Wrong(f"on a full file system are left: {os.listdir('mount')}")
            with open("mount/holes.img", "wb") as file:
                file.truncate(64 * MEGABYTE)
            self.must(6, "device", "mount/holes.img", "format", "10000", "120000", "8", "256")
            os.remove("mount/holes.img")
            shutil.copy("opening", "mount/kept.img")
            with open("mount/rest", "wb") as file, contextlib.suppress(OSError):
                file.write(bytes(8 * MEGABYTE))
            self.must(0, self.told_last("mount/kept.img"), "mount/kept.img", "recover")
            subprocess.run(["mount", "-o", "remount,ro", "mount"], check=True)
            self.must(6, "device", "mount/kept.img", "recover")
            self.must(6, "device", "mount/new.img", "format", *SIZES)
        finally:
            subprocess.run(["umount", "mount"], check=True)
        say("file systems: a full one and one that may only be read")

    def told_last(self, image):
        """What a recovery of an image tells last."""
        shutil.copy(image, "copy")
        self.call("copy", "recover")
        return self.line()


def say(line):
    print(line, flush=True)


def main(words):
    program = os.path.abspath(words[0] if words else f"{os.path.dirname(HERE)}/crates/dude/out/dude")
    if not os.access(program, os.X_OK):
        sys.exit(f"no program: {program}; ./dude --version builds it")
    room = tempfile.mkdtemp(prefix="stops.", dir=words[1] if len(words) > 1 else "/dev/shm")
    os.chdir(room)
    try:
        stops = Stops(program)
        stops.signals()
        stops.limits()
        stops.streams()
        stops.file_systems()
    except (Wrong, recover.Wrong, subprocess.CalledProcessError) as why:
        sys.exit(f"stops: {why}. What is left stands in {room}")
    shutil.rmtree(room)


main(sys.argv[1:])

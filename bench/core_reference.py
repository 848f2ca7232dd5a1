#!/usr/bin/env python3
"""core_reference.py
core_reference.py --schedule SEED N

Reads a script of `core_runs` from standard input, and prints what `core_runs` has to print. The machine behind it is written from
its definitions, and shares nothing with the program; what the commands of a script are and print stands at the script's head.

With --schedule it prints such a script itself, with about N events drawn by SEED, of which most are allowed.
"""
import sys

# No folder of compiled modules is left beside them.
sys.dont_write_bytecode = True

from core_reference.script import follow


def main(arguments):
    if arguments[:1] == ["--schedule"] and len(arguments) == 3:
        from core_reference.schedule import schedule

        schedule(int(arguments[1]), int(arguments[2]))
    elif not arguments:
        follow(sys.stdin.read())
    else:
        sys.exit(__doc__)


if __name__ == "__main__":
    main(sys.argv[1:])

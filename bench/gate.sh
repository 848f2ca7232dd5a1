#!/usr/bin/env bash
# Measures one gate from nothing (`rt ci`, with `--anew` where the kit's keeps what passed) from the system's table of
# processes: processor seconds of each crate's proof, of its tests, of what builds and runs its program, and of its edits;
# which edits are slow, and the longest chain of crates. An example of the kit is proved and built right before, alone, as a yardstick of the machine.
#
#     bench/gate.sh              the whole gate, at the top; writes the tables of docs/GATE.md
#     bench/gate.sh CRATE..      these crates and those below them, on a copy; prints the tables alone. Some kits can't
set -euo pipefail
cd "$(dirname "$0")/.."
exec python3 - "$@" <<'PROGRAM'
import os, re, subprocess, sys, time

TICK = os.sysconf("SC_CLK_TCK")
LOOK = 0.5
# The processor seconds from which an edit is named, and a crate has a row of its own.
SLOW_EDIT, OWN_ROW = 20, 30
HEAD = "<!-- made by bench/gate.sh -->"
ROOMS = {}


def stat_of(pid):
    """The parent, the start and the processor seconds of a process."""
    with open(f"/proc/{pid}/stat") as it:
        words = it.read().rpartition(")")[2].split()
    return int(words[1]), int(words[19]), (int(words[11]) + int(words[12])) / TICK


def words_of(pid):
    with open(f"/proc/{pid}/cmdline", "rb") as it:
        return it.read().decode(errors="replace").split("\0")


def edit_of(crate, room, over):
    """The work of a check of an edited copy: by the folder of its kept work, else by the order in which copies are made. Where
    no check of the whole crate comes first, the first edit pays for it, and one comes last."""
    number = os.path.basename(over)
    if number == "seed" or number.isdigit():
        return (crate, "seed", None) if number == "seed" else (crate, "edits", int(number))
    rooms = ROOMS.setdefault(crate, [])
    if room not in rooms:
        rooms.append(room)
    at = rooms.index(room)
    return (crate, "edits", at) if at < len(edits_of(crate)) else (crate, "seed", None)


def work_of(pid):
    """What a process works at, as (crate, kind, edit); None where its parent says it."""
    words = words_of(pid)
    ran = re.search(r"/rt-run-[^/]*/bin/(\w+?)(_tests)?$", words[0] if words else "")
    if ran:
        return ran[1], "tests" if ran[2] else "program", None
    if "--crate-name" in words:
        crate = words[words.index("--crate-name") + 1]
        room = os.readlink(f"/proc/{pid}/cwd")
        if "/rt-edit-" in room:
            return edit_of(crate, room, words[words.index("--incremental") + 1] if "--incremental" in words else "")
        if "--test" in words:
            return crate, "tests", None
        return crate, "program" if "--crate-checked" in words else "proof", None
    linked = re.search(r"\bout/(\w+?)(_tests)?(\.\w+)?$", words[words.index("-o") + 1]) if "-o" in words else None
    return (linked[1], "tests" if linked[2] else "program", None) if linked else None


class Looks:
    """What was seen of the processes below one."""

    def __init__(self, root):
        self.root, self.seen, self.work, self.spans = root, {}, {root: None}, {}

    def look(self):
        now, stats = time.time(), {}
        for name in os.listdir("/proc"):
            if name.isdigit():
                try:
                    stats[int(name)] = stat_of(name)
                except (OSError, ValueError, IndexError):
                    pass
        for pid in sorted(stats, key=lambda it: stats[it][1]):
            parent, start, used = stats[pid]
            if pid == self.root or (parent in stats and (parent, stats[parent][1]) in self.work) or (pid, start) in self.work:
                self.note((pid, start), (parent, stats.get(parent, (0, 0))[1]), used, now)

    def note(self, who, parent, used, now):
        if not self.work.get(who):
            try:
                self.work[who] = work_of(who[0]) or self.work.get(parent)
            except (OSError, ValueError, IndexError):
                self.work.setdefault(who, self.work.get(parent))
        self.seen[who] = used
        work = self.work[who]
        if work:
            first, _ = self.spans.get(work, (now, now))
            self.spans[work] = first, now

    def seconds(self):
        sums = {}
        for who, used in self.seen.items():
            sums[self.work[who]] = sums.get(self.work[who], 0) + used
        return sums


def crates_of():
    """The crates of the repository that each crate stands on."""
    below = {}
    with open("crates.txt") as it:
        for line in it:
            name, colon, rest = line.partition("#")[0].partition(":")
            if colon:
                below[name.split()[0]] = rest.split()
    return {name: [it for it in rest if it in below] for name, rest in below.items()}


def lines_of(crate):
    files = [f"{at}/{name}" for part in ("src", "specs", "proofs") for at, _, names in os.walk(f"crates/{crate}/{part}") for name in names]
    return sum(open(it, "rb").read().count(b"\n") for it in files)


def edits_of(crate):
    folder = f"crates/{crate}/must-fail"
    return sorted(it[:-5] for it in os.listdir(folder) if it.endswith(".edit")) if os.path.isdir(folder) else []


def longest_chain(below, spans):
    """The crates, each standing on the one before, whose proofs took longest one after another."""
    best = {}
    for name in [it for it in below if (it, "proof", None) in spans]:
        first, last = spans[name, "proof", None]
        over = max((best[it] for it in below[name] if it in best), default=(0, []))
        best[name] = over[0] + last - first, over[1] + [name]
    return max(best.values(), default=(0, []))


def yardstick():
    """The processor seconds of one proof and build of the kit's own example, by which tables of two machines compare."""
    before = os.times()
    subprocess.run(["rt", "selftest"], stdin=subprocess.DEVNULL, stdout=subprocess.DEVNULL, stderr=subprocess.DEVNULL, check=True)
    after = os.times()
    return after.children_user + after.children_system - before.children_user - before.children_system


def row_of(name, lines, by):
    """A row of the table: what is below half a second stays empty; tests and programs count in the sum alone."""
    cells = [f"{by[kind]:.0f}" if by[kind] >= 0.5 else "" for kind in ("proof", "seed", "edits")]
    return f"| {name} | {lines} | " + " | ".join(cells) + f" | {sum(by.values()):.0f} |"


def tables(below, looks, wall, whole, measure):
    sums, kinds = looks.seconds(), ("proof", "tests", "program", "seed", "edits")
    rows, slow, ran, total, others = [], [], [], dict.fromkeys(kinds, 0), {}
    for crate in below:
        by = {kind: sum(used for work, used in sums.items() if work and work[:2] == (crate, kind)) for kind in kinds}
        if not any(by.values()):
            continue
        total = {kind: total[kind] + by[kind] for kind in kinds}
        if sum(by.values()) < OWN_ROW:
            others[crate] = by
        else:
            rows.append(row_of(f"`{crate}`", lines_of(crate), by))
        tried = [(name, sums.get((crate, "edits", at), 0)) for at, name in enumerate(edits_of(crate))]
        slow += [f"`{crate}/{name}` {used:.0f}" for name, used in tried if used >= SLOW_EDIT]
        ran += [f"`{crate}` {by[kind]:.0f}" for kind in ("tests", "program") if by[kind] >= 0.5]
    lines = sum(lines_of(crate) for crate in below if (crate, "proof", None) in looks.spans)
    rest = {kind: sum(it[kind] for it in others.values()) for kind in kinds}
    rows += [row_of(f"{len(others)} others", sum(map(lines_of, others)), rest), row_of("all", lines, total)]
    chain = longest_chain(below, looks.spans)
    return "\n".join([
        f"{whole / 60:.0f} processor minutes, {whole / 60 / (lines / 1000):.2f} a thousand lines, in {wall / 60:.0f} minutes on "
        f"{os.cpu_count()} hardware threads. {whole - sum(total.values()):.0f} processor seconds are those of `rt` itself and of what ended between two looks.",
        f"`rt selftest`, an example of the kit, took {measure:.0f} processor seconds right before: tables of two machines compare by it.",
        "",
        f"Crates that took under {OWN_ROW} seconds are in one row.",
        "",
        "| Crate | Lines | Proof | Seed | Edits | All |",
        "| --- | --- | --- | --- | --- | --- |",
        *rows,
        "",
        f"Tests and programs, compiled and run: {', '.join(ran) or 'none'}.",
        "",
        f"Edits of {SLOW_EDIT} seconds and more: {', '.join(slow) or 'none'}.",
        "",
        f"The longest chain took {chain[0] / 60:.0f} minutes: {', '.join(f'`{it}`' for it in chain[1])}.",
    ])


def main(names):
    below = crates_of()
    told = subprocess.run(["rt", "help"], stdin=subprocess.DEVNULL, stdout=subprocess.PIPE, stderr=subprocess.STDOUT, text=True)
    keeps = "--anew" in told.stdout
    if names and not keeps:
        sys.exit("gate.sh: this kit's rt ci takes no names")
    measure, begun = yardstick(), time.time()
    ci = subprocess.Popen(["rt", "ci", *["--anew"] * keeps, *names], stdin=subprocess.DEVNULL)
    looks = Looks(ci.pid)
    looks.work = {(ci.pid, stat_of(ci.pid)[1]): None}
    while True:
        pid, status, used = os.wait4(ci.pid, os.WNOHANG)
        if pid:
            break
        looks.look()
        time.sleep(LOOK)
    made = tables(below, looks, time.time() - begun, used.ru_utime + used.ru_stime, measure)
    print(made)
    if not names and not status:
        with open("docs/GATE.md") as it:
            front, _, rest = it.read().partition(HEAD)
        with open("docs/GATE.md", "w") as it:
            it.write(f"{front}{HEAD}\n\n{made}\n\n{HEAD}{rest.partition(HEAD)[2]}")
    return os.waitstatus_to_exitcode(status)


sys.exit(main(sys.argv[1:]))
PROGRAM

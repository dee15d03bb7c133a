#!/usr/bin/env python3
"""Runs `rt ci`, passes on what it says, and prints what it cost: the block of docs/GATE.md between the lines `<!-- times -->` and
`<!-- /times -->`, and below it, longest first, the seconds of each edit.

usage: bench/gate.py [--write] [WORD..]      --write puts the block of a run that passed into docs/GATE.md;
                                             the words go to `rt ci`: names of crates, or --anew

What the kit keeps of earlier runs costs nothing and is told as kept, so a whole figure is that of a new machine, or of --anew. The
same work takes more processor time where other work shares the machine, or its host: so run it where nothing else is at work."""

import collections
import os
import re
import resource
import subprocess
import sys
import textwrap
import threading
import time

TOP = os.path.normpath(f"{os.path.dirname(os.path.abspath(__file__))}/..")
TICKS = os.sysconf("SC_CLK_TCK")
BEGIN, END = "<!-- times -->", "<!-- /times -->"
HEADS = ["Crate", "Proof, minutes", "Edits", "Edits, minutes", "Lines", "Minutes for each 1,000 lines"]

# A check of a crate, of its tests, or of an edit: the edit's place among those of its crate, or what else is checked for them.
Work = collections.namedtuple("Work", "crate kind edit")


def processes():
    """Yields each process of the machine: its number, its parent's, its name, when it began and its processor seconds, with those of
    its children that have ended."""
    for pid in filter(str.isdigit, os.listdir("/proc")):
        try:
            with open(f"/proc/{pid}/stat", encoding="utf-8", errors="replace") as file:
                head, _, rest = file.read().rpartition(")")
        except OSError:
            continue
        fields = rest.split()
        yield int(pid), int(fields[1]), head.partition("(")[2], fields[19], sum(map(int, fields[11:15])) / TICKS


def work_of(pid):
    """Returns what a check is of. One of an edit runs in a copy of the crate, and begins with a copy of what the crate's own check
    for its edits left, in a folder with the edit's number."""
    with open(f"/proc/{pid}/cmdline", encoding="utf-8", errors="replace") as file:
        words = file.read().split("\0")
    after = dict(zip(words, words[1:]))
    crate = after.get("--crate-name", "")
    if "rt-edit-" not in os.readlink(f"/proc/{pid}/cwd"):
        return Work(crate, "tests" if "--test" in words else "proof", "")
    return Work(crate, "edits", os.path.basename(after.get("--incremental", "from nothing")))


def memory_of(pid):
    """Returns the bytes of a process, its share of what it has together with others."""
    try:
        with open(f"/proc/{pid}/smaps_rollup", encoding="utf-8") as file:
            return next((int(line.split()[1]) * 1024 for line in file if line.startswith("Pss:")), 0)
    except OSError:
        return 0


class Sampler:
    """What the checks below a process took, and the most memory that all below it had together."""

    def __init__(self, root):
        self.root, self.works, self.seconds, self.memory = root, {}, collections.Counter(), 0

    def look(self, with_memory):
        alive = {pid: it for pid, *it in processes()}

        def line_of(pid):
            """The process and those above it, up to the root; nothing where it isn't below the root."""
            line = [pid]
            while line[-1] in alive and line[-1] != self.root:
                line.append(alive[line[-1]][0])
            return line if line[-1] == self.root else []

        spent, below = collections.Counter(), []
        for pid in alive:
            line = line_of(pid)
            below += line[:1]
            # (a check may fork copies of itself, which count with it)
            checks = [it for it in line if alive[it][1] == "rattle"]
            if checks:
                spent[checks[-1], alive[checks[-1]][2]] += alive[pid][3]
        for check, seconds in spent.items():
            try:
                self.works[check] = self.works.get(check) or work_of(check[0])
            except OSError:
                continue
            self.seconds[check] = max(self.seconds[check], seconds)
        if with_memory:
            self.memory = max(self.memory, sum(map(memory_of, below)))

    def minutes(self):
        """Returns the minutes of each crate and kind of work."""
        minutes = collections.Counter()
        for check, work in self.works.items():
            minutes[work.crate, work.kind] += self.seconds[check] / 60
        return minutes

    def edits(self):
        """Returns the seconds of each check of an edit, with its crate and what it is of, the longest first."""
        checks = [(self.seconds[check], work) for check, work in self.works.items() if work.kind == "edits"]
        return sorted(checks, key=lambda it: -it[0])


class Told:
    """What `rt ci` says: the crates that it looked at, what of them an earlier run did, and its last line."""

    def __init__(self):
        self.crates, self.kept, self.kept_edits, self.last = set(), set(), collections.Counter(), ""

    def take(self, line):
        if found := re.match(r"rt: (\w+)(?:: its tests are)? (proved|NOT PROVED|is kept: )", line):
            self.crates.add(found[1])
            if found[2] == "is kept: ":
                self.kept.add(found[1])
        elif found := re.match(r"rt: (\w+): (\d+) of its \d+ must-fail edits were tried by an earlier run", line):
            self.kept_edits[found[1]] = int(found[2])
        elif re.match(r"\d+ passed, \d+ failed", line):
            self.last = line.strip()


def crates():
    """Returns the names of the crates, from below to above."""
    with open(f"{TOP}/crates.txt", encoding="utf-8") as file:
        return re.findall(r"^(\w+):", file.read(), re.M)


def below():
    """Returns the crates that each crate names in crates.txt."""
    with open(f"{TOP}/crates.txt", encoding="utf-8") as file:
        lines = [line.partition("#")[0].partition(":") for line in file if re.match(r"\w+:", line)]
    return {crate: set(rest.split()) & {it for it, _, _ in lines} for crate, _, rest in lines}


def longest_chain(minutes):
    """Returns the minutes of the crates that wait for one another longest, each for the proofs of those below it, and their names;
    with the last one's tests, and its edits behind both."""
    stands_on, chains = below(), {}

    def chain_of(crate):
        if crate not in chains:
            before = max((chain_of(it) for it in stands_on[crate]), default=(0.0, []))
            chains[crate] = (before[0] + minutes[crate, "proof"], [*before[1], crate])
        return chains[crate]

    return max((chain_of(it)[0] + minutes[it, "tests"] + minutes[it, "edits"], chain_of(it)[1]) for it in stands_on)


def edits_of(crate):
    """Returns the names of the edits that the gate tries, in their order."""
    folder = f"{TOP}/crates/{crate}/must-fail"
    return sorted(it for it in os.listdir(folder) if it.endswith(".edit")) if os.path.isdir(folder) else []


def lines_of(crate):
    """Returns how many lines of .rt and .antt the crate has."""
    count = 0
    for at, folders, files in os.walk(f"{TOP}/crates/{crate}"):
        folders[:] = [it for it in folders if it != "out"]
        for name in files:
            if name.endswith((".rt", ".antt")):
                with open(f"{at}/{name}", "rb") as file:
                    count += file.read().count(b"\n")
    return count


def cell(minutes, count, kept):
    """Returns a cell of the table: the minutes of so many proofs or edits, of which so many were kept."""
    if not count:
        return "–"
    told = f"{minutes:.1f}"
    return "kept" if kept == count and told == "0.0" else told + f", {kept:,} kept" * (kept > 0)


def row(label, crates, proof, edits, spent, lines, kept=0, kept_edits=0):
    """Returns a row of the table: of so many crates the minutes of proofs, the number of edits, their minutes, and the lines."""
    each = "–" if kept or kept_edits or not lines else f"{1000 * (proof + spent) / lines:.1f}"
    return f"| {label} | {cell(proof, crates, kept)} | {edits or '–'} | {cell(spent, edits, kept_edits)} | {lines:,} | {each} |"


def table(told, minutes):
    """Returns the table, a row a crate in the order of crates.txt, and all in all."""
    rows, sums = [], collections.Counter()
    for crate in crates():
        if crate not in told.crates and not minutes[crate, "proof"]:
            continue
        proof, spent = minutes[crate, "proof"] + minutes[crate, "tests"], minutes[crate, "edits"]
        its = [1, proof, len(edits_of(crate)), spent, lines_of(crate), int(crate in told.kept), told.kept_edits[crate]]
        rows.append(row(f"`{crate}`", *its))
        sums.update(dict(enumerate(its)))
    return [f"| {' | '.join(HEADS)} |", "|---|--:|--:|--:|--:|--:|", *rows, row("all", *(sums[at] for at in range(7)))]


def processor():
    """Returns the model of the processors."""
    with open("/proc/cpuinfo", encoding="utf-8") as file:
        return next((line.partition(":")[2].strip() for line in file if line.startswith("model name")), "of no name")


def heading(told, minutes, run):
    """Returns what is told of the run as a whole. `run` has what was measured around it."""
    of = lambda kind: sum(it for (_, its), it in minutes.items() if its == kind)
    chain, names = longest_chain(minutes)
    line = (
        f"{run['date']}, commit {run['commit']}, {run['processors']}, load {run['load']:.1f} before it: "
        f"{told.last or 'broken off'}, in {run['seconds']:,.0f} seconds of wall clock. "
        f"Processor minutes: {of('proof'):.1f} for proofs, {of('edits'):.1f} for edits, {of('tests'):.1f} for tests, "
        f"{run['minutes']:.1f} in all, with what builds and runs the programs. "
        f"Memory: at most {run['memory'] / 1e9:.1f} GB together and {run['largest'] / 1e9:.1f} GB by one process. "
        f"The longest chain: {chain:.1f} processor minutes, of {', '.join(f'`{it}`' for it in names)} with its tests and edits."
    )
    edits = sum(told.kept_edits.values())
    kept = f"Kept from earlier runs: {len(told.kept)} crates and {edits} edits, so a first run takes more."
    return [*wrapped(line), "", *wrapped(kept), ""] if told.kept or edits else [*wrapped(line), ""]


def wrapped(line):
    """Returns a paragraph as lines of at most 120 characters."""
    return textwrap.wrap(line, 120, break_on_hyphens=False, break_long_words=False)


def block(told, minutes, run):
    """Returns the block of the page."""
    return "\n".join([BEGIN, "", *heading(told, minutes, run), *table(told, minutes), "", END])


def write(text):
    """Puts the block in the place of the page's own."""
    page = f"{TOP}/docs/GATE.md"
    with open(page, encoding="utf-8") as file:
        before, _, rest = file.read().partition(BEGIN)
    _, found, after = rest.partition(END)
    if not found:
        sys.exit(f"gate: {page} has no lines {BEGIN} and {END}")
    with open(page, "w", encoding="utf-8") as file:
        file.write(before + text + after)


def name_of(work):
    """Returns the name of what a check of an edit is of."""
    names = edits_of(work.crate)
    if len(names) == 1:
        return names[0]
    if work.edit.isdigit() and int(work.edit) < len(names):
        return names[int(work.edit)]
    return "the crate itself, for its edits" if work.edit == "seed" else work.edit


def main():
    words = sys.argv[1:]
    writes = "--write" in words
    words = [it for it in words if it != "--write"]
    describe = ["git", "-C", TOP, "describe", "--always", "--dirty", "--exclude", "*"]
    commit = subprocess.run(describe, stdout=subprocess.PIPE, stderr=subprocess.DEVNULL, text=True)
    run = {
        "date": time.strftime("%Y-%m-%d", time.gmtime()),
        "commit": commit.stdout.strip() or "unknown",
        "processors": f"{len(os.sched_getaffinity(0))} processors ({processor()})",
        "load": os.getloadavg()[0],
    }
    began, told = time.time(), Told()
    child = subprocess.Popen(["rt", "ci", *words], cwd=TOP, stdout=subprocess.PIPE, text=True, errors="replace")

    def pass_on():
        for line in child.stdout:
            print(line, end="", flush=True)
            told.take(line)

    reader, sampler, count = threading.Thread(target=pass_on), Sampler(child.pid), 0
    reader.start()
    while child.poll() is None:
        # (memory takes longer to look at)
        sampler.look(count % 4 == 0)
        count += 1
        time.sleep(0.5)
    reader.join()
    used = resource.getrusage(resource.RUSAGE_CHILDREN)
    run.update(seconds=time.time() - began, minutes=(used.ru_utime + used.ru_stime) / 60)
    run.update(memory=sampler.memory, largest=used.ru_maxrss * 1024)
    text = block(told, sampler.minutes(), run)
    print(f"\n{text}\n\nSeconds of the checks of edits, the longest first:")
    for seconds, work in sampler.edits():
        print(f"{seconds:6.0f}  {work.crate}  {name_of(work)}")
    if writes and child.returncode == 0 and not [it for it in words if it != "--anew"]:
        write(text)
    return child.returncode


if __name__ == "__main__":
    sys.exit(main())

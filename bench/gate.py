#!/usr/bin/env python3
"""gate.py LOG: runs the gate (.ci/run) at the top of the repository, writes what it prints to LOG, and prints the table of docs/PERFORMANCE.md: the
processor time, user and system, of each crate's proof, tests and edits that must fail, as the kernel counts it.

The processes below the gate are looked at every 0.4 seconds; what each had used when it was last seen is what counts. What was too short to be seen is
in the sum alone. Nothing else should run beside it."""
import os, re, subprocess, sys, time
from collections import defaultdict

TICKS = os.sysconf("SC_CLK_TCK")
KINDS = "proof", "tests", "edits"


class Process:
    """A process as it is seen: its parent, its command, its folder, and the seconds of processor time that it has used itself."""

    def __init__(self, pid):
        with open(f"/proc/{pid}/stat") as it:
            fields = it.read().rsplit(")", 1)[1].split()
        with open(f"/proc/{pid}/cmdline") as it:
            self.words = it.read().split("\0")
        self.parent, self.began = int(fields[1]), fields[19]
        self.seconds = (int(fields[11]) + int(fields[12])) / TICKS
        self.folder = os.readlink(f"/proc/{pid}/cwd")

    def work(self):
        """What it works on: a crate, and its proof, its tests or its edits; None if it doesn't say."""
        if "--crate-name" not in self.words:
            return None
        is_edit = any("/rt-edit" in it for it in [self.folder, *self.words])
        kind = "edits" if is_edit else "tests" if "--test" in self.words else "proof"
        return self.words[self.words.index("--crate-name") + 1], kind


def processes():
    seen = {}
    for name in os.listdir("/proc"):
        if name.isdigit():
            try:
                seen[int(name)] = Process(name)
            except (OSError, IndexError):
                pass
    return seen


def line_above(pid, seen):
    """The process and those above it."""
    while pid in seen:
        yield seen[pid]
        pid = seen[pid].parent


def look(gate, used):
    """Notes what each process below the gate has used, under what it, or else the next one above it that says so, works on."""
    seen = processes()
    for pid, process in seen.items():
        above = list(line_above(pid, seen))
        if any(it is seen.get(gate) for it in above):
            work = next((it.work() for it in above if it.work()), ("rt", "proof"))
            used[pid, process.began] = *work, process.seconds


def sums(used):
    """The seconds by crate and kind."""
    table = defaultdict(lambda: dict.fromkeys(KINDS, 0.0))
    for crate, kind, seconds in used.values():
        table[crate][kind] += seconds
    return table


def shown(seconds):
    return f"{seconds / 60:.1f} min" if seconds >= 90 else f"{seconds:.0f} s"


def row(crate, times):
    folder = f"crates/{crate}/must-fail"
    edits = len([it for it in os.listdir(folder) if it.endswith(".edit")]) if os.path.isdir(folder) else 0
    tests = shown(times["tests"]) if times["tests"] else ""
    return f"| `{crate}` | {shown(times['proof'])} | {tests} | {f'{edits}: ' + shown(times['edits']) if edits else ''} |"


def main():
    began, used = time.time(), {}
    with open(sys.argv[1], "w") as log:
        gate = subprocess.Popen(["bash", ".ci/run"], stdout=log, stderr=subprocess.STDOUT)
        while gate.poll() is None:
            look(gate.pid, used)
            time.sleep(0.4)
    table, below = sums(used), os.times()
    crates = [it for it in re.findall(r"^(\w+)[^:#\n]*:", open("crates.txt").read(), re.M) if it in table]
    print("| Crate | Proof | Its tests | Edits that must fail |\n|---|---|---|---|")
    print("\n".join(row(it, table[it]) for it in crates))
    whole = {kind: sum(table[it][kind] for it in crates) for kind in KINDS}
    print("| **sum** | " + " | ".join(shown(whole[kind]) for kind in KINDS) + " |")
    print(f"all that ran: {(below.children_user + below.children_system) / 60:.0f} processor minutes, in {(time.time() - began) / 60:.0f} minutes; status {gate.returncode}")


main()

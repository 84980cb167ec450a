#!/usr/bin/env python3
"""Runs the gate and prints what it cost: processor minutes and peak memory by crate, for proofs, tests and edits.

    scripts/gate_times.py                    runs rt ci in this checkout
    scripts/gate_times.py -- rt ci --anew    runs another command
    scripts/gate_times.py --log FILE         prints the table of an earlier run, which left its samples in FILE

While the command runs, each prover below it is sampled twice a second, and what it used last counts: a prover's last
half second isn't seen. Its samples go to gate_times.log in the folder for temporary files, or where --log-to says.
What was kept from an earlier run costs nothing, so a whole figure needs --anew, or a machine that has nothing.

On a machine that has nothing, prove libraries first: nothing waits for tests and edits, and the longest chain of
crates decides when the gate ends. With --libraries-first provers of tests and of edits run only where no proof of a
crate wants the processor, until all that is left are these.
"""
import argparse
import collections
import os
import re
import subprocess
import sys
import tempfile
import time

TICKS = os.sysconf("SC_CLK_TCK")
EVERY = 0.5
KINDS = ("proof", "tests", "edits")

# A prover: when its process began, the crate, what it is for, its processor seconds, and its peak memory in MB.
Prover = collections.namedtuple("Prover", "began crate kind seconds peak")


def text_of(path):
    try:
        with open(path, "rb") as it:
            return it.read().decode(errors="replace")
    except OSError:
        return ""


def parents():
    """Returns the parent of each process, with its fields of /proc/PID/stat behind the name."""
    found = {}
    for name in os.listdir("/proc"):
        if name.isdigit():
            fields = text_of(f"/proc/{name}/stat").rpartition(")")[2].split()
            if len(fields) > 20:
                found[int(name)] = fields
    return found


def is_below(pid, top, processes):
    while pid in processes:
        if pid == top:
            return True
        pid = int(processes[pid][1])
    return False


def kind_of(words, folder):
    if "--test" in words:
        return "tests"
    return "edits" if words[1:2] == ["check"] and "rt-edit" in folder else "proof"


def provers(top):
    """Returns the provers that run now below a process, by their number."""
    processes, found = parents(), {}
    for pid, fields in processes.items():
        words = text_of(f"/proc/{pid}/cmdline").split("\0")
        if os.path.basename(words[0]) != "rattle" or "--crate-name" not in words or not is_below(pid, top, processes):
            continue
        try:
            folder = os.readlink(f"/proc/{pid}/cwd")
        except OSError:
            continue
        peak = re.search(r"VmHWM:\s+(\d+)", text_of(f"/proc/{pid}/status"))
        crate = words[words.index("--crate-name") + 1]
        seconds = (int(fields[11]) + int(fields[12])) / TICKS
        found[pid] = Prover(int(fields[19]), crate, kind_of(words, folder), seconds, int(peak[1]) // 1024 if peak else 0)
    return found


def put_last(running):
    """Puts tests and edits on the idle class while a proof of a crate runs, and back on the usual one where none does."""
    is_proving = any(it.kind == "proof" for it in running.values())
    for pid, it in running.items():
        if it.kind != "proof":
            for thread in os.listdir(f"/proc/{pid}/task") if os.path.isdir(f"/proc/{pid}/task") else []:
                try:
                    os.sched_setscheduler(int(thread), os.SCHED_IDLE if is_proving else os.SCHED_OTHER, os.sched_param(0))
                except OSError:
                    pass


def run(command, log, libraries_first):
    """Runs the command, samples its provers, writes what each used last to the log, and returns its status."""
    last, began = {}, time.monotonic()
    ran = subprocess.Popen(command)
    while ran.poll() is None:
        running = provers(ran.pid)
        for pid, it in running.items():
            last[pid, it.began] = it
        if libraries_first:
            put_last(running)
        time.sleep(EVERY)
    with open(log, "w", encoding="utf-8") as to:
        print(f"minutes {(time.monotonic() - began) / 60:.1f}", file=to)
        for it in last.values():
            print(f"{it.crate} {it.kind} {it.seconds:.1f} {it.peak}", file=to)
    return ran.returncode


def table(log):
    with open(log, encoding="utf-8") as it:
        first, *lines = it.read().splitlines()
    used, longest, peaks = collections.Counter(), collections.Counter(), collections.Counter()
    for line in lines:
        crate, kind, seconds, peak = line.split()
        used[crate, kind] += float(seconds)
        longest[crate] = max(longest[crate], float(seconds))
        peaks[crate] = max(peaks[crate], int(peak))
    print(f"{'crate':24}{'proof':>8}{'tests':>8}{'edits':>8}{'longest':>9}{'MB':>7}   (processor minutes)")
    for crate in sorted(longest, key=lambda it: -sum(used[it, kind] for kind in KINDS)):
        figures = "".join(f"{used[crate, kind] / 60:8.1f}" for kind in KINDS)
        print(f"{crate:24}{figures}{longest[crate] / 60:9.1f}{peaks[crate]:7}")
    sums = [sum(used[crate, kind] for crate in longest) / 60 for kind in KINDS]
    print(f"{'all':24}" + "".join(f"{it:8.1f}" for it in sums) + f"{max(longest.values(), default=0) / 60:9.1f}")
    print(f"{sum(sums):.0f} processor minutes, {first.split()[1]} minutes of wall time")


def main():
    words = argparse.ArgumentParser(description=__doc__, formatter_class=argparse.RawDescriptionHelpFormatter)
    words.add_argument("--log", help="print the table of this run, and run nothing")
    words.add_argument("--log-to", default=f"{tempfile.gettempdir()}/gate_times.log")
    words.add_argument("--libraries-first", action="store_true")
    words.add_argument("command", nargs="*", default=["rt", "ci"])
    given = words.parse_args()
    if given.log:
        table(given.log)
        return 0
    os.chdir(os.path.dirname(os.path.dirname(os.path.realpath(__file__))))
    status = run(given.command, given.log_to, given.libraries_first)
    table(given.log_to)
    return status


if __name__ == "__main__":
    sys.exit(main())

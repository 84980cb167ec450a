#!/usr/bin/env python3
"""Proves and builds the program, and puts it at crates/castor/out/castor.

    scripts/build.py

It goes the way of the gate: on all processors, and what an earlier gate or build on this machine proved is taken and not
proved again. What it proves is kept for both. Unlike the gate it proves only the program and the crates below it, and
tries no must-fail edits. Each crate has a line when it is done. The program is put at its path only where all of it is
proved and its stored run, as two compilers build it, printed what it must.

It works on a copy of the crates, below out/ in this checkout, so the checkout's own files stay as they are. All that the
toolchain says goes to out/build.log.
"""
import os
import re
import shutil
import subprocess
import sys
import tempfile
import time

ROOT = os.path.dirname(os.path.dirname(os.path.realpath(__file__)))
PROGRAM = "castor"
BUILT = f"{ROOT}/crates/{PROGRAM}/out/{PROGRAM}"
DONE = re.compile(r"rt: (\w+)(: its tests are)? (proved|is kept|NOT PROVED)\b")


def crates_below(name):
    """Returns the lines of crates.txt of a crate and of those below it, by name."""
    with open(f"{ROOT}/crates.txt", encoding="utf-8") as it:
        lines = {line.split(":")[0]: line for line in it if ":" in line and not line.startswith("#")}
    found, waiting = {}, [name]
    while waiting:
        crate = waiting.pop()
        if crate in lines and crate not in found:
            found[crate] = lines[crate]
            waiting += lines[crate].split(":")[1].split()
    return found


def copy_to(room, crates):
    """Copies the crates to a repository of their own, without must-fail edits and what earlier builds left."""
    for name in crates:
        leave_out = shutil.ignore_patterns("out", "must-fail")
        shutil.copytree(f"{ROOT}/crates/{name}", f"{room}/crates/{name}", symlinks=True, ignore=leave_out)
    with open(f"{room}/crates.txt", "w", encoding="utf-8") as it:
        it.writelines(crates.values())
    shutil.copyfile(f"{ROOT}/HANDLES", f"{room}/HANDLES")
    os.mkdir(f"{room}/.git")


def prove(room, crates, log):
    """Runs the gate over a copy, prints a line for each crate that is done, and returns its status."""
    began, done = time.monotonic(), set()
    with subprocess.Popen(["rt", "ci"], cwd=room, stdout=subprocess.PIPE, stderr=subprocess.STDOUT, text=True) as ran:
        for line in ran.stdout:
            log.write(line)
            log.flush()
            found = DONE.match(line)
            if found and not found[2] and found[1] not in done:
                done.add(found[1])
                minutes, seconds = divmod(int(time.monotonic() - began), 60)
                print(f"{minutes:3}:{seconds:02}  {len(done):2} of {len(crates)}: {found[1]} {found[3]}", flush=True)
    return ran.returncode


def main():
    if shutil.which("rt") is None:
        sys.exit("build.py: no rt on the PATH: the program is proved and built by the Rattle kit")
    crates = crates_below(PROGRAM)
    os.makedirs(f"{ROOT}/out", exist_ok=True)
    said = f"{ROOT}/out/build.log"
    print(f"build.py: proving {len(crates)} crates; where nothing is kept this takes up to an hour or two on four processors")
    with tempfile.TemporaryDirectory(prefix="build-", dir=f"{ROOT}/out") as room, open(said, "w", encoding="utf-8") as log:
        copy_to(room, crates)
        made = f"{room}/crates/{PROGRAM}/out/{PROGRAM}"
        if prove(room, crates, log) or not os.path.isfile(made):
            sys.exit(f"build.py: not proved, so no program was put in place; {os.path.relpath(said)} says why")
        os.makedirs(os.path.dirname(BUILT), exist_ok=True)
        # A run of the program that is replaced goes on, and nobody meets half of the new one.
        shutil.copy2(made, f"{BUILT}.new")
        os.replace(f"{BUILT}.new", BUILT)
    print(f"build.py: the proved program is {os.path.relpath(BUILT)}")


if __name__ == "__main__":
    main()

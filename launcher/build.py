#!/usr/bin/env python3
"""build.py: proves the libraries that the program stands on, side by side on all processors, and the program, and builds
it. Tests and wrong bodies have no part in it.

The toolchain's gate does so on a copy of the sources outside the repository that has these crates alone. It keeps each
crate that it proved, so that a run that was interrupted goes on from there, and the repository's own gate takes them too.
"""
import importlib.machinery
import importlib.util
import os
import re
import shutil
import signal
import subprocess
import sys
import tempfile
from concurrent.futures import FIRST_COMPLETED, ThreadPoolExecutor, wait

TOP = os.path.dirname(os.path.dirname(os.path.abspath(__file__)))
PROGRAM = "hypercore_cli"
PARTS = ("src", "specs", "proofs")
PROCESSORS = len(os.sched_getaffinity(0))


def say(text):
    print(f"hypercore: {text}", file=sys.stderr, flush=True)


def crates_of_program():
    """Returns the lines of crates.txt of the program and of the repository's crates that it stands on."""
    lines = {}
    with open(f"{TOP}/crates.txt", encoding="utf-8") as file:
        for line in file:
            head, colon, _ = line.partition("#")[0].partition(":")
            if colon:
                lines[head.split()[0]] = line.strip()
    below = lines[PROGRAM].partition(":")[2].split()
    return {name: lines[name] for name in [*below, PROGRAM] if name in lines}


def copy_sources(room, crates):
    """Puts these crates into a folder, with no wrong bodies and nothing that was built."""
    os.mkdir(f"{room}/crates")
    with open(f"{room}/crates.txt", "w", encoding="utf-8") as file:
        file.writelines(f"{line}\n" for line in crates.values())
    shutil.copyfile(f"{TOP}/HANDLES", f"{room}/HANDLES")
    for name in crates:
        source, copy = f"{TOP}/crates/{name}", f"{room}/crates/{name}"
        os.mkdir(copy)
        for part in PARTS:
            if os.path.isdir(f"{source}/{part}"):
                shutil.copytree(f"{source}/{part}", f"{copy}/{part}")
        for stream in ("args", "stdin", "stdout"):
            if os.path.isfile(f"{source}/{stream}"):
                shutil.copyfile(f"{source}/{stream}", f"{copy}/{stream}")


def prove(room, count):
    """Runs the gate in the copy, says which crates are done, and returns why it failed, or None."""
    words = {"cwd": room, "stdin": subprocess.DEVNULL, "stdout": subprocess.PIPE, "stderr": subprocess.STDOUT}
    done, last = 0, []
    with subprocess.Popen([sys.executable, os.path.abspath(__file__), "gate"], text=True, errors="replace", start_new_session=True, **words) as run:
        stop = lambda *_: os.killpg(run.pid, signal.SIGTERM)
        for it in (signal.SIGINT, signal.SIGTERM, signal.SIGHUP):
            signal.signal(it, lambda *_: (stop(), sys.exit(130)))
        for line in run.stdout:
            last = [*last[-30:], line.rstrip()]
            found = re.match(r"rt: (\w+) (proved|is kept|NOT PROVED)", line)
            if found and found[2] == "NOT PROVED":
                stop()
                return last
            if found:
                done += 1
                say(f"{done} of {count}: {found[1]} is proved{' already' if found[2] == 'is kept' else ''}")
    return last if run.returncode else None


def lanes(tasks):
    """Runs the gate's tasks side by side, those first that the longest chain of others waits for, and returns what each
    gave. A task is what it waits for, its work in lines, its memory, and a call that gets what was given and how many
    processors it may use. The toolchain plans several times the memory that the large crates here take, so that each would
    get one processor; they come one after the other at the end. Here a proof gets those that no other proof is ready for.
    """
    behind = dict.fromkeys(tasks, 0)
    for key in reversed(list(tasks)):
        behind[key] += tasks[key][1]
        for below in tasks[key][0]:
            behind[below] = max(behind[below], behind[key])
    left, running, given = sorted(tasks, key=lambda it: -behind[it]), {}, {}
    with ThreadPoolExecutor(PROCESSORS) as pool:
        while left or running:
            ready = [it for it in left if all(below in given for below in tasks[it][0])]
            others = sum(tasks[it][1] > 0 for it in ready)
            for key in ready:
                _, lines, _, call = tasks[key]
                others -= lines > 0
                idle = PROCESSORS - sum(jobs for _, jobs in running.values())
                if idle > 0:
                    left.remove(key)
                    jobs = max(1, idle - others) if lines else 1
                    running[pool.submit(call, given, jobs)] = key, jobs
            for it in wait(running, return_when=FIRST_COMPLETED).done:
                given[running.pop(it)[0]] = it.result()
    return given


def gate():
    """Is `rt ci` with tasks in this order, or as it is where the toolchain has another form."""
    loader = importlib.machinery.SourceFileLoader("rt", shutil.which("rt"))
    rt = importlib.util.module_from_spec(importlib.util.spec_from_loader("rt", loader))
    try:
        loader.exec_module(rt)
        ci, _ = rt.main, rt.in_lanes
    except (SyntaxError, AttributeError):
        os.execvp("rt", ["rt", "ci"])
    rt.in_lanes = lanes
    return ci(["ci"])


def main():
    if not shutil.which("rt"):
        say("the command rt of the Rattle toolchain is not on the path")
        return 70
    crates = crates_of_program()
    say(f"proving {len(crates)} crates and building the program, once")
    with tempfile.TemporaryDirectory(prefix="hypercore-build-") as room:
        copy_sources(room, crates)
        failed = prove(room, len(crates))
        if failed:
            say("the program could not be proved and built:")
            print("\n".join(failed), file=sys.stderr)
            return 70
        out = f"{TOP}/crates/{PROGRAM}/out"
        os.makedirs(out, exist_ok=True)
        shutil.copy(f"{room}/crates/{PROGRAM}/out/{PROGRAM}", f"{out}/{PROGRAM}.new")
        os.replace(f"{out}/{PROGRAM}.new", f"{out}/{PROGRAM}")
    return 0


if __name__ == "__main__":
    sys.exit(gate() if sys.argv[1:] == ["gate"] else main())

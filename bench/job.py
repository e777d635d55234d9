#!/usr/bin/env python3
"""Times the images of a run, and `restart` of the large job of stencil.c, beside C programs with the same calls on the disk, in turn.

Usage: bench/job.py PROGRAM [FOLDER..]     PROGRAM: the built `ckpt`. FOLDER: where stores are made, /dev/shm and /tmp where none is named.

For each folder: what 60 images of a megabyte cost above the run without one, against a C program that copies and writes such records with the same calls (images.c does next to
nothing between them: the difference of two long runs would be noise); and `restart` from 16 such images up to its first instruction, against a C program that reads the file. The
least of each, wall and processor milliseconds."""
import os
import shutil
import subprocess
import sys
import tempfile
import time

HERE = os.path.dirname(os.path.abspath(__file__))
SOURCE = os.path.join(HERE, "stencil.c")
IMAGES = os.path.join(HERE, "images.c")
COUNT = "60"
TURNS = 11
GREATEST = "4294967295"


def timed(words, statuses):
    """Wall and processor seconds of a process, and what it printed."""
    begin = time.monotonic()
    process = subprocess.Popen(words, stdout=subprocess.PIPE)
    text = process.stdout.read()
    _, status, used = os.wait4(process.pid, 0)
    if os.waitstatus_to_exitcode(status) not in statuses:
        sys.exit(f"{words}: status {status}: {text}")
    return time.monotonic() - begin, used.ru_utime + used.ru_stime, text.decode()


class Least:
    """The least wall and processor seconds of each name."""

    def __init__(self):
        self.found = {}

    def add(self, name, times):
        old = self.found.get(name, times)
        self.found[name] = tuple(min(a, b) for a, b in zip(old[:2], times[:2]))

    def of(self, name, kind):
        return self.found[name][kind]


def fresh(folder):
    shutil.rmtree(folder, ignore_errors=True)
    return folder


def newest_step(program, store):
    lines = subprocess.run([program, "images", store], check=True, capture_output=True, text=True).stdout.splitlines()
    return len(lines), lines[-1].split()[3]


def measure(program, yardstick, room, empty):
    least, store, beside = Least(), f"{room}/store", f"{room}/beside"
    for _ in range(TURNS):
        least.add("run", timed([program, "run", IMAGES, empty, fresh(store), "--every", GREATEST], {0}))
        least.add("images", timed([program, "run", IMAGES, empty, fresh(store), "--max", "64"], {0}))
        least.add("c run", timed([yardstick, "images", fresh(beside), "0"], {0}))
        least.add("c images", timed([yardstick, "images", fresh(beside), COUNT], {0}))
    sixteen = f"{room}/sixteen"
    step = steps_of_sixteen(program, fresh(sixteen), empty)
    for _ in range(TURNS):
        least.add("restart", timed([program, "restart", SOURCE, empty, sixteen, "--until", step], {4}))
        least.add("c read", timed([yardstick, "read", sixteen], {0}))
        least.add("start", timed([program, "check", SOURCE], {0}))
    return least


def steps_of_sixteen(program, store, empty):
    """Makes a store with 16 images, and tells the steps of the newest."""
    until = 16 * 389000
    timed([program, "run", SOURCE, empty, store, "--max", "64", "--until", str(until)], {4})
    count, step = newest_step(program, store)
    print(f"  a store with {count} images, the newest at step {step}")
    return step


def tell(least):
    for kind, name in enumerate(("wall", "processor")):
        run, images, c_run, c_images = (1000 * least.of(it, kind) for it in ("run", "images", "c run", "c images"))
        restart, c_read, start = (least.of(it, kind) for it in ("restart", "c read", "start"))
        above, c_above = images - run, c_images - c_run
        print(f"  {name}: {COUNT} images {above:.1f} ms above a run of {run:.1f} ms, C {c_above:.1f} ms, ratio {above / c_above:.2f}")
        print(f"  {name}: restart {restart * 1000:.1f} ms (reading the source alone {start * 1000:.1f} ms), C reads in {c_read * 1000:.1f} ms, ratio {restart / c_read:.2f}")


def main():
    program = os.path.abspath(sys.argv[1])
    with tempfile.TemporaryDirectory() as work:
        yardstick, empty = f"{work}/job", f"{work}/empty"
        subprocess.check_call(["gcc", "-O2", "-o", yardstick, os.path.join(HERE, "job.c")])
        open(empty, "w").close()
        for folder in sys.argv[2:] or ["/dev/shm", "/tmp"]:
            print(folder)
            with tempfile.TemporaryDirectory(dir=folder) as room:
                tell(measure(program, yardstick, room, empty))


if __name__ == "__main__":
    main()

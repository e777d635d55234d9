#!/usr/bin/env python3
"""Compiles the large job of stencil.c, runs its code to the end on the machine and in a switch interpreter in C, and prints the ratio of their times.

The code is that of `ckpt compile`. It copies the machine's crates into a folder of its own, writes two drivers beside them, of which one calls `Machine::run_on` and the other
`Machine::run_for`, one tick a call as the run of a program does, lets `rt run` prove and build them, builds the C interpreter with gcc -O2, and runs the three in turn,
and beside them the whole job by `ckpt run` on a directory in memory, without an image.
Usage: bench/machine.py PROGRAM [FOLDER]     PROGRAM: the built `ckpt`. FOLDER: where the drivers are built.
"""

import os
import resource
import shutil
import subprocess
import sys
import tempfile

HERE = os.path.dirname(os.path.abspath(__file__))
CRATES = os.path.join(HERE, "..", "crates")
sys.path.insert(0, HERE)
import driver

LIBRARIES = {
    "ckpt_base": "thiserror",
    "machine_code": "ckpt_base",
    "page_frames": "ckpt_base",
    "dirty_pages": "ckpt_base bitflags",
    "paged_machine": "ckpt_base machine_code page_frames dirty_pages",
    "drive": "ckpt_base machine_code page_frames dirty_pages paged_machine",
    "drive_counted": "ckpt_base machine_code page_frames dirty_pages paged_machine",
}
DRIVERS = {"run_on": ("drive", driver.files), "run_for": ("drive_counted", driver.counted_files)}
NAMES = (
    "Tick Num Addr LoadC StoreC LoadL StoreL Move Back Fetch Put Add Sub Mul Div Rem Shl Shr And Or Xor "
    "Neg Not Inv Test Eq Ne Lt Le Gt Ge Jump JumpZ Call Ret Drop OutC OutB OutN In Ckpt Excl"
).split()


def write(path, text):
    os.makedirs(os.path.dirname(path), exist_ok=True)
    with open(path, "w") as f:
        f.write(text)


def compiled(program, source):
    """The listing of a source as pairs of name and operand, in the names of the machine's sources."""
    names = {n.upper(): n for n in NAMES}
    text = subprocess.run([program, "compile", source], check=True, capture_output=True, text=True).stdout
    words = [line.split(" ")[1:] for line in text.splitlines()]
    return [(names[w[0]], int(w[1]) if len(w) > 1 else None) for w in words]


def c_code(code):
    lines = ["enum {" + ",".join("I_" + n for n in NAMES) + "};", "static const struct ins CODE[]={"]
    lines += ["{I_%s,%d}," % (name, operand or 0) for name, operand in code]
    return "\n".join(lines + ["};"]) + "\n"


def build_c(folder, code):
    write(os.path.join(folder, "c", "code.h"), c_code(code))
    out = os.path.join(folder, "c", "interpreter")
    subprocess.check_call(["gcc", "-O2", "-I", os.path.join(folder, "c"), "-o", out, os.path.join(HERE, "interpreter.c")])
    return out


def build_rattle(folder, code):
    """The programs of the two drivers, by the call that each times."""
    top = os.path.join(folder, "rattle")
    for name in LIBRARIES:
        if not name.startswith("drive"):
            shutil.copytree(os.path.join(CRATES, name), os.path.join(top, "crates", name), ignore=shutil.ignore_patterns("out", "must-fail"))
    write(os.path.join(top, "crates.txt"), "".join("%s: %s\n" % pair for pair in LIBRARIES.items()))
    programs = {}
    for call, (name, files) in DRIVERS.items():
        for path, text in files(code).items():
            write(os.path.join(top, "crates", name, path), text)
    for call, (name, _) in DRIVERS.items():
        subprocess.check_call(["rt", "run", "--jobs", "2"], cwd=os.path.join(top, "crates", name))
        programs[call] = os.path.join(top, "crates", name, "out", name)
    return programs


def seconds(words):
    before = resource.getrusage(resource.RUSAGE_CHILDREN).ru_utime
    text = subprocess.run(words, check=True, capture_output=True, text=True).stdout
    return resource.getrusage(resource.RUSAGE_CHILDREN).ru_utime - before, text.strip().split("\n")[-1]


def job_words(program, folder):
    """The job by `run`, in a new store in memory each time, with no image."""
    empty = os.path.join(folder, "empty")
    write(empty, "")
    store = os.path.join(tempfile.mkdtemp(prefix="machine-bench-", dir="/dev/shm"), "store")
    return [program, "run", os.path.join(HERE, "stencil.c"), empty, store, "--every", "4294967295"], store


def main():
    program = os.path.abspath(sys.argv[1])
    folder = sys.argv[2] if len(sys.argv) > 2 else tempfile.mkdtemp(prefix="machine-bench-")
    code = compiled(program, os.path.join(HERE, "stencil.c"))
    print("%d instructions" % len(code))
    job, store = job_words(program, folder)
    programs = {"C, gcc -O2": [build_c(folder, code)], **{call: [path] for call, path in build_rattle(folder, code).items()}, "ckpt run": job}
    times = {name: [] for name in programs}
    for _ in range(7):
        for name, words in programs.items():
            shutil.rmtree(store, ignore_errors=True)
            t, last = seconds(words)
            times[name].append(t)
            print("%-12s %.3f s  %s" % (name, t, last))
    shutil.rmtree(os.path.dirname(store))
    best = {name: min(ts) for name, ts in times.items()}
    print("least: " + ", ".join("%s %.3f s" % pair for pair in best.items()))
    print("ratios: " + ", ".join("%s %.2f" % (call, best[call] / best["C, gcc -O2"]) for call in DRIVERS) + ", ckpt run to run_on %.2f" % (best["ckpt run"] / best["run_on"]))


main()

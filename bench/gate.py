#!/usr/bin/env python3
"""Runs the gate, `rt ci`, and prints what each crate costs.

    bench/gate.py                    runs `rt ci` at the top of the repository, with its lines, and prints the table of crates
    bench/gate.py --keep FILE        the same, and keeps what was measured in a file
    bench/gate.py --read FILE        prints the table of a run that was kept
    bench/gate.py --slowest [CRATE..]   checks these crates once more from nothing, all where none is named, and prints the ten functions whose proof took longest

`rt ci` prints no times, so the table is made of looks at the checks that run below it, each 0.2 seconds: a check's processor seconds are those of its last look. A
crate's check is its proof; its second proof is the one with its tests; its edits are the checks of a copy with a must-fail edit. For a fair table begin in a fresh
clone on a machine that does nothing else. `--slowest` wants the lower crates built, as they are after `rt ci`: a function's seconds are those between its line and
the one before, so they hold the lemmas that were checked first for it.
"""

import json
import os
import re
import subprocess
import sys
import threading
import time

TOP = os.path.join(os.path.dirname(os.path.abspath(__file__)), "..")
STEP = 0.2
# processor seconds that a crate may cost
MOST = 600
PHASES = ("proof", "tests", "edits")
TICKS = os.sysconf("SC_CLK_TCK")


def below(root):
    """The processes below a process, each with its processor seconds."""
    parents, spent = {}, {}
    for name in os.listdir("/proc"):
        if not name.isdigit():
            continue
        try:
            with open(f"/proc/{name}/stat") as file:
                fields = file.read().rpartition(")")[2].split()
        except OSError:
            continue
        parents[int(name)] = int(fields[1])
        spent[int(name)] = (int(fields[11]) + int(fields[12])) / TICKS
    found, more = {}, {root}
    while more:
        more = {pid for pid, parent in parents.items() if parent in more and pid not in found}
        found.update({pid: spent[pid] for pid in more})
    return found


def work_of(pid):
    """The crate and the phase of a check, or None where the process is none."""
    try:
        with open(f"/proc/{pid}/cmdline", "rb") as file:
            words = file.read().decode(errors="replace").split("\0")
        folder = os.readlink(f"/proc/{pid}/cwd")
    except OSError:
        return None
    if os.path.basename(words[0]) != "rattle" or "--crate-name" not in words:
        return None
    crate = words[words.index("--crate-name") + 1]
    if "/rt-edit-" in folder:
        return crate, "edits"
    return crate, "tests" if "--test" in words else "proof"


def measure(run):
    """Looks at the checks below a run until it ends; answers the seconds of each crate's phases, and the run's own."""
    kinds, spent, walls, began = {}, {}, {}, time.time()
    while run.poll() is None:
        now = time.time() - began
        for pid, seconds in below(run.pid).items():
            # (a check begins as the shell that bounds it)
            kinds[pid] = kinds.get(pid) or work_of(pid)
            if kinds[pid]:
                spent[pid] = seconds
                walls.setdefault(kinds[pid], [now, now])[1] = now
        time.sleep(STEP)
    phases = {}
    for pid, seconds in spent.items():
        crate, phase = kinds[pid]
        phases.setdefault(crate, {}).setdefault(phase, 0)
        phases[crate][phase] += seconds
    spans = {f"{crate} {phase}": span for (crate, phase), span in walls.items()}
    return {"crates": phases, "spans": spans, "wall": time.time() - began}


def tests_and_edits(crate):
    """How many tests and edits a crate has."""
    folder, tests = f"{TOP}/crates/{crate}", 0
    for at, _, files in os.walk(f"{folder}/src"):
        for name in files:
            if name.endswith(".rt"):
                with open(f"{at}/{name}") as file:
                    tests += file.read().count("#[test]")
    edits = [it for it in os.listdir(f"{folder}/must-fail") if it.endswith(".edit")] if os.path.isdir(f"{folder}/must-fail") else []
    return tests, len(edits)


def gate():
    """Runs `rt ci` and answers what was measured of it."""
    run = subprocess.Popen(["rt", "ci"], cwd=TOP, stdout=subprocess.PIPE, stderr=subprocess.STDOUT, text=True, errors="replace")
    last = [""]

    def show():
        for line in run.stdout:
            print(line, end="", flush=True)
            last[0] = line.strip() or last[0]

    shown = threading.Thread(target=show)
    shown.start()
    found = measure(run)
    shown.join()
    crates = [line.split(":")[0].split()[0] for line in open(f"{TOP}/crates.txt") if ":" in line.split("#")[0]]
    for crate in crates:
        found["crates"].setdefault(crate, {})
        found["crates"][crate]["counts"] = tests_and_edits(crate)
    found.update(last=last[0], processors=len(os.sched_getaffinity(0)), status=run.returncode)
    return found


def table(found):
    """Prints the crates, the dearest first."""
    crates = found["crates"]
    cost = {crate: sum(seconds.get(it, 0) for it in PHASES) for crate, seconds in crates.items()}
    print("\n| crate | proof | tests | second proof | edits | edits' checks | together |\n|---|---:|---:|---:|---:|---:|---:|")
    for crate in sorted(crates, key=lambda it: -cost[it]):
        proof, tests, edits = (f"{crates[crate].get(it, 0):.0f}" for it in PHASES)
        written, wrong = crates[crate].get("counts", ("", ""))
        mark = " (over the limit)" if cost[crate] > MOST else ""
        print(f"| `{crate}` | {proof} | {written} | {tests} | {wrong} | {edits} | {cost[crate]:.0f}{mark} |")
    whole = [f"{sum(seconds.get(it, 0) for seconds in crates.values()):.0f}" for it in PHASES]
    print(f"| all | {whole[0]} | | {whole[1]} | | {whole[2]} | {sum(cost.values()):.0f} |")
    print(f"\nProcessor seconds. The run took {found['wall'] / 60:.0f} minutes on {found['processors']} processors; it ended with: {found['last']}")


def functions_of(crate):
    """Checks a crate from nothing, one job, and answers the seconds of each function's proof."""
    folder, found = f"{TOP}/crates/{crate}", []
    kept, aside = f"{folder}/out/incremental", f"{folder}/out/incremental-aside"
    if os.path.isdir(kept):
        os.rename(kept, aside)
    try:
        words = ["rt", "check", "--jobs", "1", "--progress", *(["--test"] if tests_and_edits(crate)[0] else [])]
        run = subprocess.Popen(words, cwd=folder, stdout=subprocess.PIPE, stderr=subprocess.STDOUT, text=True, errors="replace")
        before = None
        for line in run.stdout:
            now, told = time.time(), re.match(r"checked (\S+), \d+ of \d+", line)
            if told:
                found.append((now - (before or now), told[1]))
            # (what stands before the first function is the crate's statements)
            before = now
        if run.wait():
            print(f"{crate} was not proved: its functions are not told", file=sys.stderr)
            return []
        return found
    finally:
        if os.path.isdir(aside):
            subprocess.run(["rm", "-rf", kept], check=False)
            os.rename(aside, kept)


def slowest(crates):
    """Prints the ten functions whose proof took longest."""
    found = [it for crate in crates for it in functions_of(crate)]
    print("\n| function | seconds |\n|---|---:|")
    for seconds, name in sorted(found, reverse=True)[:10]:
        print(f"| `{name}` | {seconds:.0f} |")


def main(words):
    if words[:1] == ["--slowest"]:
        every = [line.split(":")[0].split()[0] for line in open(f"{TOP}/crates.txt") if ":" in line.split("#")[0]]
        slowest(words[1:] or every)
        return 0
    if words[:1] == ["--read"] and len(words) == 2:
        with open(words[1]) as file:
            table(json.load(file))
        return 0
    if words and (words[0] != "--keep" or len(words) != 2):
        print(__doc__)
        return 2
    found = gate()
    if words:
        with open(words[1], "w") as file:
            json.dump(found, file)
    table(found)
    return found["status"]


if __name__ == "__main__":
    sys.exit(main(sys.argv[1:]))

#!/usr/bin/env python3
"""Times `pool-put` into a pool of 16 slots of a megabyte beside a C program with the same disk calls and exclusive-ors, in turn.

Usage: bench/pool.py PROGRAM [FOLDER..]     PROGRAM: the built `ckpt`. FOLDER: where pools are made, /dev/shm and /tmp where none is named.

The program has no `pool-put` yet (README, "What works"); this is the measure that it has to meet, a ratio of 1.2. The C program takes no digests: what `sha256sum` takes for as many bytes, 19 MiB, is told beside it. The least of each, wall and processor milliseconds."""
import os
import random
import subprocess
import sys
import tempfile
import time

HERE = os.path.dirname(os.path.abspath(__file__))
JOBS, SIZE, TURNS = 16, 1 << 20, 7
# each slot is looked through once, and the new one and the parity get new digests
DIGESTS = JOBS + 1 + 2


def timed(words):
    begin = time.monotonic()
    process = subprocess.Popen(words, stdout=subprocess.DEVNULL)
    _, status, used = os.wait4(process.pid, 0)
    if status != 0:
        sys.exit(f"{words}: status {status}")
    return 1000 * (time.monotonic() - begin), 1000 * (used.ru_utime + used.ru_stime)


def least(times):
    return tuple(min(it) for it in zip(*times))


def files_of(store):
    """The current image file and the other one, by name: that of the greater generation is current."""
    def generation(name):
        with open(f"{store}/{name}", "rb") as it:
            head = it.read(16)
        return int.from_bytes(head[4:8], "big") if head[15:16] == b"\xa5" else 0
    names = [name for name in os.listdir(store) if name != "output" and os.path.isfile(f"{store}/{name}")]
    return sorted((name for name in names if name[-1] in "12"), key=generation, reverse=True)


def measure(program, yardstick, room):
    pool, bytes_of_job = f"{room}/pool", f"{room}/bytes"
    with open(bytes_of_job, "wb") as it:
        it.write(random.Random(1).randbytes(SIZE))
    timed([program, "pool-make", str(JOBS), str(SIZE), pool])
    for job in range(1, JOBS + 1):
        timed([program, "pool-put", bytes_of_job, str(job), pool])
    with open(f"{room}/all", "wb") as it:
        it.write(random.Random(2).randbytes(DIGESTS * SIZE))
    puts, calls, digests = [], [], []
    for turn in range(TURNS):
        puts.append(timed([program, "pool-put", bytes_of_job, str(1 + turn % JOBS), pool]))
        calls.append(timed([yardstick, pool, *files_of(pool)]))
        digests.append(timed(["sha256sum", f"{room}/all"]))
    return least(puts), least(calls), least(digests)


def main():
    program = os.path.abspath(sys.argv[1])
    with tempfile.TemporaryDirectory() as work:
        yardstick = f"{work}/pool_calls"
        subprocess.check_call(["gcc", "-O2", "-w", "-o", yardstick, os.path.join(HERE, "pool_calls.c")])
        for folder in sys.argv[2:] or ["/dev/shm", "/tmp"]:
            with tempfile.TemporaryDirectory(dir=folder) as room:
                puts, calls, digests = measure(program, yardstick, room)
            print(folder)
            for kind, name in enumerate(("wall", "processor")):
                print(f"  {name}: a put {puts[kind]:.1f} ms, C without digests {calls[kind]:.1f} ms, sha256sum of {DIGESTS} MiB {digests[kind]:.1f} ms; ratio to both {puts[kind] / (calls[kind] + digests[kind]):.2f}")


if __name__ == "__main__":
    main()

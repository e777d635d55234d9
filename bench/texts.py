#!/usr/bin/env python3
"""Times `ckpt check` and `ckpt plain` in one run.

    bench/texts.py PROGRAM [SOURCE]

Checks texts of 262,144 bytes or a little less that a reader may find hard, and of half that length, and prints the seconds of each and
their ratio: a linear reader has a ratio near 2. With a SOURCE, also evaluates it on an empty input, and prints its steps a second.
"""

import os
import re
import subprocess
import sys
import tempfile
import time

MOST = 262_144


def filled(before, part, after, most):
    """A text with as many copies of a part as fit."""
    return before + part * ((most - len(before) - len(after)) // len(part)) + after


def declarations(most):
    """Objects with names of their own, as many as fit."""
    text, n = ["long a"], 0
    size = len(text[0]) + len(";int main(void){}")
    while size + 8 < most:
        text.append(",b%x" % n)
        size += len(text[-1])
        n += 1
    return "".join(text) + ";int main(void){}"


TEXTS = {
    "statements": lambda m: filled("long x; long f(void){", "x=x+1;", "return x;} int main(void){}", m),
    "one comment": lambda m: filled("/*", "*", "*/ int main(void){}", m),
    "blanks": lambda m: filled("", " ", "int main(void){}", m),
    "lines": lambda m: filled("", "\n", "int main(void){}", m),
    "declarations": declarations,
    "objects of one name": lambda m: filled("long a", ",a", ";int main(void){}", m),
    "one name": lambda m: filled("long ", "a", ";int main(void){}", m),
    "deep brackets": lambda m: filled("int main(void){ return ", "(" * 99 + "1" + ")" * 99 + "; return ", "1;}", m),
    "too deep brackets": lambda m: filled("int main(void){ return ", "(", "1;}", m),
    "too long a sum": lambda m: filled("int main(void){ return 1", "+1", ";}", m),
    "locals of a block": lambda m: filled("int main(void){} long f(void){ long a0", ",a", ";}", m),
    "constants": lambda m: filled("", "#define A 1\n", "int main(void){}", m),
    "one string": lambda m: filled('int main(void){ printf("', "a", '"); }', m),
    "blocks": lambda m: filled("int main(void){", "{}", "}", m),
}


def seconds(words):
    best = None
    for _ in range(3):
        begun = time.perf_counter()
        done = subprocess.run(words, capture_output=True, check=False)
        took = time.perf_counter() - begun
        best = took if best is None else min(best, took)
    return best, done.stdout


def main():
    program = os.path.abspath(sys.argv[1])
    with tempfile.TemporaryDirectory() as directory:
        source = os.path.join(directory, "source")
        for name, make in TEXTS.items():
            took = []
            for most in (MOST // 2, MOST):
                with open(source, "w", encoding="ascii") as f:
                    f.write(make(most))
                spent, answer = seconds([program, "check", source])
                took.append(spent)
            print("%-22s %.3f s %.3f s  ratio %.1f  %s" % (name, took[0], took[1], took[1] / took[0], answer.decode("latin-1").strip()[:60]))
        if len(sys.argv) > 2:
            empty = os.path.join(directory, "empty")
            open(empty, "w", encoding="ascii").close()
            spent, answer = seconds([program, "plain", os.path.abspath(sys.argv[2]), empty])
            steps = int(re.search(rb"steps (\d+)", answer).group(1))
            print("plain: %d steps in %.2f s, %.1f million a second" % (steps, spent, steps / spent / 1e6))


if __name__ == "__main__":
    main()

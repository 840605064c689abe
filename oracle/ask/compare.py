#!/usr/bin/env python3
"""Runs the program `ask` beside rule.py, an independent reading of what it prints.

    sh tools/program.sh ask
    python3 oracle/ask/compare.py [SEED [TIMES]]

Random patterns, good, damaged by any byte but 0 and of other lengths, alone and with matrix texts of these kinds; the eleven names, and
words a byte away from one. Every byte at every place of a pattern and of a matrix text. Exit status 1 if any differs.
"""
import os
import random
import subprocess
import sys

sys.dont_write_bytecode = True
from rule import NAMES, printed  # noqa: E402

ROOT = os.path.join(os.path.dirname(os.path.abspath(__file__)), "..", "..")
PROGRAM = os.environ.get("ASK", os.path.join(ROOT, "target", "native", "ask"))
seed = int(sys.argv[1]) if len(sys.argv) > 1 else 27
times = int(sys.argv[2]) if len(sys.argv) > 2 else 1
draw = random.Random(seed)
counts = {}


def ask(kind, *words):
    said = subprocess.run([PROGRAM, *words], stdout=subprocess.PIPE, check=True).stdout
    if said != printed(*words):
        print(f"DIFFERS {kind}: {words!r}\n  said {said!r}\n  rule {printed(*words)!r}")
        sys.exit(1)
    counts[kind] = counts.get(kind, 0) + 1


def word(letters, length=9):
    return "".join(draw.choice(letters) for _ in range(length)).encode()


def pattern():
    return word(draw.choice(("*TtFf012", "*****TF2", "*TF")))


def matrix():
    return word(draw.choice(("F012", "FFF012", "FF2")))


def damaged(text):
    text = bytearray(text)
    for _ in range(draw.choice((1, 1, 2, 5))):
        text[draw.randrange(len(text))] = 1 + draw.randrange(255)
    return bytes(text)


def length():
    return draw.choice((0, 1, 7, 8, 10, 11, 17, draw.randrange(200)))


for _ in range(300 * times):
    ask("good patterns", pattern())
    ask("damaged patterns", damaged(pattern()))
    ask("patterns of other lengths", word("*TF2x", length()))
    ask("pattern and matrix", pattern(), matrix())
    ask("pattern and damaged matrix", draw.choice((pattern, lambda: damaged(pattern())))(), damaged(matrix()))
    ask("words of other lengths", *draw.choice(((pattern(), word("F2", length())), (word("TF", length()), matrix()))))
    name = draw.choice(NAMES).encode()
    ask("name and matrix", name, matrix())
    ask("name and damaged matrix", name, damaged(matrix()))
    ask("nearly a name", draw.choice((damaged(name), name[:-1], name + b"s", name.upper(), b" " + name)), matrix())
    ask("a name alone", name)
for k in range(9):
    for byte in range(1, 256):
        ask("every byte of a pattern", b"T*F**F***"[:k] + bytes([byte]) + b"T*F**F***"[k + 1:])
        ask("every byte of a matrix", b"T*F**F***", b"212101212"[:k] + bytes([byte]) + b"212101212"[k + 1:])
for n in (4095, 4096, 65536, 131071):
    ask("long words", b"T" * n)
    ask("long words", b"T********", b"2" * n)

for kind, count in counts.items():
    print(f"{count:6} {kind}")
print(f"seed {seed}: {sum(counts.values())} runs, none differs")

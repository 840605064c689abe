#!/usr/bin/env python3
"""Runs the program `changed` beside rule.py, an independent reading of request R-14.

    sh tools/program.sh changed
    python3 oracle/changed/compare.py [SEED [TIMES]]

Random pairs of files of both versions, equal, changed in some cells, cut, with bytes in front of the end; reports damaged at every byte by
every kind of value; pairs whose printed lines, and whose files, are longer than the program's buffers. Exit status 1 if any differs.
"""
import os
import random
import subprocess
import sys
import tempfile

sys.dont_write_bytecode = True
from rule import changed, long_report, short_report  # noqa: E402

ROOT = os.path.join(os.path.dirname(os.path.abspath(__file__)), '..', '..')
PROGRAM = os.environ.get('CHANGED', os.path.join(ROOT, 'target', 'native', 'changed'))
seed = int(sys.argv[1]) if len(sys.argv) > 1 else 14
times = int(sys.argv[2]) if len(sys.argv) > 2 else 1
draw = random.Random(seed)
work = tempfile.TemporaryDirectory()
paths = [os.path.join(work.name, name) for name in ('old', 'new')]
counts = {}


def ask(kind, old, new):
    for path, data in zip(paths, (old, new)):
        if data is None:
            if os.path.exists(path):
                os.remove(path)
        else:
            with open(path, 'wb') as file:
                file.write(data)
    said = subprocess.run([PROGRAM, *paths], stdout=subprocess.PIPE, check=True).stdout
    if said != changed(old, new):
        print(f'DIFFERS {kind}: old {old!r} new {new!r}\n  said {said[:300]!r}\n  rule {changed(old, new)[:300]!r}')
        sys.exit(1)
    counts[kind] = counts.get(kind, 0) + 1


def matrix():
    return ''.join(draw.choice('F012') for _ in range(9))


def near(text):
    cells = list(text)
    for _ in range(draw.choice((0, 0, 0, 1, 1, 2, 9))):
        cells[draw.randrange(9)] = draw.choice('F012')
    return ''.join(cells)


def report(text):
    return draw.choice((long_report, short_report))(text)


def pair(n):
    old = [matrix() for _ in range(n)]
    new = [near(text) for text in old]
    cut = draw.choice((0, 0, 1, 2, n))
    if draw.random() < 0.5:
        new = new[:max(0, n - cut)]
    else:
        new += [matrix() for _ in range(cut)]
    return [b''.join(report(text) for text in texts) for texts in (old, new)]


for _ in range(600 * times):
    ask('random pairs', *pair(draw.randrange(12)))
for _ in range(300 * times):
    files = pair(1 + draw.randrange(6))
    k = draw.randrange(2)
    files[k] = files[k][:draw.randrange(len(files[k]) + 1)]
    ask('cut', *files)
for _ in range(300 * times):
    files = pair(1 + draw.randrange(6))
    for k in range(2):
        if draw.random() < 0.7 and files[k]:
            bad = bytearray(files[k])
            for _ in range(draw.choice((1, 1, 3))):
                bad[draw.randrange(len(bad))] = draw.randrange(256)
            files[k] = bytes(bad)
    ask('damaged anywhere', *files)
# every byte of a report of either version, in either file, in front of others and at the end
for text in ('212101212', 'FFFFFFFF2'):
    for make in (long_report, short_report):
        whole = make(text)
        for at in range(len(whole)):
            for value in {0, 1, 2, 3, 4, 10, 48, 70, 102, 255, whole[at] ^ 1, whole[at] ^ 128, draw.randrange(256)}:
                bad = whole[:at] + bytes([value]) + whole[at + 1:]
                tail = draw.choice((b'', long_report(text), short_report(text) * 3))
                ask('damaged at every byte', whole + bad + tail, make(text) * 2)
                ask('damaged at every byte', make(text) * 2, bad + tail)
for files in ((None, b''), (b'', None), (None, None), (None, b'\x00'), (b'\x00', None)):
    ask('missing', *files)
# longer than a buffer: files of 131,072 bytes and more, lines of 65,536 and more, promises over the seam
for _ in range(10 * times):
    ask('long', *pair(9000 + draw.randrange(9000)))
for k in range(24):
    front = long_report('212101212') * (10922 + draw.randrange(3)) + short_report('FFFFFFFF2') * draw.randrange(4)
    end = (b'', b'\xff\xff', b'\xff\xff' + bytes(65534), b'\xff\xff' + bytes(65535), b'\xff\xfe' + bytes(65534), b'\x00', b'\x00\x0a')[k % 7]
    files = [front + end, front]
    ask('over the seam', *(files if k % 2 else files[::-1]))
for kind, n in counts.items():
    print(f'{n:6} {kind}')
print(f'{sum(counts.values())} pairs, none differs (seed {seed})')

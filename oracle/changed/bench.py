#!/usr/bin/env python3
"""The program `changed` on two files of 10 MB and of 100 MB: megabytes a second over both files, and peak memory.

    sh tools/program.sh changed
    python3 oracle/changed/bench.py

Best of five; the clock is the processor's own (user and system), so that other work on the machine matters less.
"""
import os
import subprocess
import sys
import tempfile

sys.dont_write_bytecode = True
from rule import long_report, short_report  # noqa: E402

ROOT = os.path.join(os.path.dirname(os.path.abspath(__file__)), '..', '..')
PROGRAM = os.environ.get('CHANGED', os.path.join(ROOT, 'target', 'native', 'changed'))


def run(peak, old, new):
    said = subprocess.run([peak, PROGRAM, old, new], stdout=subprocess.DEVNULL, stderr=subprocess.PIPE, check=True).stderr.split()
    return float(said[0]), int(said[1])


with tempfile.TemporaryDirectory() as work:
    peak = os.path.join(work, 'peak')
    subprocess.run(['cc', '-O1', os.path.join(os.path.dirname(os.path.abspath(__file__)), 'peak.c'), '-o', peak], check=True)
    print('| files | MB/s | peak memory, KiB |')
    print('|---|---|---|')
    for megabytes in (10, 100):
        size = megabytes * 1000000
        mixed = (long_report('212101212') + short_report('FFFFFFFF2')) * 1000
        kinds = {
            'long, equal': (long_report('212101212') * 1000,) * 2,
            'short, equal': (short_report('212101212') * 1000,) * 2,
            'mixed, one cell in 2,000 differs': (mixed, mixed[:-6] + short_report('FFFF1FFF2')),
        }
        for name, parts in kinds.items():
            paths = []
            for k, part in enumerate(parts):
                paths.append(os.path.join(work, f'{k}.reports'))
                with open(paths[-1], 'wb') as file:
                    for _ in range(size // len(part)):
                        file.write(part)
            total = sum(os.path.getsize(path) for path in paths)
            runs = [run(peak, *paths) for _ in range(5)]
            best = min(seconds for seconds, _ in runs)
            print(f'| two of {megabytes} MB, {name} | {total / best / 1e6:.0f} | {max(memory for _, memory in runs)} |')

#!/usr/bin/env python3
"""Draws outline.svg: a room's outline, and points marked by what the library answers for each.

    python3 samples/outline.py            draws it
    python3 samples/outline.py --check    draws it anew and compares

The library is asked through C: outline.c is compiled over it and given the outline and the points. Nothing here works
out where a point lies. It needs cc. MISONKANDI_LIB_DIR names a folder with the library for this processor, if one is
built already.
"""
import os
import subprocess
import sys
import tempfile
from xml.sax.saxutils import escape

sys.dont_write_bytecode = True
from picture import BLUE, BROWN, GREY, MARGIN, UNIT, text  # noqa: E402 (no folder of compiled files)

HERE = os.path.dirname(os.path.abspath(__file__))
ROOT = os.path.dirname(HERE)
STORED = os.path.join(HERE, 'outline.svg')

# --- what is drawn, in millimetres ---

CORNERS = [(1000, 0), (11000, 0), (12000, 3000), (11000, 6000), (8000, 6000), (6000, 3000), (4000, 6000), (0, 6000),
           (0, 2000)]
POINTS = [(2000, 3000), (3000, 5000), (9000, 2000), (6000, 3000), (7000, 4500), (10000, 6000), (0, 4000), (500, 1000),
          (0, 0), (6000, 5000), (6000, 6000), (-1000, 3000)]
HALF_LINES = [(2000, 3000), (6000, 5000)]

TITLE = 'Points against the outline of a room'
ALT = 'A room with a notch in its upper wall. Twelve points are marked: inside, on the outline, outside.'
NOTES = ['dashed: the half lines from a, which crosses three sides, and from j, which crosses two']
WORDS = {1: 'Inside', 2: 'OnBoundary', 3: 'Outside'}

SECTION = f"""## outline

{TITLE}.

![{ALT}](outline.svg)

This is no plan but `misonkandi_point_in_outline` in C, `Outline` in Rust. A point that is on no side is inside if the
half line from it towards positive x crosses an odd number of sides; a side counts when exactly one of its ends lies
strictly above the point's y. So the half line from a crosses two sides at the notch's corner and one at the corner far
right. `python3 samples/outline.py` asks the library and draws the picture; with `--check` it compares.
"""

# --- asking the library ---


def library():
    """The archive, proved and built first if none is named."""
    named = os.environ.get('MISONKANDI_LIB_DIR')
    if not named:
        subprocess.run(['sh', os.path.join(ROOT, 'tools/library.sh')], check=True)
    return os.path.join(named or os.path.join(ROOT, 'target/native'), 'libmisonkandi.a')


def answers():
    """The library's word for each point."""
    given = [2 * len(CORNERS), *(z for corner in CORNERS for z in corner), *(z for point in POINTS for z in point)]
    with tempfile.TemporaryDirectory() as work:
        program = os.path.join(work, 'outline')
        subprocess.run(['cc', '-std=c99', '-Wall', '-Wextra', '-Werror', '-I', os.path.join(ROOT, 'crates/misonkandi'),
                        os.path.join(HERE, 'outline.c'), library(), '-o', program], check=True)
        printed = subprocess.run([program], input=' '.join(map(str, given)), stdout=subprocess.PIPE, check=True,
                                 universal_newlines=True).stdout
    words = [int(line) for line in printed.split()]
    if len(words) != len(POINTS) or any(word not in WORDS for word in words):
        sys.exit(f'outline.py: the library says {words}')
    return words


# --- drawing ---


def mark(x, y, word):
    """A full dot inside, a square on the outline, a ring outside: told apart without colours too."""
    if word == 1:
        return f'<circle cx="{x:g}" cy="{y:g}" r="5" fill="{BLUE}"/>'
    if word == 2:
        return f'<rect x="{x - 4.5:g}" y="{y - 4.5:g}" width="9" height="9" fill="black"/>'
    return f'<circle cx="{x:g}" cy="{y:g}" r="4.5" fill="white" stroke="{GREY}" stroke-width="2"/>'


def drawn(words):
    every = CORNERS + POINTS
    low_x, high_x = min(x for x, _ in every), max(x for x, _ in every) + 1000
    low_y, high_y = min(y for _, y in every), max(y for _, y in every)

    def at(x, y):  # north is up
        return MARGIN + UNIT * (x - low_x) / 1000, MARGIN + UNIT * (high_y - y) / 1000

    left = 2 * MARGIN + UNIT * (high_x - low_x) // 1000
    low = max(at(0, low_y)[1], MARGIN + 16 * (len(POINTS) - 1)) + MARGIN
    width, height = left + 190, low + 15 * len(NOTES)
    corners = ' '.join('{:g},{:g}'.format(*at(*corner)) for corner in CORNERS)
    out = [f'<svg xmlns="http://www.w3.org/2000/svg" width="{width:g}" height="{height:g}" '
           f'viewBox="0 0 {width:g} {height:g}" font-family="sans-serif" role="img">',
           f'<title>{escape(TITLE)}</title>', f'<desc>{escape(ALT)}</desc>',
           '<rect width="100%" height="100%" fill="white"/>',
           f'<polygon points="{corners}" fill="{BROWN}" fill-opacity="0.12" stroke="{BROWN}" stroke-width="3"/>']
    for x, y in HALF_LINES:
        (x1, y1), (x2, _) = at(x, y), at(high_x, y)
        out.append(f'<line x1="{x1:g}" y1="{y1:g}" x2="{x2:g}" y2="{y1:g}" stroke="{GREY}" stroke-dasharray="4 4"/>')
    for k, ((x, y), word) in enumerate(zip(POINTS, words)):
        (px, py), name = at(x, y), 'abcdefghijkl'[k]
        out += [mark(px, py, word), text(px + 9, py + 12, name)]
        row = MARGIN + 16 * k
        out += [mark(left, row, word), text(left + 12, row + 4, name),
                text(left + 95, row + 4, f'{x}, {y}', anchor='end'), text(left + 105, row + 4, WORDS[word])]
    for k, words_below in enumerate(NOTES):
        out.append(text(MARGIN, height - 15 * (len(NOTES) - k) + 4, words_below))
    return '\n'.join(out + ['</svg>']) + '\n'


def main():
    try:
        svg = drawn(answers())
    except (OSError, subprocess.CalledProcessError) as error:
        sys.exit(f'outline.py: {error}')
    if sys.argv[1:] == ['--check']:
        with open(STORED, encoding='utf-8') as f:
            if f.read() != svg:
                sys.exit('WRONG outline.svg: the library answers otherwise, or it is to be drawn anew')
        print('ok outline.svg: as the library answers')
        return
    with open(STORED, 'w', encoding='utf-8') as f:
        f.write(svg)


if __name__ == '__main__':
    main()

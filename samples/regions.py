#!/usr/bin/env python3
"""Draws regions.svg: the eight regions of two boxes side by side, each under the name that the library answers.

    python3 samples/regions.py            draws it
    python3 samples/regions.py --check    draws it anew and compares

The library is asked through C: regions.c is compiled over it and given the boxes. Names and matrices are what it says;
nothing here works them out, but the script stops unless each of the eight names is said once. It needs cc.
MISONKANDI_LIB_DIR names a folder with the library for this processor, if one is built already.
"""
import os
import subprocess
import sys
import tempfile
from xml.sax.saxutils import escape

sys.dont_write_bytecode = True
from outline import HERE, ROOT, library  # noqa: E402 (no folder of compiled files)
from picture import BLUE, BROWN, GREY, SHADE, text  # noqa: E402

STORED = os.path.join(HERE, 'regions.svg')

# --- what is drawn: A and B as x, y, u, v, in a panel of 8 by 6 ---

PAIRS = [((0, 1, 3, 5), (5, 1, 8, 5)), ((0, 1, 4, 5), (4, 0, 8, 3)), ((0, 1, 5, 6), (3, 0, 8, 4)),
         ((1, 1, 7, 5), (1, 1, 7, 5)), ((3, 2, 5, 4), (0, 0, 8, 6)), ((0, 2, 4, 4), (0, 0, 8, 6)),
         ((0, 0, 8, 6), (3, 2, 5, 4)), ((0, 0, 8, 6), (4, 2, 8, 4))]

TITLE = 'The eight regions of two boxes'
ALT = 'Eight pairs of boxes: apart, touching, overlapping, equal, and one in the other, at its wall or not.'

SECTION = f"""## regions

{TITLE}.

![{ALT}](regions.svg)

Egenhofer's names, `misonkandi_region_of_boxes` and `misonkandi_region_name` in C, `Region` in Rust. Which cells of the
matrix are F, white here, makes the name. Exchanging the boxes exchanges inside with contains and coveredBy with covers.
`python3 samples/regions.py` asks the library and draws the picture; with `--check` it compares.
"""

# --- asking the library ---


def answers():
    """The library's matrix and name of each pair."""
    given = [z for a, b in PAIRS for z in (*a, *b)]
    with tempfile.TemporaryDirectory() as work:
        program = os.path.join(work, 'regions')
        subprocess.run(['cc', '-std=c99', '-Wall', '-Wextra', '-Werror', '-I', os.path.join(ROOT, 'crates/misonkandi'),
                        os.path.join(HERE, 'regions.c'), library(), '-o', program], check=True)
        printed = subprocess.run([program], input=' '.join(map(str, given)), stdout=subprocess.PIPE, check=True,
                                 universal_newlines=True).stdout
    said = [tuple(line.split(' ', 1)) for line in printed.splitlines()]
    if len(said) != len(PAIRS) or len({name for _, name in said}) != len(PAIRS):
        sys.exit(f'regions.py: the library says {said}')
    return said


# --- drawing ---

UNIT, GAP, CELL = 16, 34, 16
WIDE, HIGH = 8 * UNIT, 6 * UNIT
PANEL = HIGH + 3 * CELL + 58


def rect(box, left, low, colour, look):
    x, y, u, v = box
    return (f'<rect x="{left + UNIT * x:g}" y="{low - UNIT * v:g}" width="{UNIT * (u - x):g}" '
            f'height="{UNIT * (v - y):g}" fill="{colour}" stroke="{colour}" stroke-width="3" {look}/>')


def panel(pair, said, left, top):
    """The boxes, the name below them, and the matrix."""
    (a, b), (letters, name), low = pair, said, top + HIGH
    out = [rect(a, left, low, BLUE, 'fill-opacity="0.18"'),
           rect(b, left, low, BROWN, 'fill-opacity="0.12" stroke-dasharray="7 5"'),
           text(left + WIDE / 2, low + 24, name, 'black', 'middle', 15, 'bold')]
    x0, y0 = left + WIDE / 2 - 1.5 * CELL, low + 34
    for k, letter in enumerate(letters):
        x, y = x0 + k % 3 * CELL, y0 + k // 3 * CELL
        out.append(f'<rect x="{x:g}" y="{y:g}" width="{CELL}" height="{CELL}" fill="{SHADE[letter]}" stroke="{GREY}"/>')
        out.append(text(x + CELL / 2, y + 12, letter, GREY if letter == 'F' else 'black', 'middle'))
    return out


def drawn(said):
    width, height = 4 * (WIDE + GAP) + GAP, 2 * PANEL + 44
    out = [f'<svg xmlns="http://www.w3.org/2000/svg" width="{width:g}" height="{height:g}" '
           f'viewBox="0 0 {width:g} {height:g}" font-family="sans-serif" role="img">',
           f'<title>{escape(TITLE)}</title>', f'<desc>{escape(ALT)}</desc>',
           '<rect width="100%" height="100%" fill="white"/>',
           text(GAP, 22, 'A, the first box', BLUE, 'start', 12, 'bold'),
           text(GAP + 110, 22, 'B, the second, dashed', BROWN, 'start', 12, 'bold')]
    for k, pair in enumerate(PAIRS):
        out += panel(pair, said[k], GAP + k % 4 * (WIDE + GAP), 40 + k // 4 * PANEL)
    return '\n'.join(out + ['</svg>']) + '\n'


def main():
    try:
        svg = drawn(answers())
    except (OSError, subprocess.CalledProcessError) as error:
        sys.exit(f'regions.py: {error}')
    if sys.argv[1:] == ['--check']:
        with open(STORED, encoding='utf-8') as f:
            if f.read() != svg:
                sys.exit('WRONG regions.svg: the library answers otherwise, or it is to be drawn anew')
        print('ok regions.svg: as the library answers')
        return
    with open(STORED, 'w', encoding='utf-8') as f:
        f.write(svg)


if __name__ == '__main__':
    main()

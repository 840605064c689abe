"""A sample's picture: the plan on the left, its matrix on the right, three by three, darker cells of higher dimension.

A is blue. B is brown and dashed, so that A's outline shows where the two lie on each other. Black dots are nodes, with
the ends that their records have; a red dot is a node whose record is refused. A numbered dot is a record, and a number in
a cell is the record that made it.
"""
from xml.sax.saxutils import escape

BLUE, BROWN, RED, GREY = '#2b6cb0', '#c05621', '#c53030', '#4a5568'
SHADE = {'F': '#ffffff', '0': '#d9e8d0', '1': '#9fc98a', '2': '#5b9b46'}
PARTS = ['inside', 'boundary', 'outside']
UNIT, MARGIN = 26, 22
WIDE, HIGH = 52, 30  # a cell of the matrix
HEAD = 62  # room for the names of A's parts, left of the cells


def text(x, y, words, colour='black', anchor='start', size=11, weight='normal'):
    look = f'fill="{colour}" text-anchor="{anchor}" font-size="{size}" font-weight="{weight}"'
    return f'<text x="{x:g}" y="{y:g}" {look}>{escape(words)}</text>'


def drawn(plan, at):
    """The two geometries, their names, the nodes."""
    def points(corners):
        return ' '.join('{:g},{:g}'.format(*at(*p)) for p in corners)

    out = [f'<polygon points="{points(s)}" fill="{BLUE}" fill-opacity="0.18" stroke="{BLUE}" stroke-width="3"/>'
           for s in plan.get('a', [])]
    out += [f'<polyline points="{points(s)}" fill="none" stroke="{BLUE}" stroke-width="3"/>'
            for s in plan.get('lines', [])]
    out += [f'<polygon points="{points(s)}" fill="{BROWN}" fill-opacity="0.12" stroke="{BROWN}" stroke-width="3" '
            'stroke-dasharray="7 5"/>' for s in plan.get('b', [])]
    for (x, y), ends in plan.get('nodes', []):
        for dx, dy in ends:
            size = max(abs(dx), abs(dy))
            (x1, y1), (x2, y2) = at(x, y), at(x + 0.8 * dx / size, y + 0.8 * dy / size)
            out.append(f'<line x1="{x1:g}" y1="{y1:g}" x2="{x2:g}" y2="{y2:g}" stroke="black" stroke-width="3"/>')
        out.append('<circle cx="{:g}" cy="{:g}" r="5"/>'.format(*at(x, y)))
    if 'wall' in plan:
        out.append(f'<polyline points="{points(plan["wall"])}" fill="none" stroke="{RED}" stroke-width="4"/>')
    for k, place in enumerate(plan.get('numbered', [])):
        x, y = at(*place)
        out.append(f'<circle cx="{x:g}" cy="{y:g}" r="8"/>')
        out.append(text(x, y + 4, str(k + 1), 'white', 'middle', 10, 'bold'))
    for colour, dots in ((BLUE, plan.get('points', [])), (RED, plan.get('bad', []))):
        out += ['<circle cx="{:g}" cy="{:g}" r="5" fill="{}"/>'.format(*at(*p), colour) for p in dots]
    for name, colour in (('A', BLUE), ('B', BROWN)):
        x, y = at(*plan['named'][name])
        out.append(text(x, y + 5, name, colour, 'middle', 16, 'bold'))
    return out


def matrix(letters, left, top, made=()):
    """Three by three, with the names of the parts, and the numbers of the records that made the cells, if they are given."""
    x0, y0 = left + HEAD, top + 26
    out = [text(x0 + 1.5 * WIDE, top + 2, "B's", BROWN, 'middle', 12, 'bold'),
           text(x0 - 5, top + 18, "A's", BLUE, 'end', 12, 'bold')]
    for k, part in enumerate(PARTS):
        out.append(text(x0 + (k + 0.5) * WIDE, y0 - 8, part, BROWN, 'middle', 10))
        out.append(text(x0 - 5, y0 + (k + 0.5) * HIGH + 4, part, BLUE, 'end', 10))
    for k, letter in enumerate(letters):
        x, y = x0 + k % 3 * WIDE, y0 + k // 3 * HIGH
        out.append(f'<rect x="{x:g}" y="{y:g}" width="{WIDE}" height="{HIGH}" fill="{SHADE[letter]}" '
                   f'stroke="{GREY}"/>')
        out.append(text(x + WIDE / 2, y + HIGH / 2 + 6, letter, GREY if letter == 'F' else 'black', 'middle', 16))
    for k, number in enumerate(made):
        out.append(text(x0 + (k % 3 + 1) * WIDE - 4, y0 + (k // 3 + 1) * HIGH - 4, str(number), 'black', 'end', 10))
    for k, (letter, words) in enumerate([('F', 'none'), ('0', 'points'), ('1', 'line'), ('2', 'area')]):
        x, y = x0 + k % 2 * 80, y0 + 3 * HIGH + 10 + k // 2 * 17
        out.append(f'<rect x="{x:g}" y="{y:g}" width="12" height="12" fill="{SHADE[letter]}" stroke="{GREY}"/>')
        out.append(text(x + 17, y + 10, f'{letter}: {words}'))
    return out


def svg(plan):
    corners = [p for key in ('a', 'b', 'lines') for s in plan.get(key, []) for p in s] + plan.get('points', [])
    low_x, high_x = min(x for x, _ in corners), max(x for x, _ in corners)
    low_y, high_y = min(y for _, y in corners), max(y for _, y in corners)
    wide, high = UNIT * (high_x - low_x), UNIT * (high_y - low_y)
    first = plan['prints'].splitlines()[0]
    notes = plan.get('notes', [])
    left = 2 * MARGIN + wide + 12
    width, height = left + HEAD + 3 * WIDE + 14, max(2 * MARGIN + high, 188) + 15 * len(notes)

    def at(x, y):  # north is up
        return MARGIN + UNIT * (x - low_x), MARGIN + UNIT * (high_y - y)

    out = [f'<svg xmlns="http://www.w3.org/2000/svg" width="{width}" height="{height}" viewBox="0 0 {width} {height}" '
           'font-family="sans-serif" role="img">',
           f'<title>{escape(plan["title"])}</title>', f'<desc>{escape(plan["alt"])}</desc>',
           '<rect width="100%" height="100%" fill="white"/>']
    out += drawn(plan, at)
    if len(first) == 9:
        out += matrix(first, left, 16, plan.get('made', ()))
    else:
        out += [text(left, 60, first, RED, size=14, weight='bold'), text(left, 80, 'no matrix is printed')]
    for k, words in enumerate(notes):
        out.append(text(MARGIN, height - 15 * (len(notes) - k) + 4, words, plan.get('tint', 'black')))
    return '\n'.join(out + ['</svg>']) + '\n'


HEAD_OF_PAGE = """# Sample plans

A, blue, is a reader's area or path, or the reader itself. B, brown and dashed, is a room. Black dots are nodes of the
plan, with the ends that their records have; the red dot is a node whose record is refused. The matrix beside each plan
is coloured by dimension. `python3 samples/make.py` makes all of this but the last two pictures, which ask the library;
`sh samples/check.sh` runs it.
"""


def gallery(plans):
    """The page that shows all pictures."""
    out = [HEAD_OF_PAGE]
    for plan in plans:
        name, (first, *rest) = plan['name'], plan['prints'].splitlines()
        yes = ', '.join(line.split()[0] for line in rest if line.endswith(' yes'))
        out += [f'## {name}', '', f'{plan["title"]}.', '', f'![{plan["alt"]}]({name}.svg)', '',
                f'`./relate samples/{name}.plan` prints [`{first}`]({name}.txt)' + (', and yes for' if yes else '.')]
        out += [f'{yes}.', ''] if yes else ['']
        out += [plan['more'], ''] if 'more' in plan else []
    return '\n'.join(out)


def pairs(plans):
    """The part of the page that shows two outlines each."""
    out = []
    for plan in plans:
        name, (first, *rest) = plan['name'], plan['prints'].splitlines()
        yes = ', '.join(line.split()[0] for line in rest if line.endswith(' yes'))
        out += [f'## {name}', '', f'{plan["title"]}.', '', f'![{plan["alt"]}]({name}.svg)', '',
                f'`./outlines samples/{name}_a.wkt samples/{name}_b.wkt` prints [`{first}`]({name}.txt), and yes for', f'{yes}.', '']
    return '\n'.join(out)

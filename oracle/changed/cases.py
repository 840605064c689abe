#!/usr/bin/env python3
"""Writes the inputs of the crates `changed` and `changed_cases`: args, data/ and stdout.

    python3 oracle/changed/cases.py

What is printed for a pair stands here as request R-14 says it (the small ones are written out below), or is rule.py's.
"""
import os
import shutil
import sys

sys.dont_write_bytecode = True
from rule import NAMES, changed, long_report, short_report  # noqa: E402

ROOT = os.path.join(os.path.dirname(os.path.abspath(__file__)), '..', '..', 'crates')
EMPTY, ROOM, OTHER = 'FFFFFFFF2', '212101212', '2FFF1FFF2'


def cell(i, letter):
    return EMPTY[:i] + letter + EMPTY[i + 1:]


good = long_report(ROOM)
FILES = {
    'empty': b'',
    'two': long_report(ROOM) + long_report(EMPTY),
    'two_short': short_report(ROOM) + short_report(EMPTY),
    'two_mixed': short_report(ROOM) + long_report(EMPTY),
    'three': long_report(ROOM) + short_report(OTHER) + long_report(EMPTY),
    'cells_old': b''.join(long_report(cell(i, 'F')) for i in range(9)),
    'cells_new': b''.join((short_report if i % 2 else long_report)(cell(i, '1')) for i in range(9)),
    'all_cells': long_report('012F012F0') + short_report('222222222'),
    'no_cells': short_report('FFFFFFFFF') + long_report('222222222'),
    'many': (long_report(ROOM) * 7 + short_report(EMPTY) * 5) * 1300,
    'many_more': (short_report(ROOM) * 7 + long_report(EMPTY) * 5) * 1299 + long_report(OTHER) * 14,
    'short': good + good[:7],
    'one_byte': good + b'\x00',
    'long_promise': good + b'\xff\xff' + b'\x00' * 70000,
    'broken_promise': good + b'\xff\xff' + b'\x00' * 60000,
    'version': good + b'\x00\x0a\x03' + ROOM.encode(),
    'length': good + b'\x00\x05\x02\x00\x00\x00\x00',
    'disagree': good + b'\x00\x04\x01\x00\x00\x00',
    'letter': good + good[:5] + b'X' + good[6:],
    'top_bits': short_report(ROOM) + b'\x00\x04\x02\x04\x00\x00',
}
NONE = {'none'}
PAIRS = [('two', 'two'), ('two', 'two_short'), ('two_mixed', 'two_short'), ('empty', 'empty'), ('two', 'empty'), ('empty', 'two_short'),
         ('cells_old', 'cells_new'), ('cells_new', 'cells_old'), ('all_cells', 'no_cells'), ('two', 'three'), ('three', 'two_mixed'),
         ('many', 'many_more'), ('many_more', 'many')]
for bad in ('short', 'one_byte', 'long_promise', 'broken_promise', 'version', 'length', 'disagree', 'letter', 'top_bits', 'none', 'folder'):
    PAIRS += [(bad, 'two'), ('two', bad)]
PAIRS += [('letter', 'version'), ('none', 'letter'), ('version', 'none'), ('top_bits', 'top_bits')]

# by hand, from the request
BY_HAND = {
    ('two', 'two_short'): b'',
    ('empty', 'empty'): b'',
    ('two', 'empty'): b'only in old 1\nonly in old 2\n',
    ('empty', 'two_short'): b'only in new 1\nonly in new 2\n',
    ('cells_old', 'cells_new'): b''.join(b'%d %s %s 1\n' % (i + 1, NAMES[i].encode(), b'F') for i in range(9)),
    ('two', 'three'): b'2 II F 2\n2 BB F 1\nonly in new 3\n',
    ('letter', 'two'): b'refused old 11 at 12\n',
    ('two', 'top_bits'): b'refused new 14 at 6\n',
    ('none', 'letter'): b'refused old 23 at 0\n',
    ('letter', 'version'): b'refused old 11 at 12\n',
}


def write(crate, pairs, heading):
    folder = os.path.join(ROOT, crate)
    shutil.rmtree(os.path.join(folder, 'data'), ignore_errors=True)
    os.makedirs(os.path.join(folder, 'data'))
    printed, words = b'', []
    for pair in pairs:
        for name in pair:
            words.append(name + '.reports')
            path = os.path.join(folder, 'data', name + '.reports')
            if name == 'folder':
                os.makedirs(path, exist_ok=True)
                open(os.path.join(path, 'inner'), 'wb').close()
            elif name in FILES:
                with open(path, 'wb') as file:
                    file.write(FILES[name])
        text = changed(FILES.get(pair[0]), FILES.get(pair[1]))
        assert BY_HAND.get(pair, text) == text, (pair, text)
        printed += (b'-- %s.reports %s.reports\n' % (pair[0].encode(), pair[1].encode()) if heading else b'') + text
    with open(os.path.join(folder, 'args'), 'w') as file:
        file.write(''.join(word + '\n' for word in words))
    with open(os.path.join(folder, 'stdout'), 'wb') as file:
        file.write(printed)
    print(f'{crate}: {len(pairs)} pairs, {len(printed)} bytes printed')


write('changed', [('two', 'three')], False)
write('changed_cases', PAIRS, True)

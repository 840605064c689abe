"""What changed between two files of stored reports: request R-14 read from its text, and R-3 for the reports. It shares nothing with the
crates: it holds both files whole, and a report as its nine letters."""

NAMES = ['II', 'IB', 'IE', 'BI', 'BB', 'BE', 'EI', 'EB', 'EE']


def letters_of(s, at):
    """The nine letters of the report at a place and its length, or the number of its refusal."""
    left = len(s) - at
    if left < 2:
        return None, 1
    length = s[at] << 8 | s[at + 1]
    if left < 2 + length:
        return None, 1
    if length not in (4, 10):
        return None, 4
    version = s[at + 2]
    if version not in (1, 2):
        return None, 2
    if (length, version) not in ((10, 1), (4, 2)):
        return None, 4
    if version == 1:
        text = s[at + 3:at + 12]
        if any(b not in b'F012' for b in text):
            return None, 11
        return text.decode(), 12
    bits = int.from_bytes(s[at + 3:at + 6], 'big')
    if bits >> 18:
        return None, 14
    return ''.join('F012'[bits >> (16 - 2 * i) & 3] for i in range(9)), 6


def judge(s):
    """All reports' letters, and None or the number and the offset of the first refusal. No bytes: the file can't be opened."""
    if s is None:
        return [], (23, 0)
    at, reports = 0, []
    while at < len(s):
        text, n = letters_of(s, at)
        if text is None:
            return reports, (n, at)
        reports.append(text)
        at += n
    return reports, None


def changed(old, new):
    """The bytes printed."""
    a, bad = judge(old)
    if bad:
        return b'refused old %d at %d\n' % bad
    b, bad = judge(new)
    if bad:
        return b'refused new %d at %d\n' % bad
    lines = []
    for n in range(max(len(a), len(b))):
        if n >= len(b):
            lines.append(f'only in old {n + 1}')
        elif n >= len(a):
            lines.append(f'only in new {n + 1}')
        else:
            lines += [f'{n + 1} {name} {x} {y}' for name, x, y in zip(NAMES, a[n], b[n]) if x != y]
    return ''.join(line + '\n' for line in lines).encode()


def long_report(text):
    return b'\x00\x0a\x01' + text.encode()


def short_report(text):
    bits = 0
    for letter in text:
        bits = bits << 2 | 'F012'.index(letter)
    return b'\x00\x04\x02' + bits.to_bytes(3, 'big')

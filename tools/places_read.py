"""Reads crates/*/src/**/*.rt for tools/places.py: functions, enums, structs and constants, each with its file and line.

Comments are blanked out (their text is kept beside, so that a place can be shown with the line above it). No compiler is asked:
brackets are counted.
"""
import re
from pathlib import Path
from types import SimpleNamespace as Item

ROOT = Path(__file__).resolve().parent.parent / "crates"
OPEN, CLOSE = "([{", ")]}"
TOKEN = re.compile(r"b?\"(?:\\.|[^\"\\])*\"|b?'(?:\\.|[^'\\])'|'\w+|\d\w*(?:\.\d\w*)?|\w+"
                   r"|::|->|=>|\.\.=|<=|>=|==|!=|&&|\|\||<<|>>|[-+*/%^&|]=|\S")


def blanked(text):
    """The text without comments: each is spaces, so that places in it stay."""
    out = list(text)
    for m in re.finditer(r"b?\"(?:\\.|[^\"\\])*\"|b?'(?:\\.|[^'\\])'|//[^\n]*", text):
        if m.group().startswith("//"):
            out[m.start():m.end()] = " " * (m.end() - m.start())
    return "".join(out)


def closing(text, i):
    """The place of the bracket that closes the one at i. `<` counts where it stands at i."""
    pair = {"(": ")", "[": "]", "{": "}", "<": ">"}[text[i]]
    depth, j = 0, i
    while j < len(text):
        if text[j] == text[i]:
            depth += 1
        elif text[j] == pair and text[j - 1:j + 1] != "->":
            depth -= 1
            if depth == 0:
                return j
        j += 1
    return len(text) - 1


def split(text, sep=","):
    """The parts of a text at a separator that stands in no bracket, without empty ones."""
    parts, depth, last = [], 0, 0
    for i, c in enumerate(text):
        if c in OPEN or c == "<" and text[i + 1:i + 2] not in (" ", "="):
            depth += 1
        elif c in CLOSE or c == ">" and text[i - 1] not in " -=":
            depth -= 1
        elif c == sep and depth == 0:
            parts.append(text[last:i])
            last = i + 1
    return [p.strip() for p in parts + [text[last:]] if p.strip()]


def tokens(text):
    return TOKEN.findall(text)


def squeezed(text):
    return " ".join(text.split())


def functions(path, text):
    for m in re.finditer(r"\bfn (\w+)", text):
        i = m.end()
        if text[i:i + 1] == "<":
            i = closing(text, i) + 1
        if text[i:i + 1] != "(":
            continue
        j = closing(text, i)
        params = []
        for p in split(text[i + 1:j]):
            name, _, kind = p.partition(":")
            params.append((name.replace("mut ", "").strip(), squeezed(kind)))
        k = j + 1
        head = re.compile(r"\s*(requires|ensures)\b\s*(\w+)?\s*|\s*->\s*((?:\[[^\]]*\]|[^{;])*?)(?=\s*(?:\{|\brequires\b|\bensures\b|;))")
        result, clauses = "", []
        while True:
            h = head.match(text, k)
            if not h:
                break
            if h.group(1):
                b = text.index("{", h.end(1))
                e = closing(text, b)
                clauses.append((h.group(1), squeezed(text[b + 1:e])))
                k = e + 1
            else:
                result = squeezed(h.group(3))
                k = h.end()
        b = re.compile(r"\s*(where[^{;]*)?").match(text, k).end()
        if text[b:b + 1] != "{":
            continue
        e = closing(text, b)
        above = re.findall(r"(?m)^[a-z}#][^\n]*", text[:m.start()])
        own = text[text.rfind("\n", 0, m.start()) + 1:m.start()].startswith(" ") and [x for x in above if x.startswith("impl")]
        yield Item(sort="fn", of_trait=bool(own) and " for " in own[-1], name=m.group(1), params=params, result=result, clauses=clauses, body=text[b + 1:e], file=path,
                   line=text.count("\n", 0, m.start()) + 1, body_line=text.count("\n", 0, b) + 1)


def types(path, text):
    for m in re.finditer(r"\b(enum|struct) (\w+)(<[^>{(]*>)?[^{;(]*\{", text):
        b = m.end() - 1
        inner = re.sub(r"#\[[^\]]*\]", "", text[b + 1:closing(text, b)])
        parts = [squeezed(re.sub(r"\bpub(\(crate\))?\s+", "", p)) for p in split(inner)]
        item = Item(sort=m.group(1), name=m.group(2), line=text.count("\n", 0, m.start()) + 1, file=path)
        if item.sort == "enum":
            item.variants = [(re.match(r"\w+", p).group(), p[re.match(r"\w+", p).end():].strip()) for p in parts]
        else:
            item.fields = [tuple(x.strip() for x in p.split(":", 1)) for p in parts if ":" in p]
        yield item


def read(skip=()):
    """All files, as (path, plain text, text without comments), and all items."""
    files, items = [], []
    for path in sorted(ROOT.glob("*/src/**/*.rt")):
        name = str(path.relative_to(ROOT))
        if name.split("/")[0] in skip:
            continue
        plain = path.read_text(encoding="utf-8")
        bare = blanked(plain)
        # Ghost imports and attributes say nothing of the code.
        bare = re.sub(r"(?m)^\s*(ghost use\b[^;]*;|use\b[^;]*;|#!?\[[^\]\n]*\]$)", lambda x: re.sub(r"[^\n]", " ", x.group()), bare)
        files.append((name, plain, bare))
        items += list(functions(name, bare)) + list(types(name, bare))
    return files, items

#!/usr/bin/env python3
"""Turns the names that respell.py turned by half, or left. Run once, at the top, right after it.

A name is turned where no dash in it joins two names (`text_of-cells`, say, stays: a law of `text_of` and `cells`), and
a lemma that has the name of a word, or would have but for a bare `_`, ends in `_lem`. Comments name them too; strings,
inputs and outputs have none of them. Prints the files that it changed, and stops where a crate has the new name already.
"""
import os
import re
import sys

EVERYWHERE = {
    "corners_in-any_order": "corners_in_any_order",
    "ends_in-any_order": "ends_in_any_order",
    "far-before_equal": "far_before_equal",
    "of_a-matrix": "of_a_matrix",
    "of_a-record": "of_a_record",
    "of_a-run": "of_a_run",
    "refused-by_the_same_step": "refused_by_the_same_step",
    "region-named_told": "region_named_told",
    "run-ends_reordered": "run_ends_reordered",
    "said-into_other": "said_into_other",
    "short-read_written": "short_read_written",
    "star-nowhere_by": "star_nowhere_by",
    "zero_is-one_byte": "zero_is_one_byte",
    "twoAt": "two_at",
    "spot_no_": "spot_no_lem",
    "is_same_": "is_same_lem",
    "left_out_": "left_out_lem",
    "below_word_": "below_word_lem",
    "size_word_": "size_word_lem",
}
# a lemma with the name of a word in another file
IN_FILE = {"crates/bundles/proofs/LawsColumns.antt": {"word_at": "word_at_lem"}}


def texts():
    for top in ("crates", "docs", "mutants", "README.md", "CONTRIBUTING.md"):
        if os.path.isfile(top):
            yield top
        for folder, dirs, files in os.walk(top):
            dirs[:] = sorted(d for d in dirs if d not in ("out", ".git"))
            for f in sorted(files):
                if f.endswith((".antt", ".rt", ".edit", ".md")) or f == "list.txt":
                    yield os.path.join(folder, f)


def turned(body, table):
    for old, new in table.items():
        body = re.sub(r"(?<![\w'-])" + re.escape(old) + r"(?![\w'-])", new, body)
    return body


def main():
    bodies = {}
    for path in texts():
        with open(path, encoding="utf-8") as f:
            bodies[path] = f.read()
    for old, new in EVERYWHERE.items():
        for crate in {path.split("/")[1] for path in bodies if path.endswith(".antt") and old in bodies[path]}:
            for path, body in bodies.items():
                if path.startswith(f"crates/{crate}/") and turned(body, {new: ""}) != body:
                    sys.exit(f"respell_rest: {path} has {new} already")
    for path, body in bodies.items():
        new = turned(body, EVERYWHERE | IN_FILE.get(path, {}))
        if new != body:
            with open(path, "w", encoding="utf-8") as f:
                f.write(new)
            print(path)


main()

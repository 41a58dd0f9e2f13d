#!/usr/bin/env python3
"""Brings the repository's own antt names to the spelling of today's Rattle, in place.

usage: python3 tools/spelling/respell.py [--list]      at the top of the repository, once, after the kit's port/port.py

Definitions, lemmas, fields and constructors of specs/ and of the files of lemmas in proofs/ are in snake case: `partEnd` is `part_end`. A dash stays
where it joins two names (CONTRACT_STYLE.md, "Names"), and is `_` elsewhere. Types, facts and modules keep their capitals. Names of src/ keep their
spelling: where a new name would be that of a field, a parameter, a constant or a local of src/, or of another definition, TAKEN says what it is called
instead. With --list nothing is written, and the names are printed, with those that fall together.
"""

import os
import re
import sys

# new names that would fall together with another, and what they are called
TAKEN = {
    # fields of src/
    "bucketCount": "bucket_count_of",
    "compileUnitCount": "compile_unit_count_of",
    "localTypeUnitCount": "local_type_unit_count_of",
    "foreignTypeUnitCount": "foreign_type_unit_count_of",
    "nameCount": "name_count_of",
    "compileUnit": "nth_compile_unit",
    "typeUnit": "nth_type_unit",
    "dieOffset": "die_offset_of",
    "typeHash": "type_hash_of",
    # lemmas that would have the names of their functions
    "bucket-step": "bucket_step_lem",
    "bucket-steps-of-a": "bucket_steps_of_a_lem",
    "byte-by-byte": "byte_by_byte_lem",
    "bytes-of": "bytes_of_lem",
    "digits_of": "digits_of_lem",
    "entry-step": "entry_step_lem",
    "examined-from": "examined_from_lem",
    "hash-of-a": "hash_of_a_lem",
    "hash-step": "hash_step_lem",
    "hash-steps-of-a": "hash_steps_of_a_lem",
    "leb128-step": "leb128_step_lem",
    "query-of-a": "query_of_a_lem",
    "query-of-two": "query_of_two_lem",
    "series-of-a": "series_of_a_lem",
    "start_left": "start_left_lem",
    "step_by": "step_by_lem",
    "steps-of-a": "steps_of_a_lem",
    "str-bytes": "str_bytes_lem",
    "two_bytes": "two_bytes_lem",
    "whole-step": "whole_step_lem",
    "one_more": "one_more_lem",
}

ID = r"[A-Za-z0-9_'\u2080-\u2089\u2115\u2264\u2261<>*+?!\u21ba\u2032-]"


def texts(*ends):
    for folder, dirs, files in os.walk("crates"):
        dirs[:] = sorted(d for d in dirs if d != "out")
        for f in sorted(files):
            if f.endswith(ends):
                yield os.path.join(folder, f)


def lemmas(path):
    """Whether the file holds definitions of specs/ or lemmas, and not a function's proof."""
    part = path.split("/")
    return part[2] == "specs" or (part[2] == "proofs" and len(part) == 4)


SIGNED = re.compile(r"(?m)^[ ]*(?:(?:abbrev|unfoldable|pub|record|data|deriving)\s+)*(" + ID + r"+)\s*(?:\([^\n]*\)|\{[^\n]*\})?\s*:(?!:)")
WORD = re.compile(r"(?<!" + ID + r")(?!◌)([A-Za-z]" + ID + r"*)(?!" + ID + r")")


def strip(text):
    return re.sub(r"--[^\n]*", "", text)


def defined():
    found = {}
    for path in texts(".antt"):
        if lemmas(path):
            with open(path, encoding="utf-8") as f:
                for m in SIGNED.finditer(strip(f.read())):
                    found.setdefault(m[1], set()).add(path)
    return found


def fields_of_source():
    """The fields of src/: a definition of such a name would be meant in their place."""
    found = set()
    for path in texts(".rt"):
        with open(path, encoding="utf-8") as f:
            code = re.sub(r"//.*", "", f.read())
        for m in re.finditer(r"\b(?:struct|enum)\s+\w+[^{;]*\{(.*?)\n\}", code, re.S):
            found.update(re.findall(r"(?m)^\s+(?:pub\s+)?(\w+)\s*:", m[1]))
    return found


def snake(part):
    part = re.sub(r"([a-z0-9])([A-Z])", r"\1_\2", part)
    return re.sub(r"([A-Z])([A-Z][a-z])", r"\1_\2", part).lower()


def respelled(name, known):
    pieces = name.split("-")
    pieces = [p if p[:1].isupper() else snake(p) for p in pieces]
    if len(pieces) == 1:
        return pieces[0]
    whole = all(p in known or p[:1].isupper() for p in pieces)
    if whole:
        return "-".join(pieces)
    # a capital stays a fact's, and a dash beside it joins it
    out = pieces[0]
    for a, b in zip(pieces, pieces[1:]):
        out += ("-" if a[:1].isupper() or b[:1].isupper() else "_") + b
    return out


def pages():
    yield "README.md"
    for f in sorted(os.listdir("docs")):
        if f.endswith(".md"):
            yield os.path.join("docs", f)


def line_of(path, line, turned):
    """The line with the names turned: in antt's terms all of them; in comments, pages and code those between backticks, and those with a capital inside."""

    def all_of(text):
        return WORD.sub(lambda m: turned.get(m[1], m[1]), text)

    def some_of(text):
        text = re.sub(r"`[^`]*`", lambda m: all_of(m[0]), text)
        return WORD.sub(lambda m: turned.get(m[1], m[1]) if re.search(r"[A-Z]", m[1]) else m[1], text)

    if path.endswith(".antt"):
        term, dash, comment = line.partition("--")
        return all_of(term) + dash + some_of(comment)
    if path.endswith(".walk"):
        return all_of(line)
    return some_of(line)


def main(argv):
    names = defined()
    known = {snake(n) if not n[:1].isupper() else n for n in names if "-" not in n} | {"cond", "min", "length", "slice", "take", "drop", "append", "map", "filter", "reverse", "replicate", "get_or"}
    turned = {}
    for n in sorted(names):
        if n[:1].isupper() or not (n in TAKEN or re.search(r"[A-Z-]", n)):
            continue
        new = TAKEN.get(n) or respelled(n, known)
        if new != n:
            turned[n] = new
    back = {}
    for n in list(names):
        back.setdefault(turned.get(n, n), set()).add(n)
    bad = 0
    for new, olds in sorted(back.items()):
        if len(olds) > 1:
            print(f"fall together: {new}: {' '.join(sorted(olds))}")
            bad += 1
    fields = fields_of_source()
    for old, new in sorted(turned.items()):
        if new in fields:
            print(f"a field of src/: {new} (from {old})")
            bad += 1
    if "--list" in argv:
        for old, new in sorted(turned.items()):
            print(old, new)
        return 0
    if bad:
        return 1
    for path in [*texts(".rt", ".antt", ".edit", ".walk"), *pages()]:
        with open(path, encoding="utf-8") as f:
            old = f.read()
        new = "".join(line_of(path, line, turned) for line in old.splitlines(keepends=True))
        if new != old:
            with open(path, "w", encoding="utf-8") as f:
                f.write(new)
    return 0


if __name__ == "__main__":
    raise SystemExit(main(sys.argv[1:]))

#!/usr/bin/env python3
"""Compares what llvm-dwarfdump says of the sections of this folder with gimli's answers, as they stand in the replay.

    python3 crosscheck.py

It needs llvm-objcopy-19 and llvm-dwarfdump-19. The answers are those of crates/oracle_replay/stdout, which the program oracle_replay
writes too, to the sections of crates/oracle_replay/stdin that have the same bytes. Compared are the headers, units, declarations, the names
of each bucket with their hashes, the strings, the entries of each name and their facts. It prints how much was compared, and each
difference; a difference makes it fail.
"""

import collections
import pathlib
import re
import subprocess
import sys
import tempfile

HERE = pathlib.Path(__file__).resolve().parent
SECTIONS = HERE / "../../crates/oracle_replay/stdin"
ANSWERS = HERE / "../../crates/oracle_replay/stdout"

TAGS = {
    "class_type": 0x02, "enumeration_type": 0x04, "imported_declaration": 0x08, "structure_type": 0x13, "typedef": 0x16,
    "union_type": 0x17, "inlined_subroutine": 0x1D, "base_type": 0x24, "subprogram": 0x2E, "variable": 0x34, "namespace": 0x39,
}
INDEXES = {
    "compile_unit": 1, "type_unit": 2, "die_offset": 3, "parent": 4, "type_hash": 5, "GNU_internal": 0x2000, "GNU_external": 0x2001,
}
FORMS = {
    "data2": 0x05, "data4": 0x06, "data8": 0x07, "data1": 0x0B, "flag": 0x0C, "udata": 0x0F, "ref1": 0x11, "ref2": 0x12, "ref4": 0x13,
    "ref8": 0x14, "ref_udata": 0x15, "flag_present": 0x19,
}


def dump(name, order):
    """The text of llvm-dwarfdump for a section and its strings."""
    target = {"little": "elf64-x86-64", "big": "elf64-powerpc"}[order]
    with tempfile.TemporaryDirectory() as folder:
        file = pathlib.Path(folder) / "sections.o"
        objcopy = ["llvm-objcopy-19", "-I", "binary", "-O", target, "--rename-section", ".data=.debug_names"]
        subprocess.run(objcopy + ["--add-section", f".debug_str={HERE / name}.str", f"{HERE / name}.names", file], check=True)
        run = subprocess.run(["llvm-dwarfdump-19", "--debug-names", file], check=True, capture_output=True)
        if run.stderr:
            sys.exit(f"{name}: llvm-dwarfdump: {run.stderr.decode()}")
        return run.stdout.decode()


class Index:
    """An index as llvm-dwarfdump shows it."""

    def __init__(self, offset):
        self.offset = offset
        self.header = {}
        self.units = {"CU": [], "LocalTU": [], "ForeignTU": []}
        self.declarations = {}  # code to tag and pairs
        self.buckets = []  # names of each
        self.names = {}  # number from 0 on to hash, offset, text, entries


def parse(text):
    """The indexes of a dump."""
    indexes = []
    declaration = entry = None
    for line in text.split("\n"):
        words = line.strip()
        if found := re.fullmatch(r"Name Index @ (0x[0-9a-f]+) \{", words):
            indexes.append(Index(int(found[1], 16)))
        elif found := re.fullmatch(r"(CU|LocalTU|ForeignTU)\[\d+\]: (0x[0-9a-f]+)", words):
            indexes[-1].units[found[1]].append(int(found[2], 16))
        elif found := re.fullmatch(r"Abbreviation (0x[0-9a-f]+) \{", words):
            declaration, entry = [None], None
            indexes[-1].declarations[int(found[1], 16)] = declaration
        elif re.fullmatch(r"Bucket \d+ \[", words):
            indexes[-1].buckets.append([])
        elif found := re.fullmatch(r"Name (\d+) \{", words):
            name = int(found[1]) - 1
            indexes[-1].buckets[-1].append(name)
            indexes[-1].names[name] = {"entries": []}
        elif found := re.fullmatch(r"Hash: (0x[0-9A-F]+)", words):
            indexes[-1].names[name]["hash"] = int(found[1], 16)
        elif found := re.fullmatch(r'String: (0x[0-9a-f]+) "(.*)"', words):
            indexes[-1].names[name].update(offset=int(found[1], 16), text=found[2].encode())
        elif found := re.fullmatch(r"Entry @ (0x[0-9a-f]+) \{", words):
            declaration, entry = None, {"place": int(found[1], 16)}
            indexes[-1].names[name]["entries"].append(entry)
        elif found := re.fullmatch(r"Abbrev: (0x[0-9a-f]+)", words):
            entry["code"] = int(found[1], 16)
        elif found := re.fullmatch(r"Tag: DW_TAG_(\w+)", words):
            if entry is None:
                declaration[0] = TAGS[found[1]]
            else:
                entry["tag"] = TAGS[found[1]]
        elif found := re.fullmatch(r"DW_IDX_(\w+): DW_FORM_(\w+)", words):
            declaration.append((INDEXES[found[1]], FORMS[found[2]]))
        elif found := re.fullmatch(r"DW_IDX_(\w+): (.*)", words):
            entry[found[1]] = found[2]
        elif indexes and (found := re.fullmatch(r"([A-Za-z ]+): (.*)", words)):
            indexes[-1].header[found[1]] = found[2]
    return indexes


def number(index, field):
    return int(index.header[field], 0)


def expected(index, names, strings):
    """What the lines of the replay must say of an index: from the call and its argument to the answer."""
    lines = {}
    word = {"DWARF32": 4, "DWARF64": 8}[index.header["Format"]]
    compile_units, local, foreign = index.units.values()
    counts = [number(index, field + " count") for field in ("CU", "Local TU", "Foreign TU", "Bucket", "Name")]
    same = [len(compile_units), len(local), len(foreign), len(index.buckets), len(index.names)]
    if counts != same:
        sys.exit(f"the dump has other counts than its header: {counts} {same}")
    augmentation = index.header["Augmentation"][1:-1].encode()
    place = index.offset + (36 if word == 4 else 44)
    if names[place : place + len(augmentation)] != augmentation:
        sys.exit("the augmentation stands elsewhere")
    size = number(index, "Abbreviations table size")
    lines["header"] = [index.offset, number(index, "Length"), word, number(index, "Version"), *counts, size, place, len(augmentation)]
    for call, units in (("compile_unit", compile_units), ("local_type_unit", local), ("foreign_type_unit", foreign)):
        for unit, value in enumerate(units):
            lines[call, unit] = [value]
    types = [["local", value] for value in local] + [["foreign", value] for value in foreign]
    for unit, value in enumerate(types):
        lines["type_unit", unit] = value
    lines["default_compile_unit"] = [compile_units[0] if len(compile_units) == 1 else "-"]
    for code in (1, 2, 3, 127, 128, 300):
        tag, *pairs = index.declarations.get(code, ["-"])
        lines["abbreviation", code] = [tag] + [f"{name}:{form}" for name, form in pairs]
    for bucket, run in enumerate(index.buckets):
        lines["find_by_bucket", bucket] = [run[0] if run else "-"]
        lines["run", bucket] = [[name, index.names[name]["hash"]] for name in run]
    lines["table"] = ["complete"]
    for name, facts in index.names.items():
        lines["string_offset", name] = [facts["offset"]]
        end = strings.index(b"\0", facts["offset"])
        if strings[facts["offset"] : end] != facts["text"]:
            sys.exit(f"name {name} has another text in the dump")
        lines["string", name] = [facts["offset"], len(facts["text"])]
        first = facts["entries"][0]["place"]
        lines["name_entries", name] = [first]
        lines["series", name] = [[entry["place"], entry["code"], entry["tag"]] for entry in facts["entries"]]
        for entry in facts["entries"]:
            lines.update(entry_facts(entry, compile_units, types))
    return lines


def entry_facts(entry, compile_units, types):
    """The facts of an entry, by its place."""

    def unit(attribute, units):
        if attribute not in entry:
            return ["-"]
        which = int(entry[attribute], 0)
        return units[which] if which < len(units) else ["refused", 1]

    parent = entry.get("parent")
    if parent is None:
        parent = ["-"]
    elif parent == "<parent not indexed>":
        parent = ["none"]
    else:
        parent = ["entry", int(re.fullmatch(r"Entry @ (0x[0-9a-f]+)", parent)[1], 16)]
    place = entry["place"]
    return {
        ("entry_compile_unit", place): unit("compile_unit", [[value] for value in compile_units]),
        ("entry_type_unit", place): unit("type_unit", types),
        ("die_offset", place): [int(entry["die_offset"], 0)] if "die_offset" in entry else ["-"],
        ("parent", place): parent,
        ("type_hash", place): [int(entry["type_hash"], 0)] if "type_hash" in entry else ["-"],
    }


def value(word):
    return int(word) if word.isdigit() else word


FACTS = ("entry_compile_unit", "entry_type_unit", "die_offset", "parent", "type_hash")
WITH_ARGUMENT = (
    "compile_unit", "local_type_unit", "foreign_type_unit", "type_unit", "string_offset", "string", "abbreviation", "find_by_bucket",
    "name_entries", *FACTS,
)


def answered(lines):
    """The same from the lines of a section: a list with one for each index."""
    indexes = []
    for line in lines:
        call, *words = line.split(" ")
        words = [value(word) for word in words]
        if call == "header":
            indexes.append({"header": words})
            answers = indexes[-1]
        elif call in ("default_compile_unit", "table"):
            answers[call] = words
        elif call in WITH_ARGUMENT:
            argument, *words = words
            answers[call, argument] = words
            if call == "find_by_bucket":
                run = answers["run", argument] = []
                ended = False
            elif call == "name_entries":
                series = answers["series", argument] = []
        elif call == "next_in_bucket":
            ended |= words == ["end"]
            if not ended:
                run.append(words)
        elif call == "next" and words != ["end"]:
            series.append(words)
    return indexes


def places(answers):
    """Offsets in the pool become places in the section, as llvm-dwarfdump has them."""
    series = [(call, words) for call, words in answers.items() if call[0] == "series" and words]
    pool = answers["name_entries", series[0][0][1]][0] - series[0][1][0][0]
    moved = {}
    for call, words in answers.items():
        if call[0] == "series":
            words = [[pool + offset, code, tag] for offset, code, tag in words]
        elif call[0] in FACTS:
            call = (call[0], pool + call[1])
            if words[0] == "entry":
                words = ["entry", pool + words[1]]
            elif words[0] == "refused":
                words = words[:2]
        moved[call] = words
    return moved


def replay():
    """The answers to each section of the replay, by its byte order and bytes. tools/oracle/README.md says what the file of sections is."""
    file = SECTIONS.read_bytes()
    texts = re.split(r"^section \d+\n", ANSWERS.read_text().split("\nsections ")[0], flags=re.M)[1:]
    answers, at = {}, 2
    for text in texts:
        names, strings = (int.from_bytes(file[at + place : at + place + 2], "little") for place in (1, 3))
        middle = at + 5 + names
        answers[file[at], file[at + 5 : middle], file[middle : middle + strings]] = text
        at = middle + strings
    if at != len(file):
        sys.exit("the replay has other sections than answers")
    return answers


def main():
    cases = [line.split(" ") for line in (HERE / "sections.txt").read_text().splitlines()]
    sections = replay()
    compared = collections.Counter()
    different = 0
    for name, order in cases:
        names, strings = (HERE / f"{name}.names").read_bytes(), (HERE / f"{name}.str").read_bytes()
        text = sections.get((["little", "big"].index(order), names, strings))
        if text is None:
            sys.exit(f"{name} is not in the replay")
        dumped, replayed = parse(dump(name, order)), answered(text.splitlines())
        if len(dumped) != len(replayed):
            sys.exit(f"{name}: {len(dumped)} indexes in the dump, {len(replayed)} in the replay")
        for index, answers in zip(dumped, replayed):
            answers = places(answers)
            for call, want in expected(index, names, strings).items():
                kind = call if isinstance(call, str) else call[0]
                compared[kind] += 1
                if want[:1] == ["refused"]:
                    compared[f"{kind}, past the list and refused"] += 1
                if answers.get(call) != want:
                    different += 1
                    print(f"{name}: index {index.offset}: {call}: llvm-dwarfdump {want}, gimli {answers.get(call)}")
    for kind, count in compared.items():
        print(f"{kind:44} {count:5}")
    print(f"{len(cases)} sections, {different} differences")
    sys.exit(different > 0)


if __name__ == "__main__":
    main()

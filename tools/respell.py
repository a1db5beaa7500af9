#!/usr/bin/env python3
"""Respells the repository's own definitions and lemmas as today's Rattle names them: words in snake case.

Run once, at the top of the repository, right behind /opt/rattle/port/port.py (docs/PORT.md). Functions, types and
fields of src/ keep their names: none of them is written with a small first letter and a capital behind it.
"""
import pathlib
import re
import subprocess

# names of the kit's own, not of the repository
KEPT = {"noText", "ownVal"}
# a lemma or a local name that would fall together with a definition: it goes back to the dash that it had
DASHED = """all_left all_named all_placed at_first bound_by came_from first_part fold_on given_by goes_on has_both has_part
in_order is_digit kept_pair no_step pair_fits pair_found params_in parts_from row_differ row_fits row_number rows_apart
same_at split_steps step_in step_line step_words too_many""".split()
# of these the fields of a record of laws, which stand behind a dot
DASHED_FIELDS = {"all_placed", "first_part", "split_steps"}

CAMEL = re.compile(r"(?<![\w'])([a-z][a-z0-9]*[A-Z]\w*)")


def snake(name):
    return name if name in KEPT else re.sub(r"([a-z0-9])([A-Z])", r"\1_\2", name).lower()


def respelled(path, text):
    if path.suffix == ".antt":
        # a field of records of laws, beside the definition that will be `is_state`; not the call of that name
        text = re.sub(r"(?<![\w'-])(?<!before\.)(?<!state\.)is_state(?![\w'-])", "state_is", text)
        for name in DASHED:
            dot = "" if name in DASHED_FIELDS else "."
            text = re.sub(rf"(?<![\w'{dot}-]){name}(?![\w'.-])", name.replace("_", "-"), text)
    return CAMEL.sub(lambda found: snake(found.group(1)), text)


def main():
    names = subprocess.run(["git", "ls-files", "crates"], check=True, capture_output=True, text=True).stdout.split()
    for path in map(pathlib.Path, names):
        if path.suffix not in (".antt", ".rt"):
            continue
        text = path.read_text()
        new = respelled(path, text)
        if new != text:
            path.write_text(new)


main()

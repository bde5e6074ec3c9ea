#!/usr/bin/env python3
"""Checks, by what `rt ci` said, that every must-fail edit was refused by a fact.

usage: tests/edits.py FILE, with what `rt ci` wrote on standard output

`rt ci` has a line for each edit, with the first error that tells of more than
names: where all errors are of names that the edit took away from a proof, or
where the prover only came to a limit of its own, the line says so. Such a
refusal shows nothing about the edit; nor does one without an error, nor a bad
edit, which the prover never saw. Prints each such edit, and each that has no
line; ends with 1 if there is one.
"""

import re
import sys
from pathlib import Path

ROOT = Path(__file__).resolve().parent.parent
LINE = re.compile(r"^rt: must-fail (\w+)/(\S+)\.edit: (.*)$", re.M)
# An error of a place, or a note, at a function that needs no proof file: what it ensures or needs is not proved.
REFUSED = re.compile(r"refused, as it must be: (?:\S+:\d+:\d+: error: |note: \S+:\d+:\d+: it is not proved that )(.+)")
NO_FACT = re.compile(r"not in scope|has no field|has no `|was not admitted|ran out of")


def fault(said):
    """Why what was said of an edit shows nothing; none if it shows a fact."""
    found = REFUSED.fullmatch(said)
    return None if found and not NO_FACT.search(found.group(1)) else said


def main(file):
    lines = LINE.findall(Path(file).read_text(encoding="utf-8"))
    said = {(crate, name): text for crate, name, text in lines}
    edits = sorted(ROOT.glob("crates/*/must-fail/*.edit"))
    faults = [(edit, fault(said.get((edit.parent.parent.name, edit.stem), "no line"))) for edit in edits]
    for edit, why in faults:
        if why:
            print(f"{edit.relative_to(ROOT)}: {why}")
    return 1 if not edits or any(why for _, why in faults) else 0


if __name__ == "__main__":
    sys.exit(main(*sys.argv[1:]))

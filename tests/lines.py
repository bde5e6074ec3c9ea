#!/usr/bin/env python3
"""Proofs and specifications that a stranger can edit: no line over 160 characters, no place reached by more than eight `.before`."""
import pathlib
import re
import sys

root = pathlib.Path(__file__).resolve().parent.parent
faults = []
for path in sorted(root.glob("crates/*/*/**/*.antt")):
    name = path.relative_to(root)
    if name.parts[2] == "out":
        continue
    text = path.read_text()
    for number, line in enumerate(text.split("\n"), 1):
        if len(line) > 160:
            faults.append(f"{name}:{number}: {len(line)} characters")
    for chain in re.finditer(r"(?:\.before\s*){9,}", text):
        number = text.count("\n", 0, chain.start()) + 1
        faults.append(f"{name}:{number}: a chain of {chain.group().count('.before')} steps of .before")
print("\n".join(faults))
sys.exit(1 if faults else 0)

#!/usr/bin/env python3
"""Checks what docs/PROMISES.md, docs/DECISIONS.md and README.md cite.

PROMISES.md: every table row has a citation of one of the forms that its top
describes, every name cited exists, and every must-fail file is cited.
All three: every public name and every path of the repository exists.
Prints each fault as FILE:LINE: MESSAGE; ends with 1 if there is one.
"""

import re
import sys
from functools import cache
from pathlib import Path

ROOT = Path(__file__).resolve().parent.parent
CRATES = ROOT / "crates"
NAME = r"[\w']+"
PATH = re.compile(r"(?<![\w/])(?:crates|tests|docs|hosts|bench|\.ci)/[\w./*-]*[\w*/]")
MADE = re.compile(r"crates/[a-z]+/out/")
FILE = re.compile(r"[\w.*-]+(?:/[\w.*-]+)*/[\w*-]+\.[a-z]+")
CODE = re.compile(r"([a-z]+)((?:::\w+)+)(?: (by|ensures) (" + NAME + r"))?")


@cache
def text_of(path):
    """The file's text, empty if there is none."""
    return path.read_text(encoding="utf-8") if path.is_file() else ""


def declared(text, name, before=r"(?:(?:pub|abbrev|unfoldable|data|record)\s+)*"):
    """A declaration of the name: `NAME : TYPE`, after words as in `before`."""
    return re.search(rf"^ *{before}{re.escape(name)}\s[^=\n]*:", text, re.M)


def definition_fault(crate, file, name):
    """`CRATE/FILE: NAME` or `CRATE/FILE: RECORD.FIELD`."""
    text = text_of(CRATES / crate / "specs" / f"{file}.antt")
    record, _, field = name.rpartition(".")
    if record:
        block = re.search(rf"^pub record {re.escape(record)}\s.*\n((?:[ \n].*\n?)*)", text, re.M)
        text = block.group(1) if block else ""
    return None if declared(text, field) else f"no definition {name} in crates/{crate}/specs/{file}.antt"


def law_fault(crate, file, name):
    """`law CRATE/FILE: NAME`."""
    text = text_of(CRATES / crate / "proofs" / f"{file}.antt")
    return None if declared(text, name, r"pub\s+") else f"no law {name} in crates/{crate}/proofs/{file}.antt"


def methods(text, name):
    """What the `impl` blocks of a type hold, moved to the left as functions outside of them stand."""
    blocks = re.findall(rf"^impl\b[^{{\n]*\b{name}\b[^{{\n]*\{{\n(.*?)^\}}", text, re.M | re.S)
    return re.sub(r"^    ", "", "\n".join(blocks), flags=re.M)


def contract(crate, names):
    """The head of a public function or method, with its contract, up to the body's brace; none if there is no such one."""
    *modules, name = names
    owner = modules.pop() if modules and modules[-1][0].isupper() else None
    if len(modules) > 1:
        return None
    files = [f"{modules[0]}.rt"] if modules else ["lib.rt", "main.rt"]
    for file in files:
        text = text_of(CRATES / crate / "src" / file)
        text = methods(text, owner) if owner else text
        found = re.search(rf'^(?:pub (?:extern "C" )?fn|fn(?= main\b)) {name}\b', text, re.M)
        # a clause's braces stand further in than the body's
        body = found and re.compile(r"^(?:\S.*)?\{$|^\S.*\{.*\}$", re.M).search(text, found.start())
        if body:
            return text[found.start() : body.end()]
    return None


def code_fault(crate, names, word=None, cited=None):
    """`CRATE::NAME`, `CRATE::MODULE::NAME` or a method of a type there, and what its contract is said to have."""
    whole = "::".join([crate, *names])
    source = CRATES / crate / "src"
    head = contract(crate, names)
    if word:
        wanted = {"by": rf"[ (]{re.escape(cited)}[ )]", "ensures": rf"^ *ensures {re.escape(cited)} \{{"}[word]
        ensured = re.search(r"^ *ensures\b.*", head or "", re.M | re.S)
        clauses = ensured.group(0) if ensured else ""
        if word == "by":
            clauses = re.sub(r"^( *ensures) \w+ \{", r"\1 {", clauses, flags=re.M)
        return None if re.search(wanted, clauses, re.M) else f"no contract of {whole} {word} {cited}"
    file = source / (f"{names[0]}.rt" if len(names) == 2 else "lib.rt")
    a_type = re.search(rf"^pub (?:struct|enum|const|type) {names[-1]}\b", text_of(file), re.M)
    a_module = len(names) == 1 and (source / f"{names[0]}.rt").is_file()
    return None if head or a_type or a_module else f"no public {whole}"


def requires_fault(name):
    """`requires nothing: CRATE::NAME`: the function is there and has no precondition."""
    crate, *names = name.split("::")
    head = contract(crate, names) if names else None
    if head is None:
        return f"no public function {name}"
    return f"{name} requires something" if re.search(r"^ *requires\b", head, re.M) else None


def edit_fault(crate, name):
    """`must-fail CRATE: NAME`."""
    path = f"crates/{crate}/must-fail/{name}.edit"
    return None if (ROOT / path).is_file() else f"no {path}"


def test_fault(path, name):
    """`tests/FILE: NAME`: a test function in the file."""
    found = re.search(rf"^#\[test\]\nfn {name}\(\)", text_of(ROOT / path), re.M)
    return None if found else f"no test {name} in {path}"


def citation(token):
    """The faults of a citation; none if the token has none of the forms."""
    if found := re.fullmatch(r"(tests/[\w/]+\.rs): (\w+)", token):
        return [test_fault(*found.groups())]
    if found := re.fullmatch(r"requires nothing: (.+)", token):
        return [requires_fault(name) for name in found.group(1).split(", ")]
    if found := re.fullmatch(r"must-fail ([a-z]+): (.+)", token):
        return [edit_fault(found.group(1), name) for name in found.group(2).split(", ")]
    if found := re.fullmatch(r"(law )?([a-z]+)/(\w+): (.+)", token):
        law, crate, file, names = found.groups()
        return [(law_fault if law else definition_fault)(crate, file, name) for name in names.split(", ")]
    if found := CODE.fullmatch(token):
        crate, names, word, cited = found.groups()
        return [code_fault(crate, names.split("::")[1:], word, cited)]
    return None


def tokens(line):
    """What stands in backticks."""
    return re.findall(r"`([^`]+)`", line)


def path_faults(line):
    """Paths of the repository that lead nowhere; what is built there is left out."""
    for path in sorted(set(PATH.findall(line)) | {token for token in tokens(line) if FILE.fullmatch(token)}):
        if not MADE.match(path) and not any(ROOT.glob(path.rstrip("/"))):
            yield f"no {path}"


def row_faults(line):
    """A row of a table cites something, all of it exists, and backticks hold nothing else."""
    found = [(token, citation(token)) for token in tokens(line)]
    for token, faults in found:
        if faults is None:
            yield f"not a citation of any form: {token}"
        else:
            yield from filter(None, faults)
    if not found:
        yield "a row without a citation"


def promises_faults(lines):
    """The rows of the tables, their two head lines left out, and the citations of other lines."""
    for number, line in enumerate(lines):
        is_head = line.startswith("|---") or (number + 1 < len(lines) and lines[number + 1].startswith("|---"))
        if line.startswith("|") and not is_head:
            faults = row_faults(line)
        else:
            faults = (fault for token in tokens(line) for fault in citation(token) or [] if fault)
        for fault in faults:
            yield number + 1, fault


def code_faults(line):
    """Public names outside PROMISES.md; a first word that is no crate is not one of ours."""
    for token in tokens(line):
        found = CODE.fullmatch(token)
        if found and (CRATES / found.group(1)).is_dir():
            fault = code_fault(found.group(1), found.group(2).split("::")[1:])
            if fault:
                yield fault


def uncited_edits(text):
    """Must-fail files that no citation names."""
    cited = set()
    for crate, names in re.findall(r"`must-fail ([a-z]+): ([^`]+)`", text):
        cited.update((crate, name) for name in names.split(", "))
    for path in sorted(CRATES.glob("*/must-fail/*.edit")):
        if (path.parent.parent.name, path.stem) not in cited:
            yield f"{path.relative_to(ROOT)} is not named"


def main():
    faults = []
    for name in ["docs/PROMISES.md", "docs/DECISIONS.md", "README.md"]:
        text = text_of(ROOT / name)
        lines = text.splitlines()
        if not lines:
            faults.append(f"{name}:1: no such file")
        if name == "docs/PROMISES.md":
            faults += [f"{name}:{number}: {fault}" for number, fault in promises_faults(lines)]
            faults += [f"{name}:{len(lines)}: {fault}" for fault in uncited_edits(text)]
        for number, line in enumerate(lines, 1):
            checks = [path_faults(line)] if name == "docs/PROMISES.md" else [path_faults(line), code_faults(line)]
            faults += [f"{name}:{number}: {fault}" for check in checks for fault in check]
    for fault in faults:
        print(fault)
    return 1 if faults else 0


if __name__ == "__main__":
    sys.exit(main())

#!/usr/bin/env python3
"""Brings the repository's own definitions and lemmas to snake case: a name of specs/ or of a lemma file in proofs/ that has a dash or a capital
inside is respelled in every .antt, .rt and .edit file, and names that the kit's own script respelled follow in the documents.

usage: python3 tools/respell.py          once, after /opt/rattle/port/port.py, at the top of the repository
       python3 tools/respell.py --docs   then the documents, by what the first run wrote to tools/respelled.txt
Names of src/, exported names, strings, inputs and outputs stay as they are. Types keep their capital.
"""
import collections
import os
import re
import sys

NAME = re.compile(r"(?<![A-Za-z0-9_'\-])[a-z][A-Za-z0-9_']*(?:-[A-Za-z0-9_']+)*(?![A-Za-z0-9_'])")
DECL = re.compile(r"^( *)(?:(?:abbrev|opaque|unfoldable|pub|instance)\s+)*(?:(?:record|data)\s+)?([^\s:(){},.=|;]+)(?:\s+[^=]*?)?\s*:(?:\s|$)")
WORDS = {"let", "use", "mod", "module", "open", "where", "in", "of"}
# Names in snake case already with which another one would fall together: what they are called instead, and in which files.
FALLEN = [
    ("from_bytes", "from_bytes_lem", r"\.antt$"),
    ("count_fits", "count_fits_lem", r"\.antt$"),
    ("mask_fits", "mask_fits_lem", r"rules/proofs/WellFormed\.antt$"),
    ("is_mapped", "is_mapped_lem", r"rules/proofs/Unmapped\.antt$"),
    ("has_room", "room_enough", r"rules/proofs/Calls\.antt$"),
]


def snake(name):
    parts = []
    for part in name.split("-"):
        part = re.sub(r"([a-z0-9'])([A-Z])", r"\1_\2", part)
        parts.append(part[:1].lower() + part[1:] if not part[:1].isupper() else part)
    out = "_".join(parts)
    return re.sub(r"_([A-Z])(?=[a-z0-9_']|$)", lambda m: "_" + m[1].lower(), out)


def files(*ends):
    for folder, dirs, names in os.walk("crates"):
        dirs[:] = sorted(d for d in dirs if d != "out")
        for f in sorted(names):
            if f.endswith(ends):
                yield os.path.join(folder, f)


def is_function_folder(path):
    return path.count("/") > 3 and "/proofs/" in path and os.path.basename(path) in ("Proof.antt", "Answers.antt", "Invariants.antt")


def text(path):
    with open(path, encoding="utf-8") as f:
        return f.read()


def declared():
    names = set()
    for path in files(".antt"):
        if is_function_folder(path):
            continue
        for line in text(path).split("\n"):
            m = DECL.match(line)
            if m and m[2] not in WORDS and NAME.fullmatch(m[2]) and (re.search(r"[a-z0-9'][A-Z]", m[2]) or "-" in m[2]):
                names.add(m[2])
    return names


def foreign(t):
    """What a file takes from the kit."""
    names = set()
    for m in re.finditer(r"^(?:ghost |pub )*use ([\w.·'-]+)\.\{([^}]*)\}", t, re.M):
        if not OWN.match(m[1]):
            names |= {w.strip().split(" as ")[-1].strip() for w in m[2].split(",")}
    return names


def split_comment(line, mark):
    i = line.find(mark)
    return (line, "") if i < 0 else (line[:i], line[i:])


def turn(t, path, names, edit=False):
    kept = foreign(t)
    own = set()
    if is_function_folder(path):
        own = {m[2] for m in map(DECL.match, t.split("\n")) if m}
    mark = "//" if path.endswith(".rt") else "--"

    def word(m):
        w = m[0]
        if w not in names or w in kept or w in own:
            return w
        if is_function_folder(path) and re.search(r"\b(tie|goal)\.$", m.string[: m.start()]):
            return w
        if path.endswith(".rt") and "-" in w:
            return w if not m.string.lstrip().startswith("ghost") and "{" not in m.string else names[w]
        return names[w]

    out = []
    for line in t.split("\n"):
        if edit and not line.startswith(("old:", "new:")):
            out.append(line)
            continue
        code, said = split_comment(line, mark)
        said = re.sub(r"`[^`]*`", lambda q: NAME.sub(word, q[0]), said)
        said = NAME.sub(lambda m: word(m) if re.search(r"[a-z0-9'][A-Z]", m[0]) else m[0], said)
        for old, new, where in FALLEN:
            if re.search(where, path):
                code = re.sub(rf"(?<![\w.'-]){old}(?![\w'-])", new, code)
        out.append(NAME.sub(word, code) + said)
    return "\n".join(out)


def documents(pairs):
    now = set()
    for path in files(".antt"):
        now |= {m[2] for m in map(DECL.match, text(path).split("\n")) if m}

    def word(m):
        w = m[0]
        return pairs[w] if w in pairs else snake(w) if w not in now and snake(w) in now and snake(w) != w else w

    for top in ("README.md", "docs", "docs/changes", "tests", "bench", "hosts"):
        for path in [top] if top.endswith(".md") else [os.path.join(top, f) for f in sorted(os.listdir(top)) if f.endswith(".md")]:
            if path.endswith("PORT.md"):
                continue
            t = text(path)
            new = re.sub(r"`[^`\n]*`", lambda q: NAME.sub(word, q[0]), t)
            if new != t:
                with open(path, "w", encoding="utf-8") as f:
                    f.write(new)


if __name__ == "__main__":
    crates = sorted(c for c in os.listdir("crates") if os.path.isdir(os.path.join("crates", c)))
    OWN = re.compile(r"Rattle\.(" + "|".join(crates) + r")\b")
    if "--docs" in sys.argv:
        documents(dict(l.split() for l in text("tools/respelled.txt").split("\n") if l.strip()))
        raise SystemExit
    found = declared()
    plain = {snake(n) for n in found if "-" not in n} | {"bit_and", "bit_or"}
    for path in files(".antt"):
        if not is_function_folder(path):
            plain |= {m[2] for m in map(DECL.match, text(path).split("\n")) if m}
    # a lemma that would have its function's name gets `_lem`
    names = {n: snake(n) + "_lem" if "-" in n and snake(n) in plain else snake(n) for n in found}
    wrong = collections.defaultdict(set)
    for path in files(".antt", ".rt"):
        t = text(path)
        here = {w for w in NAME.findall(t)}
        new = collections.defaultdict(set)
        for w in here:
            new[names.get(w, w)].add(w)
        for n, olds in new.items():
            if len(olds) > 1:
                wrong[path].add((n, tuple(sorted(olds))))
    for path, olds in wrong.items():
        for n, o in sorted(olds):
            print(f"{path}: {n}: {' '.join(o)}")
    if "--try" in sys.argv:
        raise SystemExit
    for path in files(".antt", ".rt", ".edit"):
        t = text(path)
        new = turn(t, path, names, path.endswith(".edit"))
        if new != t:
            with open(path, "w", encoding="utf-8") as f:
                f.write(new)
    with open("tools/respelled.txt", "w", encoding="utf-8") as f:
        f.write("".join(f"{a} {b}\n" for a, b in sorted(names.items())))

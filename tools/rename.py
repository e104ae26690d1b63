#!/usr/bin/env python3
"""Brings this repository's own names to the spelling of today's Rattle: words in snake case, types and modules in camel case.

usage: python3 tools/rename.py    at the top of the repository, once, after the kit's port.py

It turns definitions, lemmas, constructors, fields and variables of specs/ and proofs/, and where src/ names them: in clauses, ghost items
and comments. A name with a dash is turned if it is this repository's own and no part of it is a type; a lemma that would have a definition's
name ends in `_lem`. The crate `log` becomes `log_rules`, since the kit has a library of that name.
"""

import os
import re
import subprocess
import sys

TOKEN = re.compile(r"(?<![\w'])[A-Za-z_\u0370-\u03ff](?:[\w'\u2080-\u2089]|-(?=[A-Za-z0-9_]))*")
CAMEL = re.compile(r"^[a-z][a-z0-9_']*[A-Z]")
DECLARED = re.compile(r"^\s*(?:let |unfoldable |abbrev |pub |pattern )*(" + TOKEN.pattern + r")(?: \{[^}]*\})* :(?:\s|$)")
# Names with a dash that the library declares too.
LIBRARY = {"and-true", "and-false"}
# Lemmas that port.py gave the name of the definition that they are about.
ABOUT = {"crates/protocol/proofs/FieldTrip.antt": "same_bytes", "crates/rules/proofs/Sound.antt": "joined_to"}


def snake(word):
    """A word in camel case, in snake case: `formNumber`, `form_number`."""
    return re.sub(r"(?<=[a-z0-9_'])([A-Z]+)", lambda m: "_" + m.group(1).lower(), word).replace("__", "_")


def files(root):
    for folder, dirs, names in os.walk(os.path.join(root, "crates")):
        dirs[:] = sorted(d for d in dirs if d != "out")
        for name in sorted(names):
            if name.endswith((".rt", ".antt")):
                yield os.path.join(folder, name)


def read(path):
    with open(path, encoding="utf-8") as f:
        return f.read()


def own_dashed(root):
    """The names with a dash that lemma files and definitions of this repository declare, and what each becomes."""
    found, taken = set(), set()
    for path in files(root):
        if path.endswith("/Proof.antt") or not path.endswith(".antt"):
            continue
        for line in read(path).splitlines():
            m = DECLARED.match(line)
            if m and "-" in m.group(1):
                found.add(m.group(1))
            for token in TOKEN.findall(line.split("--")[0]):
                if "-" not in token:
                    taken.add(snake(token) if CAMEL.match(token) else token)
    own = {}
    for name in sorted(found - LIBRARY):
        parts = name.split("-")
        if all(p[:1].islower() or p[:1].isdigit() for p in parts):
            new = "_".join(snake(p) if CAMEL.match(p) else p for p in parts)
            own[name] = new + "_lem" if new in taken else new
    return own


def turned(token, dashed):
    if token in dashed:
        return dashed[token]
    return "-".join(snake(p) if CAMEL.match(p) else p for p in token.split("-"))


def turn_text(text, dashed):
    return TOKEN.sub(lambda m: turned(m.group(0), dashed), text)


STRINGS = re.compile(r'b?"(?:[^"\\]|\\.)*"')


def turn_source(text, dashed):
    """A .rt file: its ghost items, clauses and comments name definitions; code and strings stay."""
    out = []
    for line in text.split("\n"):
        bare = line.lstrip()
        if bare.startswith(("ghost ", "requires", "ensures", "//")) or "// " in line or CAMEL_ANY.search(STRINGS.sub("", line)):
            pieces, last = [], 0
            for m in STRINGS.finditer(line):
                pieces += [turn_text(line[last:m.start()], dashed), m.group(0)]
                last = m.end()
            pieces.append(turn_text(line[last:], dashed))
            line = "".join(pieces)
        out.append(line)
    return "\n".join(out)


CAMEL_ANY = re.compile(r"\b[a-z][a-z0-9_]*[A-Z]")


def rename_log(root):
    old, new = os.path.join(root, "crates", "log"), os.path.join(root, "crates", "log_rules")
    if os.path.isdir(old):
        subprocess.run(["git", "mv", old, new], cwd=root, check=True)
    path = os.path.join(root, "crates.txt")
    text = read(path)
    with open(path, "w", encoding="utf-8") as f:
        f.write(re.sub(r"(?m)(?<![\w])log(?![\w])", "log_rules", text))


def main():
    root = subprocess.run(["git", "rev-parse", "--show-toplevel"], capture_output=True, text=True, check=True).stdout.strip()
    dashed = own_dashed(root)
    changed = 0
    for path in list(files(root)):
        text = read(path)
        about = ABOUT.get(os.path.relpath(path, root))
        if about:
            text = TOKEN.sub(lambda m: about + "_lem" if m.group(0) == about else m.group(0), text)
        new = turn_source(text, dashed) if path.endswith(".rt") else turn_text(text, dashed)
        new = re.sub(r"\bRattle\.log\.", "Rattle.log_rules.", new)
        if path.endswith(".rt"):
            new = re.sub(r"(?m)^((?:pub )?use )log::", r"\1log_rules::", new)
            new = re.sub(r"(?<![\w:.])log::", "log_rules::", new)
        if new != read(path):
            with open(path, "w", encoding="utf-8") as f:
                f.write(new)
            changed += 1
    rename_log(root)
    print(f"rename: {changed} files, {len(dashed)} names with a dash")


if __name__ == "__main__":
    sys.exit(main())

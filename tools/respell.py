#!/usr/bin/env python3
"""Brings the repository's own names to the spelling of today's Rattle. Run once, at the top, after port.py.

    python3 tools/respell.py

Definitions, lemmas, fields, constructors and local names of specs/ and proofs/ that were written `likeThis` become `like_this`, also where a
contract or a comment names them; a type keeps its capital. The crate `log` becomes `log_rules`, since the kit has a library of that name.
Names of functions and types of src/, exported names, strings, inputs and outputs stay as they are.
"""
import os
import re
import subprocess

# What falls together with another name, or is a type.
OTHERWISE = {
    'found_number': 'reached_number-sought_answer',
    'same_bytes': 'same_bytes-eq',
    'since': 'IsSince',
}
# `since` is a type in one place alone; the field and the local names of that spelling stay.
ONLY = {
    'since': ['crates/register/specs/History.antt'],
    'found_number': ['crates/volume_lookup/'],
    'same_bytes': ['crates/log/specs/Laws/Stored.antt', 'crates/log_rules/specs/Laws/Stored.antt', 'crates/volume_entry/', 'crates/volume_tree/'],
}
WORD = re.compile(r"(?<![\w'])[a-z][A-Za-z0-9_'₀-₉]*")
CAMEL = re.compile(r"^[a-z][a-z0-9_]*[A-Z]")


def snake(word):
    word = re.sub(r"([a-z0-9])([A-Z])", r"\1_\2", word)
    return re.sub(r"([A-Z])([A-Z][a-z])", r"\1_\2", word).lower()


def turned(path, text):
    def other(m):
        w = m.group(0)
        if w in OTHERWISE and path.startswith(tuple(ONLY[w])):
            return OTHERWISE[w]
        return snake(w) if CAMEL.match(w) else w

    text = WORD.sub(other, text)
    return re.sub(r"\bRattle\.log\.", "Rattle.log_rules.", text)


def main():
    if os.path.isdir("crates/log"):
        subprocess.run(["git", "mv", "crates/log", "crates/log_rules"], check=True)
    with open("crates.txt") as f:
        lines = f.read().split("\n")
    with open("crates.txt", "w") as f:
        f.write("\n".join(l if l.startswith("#") else re.sub(r"(?<![\w])log(?![\w])", "log_rules", l) for l in lines))
    for folder, dirs, files in os.walk("crates"):
        dirs[:] = sorted(d for d in dirs if d not in ("out", "must-fail"))
        for name in sorted(files):
            if not name.endswith((".rt", ".antt")):
                continue
            path = os.path.join(folder, name)
            with open(path, encoding="utf-8") as f:
                text = f.read()
            now = turned(path, text)
            if now != text:
                with open(path, "w", encoding="utf-8") as f:
                    f.write(now)


if __name__ == "__main__":
    main()

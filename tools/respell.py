#!/usr/bin/env python3
"""Spells this repository's own definitions and lemmas in snake case, once, after /opt/rattle/port/port.py: `timeOf` is `time_of`, `fits-end` is `fits_end`.

usage: tools/respell.py        at the top of the repository

Names that begin with a capital (types and facts) stay, and so do the labels in the proof files of a function, which Rattle makes, and text between quotes in a .rt file.
Where two names would fall together, the lemma gets `_lem` (MEETS). It says which files had a new spelling beside the old one before.
"""

import os
import re

NAME = r'[^\s(){}.;,@"«»]+'
HEAD = re.compile(rf"^ *(?:(?:pub|abbrev|unfoldable) )*({NAME})(?: \{{[^{{}}]*\}})* :(?= |$)")
MEMBERS = re.compile(rf"^ +(?:pub )?((?:{NAME} )+): ")
CAMEL = re.compile(r"^[a-z][A-Za-z0-9'₀-₉]*$")
MEETS = {
    "subtask-at": "subtask_at_lem",
    "one-arrow": "one_arrow_lem",
    "entry-line": "entry_line_lem",
    "exit_line": "exit_line_lem",
    "is_digit": "is_digit_lem",
    "few-arrows": "few_arrows_lem",
    "line-size": "line_size_lem",
    "or-else": "or_else_lem",
    "in-first": "in_first_lem",
    "in-second": "in_second_lem",
    "is-nest": "is_nest_lem",
    "long-last": "long_last_lem",
    # a tactic's name, and its twin
    "first_of": "firsts_of",
    "last_of": "lasts_of",
}


def files(ending):
    for folder, dirs, names in os.walk("crates"):
        dirs[:] = sorted(d for d in dirs if d != "out")
        for name in sorted(names):
            if name.endswith(ending):
                yield os.path.join(folder, name)


def of_a_function(path):
    """Whether the file is in the folder of a function's proof."""
    parts = path.split("/")
    return parts[2] == "proofs" and len(parts) > 4


def in_snake_case(name):
    words = re.sub(r"(?<=[a-z0-9₀-₉])[A-Z]", lambda m: "_" + m[0].lower(), name)
    return words.replace("-", "_")


def read(path):
    with open(path, encoding="utf-8") as f:
        return f.read()


def declared():
    names = set()
    for path in files(".antt"):
        if of_a_function(path):
            continue
        text = read(path)
        for line in text.splitlines():
            if line.lstrip().startswith("--"):
                continue
            if m := HEAD.match(line):
                names.add(m[1])
            if m := MEMBERS.match(line):
                names.update(m[1].split())
        # variables of definitions and lemmas
        names.update(t for t in re.findall(NAME, text) if CAMEL.match(t))
    return names


def main():
    turned = {n: in_snake_case(n) for n in declared() if n[:1].islower() and in_snake_case(n) != n}
    turned |= MEETS
    token = re.compile(NAME)

    def in_text(text):
        return token.sub(lambda m: turned.get(m[0], m[0]), text)

    def in_rust(text, own):
        parts = re.split(r'("(?:[^"\\]|\\.)*")', text)
        for k in range(0, len(parts), 2):
            parts[k] = re.sub(r"[\w'-]+", lambda m: turned.get(m[0], m[0]) if m[0] not in own else m[0], parts[k])
        return "".join(parts)

    def in_edit(text, own):
        return "\n".join(in_rust(line, own) if not line.startswith("file:") else line for line in text.split("\n"))

    # the names of Rust's functions, which stay
    own = {n for n in MEETS if "_" in n}
    met = []
    for path in [*files(".antt"), *files(".rt"), *files(".edit")]:
        text = read(path)
        words = set(token.findall(text)) if path.endswith(".antt") else set(re.findall(r"[\w'-]+", text))
        met += [f"{path}: {a} {b}" for a, b in turned.items() if a in words and b in words and not path.endswith(".edit")]
        if path.endswith(".antt"):
            new = in_text(text)
        elif path.endswith(".rt"):
            new = in_rust(text, own)
        else:
            new = in_edit(text, own if "src/" in text.split("\n")[0] else set())
        if new != text:
            with open(path, "w", encoding="utf-8") as f:
                f.write(new)
    for folder, dirs, names in os.walk("."):
        dirs[:] = [d for d in dirs if d not in (".git", "target", "crates", "tools")]
        for name in names:
            if name.endswith(".md"):
                path = os.path.join(folder, name)
                text = read(path)
                new = re.sub(r"`[^`\n]+`", lambda m: "`" + re.sub(r"[\w'-]+", lambda n: turned.get(n[0], n[0]), m[0][1:-1]) + "`", text)
                if new != text:
                    with open(path, "w", encoding="utf-8") as f:
                        f.write(new)
    print(f"respell: {len(turned)} names")
    print("\n".join(met))


main()

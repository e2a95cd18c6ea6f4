#!/usr/bin/env python3
"""Counts the places of the points of docs/DESIGN-PASS.md in the sources, and lists them with -v.

    tools/places.py [-v] [POINT] [COMMIT]

Without a commit it reads the work tree. It goes by text: a row is a place to look at, and docs/DESIGN-PASS.md says what became of it.
"""
import re
import subprocess
import sys

ARGS = [a for a in sys.argv[1:] if a != "-v"]
POINT = next((a for a in ARGS if re.fullmatch(r"\d[a-z]*", a) and len(a) < 3), None)
COMMIT = next((a for a in ARGS if a != POINT), None)


def git(*words):
    return subprocess.run(["git", *words], check=True, capture_output=True, text=True).stdout


def sources():
    if COMMIT:
        names = git("ls-tree", "-r", "--name-only", COMMIT, "crates").split("\n")
    else:
        names = git("ls-files", "-co", "--exclude-standard", "crates").split("\n")
    for name in sorted(n for n in names if re.fullmatch(r"crates/\w+/src/.*\.rt", n)):
        if COMMIT:
            yield name, git("show", f"{COMMIT}:{name}")
        else:
            try:
                yield name, open(name, encoding="utf-8").read()
            except FileNotFoundError:
                pass


# The parameters of each function: (line, name, parameters).
def functions(text):
    for m in re.finditer(r"^[ \t]*(?:pub )?(?:extern \"C\" )?fn (\w+)(?:<[^>]*>)?\(([^{]*?)\)(?: ->|\n| \n|\s*(?:requires|ensures|\{))", text, re.M):
        yield text.count("\n", 0, m.start()) + 1, m.group(1), re.findall(r"(\w+):", m.group(2))


# Each point: what it looks for, and a pattern for a line of code, or a function over the functions.
LINES = {
    "1a": ("enums of the repository's own", r"^(pub )?enum \w+"),
    "1b": ("a refusal made or named by its number", r"\brefuse(_at|_pair)?\("),
    "1c": ("a test for the 0 that stands for none", r"(\.0|\bnext|\bc|\brepeat|\boutside|\bsame|\bleft|\bm|\bfaults\([^)]*\)|\bwithout_time\(\w+\)) (==|!=) 0\b"),
    "2a": ("a kind handed on as a number", r"\b(side|other|kind|bit): (usize|u32|u8)\b"),
    "3a": ("while and loop", r"^\s*('\w+: )?(while|loop)\b"),
    "3b": ("an index counted on by hand", r"^\s*\w+ \+= 1;"),
    "4a": ("conversions by helper", r"\b(usize_from_u8|usize_from_u16|usize_from_u32|u32_from_u16|narrow)\("),
    "4b": ("casts", r"\bas (u8|u16|u32|u64|usize|f32)\b"),
    "4c": ("the larger or smaller of two by hand", r"\b(larger|later|at_most|beside)\(|if \w+ < \w+ \{ \w+ \} else \{ \w+ \}"),
    "6a": ("arrays of a fixed size in a signature or a field", r"^\s*(pub )?(\w+: &?(mut )?|.*-> &?(mut )?|.*\(.*: &?(mut )?)\[[^\[\]]*(\[[^\]]*\])?[^\[\]]*; \d+\]"),
}
TRAVEL = [
    ("5a", ("times", "arrows")),
    ("5b", ("first", "next")),
    ("5c", ("times", "starts")),
    ("5d", ("text", "at")),
    ("5e", ("begins", "numbers")),
    ("5f", ("ready", "groups")),
    ("5g", ("until", "who")),
    ("5h", ("first_times", "second_times")),
]


def main():
    found = {}
    for name, text in sources():
        for i, line in enumerate(text.split("\n"), 1):
            code = line.split("//")[0]
            for key, (_, pattern) in LINES.items():
                if re.search(pattern, code):
                    found.setdefault(key, []).append(f"{name}:{i}: {line.strip()}")
        for i, fn, words in functions(text):
            for key, pair in TRAVEL:
                if all(w in words for w in pair):
                    found.setdefault(key, []).append(f"{name}:{i}: fn {fn}")
            if len(words) > 7:
                found.setdefault("5z", []).append(f"{name}:{i}: fn {fn}, {len(words)} parameters")
    titles = {k: t for k, (t, _) in LINES.items()}
    titles |= {k: "functions that take " + " and ".join(p) for k, p in TRAVEL}
    titles["5z"] = "functions of more than seven parameters"
    for key in sorted(titles):
        if POINT and not key.startswith(POINT):
            continue
        rows = found.get(key, [])
        print(f"{key}  {len(rows):4}  {titles[key]}")
        if "-v" in sys.argv:
            print("".join(f"        {r}\n" for r in rows), end="")


main()

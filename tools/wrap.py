#!/usr/bin/env python3
"""wrap.py [CRATE..]: breaks the lines of specs and proofs that are over 120 characters, of these crates or of all. Names
grew by their new spelling. An import becomes two, a comment goes on in a comment, any other line goes on deeper. Run
`rt fmt` and `rt check` in each crate afterwards."""
import glob, os, re, sys

MOST = 120
os.chdir(os.path.join(os.path.dirname(os.path.abspath(__file__)), ".."))


def use(line):
    """An import as several, with the same names in the same order."""
    head, names = re.match(r"^(\s*(?:pub )?use .*\.\{)(.*)\}$", line).groups()
    made, row = [], []
    for name in names.split(", "):
        if row and len(head + ", ".join(row + [name]) + "}") > MOST:
            made.append(row)
            row = []
        row.append(name)
    return [head + ", ".join(row) + "}" for row in made + [row]]


def places(line, first):
    """The spaces at which a line can be broken, each with how many brackets are open there."""
    depth, inside = 0, False
    for at, sign in enumerate(line):
        if sign == '"':
            inside = not inside
        elif inside:
            continue
        elif sign in "([{":
            depth += 1
        elif sign in ")]}":
            depth -= 1
        elif sign == " " and at > first:
            yield depth, at


def broken(line):
    if len(line) <= MOST:
        return [line]
    if re.match(r"^\s*(pub )?use .*\.\{.*\}$", line):
        return use(line)
    indent = len(line) - len(line.lstrip())
    if line.lstrip().startswith("-- "):
        at = line.rindex(" ", 0, MOST + 1)
        return [line[:at]] + broken(" " * indent + "-- " + line[at + 1 :])
    if line.lstrip().startswith("unfolding "):
        at = line.rindex(" ", 0, MOST + 1)
        return [line[:at]] + broken(" " * (indent + 4) + line[at + 1 :])
    found = [(depth, at) for depth, at in places(line, indent + 24) if at <= MOST]
    if not found:
        return [line]
    least = min(depth for depth, _ in found)
    level = [at for depth, at in found if depth == least]
    before = [at for at in level if re.match(r"(→|×|⊎|∙|\+\+|&&|≡|\+) ", line[at + 1 :])]
    # a line that ends in `=` or in `in` reads best
    behind = [at for at in level if re.search(r"( =| in| ↦)$", line[:at])]
    at = max(behind or before or level)
    return [line[:at]] + broken(" " * (indent + (0 if line[:at].endswith(" in") else 4)) + line[at + 1 :].lstrip())


wrapped = 0
for crate in sys.argv[1:] or sorted(os.listdir("crates")):
    for folder in ("specs", "proofs"):
        for path in glob.glob(f"crates/{crate}/{folder}/**/*.antt", recursive=True):
            with open(path, encoding="utf8") as file:
                text = file.read()
            made = "\n".join("\n".join(broken(line)) for line in text.split("\n"))
            if made != text:
                wrapped += 1
                with open(path, "w", encoding="utf8") as file:
                    file.write(made)
print(f"wrapped {wrapped} files")

#!/usr/bin/env python3
"""Respells the repository's own names: words in snake case, types and modules in camel case.

usage: python3 tools/respell.py names    at the top of the repository: writes tools/respelled.txt, a line 'old new' for each name
       python3 tools/respell.py apply    respells by that table: crates/ (also the edits that must fail) and the pages

A name is the repository's own where no `use` line takes it from the library. Two names that fall together, as a definition
and the lemma about it, are told apart: the lemma gets `_lem`. Run once, after the kit's own script; it proves nothing.
"""

import glob
import os
import re
import sys

TOKEN = re.compile(r"[A-Za-z_α-ωℕ][A-Za-z0-9_α-ωℕ?!'₀-₉≤*+<-]*")
TABLE = "tools/respelled.txt"
# Lemmas that were in snake case already, and whose name a definition takes now.
TAKEN = {"top_byte": "top_byte_lem", "set_word": "set_word_lem", "works_at": "works_at_lem"}


def crates():
    with open("crates.txt", encoding="utf-8") as f:
        return [l.split(":")[0].split()[0] for l in f if l.strip() and not l.startswith("#")]


def files(ending):
    for folder, dirs, names in os.walk("crates"):
        dirs[:] = sorted(d for d in dirs if d != "out")
        yield from (os.path.join(folder, f) for f in sorted(names) if f.endswith(ending))


def read(path):
    with open(path, encoding="utf-8") as f:
        return f.read()


def bare(text):
    """The text without strings and comments."""
    return re.sub(r"--.*", "", re.sub(r'"(\\.|[^"\\])*"', '""', text))


def snake(name):
    return re.sub(r"([a-z0-9])([A-Z])", lambda m: m[1] + "_" + m[2].lower(), name.replace("-", "_"))


def names():
    own, library, there, dotted, within = set(crates()), set(), {}, set(), {}
    for p in files(".antt"):
        for m in re.finditer(r"^use ([^\s{]+?)\.\{([^}]*)\}", read(p), re.M):
            parts = m[1].split(".")
            if not (parts[0] == "Rattle" and parts[1] in own):
                library |= {n.strip().split(" as ")[0] for n in m[2].split(",")}
    for p in files(".antt"):
        text = re.sub(r"^use [^{\n]*\{", "{", bare(read(p)), flags=re.M)
        for m in TOKEN.finditer(text):
            there.setdefault(m[0], set()).add(p)
            if m.start() == 0 or text[m.start() - 1] != ".":
                if re.match(r"[a-zα-ω]", m[0]) and m[0] not in library and re.search(r"-|[a-z0-9][A-Z]", m[0]):
                    within.setdefault(m[0], set()).add(p)
    table = dict(TAKEN)
    for name in sorted(within):
        new = snake(name)
        falls = [o for o in within if o != name and snake(o) == new and "-" not in o]
        meets = there.get(new, set()) & within[name] if new not in TAKEN else set()
        meets = {p for p in meets if not p.endswith("/Proof.antt")}
        if "-" in name and (falls or meets or new in TAKEN):
            new += "_lem"
        table[name] = new
    with open(TABLE, "w", encoding="utf-8") as f:
        f.writelines(f"{old} {new}\n" for old, new in sorted(table.items()))


def respell(text, table, of_proof):
    def turn(m):
        name = m[0]
        if name not in table:
            return name
        after_dot = m.start() > 0 and text[m.start() - 1] == "."
        if after_dot and (name in TAKEN or of_proof):
            return snake(name)
        return table[name]

    return TOKEN.sub(turn, text)


def parts(text, comment):
    """The text in parts: (kind, part), a kind is code, string or comment."""
    at, found = 0, []
    for m in re.finditer(r'"(?:\\.|[^"\\\n])*"|' + comment + r"[^\n]*", text):
        found += [("code", text[at:m.start()]), ("string" if m[0][0] == '"' else "comment", m[0])]
        at = m.end()
    return found + [("code", text[at:])]


def quoted(text, table):
    """A comment or a page: names stand between backquotes, or are in camel case."""
    camel = {o: n for o, n in table.items() if re.search(r"[a-z0-9][A-Z]", o)}
    text = re.sub(r"`[^`\n]+`", lambda m: respell(m[0], table, False), text)
    return TOKEN.sub(lambda m: camel.get(m[0], m[0]), text)


def antt(text, table, of_proof=False):
    turn = {"code": lambda t: respell(t, table, of_proof), "string": lambda t: t, "comment": lambda t: quoted(t, table)}
    return "".join(turn[k](t) for k, t in parts(text, "--"))


def rattle(text, table):
    """Source: only lines of `ghost` and of clauses, and comments, have names of antt."""
    camel = {o: n for o, n in table.items() if o not in TAKEN}
    out = []
    clause = 0
    for line in text.split("\n"):
        code = re.sub(r"//.*", "", line)
        if clause == 0 and re.match(r"\s*(pub )?(ghost|requires|ensures|invariant)\b", code):
            clause = 1 if code.count("{") > code.count("}") else -1
        if clause and "//" not in line:
            line = respell(line, camel, False)
        elif "//" in line:
            head, tail = line.split("//", 1)
            line = head + "//" + quoted(tail, camel)
        if clause == -1 or clause and re.search(r"\}", code):
            clause = 0
        out.append(line)
    return "\n".join(out)


def older(line):
    """An edit's line in the spelling that the kit's script gave to the files."""
    line = re.sub(r"Rattle·(\w+)·(specs|proofs)\.\2\.", r"Rattle.\1.\2.", line)
    line = re.sub(r"Rattle·(\w+)\.", r"Rattle.\1.", line)
    line = line.replace("′", "'")
    line = re.sub(r"(?<=[({, ])_([^\s\w]{1,2})_(?=[,}])", r"◌\1◌", line)
    line = re.sub(r"(?<=[\w')]) \.(?=[a-z])", ".", line)
    line = re.sub(r"\((\w+(?:\.\w+)+)\)", r"\1", line)
    return line


def edit(path, table):
    out, text = [], ""
    for line in read(path).split("\n"):
        key, _, rest = line.partition(" ")
        if key == "file:":
            text = rest.strip()
        elif key in ("old:", "new:"):
            rest = older(rest)
            rest = antt(rest, table) if text.endswith(".antt") else rattle(rest, table)
            line = key + " " + rest
        else:
            line = quoted(line, table) if line.startswith("#") else line
        out.append(line)
    return "\n".join(out)


def write(path, text):
    if read(path) != text:
        with open(path, "w", encoding="utf-8") as f:
            f.write(text)


def apply():
    table = dict(l.split() for l in read(TABLE).splitlines())
    for p in files(".antt"):
        write(p, antt(read(p), table, p.endswith("/Proof.antt")))
    for p in files(".rt"):
        write(p, rattle(read(p), table))
    for p in files(".edit"):
        write(p, edit(p, table))
    for p in ["README.md", "tests/README.md"] + sorted(glob.glob("docs/*.md")):
        if p not in ("docs/CHANGES.md", "docs/PORT.md"):
            write(p, quoted(read(p), {o: n for o, n in table.items() if o not in TAKEN}))


if __name__ == "__main__":
    {"names": names, "apply": apply}[sys.argv[1]]()

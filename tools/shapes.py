#!/usr/bin/env python3
"""Lists the functions in crates/*/src whose bodies are alike but for names and numbers: places where one may do for several.

    tools/shapes.py [FOLDER]
"""
import collections
import glob
import re
import sys

TOKEN = re.compile(r"b?\"[^\"]*\"|b?'[^']*'|[A-Za-z_]\w*|\d\w*|[^\s\w]")
WORDS = {"if", "else", "for", "in", "while", "let", "mut", "match", "return", "as", "self"}
LEAST = 14


def functions(text):
    """Yields each function's name and body: from the last brace of its head, which may have clauses, to that brace's partner."""
    text = re.sub(r"//[^\n]*", "", text)
    for head in re.finditer(r"^( *)(?:pub )?(?:extern \"C\" )?fn (\w+)", text, re.M):
        body = re.compile(rf"^{head.group(1)}\{{\n(.*?)^{head.group(1)}\}}|\{{\n(.*?)^{head.group(1)}\}}", re.M | re.S)
        found = body.search(text, head.end())
        if found:
            yield head.group(2), found.group(1) or found.group(2) or ""


def shape(body):
    """The body's tokens, with one name for each word that is not the language's and one number for each number."""
    told = []
    for token in TOKEN.findall(body):
        if re.match(r"[A-Za-z_]", token):
            told.append(token if token in WORDS else "x")
        else:
            told.append("0" if token[0].isdigit() else "t" if token[-1] in "\"'" else token)
    # a path is one name
    return re.sub(r"x(?: [:.]{1,2}(?: :)? x)+", "x", " ".join(told))


def main():
    top = sys.argv[1] if len(sys.argv) > 1 else "."
    shapes = collections.defaultdict(list)
    for path in sorted(glob.glob(f"{top}/crates/*/src/**/*.rt", recursive=True)):
        with open(path, encoding="utf-8") as it:
            for name, body in functions(it.read()):
                if len(shape(body).split()) >= LEAST:
                    shapes[shape(body)].append(f"{path.split('/crates/')[1].split('/src/')[0]}::{name}")
    alike = sorted((it for it in shapes.values() if len(it) > 1), key=len, reverse=True)
    for names in alike:
        print(f"{len(names)}: {', '.join(names)}")
    print(f"{len(alike)} groups, {sum(map(len, alike))} functions")


main()

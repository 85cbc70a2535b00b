#!/usr/bin/env python3
"""Lists functions and impls of crates/*/src whose text is the same once names and numbers are put away.

    tools/same_shape.py [COMMIT]      the working tree, or a commit

A group is a place to look at: what differs may be all that is said.
"""
import re
import subprocess
import sys


def sources(commit):
    listed = ["git", "ls-tree", "-r", "--name-only", commit] if commit else ["git", "ls-files"]
    paths = subprocess.check_output(listed, text=True).split("\n")
    for path in paths:
        if re.fullmatch(r"crates/\w+/src/.*\.rt", path):
            yield path, (subprocess.check_output(["git", "show", f"{commit}:{path}"], text=True) if commit else open(path).read())


def items(text):
    """Each `fn` or `impl` with its body: the place, its name and its text."""
    for found in re.finditer(r"^( *)(?:pub )?(fn|impl)\b[^\n]*", text, re.M):
        end = text.find("\n" + found[1] + "}", found.end())
        close = text.find(";\n", found.end())
        if end < 0 or (found[2] == "fn" and -1 < close < text.find("{", found.start())):
            continue
        yield text[: found.start()].count("\n") + 1, found[0].strip(), text[found.start() : end]


KEPT = {"fn", "impl", "for", "match", "if", "else", "let", "return", "Some", "None", "Ok", "Err", "self", "Self", "mut", "ghost", "ensures"}


def shape(text):
    text = re.sub(r"//[^\n]*", "", text)
    text = re.sub(r'"(\\.|[^"\\])*"', '"', text)
    words = re.findall(r'"|\w+|[^\w\s]', text)
    return " ".join(w if w in KEPT or not w[0].isalnum() and w[0] != "_" else ("0" if w[0].isdigit() else "n") for w in words)


def main():
    commit = sys.argv[1] if len(sys.argv) > 1 else ""
    groups = {}
    for path, text in sources(commit):
        for line, name, body in items(text):
            if body.count("\n") >= 3:
                groups.setdefault(shape(body), []).append(f"{path}:{line}: {name}")
    several = [places for places in groups.values() if len(places) > 1]
    for places in several:
        print("\n".join(places), end="\n\n")
    print(f"{len(several)} groups, {sum(map(len, several))} items")


main()

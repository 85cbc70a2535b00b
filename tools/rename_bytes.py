#!/usr/bin/env python3
"""Renames the crate bytes to sources, since the installed Rattle has a library named bytes. Run once at the top, after respell.py.
Only paths into the crate change; its items and files keep their names."""

import glob
import os
import re

os.rename("crates/bytes", "crates/sources")
PATHS = [(re.compile(r"\bRattle\.bytes\b"), "Rattle.sources"), (re.compile(r"^((?:pub )?use )bytes::", re.M), r"\1sources::")]
for pattern in ("crates/*/specs/**/*.antt", "crates/*/proofs/**/*.antt", "crates/*/src/**/*.rt", "crates/*/must-fail/*.edit"):
    for path in glob.glob(pattern, recursive=True):
        with open(path, encoding="utf-8") as f:
            before = f.read()
        after = before
        for old, new in PATHS:
            after = old.sub(new, after)
        if after != before:
            with open(path, "w", encoding="utf-8") as f:
                f.write(after)
with open("crates.txt", encoding="utf-8") as f:
    listed = f.read()
with open("crates.txt", "w", encoding="utf-8") as f:
    f.write(re.sub(r"\bbytes\b", "sources", listed))

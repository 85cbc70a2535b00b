#!/usr/bin/env python3
"""Spells the repository's own definitions and lemmas as Rattle's library does: functions, lemmas and fields in snake case,
and a dash only where it joins two names. Run once at the top, after the kit's port.py.

It rewrites whole names in specs/, proofs/ and must-fail/ of each crate, and in the clauses, ghost items and ghost imports of
src/. Code, strings and comments of src/ stay: none of them has one of these names."""

import glob
import re

NAMES = {
    "asked-five": "asked_five",
    "asked-other": "asked_other",
    "causeNumber": "cause_number",
    "classWord": "class_word",
    "columnOf": "column_of",
    "counts-more": "counts_more",
    "firstRelocates": "first_relocates",
    "is-covered": "is_covered",
    "isBig": "is_big",
    "isDamaged": "is_damaged",
    "isReadable": "is_readable",
    "isSection": "is_section",
    "looks-at": "looks_at",
    "looks-past": "looks_past",
    "made-is": "made_is",
    "orderWord": "order_word",
    "parsed-inventory": "parsed_inventory",
    "parsed-none": "parsed_none",
    "parsed-unknown": "parsed_unknown",
    "payloadOf": "payload_of",
    "r-addend": "r_addend",
    "r-info": "r_info",
    "r-offset": "r_offset",
    "rangeName": "range_name",
    "recordAt": "record_at",
    "sections-are": "sections_are",
    "sh-info": "sh_info",
    "sh-link": "sh_link",
    "sh-offset": "sh_offset",
    "sh-size": "sh_size",
    "sh-type": "sh_type",
    "signedField": "signed_field",
    "some-weaker": "some_weaker",
    "stateAt": "state_at",
    "table-covered": "table_covered",
    "tableLies": "table_lies",
    "typeName": "type_name",
    "word-is": "word_is",
}

NAME = re.compile(r"(?<![\w'-])(" + "|".join(map(re.escape, sorted(NAMES, key=len, reverse=True))) + r")(?![\w'-])")


def respell(path):
    with open(path, encoding="utf-8") as f:
        before = f.read()
    after = NAME.sub(lambda m: NAMES[m[1]], before)
    if after != before:
        with open(path, "w", encoding="utf-8") as f:
            f.write(after)
        print(path)


for pattern in ("crates/*/specs/**/*.antt", "crates/*/proofs/**/*.antt", "crates/*/src/**/*.rt", "crates/*/must-fail/*.edit"):
    for path in sorted(glob.glob(pattern, recursive=True)):
        respell(path)

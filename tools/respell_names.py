#!/usr/bin/env python3
"""Spells the names that specs/ and proofs/ declare as today's Rattle does, in the .antt, .rt, .edit and .md files of this repository
but for docs/PORT*, and renames the crate `bytes`, whose name a library of the kit has, to `storage` (its folder, crates.txt, `use` lines
and paths).

usage: tools/respell_names.py [--list]      at the top of the repository

wordsFor becomes words_for, fromBits-append becomes from_bits-append. Names of types, modules and facts keep their capitals. BY_HAND and
GIVEN have the names that are turned in another way. In a lemma's name a dash mostly stays between two names alone and else becomes an
underscore; lemma_names.tsv beside this file lists these. The library's AllByRecursion, which may not be imported under the name All, is
called by its own.
It goes by text, so a name of Rust that is spelled like one of these would turn too: a line that begins 'look:' names what becomes a name
that was there already. It rewrites files in place; a second run changes nothing. --list prints the declared names that turn and those of
GIVEN, and writes nothing.
"""

import functools
import os
import re
import subprocess
import sys

# Names whose plain respelling would fall together with a function or a word of the language, or would read badly.
BY_HAND = {
    "firstOf": "first_refused",
    "first_of": "first_refused",
    "getD": "get_or",
    # these would be spelled like functions of src/, or like a lemma beside them
    "bitsAt": "range_bits",
    "bitsGiven": "given_bits",
    "imageLines": "lines_of_image",
    "nextMultiple": "following_multiple",
    "inBounds": "reading_within",
    "lengthInBytes": "byte_length_answer",
    "lengthInWords": "word_length_answer",
    "makeTyped": "typed_answer",
    "sliceWord": "word_in_slice",
    "slicesIn": "slices_within",
}
# Names that a source gives to what it imports, and others by hand.
GIVEN = {
    "areaOf": "area_of",
    "noArea": "no_area",
    "pushCall": "push_call",
    "clearCall": "clear_call",
    "appendCall": "append_call",
    "isErr": "is_refusal",
    # lemmas that would differ from what they are about by a dash alone
    "least-words": "least_words_lem",
    "is-next": "is_next_lem",
    "bounds-at": "bounds_at_lem",
    "encode-answer": "encode_answer_lem",
    "records-after": "records_after_lem",
    "get_d_part": "get_or-part",
}
DECLARED = re.compile(r"(?m)^ *(?:(?:pub|abbrev|unfoldable|data|record) )*([^\s(){}.;,:]+)(?: [({][^\n]*?[)}])* :(?= |$)")
CAMEL = re.compile(r"(?<=[a-z0-9])[A-Z]")
NAME_END = r"(?![\w'-])"
LEMMAS = os.path.join(os.path.dirname(os.path.realpath(__file__)), "lemma_names.tsv")


def texts():
    out = subprocess.run(["git", "ls-files"], capture_output=True, text=True, check=True).stdout.splitlines()
    return [f for f in out if f.endswith((".antt", ".rt", ".edit", ".md")) and os.path.isfile(f)]


def read(f):
    with open(f, encoding="utf-8") as it:
        return it.read()


def part(word):
    """One name between dashes: a type or a fact keeps its capitals."""
    if word in BY_HAND:
        return BY_HAND[word]
    if not word[:1].islower():
        return word
    return CAMEL.sub(lambda m: "_" + m[0].lower(), word)


def respelled(name):
    return "-".join(part(it) for it in name.split("-"))


def table():
    declared = set()
    for f in texts():
        if f.endswith(".antt") and ("/specs/" in f or "/proofs/" in f):
            declared.update(DECLARED.findall(read(f)))
    return {it: respelled(it) for it in sorted(declared) if respelled(it) != it}


def turned(text, names):
    def new(m):
        return names.get(m[0], m[0])

    text = re.sub(r"(?<![\w'-])[A-Za-z][\w'-]*" + NAME_END, new, text)
    # a dash stays only between two names
    text = re.sub(r"(?<![\w'-])[A-Za-z][\w'-]*" + NAME_END, lambda m: lemmas().get(m[0], m[0]), text)
    if "AllByRecursion as All" in text:
        text = text.replace("AllByRecursion as All", "AllByRecursion")
        text = re.sub(r"(?<![\w'.-])All(?![\w'-])", "AllByRecursion", text)
    return text


@functools.lru_cache(maxsize=None)
def lemmas():
    return dict(line.split("\t") for line in read(LEMMAS).splitlines())


def rename_crate():
    if not os.path.isdir("crates/bytes"):
        return
    subprocess.run(["git", "mv", "crates/bytes", "crates/storage"], check=True)
    for f in texts() + ["crates.txt"]:
        was = read(f)
        now = re.sub(r"\bRattle\.bytes\.", "Rattle.storage.", was)
        now = re.sub(r"\buse bytes::", "use storage::", now)
        if f == "crates.txt":
            now = re.sub(r"\bbytes\b", "storage", now)
        if now != was:
            with open(f, "w", encoding="utf-8") as it:
                it.write(now)


def main():
    names = table() | GIVEN
    if "--list" in sys.argv:
        for old, new in names.items():
            print(f"{old}\t{new}")
        return
    words = set()
    for f in texts():
        if f.endswith((".antt", ".rt")):
            words.update(re.findall(r"[a-z][\w'-]*", read(f)))
    met = sorted((old, new) for old, new in names.items() if old in words and new in words)
    for old, new in met:
        print(f"look: {old} becomes {new}, which is a name already")
    for f in texts():
        if f.startswith("docs/PORT"):
            continue
        was = read(f)
        now = turned(was, names)
        if now != was:
            with open(f, "w", encoding="utf-8") as it:
                it.write(now)
    rename_crate()


main()

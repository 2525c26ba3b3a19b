#!/usr/bin/env python3
"""Brings the names that this repository's own definitions and lemmas have to Rattle's spelling: words in snake case, types in camel case.

usage: python3 tools/snake.py

Run at the top, once, after a change of toolchain that spells names so. It reads which names crates/*/specs and crates/*/proofs declare, respells those
with a capital inside a word (`okBudget` is `ok_budget`, `eventsOf-append` is `events_of-append`), and writes every place in crates/ that says them, clauses of
src/ too. Names of functions, fields and types of src/, strings and must-fail edits stay. It stops, and writes nothing, where two names would fall together.
"""

import glob
import re

WORD = r"[^\s(){}.;,:`\"«»\[\]\\=⌜⌝⊢λ◌|]+"
DECLARED = re.compile(r"^\s*(?:abbrev |unfoldable |pub |data |record )*(" + WORD + r")\s*:(?!:)", re.M)
CAPITAL = re.compile(r"(?<=[a-z0-9])([A-Z])|(?<=[A-Z])([A-Z])(?=[a-z])")
BROUGHT = re.compile(r" as ([a-z]" + WORD + r")(?=[,}])")


def part(word):
    """A word of a name; one that begins with a capital names a type, and stays."""
    if not re.match(r"[a-z]", word):
        return word
    return CAPITAL.sub(lambda m: "_" + (m.group(1) or m.group(2)), word).lower()


def respelled(name):
    return "-".join(part(word) for word in name.split("-"))


def read(path):
    with open(path, encoding="utf-8", newline="") as it:
        return it.read()


def main():
    antt = sorted(glob.glob("crates/*/specs/**/*.antt", recursive=True) + glob.glob("crates/*/proofs/**/*.antt", recursive=True))
    source = sorted(glob.glob("crates/*/src/**/*.rt", recursive=True))
    texts = {path: read(path) for path in antt + source}
    declared = {name for path in antt for name in DECLARED.findall(texts[path])}
    declared |= {name for path in antt + source for name in BROUGHT.findall(texts[path])}
    turn = {name: respelled(name) for name in declared if respelled(name) != name}
    # A lemma that would have its function's name gets `_lem`.
    lemma = {new: new + "_lem" for new in sorted(set(turn.values()) & declared)}
    held = re.compile(r"(?<!\.)(?<!" + WORD[:-1] + r")(" + "|".join(map(re.escape, lemma)) + r")(?!" + WORD[:-1] + r")") if lemma else None
    for path in antt if held else []:
        texts[path] = held.sub(lambda m: lemma[m.group(1)], texts[path])
    declared |= set(lemma.values())
    declared -= set(lemma)
    print(f"lemmas beside a function of their name: {', '.join(lemma.values())}")
    bad = 0
    for new in sorted(set(turn.values())):
        olds = sorted(it for it in turn if turn[it] == new)
        if len(olds) > 1 or new in declared:
            print(f"fall together: {', '.join(olds)}{' and ' + new if new in declared else ''} as {new}")
            bad += 1
    # A local name, or a parameter of src/, that the new spelling would hide.
    token = re.compile(WORD)
    for path, text in texts.items():
        plain = re.sub(r"--[^\n]*|//[^\n]*|\"(?:[^\"\\]|\\.)*\"", "", text)
        said = set(token.findall(plain))
        for old in sorted(said & turn.keys()):
            for m in re.finditer(r"(?<![\w.'-])" + re.escape(turn[old]) + r"(?![\w'-])", plain):
                before, behind = plain[: m.start()].rstrip(), plain[m.end() :].lstrip(" ")
                binder = behind.startswith(":") and not behind.startswith("::") and before[-1:] in "(,λ{" or before.endswith(("λ", "let"))
                if binder:
                    print(f"look: {path}: {turn[old]} is a name of its own here, and {old} gets it")
                    break
    if bad:
        raise SystemExit("nothing is written")
    whole = re.compile(r"\"(?:[^\"\\\n]|\\.)*\"|" + WORD)
    for path, text in texts.items():
        new = whole.sub(lambda m: turn.get(m.group(0), m.group(0)), text)
        if new != read(path):
            with open(path, "w", encoding="utf-8", newline="") as it:
                it.write(new)
    print(f"{len(turn)} names respelled")


if __name__ == "__main__":
    main()

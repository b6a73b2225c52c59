#!/usr/bin/env python3
"""Brings this repository's own definitions and lemmas to the spelling of the Rattle kit of 2026-11: words in snake case.

Run once, at the top of the repository, right after the kit's port.py (docs/PORT.md). It changes spelling alone:

- a definition, lemma, field or constructor in lower camel case is in snake case; `pageAt` becomes `page_at`, and `freeAt-block` `free_at-block`.
  A dash that joins two names stays;
- a name that falls together with another one gets the name of the table `OTHER`;
- the definition `result`, now a word of clauses, is `result_of`;
- a clause that port.py left with its lambda is a plain fact about `result`;
- a name in «» that is no word of antt loses them.

Functions of src/, exported names, strings, inputs and outputs keep their names.
"""

import re
import sys
from pathlib import Path

# Names that are spelled otherwise than by the rule, each with its reason.
OTHER = {
    "nextPage": "next_page_of",  # `next_page` is a field of FreeInfo and of the region's record
}

# A lemma that would have the name of its function.
LEMMAS = {
    "crates/refine/proofs/Shown.antt": {"head_in": "head_in_lem"},
    "crates/sound_calls/proofs/Heads.antt": {"may_free": "may_free_lem"},
    "crates/history/proofs/Answers.antt": {"may_free": "may_free_lem"},
}

# Definitions of specs/ with a dash between plain words.
DASHED = ["out-region", "out-words", "idle-region", "idle-words", "r-words", "r-at", "s-at", "s-region", "s-words"]

RESERVED = set(
    "data record deriving module where use mod pub package open as unfoldable abbrev axiom unfold unfolding ruleset mutual infix infixl infixr "
    "elim let in do Type coe fcoe tcoe hcom com".split()
)

WORD = r"[\w'·]"
CAMEL = re.compile(rf"(?<!{WORD})[a-z][a-z0-9]*(?:[A-Z][A-Za-z0-9]*)+(?!{WORD})")


def snake(name):
    if name in OTHER:
        return OTHER[name]
    return re.sub(r"(?<=[a-z0-9])[A-Z]", lambda m: "_" + m.group(0).lower(), name)


def respell(text):
    """Every word in lower camel case; the repository has none that is not a name of antt's."""
    text = CAMEL.sub(lambda m: snake(m.group(0)), text)
    for name in DASHED:
        text = re.sub(rf"(?<![\w'-]){name}(?![\w'-])", name.replace("-", "_"), text)
    return re.sub(r"«(\w+)»", lambda m: m.group(0) if m.group(1) in RESERVED else m.group(1), text)


def rename(text, table):
    """A lemma by its present name, before the definition takes that name."""
    for old, new in table.items():
        text = re.sub(rf"(?<![\w'.-]){old}(?![\w'-])", new, text)
    return text


def result_of(text):
    """The definition `result` of sound_calls' specs/Answer.antt, where a file has it or brings it in."""
    if not re.search(r"Answer\.\{[^}]*(?<![\w-])result(?![\w-])[^}]*\}|abbrev pub result :", text):
        return text
    lines = []
    for line in text.split("\n"):
        code, mark, note = line.partition("-- ")
        code = re.sub(r"(?<![\w'.·-])result(?= \(|[,}]| :| t )", "result_of", code)
        lines.append(code + mark + note)
    return "\n".join(lines)


LAMBDA = re.compile(r"(ensures)\*( \w+)? \{ λ (\w+)\. ⌜ (.*) ⌝ \}")


def plain(match):
    head, label, name, fact = match.groups()
    if name != "_":
        fact = re.sub(rf"(?<![\w'.]){name}(?![\w'])", "result", fact)
    fact = fact.replace(".entry.now", ".old").replace(".exit.now", ".new")
    return f"{head}{label or ''} {{ {fact} }}"


def turn_source(text):
    return LAMBDA.sub(plain, result_of_clauses(text))


def result_of_clauses(text):
    text = re.sub(r"(Answer\.\{[^}]*)\bresult\b", r"\1result_of", text)
    return re.sub(r"(⌜ )result(?= \()", r"\1result_of", text)


def main():
    top = Path.cwd()
    if not (top / "crates.txt").exists():
        sys.exit("respell.py: run it at the top of the repository")
    for path in sorted((top / "crates").rglob("*")):
        if path.suffix not in (".antt", ".rt", ".edit") or "out" in path.relative_to(top / "crates").parts[1:2]:
            continue
        old = path.read_text()
        new = respell(rename(old, LEMMAS.get(str(path.relative_to(top)), {})))
        if path.suffix == ".rt":
            new = turn_source(new)
        else:
            new = result_of(new)
        if new != old:
            path.write_text(new)


if __name__ == "__main__":
    main()

#!/usr/bin/env python3
"""Spells the repository's own definitions and lemmas in snake case: words that port.py left in camel case or with dashes.

usage: tools/respell.py        at the top of a checkout in which port.py ran, once

A name turns where a file of specs/ or proofs/ declares it: everywhere below crates/*/specs, crates/*/proofs and in the clauses of src/, and in the
code spans of comments. What a function's own proof file declares turns in that file alone. Types and modules keep their spelling, and so do names
that Rattle makes, functions of src/, strings, inputs, outputs and must-fail edits. A lemma that would meet a definition gets _lem.
"""
import re
import sys
from collections import defaultdict
from pathlib import Path

ROOT = Path(__file__).resolve().parent.parent
WORD = re.compile(r"[^\s(){}\[\].;,@\"«»`|]+")
DECLARED = re.compile(r"^(\s*)(?:(?:abbrev|unfoldable|pub)\s+)*(?:(?:record|data)\s+)?([^\s(){}.;,@\"«»]+)(?:\s+\{[^}]*\})*\s+:(?:\s+(.*)|$)")
MADE = re.compile(r"tie\.|goal\.|\w+(?:-lts)?\.(?:Need|After|Then|Else|In|At|Start|Claims)\b")
# Two things of one spelling in their new one: the definition takes it, and these make way.
APART = {
    "allFalse": "are_all_false",
    "all_digits": "all_digits_lem",
    "bit-and": "bit_and_lem",
    "bit-or": "bit_or_lem",
    "block-clauses": "block_clauses_lem",
    "block-numbers": "block_numbers_lem",
    "clause-at": "clause_at_lem",
    "edge_in": "edge_in_lem",
    "end-record": "end_record_lem",
    "first-at": "first_at_lem",
    "in_order": "in_order_lem",
    "is_digit": "is_digit_lem",
    "is-on": "is_on_lem",
    "is-set": "is_set_lem",
    "is-value": "is_value_lem",
    "last-is": "last_is_lem",
    "literal-value": "literal_value_lem",
    "node-clauses": "node_clauses_lem",
    "node_row": "node_row_lem",
    "on_line": "on_line_lem",
    "true-in": "true_in_lem",
    "value-at": "value_at_lem",
}


def in_snake_case(name):
    if name[0].islower():
        name = re.sub(r"(?<=[a-z0-9])[A-Z](?![A-Z])", lambda found: "_" + found[0].lower(), name)
    return re.sub(r"(?<=[^-])-(?=[^-])", "_", name)


def code_of(line):
    return re.split(r"(?<![^\s(){}.;,])--", line)[0]


def declared_in(path):
    found = []
    for line in path.read_text().split("\n"):
        said = DECLARED.match(code_of(line))
        if said and not line.lstrip().startswith(("use ", "pub use ", "module ", "let ", "infix")):
            found.append((said[2], said[3] or ""))
    return found


def is_proof_of_function(path):
    return path.name in ("Proof.antt", "Answers.antt", "Invariants.antt")


def imported_from_others(text):
    names = set()
    for path, items in re.findall(r"(?m)^(?:ghost |pub )*use ([^\s;{]+?)\.\{([^}]*)\}", text):
        if not path.startswith("Rattle.") or path.startswith("Rattle.std."):
            names |= {item.split(" as ")[0].strip() for item in items.split(",")}
    return names


def turned(text, table):
    def word(found):
        return table.get(found[0], found[0])

    return WORD.sub(word, text)


def turn_antt(text, table):
    lines = []
    for line in text.split("\n"):
        code = code_of(line)
        rest = re.sub(r"`([^`]*)`", lambda found: "`" + turned(found[1], table) + "`", line[len(code):])
        lines.append(turned(code, table) + rest)
    return "\n".join(lines)


def turn_rt(text, table):
    def line_turned(line):
        code, mark, rest = line.partition("//")
        rest = re.sub(r"`([^`]*)`", lambda found: "`" + turned(found[1], table) + "`", rest)
        return turned(code, table) + mark + rest

    return "\n".join(map(line_turned, text.split("\n")))


def main():
    antt = sorted(path for path in ROOT.glob("crates/*/*/**/*.antt") if path.parts[-3] != "out" and "out" not in path.relative_to(ROOT).parts)
    shared = [path for path in antt if not is_proof_of_function(path)]
    table, where = {}, defaultdict(list)
    for path in shared:
        for name, _ in declared_in(path):
            new = APART.get(name) or in_snake_case(name)
            where[new].append((name, path))
            if new != name:
                table[name] = new
    for new, places in sorted(where.items()):
        if len({name for name, _ in places}) > 1:
            print(f"look: {new}: " + ", ".join(f"{name} of {path.relative_to(ROOT)}" for name, path in places))
    for path in antt:
        text = path.read_text()
        own = dict(table)
        if is_proof_of_function(path):
            for name, kind in declared_in(path):
                if not MADE.match(kind) and name not in own:
                    own[name] = in_snake_case(name)
        for name in imported_from_others(text):
            own.pop(name, None)
        words = set(WORD.findall("\n".join(map(code_of, text.split("\n")))))
        for name in sorted(words & set(own)):
            if own[name] in words and own[name] != name and own[name] not in own:
                print(f"look: {path.relative_to(ROOT)}: {name} meets {own[name]}")
        path.write_text(turn_antt(text, own))
    for path in sorted(ROOT.glob("crates/*/src/**/*.rt")):
        text = path.read_text()
        functions = set(re.findall(r"\bfn (\w+)", text))
        words = set(WORD.findall(re.sub(r"//.*", "", text)))
        for name in sorted(words & set(table)):
            if table[name] in functions:
                print(f"look: {path.relative_to(ROOT)}: {name} meets the function {table[name]}")
        path.write_text(turn_rt(text, table))
    print(f"respell: {len(table)} names")


main()

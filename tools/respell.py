#!/usr/bin/env python3
"""Spells the definitions, fields, constructors and lemmas of this repository as today's library spells its own.

usage: tools/respell.py [--check]     at the top of the repository, once, after the toolchain's own port.py

Words are in snake case, facts (what answers with a Type) and types in upper camel case. Names of src/, exported names, strings and what the toolchain makes
stay as they are. It reads the names from specs/ and proofs/ and writes them anew there, in the clauses of src/, in must-fail/*.edit and in the pages.
With --check it writes nothing. Both print the names that would fall together and what the second of them is called.
"""
import collections
import glob
import os
import re
import sys

TOK = r'[^\s(){}.;,@"«»]+'
# Facts that had a lower first letter: old name to new name.
FACTS = {
    "homeStartsAt": "HomeStartsAt",
    "homeInWindow": "HomeInWindow",
    "trackInWindow": "TrackInWindow",
    "inWindow": "InWindow",
    "partWithin": "PartWithin",
    "pairWithin": "PairWithin",
}
# The same of one crate alone, where another crate has another thing of that name.
FACTS_OF = {"crates/accepting/": {"listed": "IsListed"}}
# Constructors that would be called as a definition that is used beside them.
OTHER = {"of-first": "is_first", "of-second": "is_second"}
# Lemmas that the toolchain's own script has spelled anew already, which would be called as the definition that they speak of.
SPELLED = {"first_count", "four_bytes", "from_either", "sum_step", "two_bytes"}
# A field of the same kind, in the files of lemmas.
SPELLED_FIELDS = {"count_fits"}
OF_A_FUNCTION = ("Proof.antt", "Answers.antt", "Invariants.antt")


def texts():
    found = []
    for kind in ("specs", "proofs"):
        found += glob.glob(f"crates/*/{kind}/**/*.antt", recursive=True)
    return sorted(found)


def is_of_a_function(path):
    """Whether the file is a part of one function's proof: crates/NAME/proofs/Answers.antt has laws, as its name says."""
    return os.path.basename(path) in OF_A_FUNCTION and len(path.split("/")) > 4


def read(path):
    with open(path, encoding="utf-8") as f:
        return f.read()


def snake(name):
    name = re.sub(r"(?<=[a-z0-9])([A-Z]+)", lambda m: "_" + m[1].lower(), name)
    return re.sub(r"(?<=[^-])-(?=[^-])", "_", name)


def declared(paths):
    """The names that the files declare, each with its kinds."""
    names = collections.defaultdict(set)
    for path in paths:
        if is_of_a_function(path):
            continue
        kind, deep = None, 0
        for line in read(path).split("\n"):
            text = line.strip()
            indent = len(line) - len(line.lstrip())
            if not text or text.startswith("--") or text.startswith("use "):
                continue
            if kind and indent <= deep:
                kind = None
            m = re.match(rf"\s*(?:pub |unfoldable |abbrev |mutual )*(record|data|module|ruleset)\s+({TOK})", line)
            if m:
                names[m[2]].add(m[1])
                if m[1] in ("record", "data") and text.split()[-1] == "where":
                    kind, deep = m[1], indent
                continue
            m = re.match(rf"\s*(?:pub |unfoldable |abbrev |mutual )*((?:{TOK} )+):(?=\s|$)", line)
            if not m or m[1].split()[0] in ("let", "in", "rw", "open"):
                continue
            if not kind and indent > 12:
                continue
            for name in m[1].split():
                names[name].add({"record": "field", "data": "constructor"}.get(kind, "definition"))
    return names


def new_names(names):
    """Old name to new name, and the names that fall together with another."""
    table, together = {}, {}
    plain = {n: snake(n) for n in names if n[0].islower() and n not in FACTS}
    olds = collections.defaultdict(set)
    for old, new in plain.items():
        olds[new].add(old)
    for old, new in plain.items():
        if old in OTHER:
            new = OTHER[old]
        elif "-" in old and len(olds[new]) > 1:
            new += "_holds" if "field" in names[old] else "_lem"
            together[old] = new
        if new != old:
            table[old] = new
    table.update(FACTS)
    return table, together


def of_libraries(text):
    """The names that a file takes from a library."""
    own = {os.path.basename(c) for c in glob.glob("crates/*")}
    names = set()
    for path, group in re.findall(r"(?m)^\s*(?:pub )?use ([^\s{;]+?)\.\{([^}]*)\}", text):
        steps = path.split(".")
        if steps[0] != "Rattle" or steps[1] not in own:
            names |= {n.strip().split(" ")[0] for n in group.split(",")}
    return names


def respelled(text, table, together, path):
    """The text of an antt file: behind a dot a step of the code keeps its name, and a lemma's is not meant."""
    of_a_function = is_of_a_function(path)
    here = next((t for at, t in FACTS_OF.items() if path.startswith(at)), {})
    taken = of_libraries(text)

    def new(m):
        word, dotted = m[0], m.start() > 0 and text[m.start() - 1] == "."
        if word in taken:
            return word
        if word in here and not dotted:
            return here[word]
        if word in SPELLED:
            return word if dotted or of_a_function and f"{word} :" in text else word + "_lem"
        if word in SPELLED_FIELDS and not of_a_function and not re.search(rf"use .*\b{word}\b", text):
            return word + "_holds"
        if word in together and dotted and (together[word].endswith("_lem") or re.match(r"\.(ensures|result|new|given)\b", text[m.end():])):
            return snake(word)
        return table.get(word, word)

    return re.sub(TOK, new, text)


def respelled_clauses(text, table):
    """The text of a Rust file: only a word that no name of Rust can be."""
    return re.sub(r"(?<![\w-])[a-z][a-z0-9]*(?:[A-Z][A-Za-z0-9]*|(?:-[a-z0-9]+)+)+(?![\w-])", lambda m: table.get(m[0], m[0]), text)


def respelled_page(text, table):
    """The words of a page between backticks, but paths and commands."""

    def span(m):
        return re.sub(r"(?<![\w/.-])[a-z][\w'-]*(?![\w/-])", lambda w: table.get(w[0], w[0]) if re.search("[A-Z]|-", w[0]) else w[0], m[0])

    return re.sub(r"`[^`\n]+`", span, text)


def edited(text, table, together):
    """An edit: the lines old: and new: as the file's own text."""
    file = re.search(r"(?m)^file: (\S+)", text)
    out = []
    for line in text.split("\n"):
        m = re.match(r"(old|new): ", line)
        if m and file:
            rest = line[len(m[0]):]
            if file[1].endswith(".antt"):
                rest = respelled(rest, table, together, file[1])
            else:
                rest = respelled_clauses(rest, table)
            line = m[0] + rest
        out.append(line)
    return "\n".join(out)


def main():
    check = "--check" in sys.argv[1:]
    paths = texts()
    names = declared(paths)
    table, together = new_names(names)
    for old, new in sorted(together.items()):
        print(f"together: {old} is {new}")
    jobs = [(p, lambda t, p=p: respelled(t, table, together, p)) for p in paths]
    jobs += [(p, lambda t: respelled_clauses(t, table)) for p in sorted(glob.glob("crates/*/src/**/*.rt", recursive=True))]
    jobs += [(p, lambda t: edited(t, table, together)) for p in sorted(glob.glob("crates/*/must-fail/*.edit"))]
    jobs += [(p, lambda t: respelled_page(t, table)) for p in ["README.md", *sorted(glob.glob("docs/**/*.md", recursive=True))] if os.path.basename(p) != "PORT.md"]
    changed = 0
    for path, turn in jobs:
        old = read(path)
        new = turn(old)
        if new != old:
            changed += 1
            if not check:
                with open(path, "w", encoding="utf-8") as f:
                    f.write(new)
    print(f"names: {len(table)} of {len(names)}; files: {changed} of {len(jobs)}")


main()

#!/usr/bin/env python3
"""Counts the places of older forms in crates/*/src, for docs/DESIGN-PASS.md.

    python3 tools/places.py [COMMIT] [-v]

Without COMMIT it reads the files as they stand; -v lists the places.
"""
import collections
import io
import os
import re
import subprocess
import sys
import tarfile

args = [a for a in sys.argv[1:] if a != "-v"]
verbose = "-v" in sys.argv


def wanted(path):
    """Whether the path is a source or a proof file of a crate."""
    return re.match(r"crates/\w+/(src/.*\.rt|proofs/.*\.antt)$", path)


def files():
    """Yields the path and the text of each source and proof file."""
    if args:
        packed = subprocess.check_output(["git", "archive", args[0], "crates"])
        with tarfile.open(fileobj=io.BytesIO(packed)) as tar:
            for m in tar.getmembers():
                n = m.name
                if wanted(n):
                    yield n, tar.extractfile(m).read().decode()
        return
    for top, _, names in os.walk("crates"):
        for n in sorted(names):
            p = os.path.join(top, n)
            if wanted(p):
                yield p, open(p).read()


class Function:
    """A function: its file and line, name, parameters, clauses, body and the line above that says why it stays."""

    def __init__(self, path, line, head, clauses, body, kept):
        self.where, self.head, self.clauses, self.body, self.kept = f"{path}:{line}", head, clauses, body, kept
        self.crate = path.split("/")[1]
        self.name = re.search(r"fn (\w+)", head).group(1)
        inner = head[head.index("(") + 1 : head.rindex(")")]
        self.params = [p.strip() for p in re.split(r",(?![^<\[(]*[>\])])", inner) if p.strip()]
        self.result = head[head.rindex(")") + 1 :].replace("->", "").strip()


def functions(path, text):
    """Reads the functions of a file as rt fmt lays them out."""
    lines = text.split("\n")
    i = 0
    while i < len(lines):
        m = re.match(r"(\s*)(pub(\(crate\))? )?(extern \"C\" )?fn \w+", lines[i])
        if not m or lines[i].lstrip().startswith("//"):
            i += 1
            continue
        indent, start, head, clauses = m.group(1), i, "", ""
        while i < len(lines):
            line = lines[i]
            if line == indent + "{":
                break
            if re.match(r"\s+(requires|ensures|ghost|×)", line):
                clauses += line.strip() + "\n"
            elif clauses:
                clauses += line.strip() + "\n"
            else:
                head += line.strip() + " "
                if line.endswith((" {", "}", ";")):
                    break
            i += 1
        body, whole = [], i < len(lines) and lines[i].endswith(("}", ";"))
        i += 1
        while not whole and i < len(lines) and lines[i] != indent + "}":
            body.append(lines[i])
            i += 1
        head = re.sub(r" \{$", "", head.strip())
        above = start - 1
        kept = ""
        while above >= 0 and lines[above].lstrip().startswith(("//", "#[")):
            kept += lines[above]
            above -= 1
        if ")" in head:
            yield Function(path, start + 1, head, clauses, "\n".join(body), "Stays as it is" in kept + "\n".join(body))


sources, proofs = [], []
for path, text in files():
    (sources if path.endswith(".rt") else proofs).append((path, text))
every = [f for path, text in sources for f in functions(path, text)]
found = collections.OrderedDict()


def place(point, where, what, kept=False):
    found.setdefault(point, []).append((where, what, kept))


# 1: enums of two variants of which one carries a value; answers as numbers; tests of a number; numbers for a failure.
for path, text in sources:
    for m in re.finditer(r"((?://[^\n]*\n|#\[[^\n]*\n)*)(?:pub(?:\(crate\))? )?enum (\w+)[^{]*\{\n(.*?)\n\}", text, re.S):
        variants = [v for v in m.group(3).split("\n") if re.match(r"    \w", v)]
        if len(variants) == 2 and any("(" in v or "{" in v for v in variants):
            place("1 own enum of two variants, one with a value", path, m.group(2), "Stays as it is" in m.group(1))
    for m in re.finditer(r"((?://[^\n]*\n|#\[[^\n]*\n)*)(?:pub(?:\(crate\))? )?struct (\w+)[^{]*\{\n(.*?)\n\}", text, re.S):
        if re.search(r"\banswer:|\boutcome:|\bvisit:|\blast: bool|\bfirst: bool|\bsecond: bool", m.group(3)):
            place("1 struct with an answer or a flag beside a value", path, m.group(2), "Stays as it is" in m.group(1))
for f in every:
    if re.search(r"\bAnswer$", f.result) and f.name != "from":
        place("1 function that gives an answer as numbers", f.where, f.name, f.kept)
    for _ in re.finditer(r"\.(number|fault) (==|!=) \d", f.body):
        place("1 test of an answer's number", f.where, f.name, f.kept)
    if re.search(r"\b1000\b", f.body) and f.crate.startswith("track"):
        place("1 number for a failure", f.where, f.name, f.kept)

# 2: functions of three lines or more whose bodies are the same but for names and numbers.
shapes = collections.defaultdict(list)
for f in every:
    body = re.sub(r"//.*", "", f.body)
    if len([x for x in body.split("\n") if x.strip()]) >= 3 and f.name != "main":
        shape = re.sub(r"\b(0x)?[0-9][0-9A-Fa-fxu_]*\b", "0", body)
        shape = re.sub(r"\b(?!(?:if|else|while|for|in|return|let|mut|match|loop|as|true|false|u8|u16|u32|u64|usize|Ok|Err|Some|None)\b)[A-Za-z_]\w*", "n", shape)
        shapes[re.sub(r"\s+", "", shape)].append(f)
for group in shapes.values():
    if len(group) > 1:
        for f in group:
            place("2 function with a twin", f.where, f"{f.name} ({', '.join(g.crate + '::' + g.name for g in group if g is not f)})", f.kept)
names = collections.defaultdict(list)
for f in every:
    if not f.crate.endswith(("_c", "_ffi")) and f.name not in ("main", "from", "fmt", "eq"):
        names[f.name].append(f)
for n, group in names.items():
    if len({f.crate for f in group}) > 1:
        for f in group:
            place("2 hint: function of the same name in another crate", f.where, f.name, f.kept)

# 3: loops that step a counter by hand.
for f in every:
    if re.search(r"\bwhile\b|\bloop \{", f.body) and re.search(r"\b(\w+) [+-]= \d+;|\b(\w+) = \2 [+-] \d+;", f.body):
        place("3 loop that counts an index by hand", f.where, f.name, f.kept)

# 4: bytes of a number by hand, equality by fields, conversions, printing field by field, copying by a loop.
for f in every:
    body = re.sub(r"//.*", "", f.body)
    if re.search(r"\* 256 \+|/ 256\b|/ 65536 % 256|\* 65536 \+|\* 0x100\b", body):
        place("4 bytes of a number by hand", f.where, f.name, f.kept)
    if re.search(r"(\w+)\.(\w+) != (\w+)\.\2|(\w+)\.(\w+) == (\w+)\.\5", body):
        place("4 equality by fields", f.where, f.name, f.kept)
    if re.fullmatch(r"\s*\w+ as (usize|u8|u16|u32|u64)\s*", body):
        place("4 conversion by a function of its own", f.where, f.name, f.kept)
    if re.search(r"^    (    )?\w+\[[^\]]*\] = \w+\[[^\]]*\];$", body, re.M) and re.search("while|for ", body):
        place("4 copy by a loop", f.where, f.name, f.kept)
    if re.search(r"\bprint!\(rt|write_(field|last)\(", f.body) or re.match(r"write_(field|last)$", f.name):
        place("4 printing piece by piece", f.where, f.name, f.kept)
    if re.search(r"\bif (\w+) < (\w+) \{ ?\n?\s*(return )?\1;?\n?\s*\}|\bif b < a \{ b \}|\bif a < b \{ b \}", body):
        place("4 lesser or greater by hand", f.where, f.name, f.kept)

# 5: facts in the contracts of three functions or more of a crate; parameters that three functions or more take together.
facts = collections.defaultdict(set)
for f in every:
    if f.crate.endswith(("_c", "_ffi")):
        continue
    for m in re.finditer(r"requires(?: \w+)? \{ (.*) \}", f.clauses):
        for fact in re.split(r"\s×\s", m.group(1)):
            facts[(f.crate, fact.strip(" ()"))].add(f.where)
for (crate, fact), where in facts.items():
    if len(where) > 2:
        place("5 fact required by three functions or more", crate, f"{fact} ({len(where)})")
groups = collections.defaultdict(set)
for f in every:
    if f.crate.endswith(("_c", "_ffi")):
        continue
    for a, b in zip(f.params, f.params[1:]):
        groups[(f.crate, a.split(":")[0], b.split(":")[0])].add(f.where)
for (crate, a, b), where in groups.items():
    if len(where) > 2:
        place("5 parameters that three functions or more take together", crate, f"{a}, {b} ({len(where)})")

# 6: tables with a length beside them; slices that run beside one another.
for f in every:
    if re.search(r"let mut \w+(: [^=]+)? = \[", f.body):
        place("6 table with a length beside it", f.where, f.name, f.kept)
    slices = [p.split(":")[0] for p in f.params if re.search(r"&(mut |'\w+ )?\[", p)]
    if any("marks" in s for s in slices) and not f.crate.endswith(("_c", "_ffi")):
        place("6 slices that run beside one another", f.where, f.name, f.kept)

# 7: functions as values, and tables of them.
for path, text in sources:
    for m in re.finditer(r": fn\(|\[fn\(|dyn Fn", text):
        place("7 table or pointer of functions", path, m.group(0))

# 8: proof files of functions.
answers = [(p, t) for p, t in proofs if p.endswith("Answers.antt")]
for p, t in answers:
    place("8 file of answers", p, "")
found["8 answer"] = [(p, "", False) for p, t in answers for _ in re.findall(r"^pub \S+ : goal\.", t, re.M)]

for point, places in found.items():
    kept = sum(1 for p in places if p[2])
    print(f"{len(places):5} {point}" + (f" ({kept} of them with the reason why it stays)" if kept else ""))
    if verbose and not point.startswith("8"):
        for where, what, k in places:
            print(f"          {where} {what}{' (stays)' if k else ''}")

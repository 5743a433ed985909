#!/usr/bin/env python3
"""Brings the repository's own definitions and lemmas to one spelling: words in snake case, types as they are.

usage: python3 tools/respell.py            at the top, once, on what port.py left

A name that is declared in specs/ or proofs/ in camel case (sumTo) or with dashes (sum-within) is spelled with underscores
(sum_to, sum_within). A lemma that would then have the name of a definition, or of another lemma that was spelled so before, gets
_lem behind it. Names of src/, of the library and of what Rattle makes of a function stay. In a source file only ghost use lines
and clauses are touched, in comments and documents only what stands in backticks, in must-fail edits what the file that they
edit would have. Prints the names that fall together and what was done about it.
"""
import collections
import os
import re
import sys

OWN = sorted(c for c in os.listdir("crates") if os.path.isdir(f"crates/{c}/src"))
TOKEN = re.compile(r"[^\s(){}\[\],;.λ→×«»⌜⌝∷⊢`\"]+")
SIGNATURE = re.compile(r"^\s*(?:(?:pub|abbrev|unfoldable)\s+)*((?:[^\s(){}\[\],;.:=λ]+\s+)+)(?:\{ℓ\} )?:(?:\s|$)")
CAMEL = re.compile(r"^[a-z][a-z0-9']*[A-Z]")
DASHED = re.compile(r"^[a-zμ][^\s-]*-")
WORDS = {"pub", "abbrev", "unfoldable", "let", "record", "data", "module", "ruleset", "where"}


def snake(n):
    for word in ("eDReg", "dReg", "sReg"):
        n = re.sub(rf"(?<![a-z]){word}(?![a-z])|(?<=[a-z]){word[0].upper() + word[1:]}(?![a-z])", lambda m: (m.group(0)[0] if m.group(0)[0].isupper() else "") and m.group(0).lower().capitalize() or m.group(0).lower(), n)
    return re.sub(r"(?<=[a-z0-9'])([A-Z])", lambda m: "_" + m.group(1).lower(), n).replace("-", "_")


def files(end):
    for c in OWN:
        for d, ds, fs in os.walk(f"crates/{c}"):
            ds[:] = sorted(x for x in ds if x != "out")
            for f in sorted(fs):
                if f.endswith(end):
                    yield os.path.join(d, f)


def read(p):
    with open(p, encoding="utf-8") as f:
        return f.read()


def declared():
    """name -> the files that declare it"""
    names = collections.defaultdict(set)
    for p in files(".antt"):
        own = re.sub(r"--.*", "", read(p))
        for line in own.split("\n"):
            m = SIGNATURE.match(line)
            if m:
                for n in m.group(1).split():
                    if n not in WORDS:
                        names[n].add(p)
            m = re.match(r"\s*(?:pub )?ruleset\s+(\S+)", line)
            if m:
                names[m.group(1)].add(p)
            for m in re.finditer(r"\bas ([a-z][^\s;]*)\s*$", line):
                names[m.group(1)].add(p)
            for m in re.finditer(r"\blet ([a-z][^\s;:=]*) [:=]", line):
                names[m.group(1)].add(p)
    return names


def mapping(names):
    """Old name -> new name, and what fell together."""
    new, said = {}, []
    at = collections.defaultdict(set)
    for n in names:
        at[snake(n) if CAMEL.match(n) or DASHED.match(n) else n].add(n)
    for t, ns in sorted(at.items()):
        camel = [n for n in ns if CAMEL.match(n)]
        plain = [n for n in ns if n == t]
        dashed = [n for n in ns if n != t and n not in camel]
        for n in camel:
            new[n] = t
        if camel:
            for n in plain + dashed:
                new[n] = t + "_lem"
        else:
            for n in dashed:
                new[n] = t + "_lem" if plain else t
        if len(ns) > 1:
            said.append(f"{', '.join(sorted(ns))} -> {', '.join(sorted(set(new.get(n, n) for n in ns)))}")
    return new, said


def external(text):
    """Names that a file takes from outside the repository."""
    out = set()
    for m in re.finditer(r"(?m)^(?:ghost |pub )?use ([^{;\n]+?)\.\{([^}]*)\}", text):
        path = m.group(1).split(".")
        if not (path[0] == "Rattle" and len(path) > 1 and path[1] in OWN) or "declared" in path or "contracts" in path:
            out |= {x.strip() for x in m.group(2).split(",")}
    return out


def spell(part, new, keep, fields):
    """Code: each name, but what follows a dot, unless a record of the repository has it as a field."""
    out, last = [], 0
    for m in TOKEN.finditer(part):
        n = m.group(0)
        if n in new and n not in keep and (m.start() == 0 or part[m.start() - 1] != "." or n in fields or part[m.start() - 2:m.start()] == "..") :
            out.append(part[last:m.start()] + new[n])
            last = m.end()
    return "".join(out) + part[last:]


def ticks(part, new):
    """A comment or a page: what stands in backticks."""
    return re.sub(r"`([^`\n]+)`", lambda m: "`" + TOKEN.sub(lambda t: new.get(t.group(0), t.group(0)) if CAMEL.match(t.group(0)) or DASHED.match(t.group(0)) else t.group(0), m.group(1)) + "`", part)


def antt(text, new, fields, keep):
    out = []
    for line in text.split("\n"):
        m = re.match(r"^(\s*(?:pub )?use )([^{]*?)(\.\{[^}]*\}.*| as .*|$)", line)
        if m:
            line = m.group(1) + m.group(2) + spell(m.group(3), new, keep, fields)
            line = re.sub(r"\.\{([^}]*)\}", lambda b: ".{" + ", ".join(dict.fromkeys(x.strip() for x in b.group(1).split(","))) + "}", line)
        else:
            code, dashes, comment = line.partition("--")
            line = spell(code, new, keep, fields) + dashes + ticks(comment, new)
        out.append(line)
    return "\n".join(out)


CLAUSE = re.compile(r"(?s)\b((?:requires|ensures|ghost)\*?(?: [a-z_0-9]+:?)? \{)(.*?)(\}\n)")


def source(text, new, fields, keep):
    text = re.sub(r"(?m)^(\s*ghost use )(.*)$", lambda m: m.group(1) + antt("use " + m.group(2), new, fields, keep)[4:], text)
    text = CLAUSE.sub(lambda m: m.group(1) + spell(m.group(2), new, keep, fields) + m.group(3), text)
    return re.sub(r"(?m)^(\s*//)(.*)$", lambda m: m.group(1) + ticks(m.group(2), new), text)


def record_fields():
    """Fields of the records that specs/ and proofs/ declare."""
    out = set()
    for p in files(".antt"):
        inside = None
        for line in read(p).split("\n"):
            m = re.match(r"^(\s*)(?:pub )?(?:record|data) ", line)
            if m:
                inside = len(m.group(1))
                continue
            if inside is not None and line.strip() and not line.strip().startswith("--"):
                if len(line) - len(line.lstrip()) <= inside:
                    inside = None
                else:
                    s = SIGNATURE.match(line)
                    if s:
                        out |= set(s.group(1).split()) - WORDS
    return out


def main():
    names = declared()
    new, said = mapping(names)
    fields = record_fields()
    fields = {f for f in fields if f in new}
    changed = 0
    clash = []
    for p in list(files(".antt")) + list(files(".rt")):
        text = read(p)
        keep = external(text)
        for n in {m.group(0) for m in TOKEN.finditer(re.sub(r"--.*|//.*", "", text))}:
            if n in new and n not in keep and new[n] in keep:
                clash.append(f"{p}: {n} -> {new[n]}, which it also takes from the library")
        to = (antt if p.endswith(".antt") else source)(text, new, fields, keep)
        if to != text:
            changed += 1
            with open(p, "w", encoding="utf-8") as f:
                f.write(to)
    for p in files(".edit"):
        text = read(p)
        m = re.search(r"(?m)^file: (\S+)", text)
        if not m:
            continue
        target = os.path.join(*p.split("/")[:2], m.group(1))
        keep = external(read(target)) if os.path.exists(target) else set()
        lines = []
        for line in text.split("\n"):
            k = re.match(r"^(old: |new: )(.*)$", line)
            if k and m.group(1).endswith(".antt"):
                line = k.group(1) + antt(k.group(2), new, fields, keep)
            elif k:
                line = k.group(1) + (source(k.group(2) + "\n", new, fields, keep)[:-1] if re.search(r"ghost use|ensures|requires", k.group(2)) else k.group(2))
            lines.append(line)
        to = "\n".join(lines)
        if to != text:
            changed += 1
            with open(p, "w", encoding="utf-8") as f:
                f.write(to)
    for d, ds, fs in os.walk("."):
        ds[:] = [x for x in ds if x not in (".git", "crates", "out")]
        for f in fs:
            if f.endswith(".md"):
                p = os.path.join(d, f)
                text = read(p)
                to = ticks(text, new)
                if to != text:
                    changed += 1
                    with open(p, "w", encoding="utf-8") as w:
                        w.write(to)
    print(f"{len(new)} names, {changed} files")
    for s in said:
        print("together: " + s)
    for s in clash:
        print("clash: " + s)


main()

#!/usr/bin/env python3
"""Brings the repository's own definitions and lemmas to today's spelling: functions and lemmas in snake case, types and facts in
upper camel case, a dash only between two names. Names of src/, of generated goals and of the libraries stay as they are.

usage: python3 tools/respell.py KIT          once, at the top, after the kit's own port.py; KIT is the kit's folder
       python3 tools/respell.py KIT FILE..   only the files named: pages and edits that say the names

The table of names that it made goes to docs/respelled.txt.
"""
import os
import re
import sys

KIT = os.path.join(sys.argv[1], "rattle")
ONLY = sys.argv[2:]
TABLE = "docs/respelled.txt"
BREAKS = r"\s(){}\[\],;:.λ∷\"`"
TOKEN = re.compile(r"[^" + BREAKS + r"]+")
HEAD = re.compile(r"^ *(?:(?:pub|abbrev|unfoldable)\s+)*([^" + BREAKS + r"◌]+)\s+:\s", re.M)
DATA = re.compile(r"^ *(?:pub\s+)?(?:data|record|ruleset)\s+([^" + BREAKS + r"◌]+)", re.M)
ALIAS = re.compile(r"[^" + BREAKS + r"]+ as ([^" + BREAKS + r"◌#]+)")


def files(top, ends):
    for folder, dirs, names in os.walk(top):
        dirs[:] = sorted(d for d in dirs if d not in ("out", "target", ".git"))
        for n in sorted(names):
            if n.endswith(ends):
                yield os.path.join(folder, n)


def of_function(path):
    """A file below proofs/F/: its names are mostly those of goals."""
    parts = path.split(os.sep)
    return "proofs" in parts and parts[-1] in ("Proof.antt", "Invariants.antt", "Answers.antt")


def snake(word):
    word = re.sub(r"([a-z0-9])([A-Z])", r"\1_\2", word)
    return word.lower() if re.fullmatch(r"[A-Za-z0-9_'₀-₉]+", word) and not word.isupper() else word


def camel(name):
    return "".join(w[:1].upper() + w[1:] for w in re.split(r"[-_]", name))


def is_type(name):
    return name[:1].isupper() and not name.isupper() and re.search("[a-z]", name)


def parts_of(name, known):
    """The words of a dashed name: a dash stays between two names, and behind a type."""
    words = name.split("-")
    out, at = [], 0
    while at < len(words):
        for n in range(len(words), at, -1):
            whole = "_".join(snake(w) if not is_type(w) else w for w in words[at:n])
            if whole in known or n == at + 1:
                out.append((whole, whole in known))
                at = n
                break
    text = out[0][0]
    for (a, left), (b, right) in zip(out, out[1:]):
        text += ("-" if (left and right) or is_type(a) else "_") + b
    return text


MEMBER = re.compile(r"^ +(?:pub\s+)?([^" + BREAKS + r"◌]+)\s+:\s", re.M)
BODY = re.compile(r"^(?: *pub)? *(data|record) .*\bwhere\n((?:(?: +.*)?\n)*)", re.M)


def members():
    """The constructors of data types and the fields of records."""
    rules, fields = set(), set()
    for p in files("crates", ".antt"):
        if not of_function(p):
            for kind, body in BODY.findall(open(p, encoding="utf-8").read()):
                (rules if kind == "data" else fields).update(MEMBER.findall(body))
    return rules, fields


def collect():
    own, local = set(), set()
    for p in files("crates", ".antt"):
        t = open(p, encoding="utf-8").read()
        names = set(HEAD.findall(t)) | set(DATA.findall(t))
        names |= {a for line in re.findall(r"^use .*$", t, re.M) for a in ALIAS.findall(line)}
        (local if of_function(p) else own).update(n for n in names if n not in ("λ", "_"))
    return own, local


def library():
    known = set()
    for p in files(KIT, "Prelude.antt"):
        known |= set(TOKEN.findall(open(p, encoding="utf-8").read()))
    for folder in ("core/specs", "std_alloc/specs", "logic/Lib", "antt/port/mathlib/src/Core"):
        for p in files(os.path.join(KIT, folder), ".antt"):
            t = open(p, encoding="utf-8").read()
            known |= set(HEAD.findall(t)) | set(DATA.findall(t))
    return known


def source_names():
    found = set()
    for p in files("crates", ".rt"):
        t = open(p, encoding="utf-8").read()
        found |= set(re.findall(r"\b(?:fn|mod|struct|enum|const|static|type|trait)\s+(\w+)", t))
        found |= set(re.findall(r"^\s*(?:pub )?(\w+)(?:\(|,|: )", t, re.M))
    return found


def table():
    own, local = collect()
    std, code = library(), source_names()
    rules, fields = members()
    words = {snake(n) for n in own if "-" not in n}
    known = words | code | {n for n in std if "-" not in n}
    new = {}
    for n in sorted(own | {n for n in local if re.search(r"[a-z0-9][A-Z]", n) and n[0].islower()}):
        if n in code and n not in own:
            continue
        if is_type(n):
            to = camel(n) if "-" in n else n
        elif n in rules or n in fields:
            to = snake(n.replace("-", "_"))
        elif "-" in n and n not in local:
            to = parts_of(n, known)
        elif "-" not in n and n[:1].islower():
            to = snake(n)
        else:
            to = n
        if to != n:
            new[n] = to
    # where two names fall together, the definition has the name, and the lemma `_lem` behind it
    for n, to in sorted(new.items()):
        if n in rules and (to in own or any(t == to and m != n for m, t in new.items())):
            new[n] = to + "_rule"
            print("rule", n, new[n])
    for n, to in sorted(new.items()):
        others = [m for m, t in new.items() if t == to and m != n]
        if to in own and to not in new and "-" not in n:
            new[to] = to + "_lem"
        elif to in own and to not in new or others and "-" in n:
            new[n] = to + "_lem"
    back = {}
    for n, to in new.items():
        back.setdefault(to, []).append(n)
    for to, olds in sorted(back.items()):
        if len(olds) > 1 or to in own - set(new):
            print("falls together:", to, "<-", ", ".join(olds))
    return new


def turn_proof(text, new, behind):
    """In a proof a name behind a dot is mostly Rattle's own: only one in camel case is ours."""
    def one(m):
        n = m.group(0)
        to = new.get(n)
        if to is None:
            return n
        before = text[m.start() - 1 : m.start()]
        if before == "." and ("-" in n and not is_type(n) or "_" in n) and n not in behind:
            return n
        return to
    return TOKEN.sub(one, text)


def clauses(text, new):
    """Of a source file only names in camel case are turned: they stand in clauses and imports alone."""
    def one(m):
        n = m.group(0)
        return new[n] if n in new and (re.search(r"[a-z0-9][A-Z]", n) and n[0].islower() or "-" in n and is_type(n)) else n
    out = []
    for line in text.split("\n"):
        code = line
        if '"' in line and "ascii" not in line:
            out.append(line)
            continue
        out.append(TOKEN.sub(one, code))
    return "\n".join(out)


def main():
    if ONLY:
        new = dict(line.rstrip("\n").split(" ") for line in open(TABLE, encoding="utf-8"))
        behind = set()
    else:
        new = table()
        if "--look" in sys.argv or os.environ.get("LOOK"):
            for n, to in sorted(new.items()):
                print(n, to)
            return
        behind = set.union(*members())
        with open(TABLE, "w", encoding="utf-8") as f:
            f.writelines(f"{n} {to}\n" for n, to in sorted(new.items()))
    for p in ONLY or list(files("crates", (".antt", ".rt"))):
        t = open(p, encoding="utf-8").read()
        u = clauses(t, new) if p.endswith(".rt") else turn_proof(t, new, behind)
        if u != t:
            open(p, "w", encoding="utf-8").write(u)


main()

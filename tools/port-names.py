#!/usr/bin/env python3
"""Brings the repository's own words to today's spelling: types in camel case, all other words in snake case.

usage: python3 tools/port-names.py [--list]     at the top of the repository, once, after the kit's port.py

A name is taken where a file of specs/ or proofs/ declares it (a definition, lemma, type, constructor, field, or a name of `where`, `let` or a
binder). The goals that Rattle names stay as they are, and so do names of the library. In a source file only clauses, ghost items and `ghost use` lines are
turned. Comments, strings and Rust code stay. With --list it only prints the table, and which names fall together.
"""

import os
import re
import sys

NAME = r"[A-Za-z][A-Za-z0-9_']*(?:-[A-Za-z0-9_']+)+"
WORD = re.compile(r"(?<![A-Za-z0-9_'\-])(" + NAME + r")(?![A-Za-z0-9_'\-])")
# names that would fall together with one of the source
APART = {"hex-digit": "hex_digit_of"}


def files(ending):
    for folder, dirs, names in os.walk("crates"):
        dirs[:] = sorted(d for d in dirs if d != "out")
        for n in sorted(names):
            if n.endswith(ending):
                yield os.path.join(folder, n)


def read(path):
    with open(path, encoding="utf-8") as f:
        return f.read()


def spelled(name):
    parts = name.split("-")
    if name[0].isupper():
        return parts[0] + "".join(p[:1].upper() + p[1:] for p in parts[1:])
    return "_".join(parts)


def pieces(text):
    """The text in turn as (is_code, piece): comments and strings are no code."""
    at = 0
    for m in re.finditer(r'--[^\n]*|"(?:[^"\\\n]|\\.)*"', text):
        # A dash that belongs to a name begins no comment.
        if m.group().startswith("--") and m.start() and text[m.start() - 1] not in " \n\t":
            continue
        if m.start() < at:
            continue
        yield True, text[at:m.start()]
        yield False, m.group()
        at = m.end()
    yield True, text[at:]


def code(text):
    return "".join(p if c else " " for c, p in pieces(text))


def declared(path):
    """The names with a dash that a file of specs/ or proofs/ declares."""
    text = code(read(path))
    text = re.sub(r"^\s*(?:pub\s+)?use\s[^\n]*$", "", text, flags=re.M)
    found = set()
    # a signature, a constructor, a field: NAME : ..
    for m in re.finditer(r"(?<![A-Za-z0-9_'.\-])(" + NAME + r")((?:\s+" + NAME + r")*)\s+:(?![:=])", text):
        rest = text[m.end():].lstrip()
        if rest.startswith("goal."):
            continue
        found.update([m.group(1), *m.group(2).split()])
    # data, record
    found.update(m.group(1) for m in re.finditer(r"\b(?:data|record)\s+(" + NAME + r")", text))
    # let NAME = .., NAME = in a record value is a field, which its own type declares
    found.update(m.group(1) for m in re.finditer(r"\blet\s+(" + NAME + r")\s*=", text))
    # binders of a function
    for m in re.finditer(r"λ\s+([^.]*)\.", text):
        found.update(WORD.findall(m.group(1)))
    return found


def library():
    """The names with a dash that some file takes from the library."""
    found = set()
    for path in list(files(".antt")) + list(files(".rt")):
        for m in re.finditer(r"use\s+(?:Rattle\.std\.|Prim\.|mathlib\.|native\.|borrow\.|lib\.)[^\s{;]*\.\{([^}]*)\}", read(path)):
            for item in m.group(1).split(","):
                found.update(WORD.findall(item))
    return found


def turned(text, table):
    return WORD.sub(lambda m: table.get(m.group(1), m.group(1)), text)


def clauses(text):
    """The spans of a source file that hold antt: clauses, ghost items and `ghost use` lines."""
    for m in re.finditer(r"^[ \t]*(?:pub(?:\([a-z]+\))?\s+)?(?:ghost|requires|ensures)\b\*?", text, re.M):
        if re.match(r"\s*use\b", text[m.end():]):
            yield m.start(), text.index(";", m.end()) + 1
            continue
        depth, i = 0, m.end()
        while i < len(text):
            if text[i] == "{":
                depth += 1
            elif text[i] == "}":
                depth -= 1
                if depth == 0:
                    # a member may have a type and then a value
                    if not re.match(r"\s*=\s*\{", text[i + 1:]):
                        break
            i += 1
        yield m.start(), i + 1


def main():
    own = {}
    for path in files(".antt"):
        for n in declared(path):
            own.setdefault(n, set()).add(path)
    theirs = library()
    both = sorted(set(own) & theirs)
    table = {n: APART.get(n, spelled(n)) for n in own if n not in theirs}
    # names that would fall together with another one
    words = set()
    for path in files(".antt"):
        words.update(re.findall(r"[A-Za-z][A-Za-z0-9_']*", code(read(path))))
    new = {}
    for n, s in table.items():
        new.setdefault(s, []).append(n)
    clash = [(s, ns) for s, ns in sorted(new.items()) if len(ns) > 1 or s in words]
    if "--list" in sys.argv:
        for n in sorted(table):
            print(f"{n:<40} {table[n]:<40} {' '.join(sorted(own[n]))}")
        print("in the library too:", both)
        for s, ns in clash:
            print("falls together:", s, ns)
        return
    for path in files(".antt"):
        text = read(path)
        after = "".join(turned(p, table) if c else p for c, p in pieces(text))
        if after != text:
            with open(path, "w", encoding="utf-8") as f:
                f.write(after)
    for path in files(".rt"):
        text = read(path)
        out, at = [], 0
        for start, end in clauses(text):
            if start < at:
                continue
            out += [text[at:start], turned(text[start:end], table)]
            at = end
        after = "".join(out) + text[at:]
        if after != text:
            with open(path, "w", encoding="utf-8") as f:
                f.write(after)


main()

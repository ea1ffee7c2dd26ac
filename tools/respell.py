#!/usr/bin/env python3
"""Brings the repository's own definitions and lemmas to the kit's spelling: words in snake case, types in camel case.

usage: python3 tools/respell.py [--check]      at the top of the repository, after the kit's port.py

It reads which names specs/ and proofs/ declare, and writes each anew wherever it is cited: in specs/, proofs/, clauses,
must-fail edits and, in backquotes, in the pages. Functions, exported names and strings keep theirs. A lemma whose name
would be that of a definition ends in `_lem`. With --check it only prints the names that fall together with others.
"""

import collections
import glob
import os
import re
import sys

SIGNATURE = re.compile(r"^( *)((?:(?:pub|abbrev|unfoldable|opaque) )*)([^\s:({.]+) :( .*)?$")
MADE = re.compile(r"\b(?:tie|goal|need|given)\.|Need-|-lts\.|statement M|\.Closed|invariant-|decreases-")
WORD = re.compile(r"[A-Za-z_][\w'·%-]*")
PAGES = ["README.md", "docs/ARCHITECTURE.md", "docs/PROOFS.md", "docs/DECISIONS.md", "parked/NOTES.md"]


def files(*patterns):
    return sorted(f for p in patterns for f in glob.glob(p, recursive=True) if "/out/" not in f)


def snake(name):
    name = name.replace("%", "_percent_").replace("-", "_").replace("·", "_")
    name = re.sub(r"([a-z0-9])([A-Z])", lambda m: m[1] + "_" + m[2].lower(), name)
    return re.sub(r"_([A-Z])", lambda m: "_" + m[1].lower(), name)


def declared():
    found = collections.defaultdict(set)
    for f in files("crates/*/specs/**/*.antt", "crates/*/proofs/**/*.antt"):
        for line in open(f, encoding="utf-8"):
            m = SIGNATURE.match(line)
            if m and not MADE.search(m[4] or ""):
                found[m[3]].add(f)
    return found


def table():
    """The new name of each name that changes."""
    found = declared()
    old = [n for n in found if re.match(r"[a-z]", n) and re.search(r"[A-Z%·-]", n)]
    camel = {snake(n) for n in old if "-" not in n and "·" not in n}
    kept = {n for n in found if n not in old}
    new = {}
    for n in sorted(old):
        s = snake(n)
        if ("-" in n or "·" in n) and (s in camel or s in kept):
            s += "_lem"
        new[n] = s
    return new


def lemmas_of(text, path, new, found):
    """The lemmas of a file, its own or imported, whose snake name a definition takes."""
    taken = {n for o, n in new.items() if "-" not in o and "·" not in o and n in found}
    here = {n for n in taken if path in found[n]}
    for m in re.finditer(r"(?m)^\s*(?:pub )?use Rattle\.\w+\.(?:proofs|specs)\.[^\s{]+?\.\{([^}]*)\}", text):
        here |= {n.strip() for n in m[1].split(",")} & taken
    return here


def outside_strings(line):
    """The parts of a line, each with whether it is code (not a string)."""
    at = 0
    for m in re.finditer(r'"(?:[^"\\]|\\.)*"', line):
        yield line[at : m.start()], True
        yield m[0], False
        at = m.end()
    yield line[at:], True


def said(text, new):
    """A comment or a page: a name in backquotes, or one that no English word looks like."""
    text = re.sub(r"`[^`\n]*`", lambda q: WORD.sub(lambda m: new.get(m[0], m[0]), q[0]), text)
    return WORD.sub(lambda m: new.get(m[0], m[0]) if re.search(r"[a-z][A-Z]", m[0]) else m[0], text)


def foreign(text):
    """The names that a file imports from outside the repository."""
    names = set()
    for m in re.finditer(r"(?m)^\s*(?:pub )?(?:ghost )?use ([^\s{]+?)\.\{([^}]*)\}", text):
        if not re.match(r"Rattle\.(\w+)\.", m[1]) or not os.path.isdir("crates/" + re.match(r"Rattle\.(\w+)\.", m[1])[1]):
            names |= {n.strip().split(" ")[0] for n in m[2].split(",")}
    return names


def turned(text, mark, new):
    out = []
    here = {o: n for o, n in new.items() if o not in foreign(text)}
    for line in text.split("\n"):
        m = re.search(r"(?:^|\s)" + re.escape(mark), line)
        code, comment = (line, "") if not m else (line[: m.start()], line[m.start() :])
        if mark == "//" and '"' in code and code.count('"') % 2:
            code, comment = line, ""
        parts = [WORD.sub(lambda w: here.get(w[0], w[0]), p) if is_code else p for p, is_code in outside_strings(code)]
        out.append("".join(parts) + said(comment, here))
    return "\n".join(out)


def main():
    new, found = table(), declared()
    check = "--check" in sys.argv
    for f in files("crates/*/specs/**/*.antt", "crates/*/proofs/**/*.antt", "crates/*/src/**/*.rt", "crates/*/must-fail/*.edit") + PAGES:
        before = text = open(f, encoding="utf-8").read()
        if f.endswith(".md"):
            after = said(text, new)
        else:
            for n in lemmas_of(text, f, new, found) if f.endswith(".antt") else []:
                text = re.sub(rf"(?<![\w.'-]){n}(?![\w'-])", n + "_lem", text)
                print(f"lemma: {f}: {n}_lem")
            after = turned(text, "--" if f.endswith(".antt") else "//", new)
        words = set(WORD.findall(text))
        for o in sorted(words & set(new)):
            if new[o] in words and not f.endswith(".md"):
                print(f"together: {f}: {o} and {new[o]}")
        if after != before and not check:
            open(f, "w", encoding="utf-8").write(after)
    print(f"respell: {len(new)} names")


if __name__ == "__main__":
    main()

#!/usr/bin/env python3
"""Brings the names of the definitions and lemmas of this repository to snake case: `python3 tools/respell.py`, once, at the top, after the
kit's port.py. It takes each name with a dash that a file of specs/ or proofs/ declares, and writes it with underscores wherever it stands in
crates/. Goals of proofs, which the check names, keep their spelling; so do strings, comments and the functions of src/. It also writes out
which bound a member of a kind comes from (`K.kind`), as clauses now want it. With --list it only prints what it would rename."""
import collections
import os
import re
import sys

# A name with a dash, or in lower camel case.
DASHED = r"(?:[A-Za-zΑ-ω][\w']*(?:-[\w']+)+|[a-z][\w']*[A-Z][\w']*)"
# A capital inside a word.
HUMP = re.compile(r"(?<=[a-z])[A-Z](?![a-z]*-)")
TOKEN = re.compile(r"(?<![\w'-])" + DASHED + r"(?![\w'-])")
DECLARED = re.compile(r"^\s*(?:abbrev\s+|unfoldable\s+)?(?:pub\s+)?(?:abbrev\s+|unfoldable\s+)?(?:record\s+|data\s+)?(" + DASHED + r")\s*(?::(?!=)|\(|\{|=)(?!\s*goal\.)")
GOAL = re.compile(r":\s*goal\.")
# Facts, which are spelled as types.
FACTS = {"Held-at": "HeldAt", "No-index": "NoIndex", "Parity-is": "ParityIs", "Reciprocal-table": "ReciprocalTable"}
# A file that imports a name from the library keeps it.
LIBRARY = re.compile(r"^\s*(?:ghost\s+)?use\s+(?:Rattle\.std|mir|logic|seplogic|mathlib)\b[\w.]*\.\{(.*)\}", re.M)
# Members of a kind that a clause names through the bound.
MEMBERS = ("kind", "complete", "admits", "alike", "laws")


def files(top):
    for folder, dirs, names in os.walk(os.path.join(top, "crates")):
        dirs[:] = sorted(d for d in dirs if d not in ("out", ".git"))
        for n in sorted(names):
            if n.endswith((".rt", ".antt", ".edit")):
                yield os.path.join(folder, n)


def declared(path, text):
    found = set()
    if not path.endswith(".antt"):
        return found
    for line in text.split("\n"):
        line = re.sub(r"(^|\s)--\s.*$", "", line)
        if GOAL.search(line):
            continue
        m = DECLARED.match(line)
        if m:
            found.add(m[1])
        for m in re.finditer(r"\blet\s+(" + DASHED + r")\s*[:=]", line):
            found.add(m[1])
    return found


def goals(path, text):
    return set(m[1] for m in re.finditer(r"^\s*(?:abbrev\s+)?(?:pub\s+)?(?:abbrev\s+)?(" + DASHED + r")\s*:\s*goal\.", text, re.M))


def imported(text):
    """The names with a dash that a file takes from the library."""
    return set(w.strip().split(" as ")[0] for m in LIBRARY.finditer(text) for w in m[1].split(","))


def snake(name):
    return FACTS.get(name) or HUMP.sub(lambda m: "_" + m[0].lower(), name.replace("-", "_"))


def respelled(path, text, names):
    out = []
    names = names - imported(text)
    edit = path.endswith(".edit")
    comment = "--" if path.endswith(".antt") else "//"
    for line in text.split("\n"):
        if path.endswith(".rt") and not re.search(r"[◌≡≢→∙×]|ensures|requires|ghost|λ|\{ .* \}", line):
            out.append(line)
            continue
        m = re.search(r"(^|\s)" + comment + r"(\s|$)", line)
        code, rest = (line, "") if edit or not m else (line[: m.start()], line[m.start() :])
        code = TOKEN.sub(lambda t: snake(t[0]) if t[0] in names else t[0], code)
        out.append(code + rest)
    return "\n".join(out)


def told(text, words):
    """The names that a page tells of, between backticks."""
    return re.sub(r"`[^`\n]*`", lambda m: TOKEN.sub(lambda t: snake(t[0]) if snake(t[0]) in words else t[0], m[0]), text)


def bounds(path, text):
    """`kind` in a clause of a function over K: Number is `K.kind`."""
    if not path.endswith(".rt") or "trait " in text or "K: Number" not in text and "K: Shown" not in text:
        return text
    member = re.compile(r"(?<![\w.'])(" + "|".join(MEMBERS) + r")(?![\w'])(?!\s*\{)")
    out = []
    for line in text.split("\n"):
        m = re.match(r"(\s*(?:ensures|requires)\*?\s*\w*\s*\{)(.*)$", line)
        out.append(m[1] + member.sub(r"K.\1", m[2]) if m else line)
    return "\n".join(out)


def main():
    top = "."
    texts = {p: open(p, encoding="utf-8").read() for p in files(top)}
    names, made = set(), set()
    for p, t in texts.items():
        names |= declared(p, t)
        made |= goals(p, t)
    names -= made
    if "--list" in sys.argv:
        words = collections.defaultdict(set)
        for p, t in texts.items():
            for w in re.findall(r"(?<![\w'-])[A-Za-z_][\w']*(?![\w'-])", t):
                words[w].add(p)
        for n in sorted(names):
            s = snake(n)
            print(n, s, "CLASH " + " ".join(sorted(words[s])[:6]) if s in words else "")
        return
    for p, t in texts.items():
        write(p, t, bounds(p, respelled(p, t, names)))
    words = set(w for p in files(top) if p.endswith(".antt") for w in re.findall(r"[^\W\d][\w']*", open(p, encoding="utf-8").read()))
    for p in ["README.md"] + sorted(os.path.join("docs", n) for n in os.listdir("docs") if n.endswith(".md")):
        with open(p, encoding="utf-8") as f:
            t = f.read()
        write(p, t, told(t, words))


def write(path, old, new):
    if new != old:
        with open(path, "w", encoding="utf-8") as f:
            f.write(new)


main()

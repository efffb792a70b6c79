#!/usr/bin/env python3
"""Brings the repository's own definitions and lemmas to snake case, once, after port.py of the kit: wordsOf is words_of, drop-items is drop_items.

usage: tools/respell.py            at the top of the repository; --list prints the words alone

A word is respelled wherever it stands as a name in antt text (specs/, proofs/), in the ghost lines and clauses of src/, and in the lines of
must-fail/*.edit. Names of the kit's libraries stay, and so do those that Rattle makes in the proof of a function. A lemma that would get the name of
a definition or of a function gets the ending _lem. Names that fall together otherwise are printed: read them.
"""
import collections
import glob
import os
import re
import sys

TOKEN = re.compile(r"[^\s(){}.;,@\"«»\[\]|]+")
USES = re.compile(r"^(?:ghost |pub )*use ([^\s;{]+?)\.\{([^}]*)\}|^(?:ghost |pub )*use ([^\s;{]+)(?: as ([^\s;]+))?", re.M)
LIBS = {"std", "core", "io", "libc", "os"}


def snake(word):
    word = re.sub(r"(?<=[a-z0-9])([A-Z])", lambda m: "_" + m[1].lower(), word)
    return word.replace("-", "_")


def texts():
    for p in sorted(glob.glob("crates/*/specs/*.antt") + glob.glob("crates/*/proofs/**/*.antt", recursive=True) + glob.glob("crates/*/src/**/*.rt", recursive=True)):
        yield p, open(p, encoding="utf-8").read()


def of_a_library(path):
    steps = path.split(".")
    return steps[0] != "Rattle" or len(steps) > 1 and steps[1] in LIBS


def code(text):
    """The text without comments."""
    return re.sub(r"(^|\s)--\s.*", r"\1", text)


def declared(text):
    """Names that an antt file declares: signatures, at any depth, constructors, fields, rulesets."""
    names = set()
    for m in re.finditer(r"^[ \t]*((?:abbrev |unfoldable |pub |opaque |data |record |ruleset )*)((?:[^\s:(){}=.;,\"]+ )*?[^\s:(){}=.;,\"]+)((?: \{[^}]*\}| \([^)]*\))*) ?(:|=|where)(?=\s)", code(text), re.M):
        if m[4] == "=" and "ruleset" not in m[1]:
            continue
        names |= set(m[2].split())
    return names


def main():
    files = dict(texts())
    library = set()
    for p, t in files.items():
        for m in USES.finditer(t):
            path, items = m[1] or m[3], m[2]
            if of_a_library(path):
                if items:
                    library |= {w.strip().split(" as ")[0] for w in items.replace("\n", " ").split(",")}
                if m[4]:
                    library.add(m[4])
    own = collections.Counter()
    of_file = {}
    for p, t in files.items():
        if p.endswith(".antt"):
            of_file[p] = declared(t)
            for w in of_file[p]:
                own[w] += 1
    in_function = re.compile(r"/proofs/.*/(Proof|Answers|Invariants)\.antt$")
    lemmas = {w for p, ws in of_file.items() if not in_function.search(p) for w in ws if "-" in w and w[0].islower()}
    camel = set()
    for p, t in files.items():
        body = code(t) if p.endswith(".antt") else "\n".join(l for g, l in ghosts(t) if g)
        for w in TOKEN.findall(body):
            if re.match(r"^[a-z]", w) and re.search(r"[a-z0-9][A-Z]", w) and re.fullmatch(r"[A-Za-z0-9_'₀-₉-]+", w):
                camel.add(w)
    words = {w: snake(w) for w in (camel | lemmas) if re.fullmatch(r"[A-Za-z0-9_'₀-₉+-]+", w)}
    words = {w: n for w, n in words.items() if w != n and w not in library}
    # a lemma named as a definition, or two that fall together
    all_names = set(own)
    for p, t in files.items():
        all_names |= set(TOKEN.findall(code(t)))
    to = collections.defaultdict(set)
    for w, n in words.items():
        to[n].add(w)
    for n, ws in sorted(to.items()):
        ws = set(ws)
        if n in all_names:
            ws.add(n)
        if len(ws) < 2:
            continue
        dashed = {w for w in ws if "-" in w}
        for w in dashed:
            words[w] = n + "_lem"
        if len(dashed) > 1:
            print("together:", n, sorted(ws), file=sys.stderr)
    both = {p: ws & {snake(w) for w in TOKEN.findall(code(files[p])) if w in camel} for p, ws in of_file.items() if "/specs/" not in p}
    files = {p: apart(p, t, both) for p, t in files.items()}
    if "--list" in sys.argv:
        for w, n in sorted(words.items()):
            print(w, n)
        return
    for p, t in files.items():
        if p.endswith(".antt"):
            new = turn(t, words)
        else:
            new = "\n".join(turn(l, words) if g else comment(l, words) for g, l in ghosts(t))
        if new != open(p, encoding="utf-8").read():
            open(p, "w", encoding="utf-8").write(new)
    for p in sorted(glob.glob("crates/*/must-fail/*.edit")):
        t = open(p, encoding="utf-8").read()
        new = "\n".join(turn(l, words) if l.startswith(("old:", "new:")) else l for l in t.split("\n"))
        if new != t:
            open(p, "w", encoding="utf-8").write(new)


def apart(p, text, both):
    """A lemma whose name its file's definition will get: it gets the ending _lem, there and where it is imported."""
    lemmas = set(both.get(p, ()))
    for m in USES.finditer(text):
        if m[2] and ".proofs." in m[1] and not of_a_library(m[1]):
            steps = m[1].split(".")
            at = "crates/%s/proofs/%s.antt" % (steps[1], "/".join(steps[3:]))
            lemmas |= {w.strip() for w in m[2].replace("\n", " ").split(",")} & both.get(at, set())
    if not lemmas:
        return text
    return re.sub(r"(?<![^\s(){};,@«»])[^\s(){}.;,@\"«»\[\]|]+(?![^\s(){};,@«»])", lambda m: m[0] + "_lem" if m[0] in lemmas else m[0], text)


CLAUSE = re.compile(r"^\s*(ghost\b|requires\b|ensures\b)")


def ghosts(text):
    """The lines of a source file, each with whether it belongs to a ghost item or a clause: such a one may go over several."""
    depth = 0
    for line in text.split("\n"):
        inside = depth > 0 or bool(CLAUSE.match(line))
        if inside:
            depth = max(0, depth + line.count("{") - line.count("}"))
        yield inside, line


def comment(line, words):
    """In a comment of src/ a word in backquotes is a name."""
    if not line.lstrip().startswith("//"):
        return line
    return re.sub(r"`[^`]*`", lambda m: turn(m[0], words), line)


def turn(text, words):
    return re.sub(r"[^\s(){}.;,@\"«»\[\]|`:]+", lambda m: words.get(m[0], m[0]), text)


main()

#!/usr/bin/env python3
"""Brings the repository's own definitions, lemmas, fields and constructors to snake case, once.

usage: tools/spell.py [--dry]    at the top, right after the kit's port.py

A name of ours that begins with a small letter and holds a capital or a dash is written with underscores: headAt is head_at,
putHead-above is put_head_above. Names that begin with a capital (facts, types, modules, constructors) stay. So do the names of
the library, those that the check makes (in proofs/F/), and everything in src/ outside clauses: functions, exported names, strings.
A name that a file takes from the library is left alone in that file. What falls together is printed, and then nothing is written.
"""
import collections
import glob
import re
import sys

DRY = "--dry" in sys.argv
WORD = re.compile(r"(?<![\w'\-])[A-Za-z_][\w']*(?:-[\w']+)*")
HEAD = re.compile(r"^(?:(?:abbrev|unfoldable|pub|record|data|ruleset)\s+)*([A-Za-z_][\w'\-]*)\s+(?:\([^:]*\)\s*|\{[^:]*\}\s*)*:(?:\s|$)")
HEADP = re.compile(r"^(?:(?:abbrev|unfoldable|pub|record|data|ruleset)\s+)+([A-Za-z_][\w'\-]*)\b")
FIELD = re.compile(r"^\s+(?:pub\s+)?([A-Za-z_][\w'\-]*)\s+:\s")
USE = re.compile(r"^(?:pub |ghost )?use\s+([\w.'◌+-]+?)\.\{([^}]*)\}", re.M)


def snake(name):
    if not re.match(r"[a-z]", name) or not re.search(r"[A-Z]|-", name):
        return name
    out = name.replace("-", "_")
    out = re.sub(r"(?<=[a-z0-9'])([A-Z])", lambda m: "_" + m.group(1).lower(), out)
    return out.lower() if not re.search(r"_[A-Z]|^[A-Z]", out) else out


def crates():
    return [l.split(":")[0].split()[0] for l in open("crates.txt") if l.strip() and not l.startswith("#")]


OURS = {"Rattle." + c for c in crates()}


def ours(module):
    return ".".join(module.split(".")[:2]) in OURS and not re.search(r"\.(Statement|Tie|Goals|Given)$", module)


def split(files):
    """The files with definitions and lemmas; those of functions' proofs; sources; edits."""
    defs = sorted(glob.glob("crates/*/specs/*.antt") + glob.glob("crates/*/proofs/*.antt"))
    fns = sorted(set(glob.glob("crates/*/proofs/**/*.antt", recursive=True)) - set(defs))
    return defs, fns, sorted(glob.glob("crates/*/src/*.rt")), sorted(glob.glob("crates/*/must-fail/*.edit"))


def foreign(text):
    names = set()
    for m in USE.finditer(text):
        if not ours(m.group(1)):
            names.update(n.strip().split(" as ")[-1] for n in m.group(2).split(","))
    return names


def gather(files):
    """Names of definitions and lemmas (those of a module inside a file too), and names of fields and constructors."""
    tops, fields = collections.defaultdict(set), collections.defaultdict(set)
    for f in files:
        above = []
        for line in open(f):
            if not line.strip() or line.lstrip().startswith("--"):
                continue
            deep = len(line) - len(line.lstrip())
            while above and above[-1][0] >= deep:
                above.pop()
            opener = above[-1][1] if above else ""
            above.append((deep, line))
            if line.startswith(("use ", "pub use", "mod ", "pub mod")) or line.lstrip().startswith("unfolding"):
                continue
            m = HEAD.match(line.strip()) or (deep == 0 and HEADP.match(line))
            if not m:
                continue
            if deep == 0 or re.match(r"\s*(pub )?module\b", opener):
                tops[m.group(1)].add(f)
            elif re.match(r"\s*(pub )?(record|data)\b", opener):
                fields[m.group(1)].add(f)
    return tops, fields


def main():
    defs, fns, srcs, edits = split(None)
    tops, fields = gather(defs)
    ftops, _ = gather(fns)
    texts = {f: open(f).read() for f in defs + fns + srcs + edits}
    made = re.compile(r"^(?:invariant|decreases)-")
    bad = []
    # Names that fall together: the definition keeps the name, and the lemma gets _lem. A field has a place of its own, behind a dot.
    whole = collections.defaultdict(set)
    for n in tops:
        whole[snake(n)].add(n)
    lemmas = {}
    taken = {f: foreign(t) for f, t in texts.items()}
    for n in list(tops):
        if snake(n) != n and any(snake(n) in taken[f] for f in texts if f in tops[n] or re.search(r"(?<![\w'-])%s(?![\w'-])" % re.escape(n), texts[f])):
            lemmas[n] = snake(n) + "_lem"
            print("lemma: %s is %s, beside the library's" % (n, lemmas[n]))
    for s, ns in sorted(whole.items()):
        if len(ns) > 1:
            kept = [n for n in ns if any("/specs/" in f for f in tops[n])]
            for n in ns:
                if n not in kept:
                    lemmas[n] = s + "_lem"
                    print("lemma: %s is %s" % (n, lemmas[n]))
            if len(kept) != 1:
                bad.append("%s: %s" % (s, "; ".join("%s in %s" % (n, ", ".join(sorted(tops[n]))) for n in sorted(ns))))

    # a fact is spelled as a type
    facts = {"rowAt": "RowAt", "row_at": "RowAt"}
    lemmas.update(facts)
    lemmas.pop("row-at", None)

    def name(w, field=False):
        return lemmas[w] if w in lemmas and not field else snake(w)

    out = {}

    def respell(text, known, loose, f):
        away = foreign(text)
        seen = collections.defaultdict(set)

        def one(m):
            w, at = m.group(0), m.start()
            before = text[at - 1] if at else ""
            new = w
            if before == ".":
                head = re.search(r"([\w'\-]+)\.$", text[:at])
                module = head and re.match(r"[A-Z]", head.group(1))
                if module and w in known:
                    new = name(w)
                elif w in fields:
                    new = snake(w)
            elif w in away:
                new = w
            elif w in known or loose:
                field = w in fields and re.match(r"\s+[=:]\s", text[m.end():]) and re.search(r"(?:[{;(,]|^\s+|\bpub)\s*$", text[:at], re.M)
                new = name(w, field)
            if before != ".":
                seen[new].add(w)
            return new

        new = WORD.sub(one, text)
        for s, ws in sorted(seen.items()):
            if len(ws) > 1:
                print("look: in %s: %s" % (f, ", ".join(sorted(ws))))
        return new

    known = set(tops) | set(fields)
    for f in defs:
        out[f] = "\n".join(
            l if re.match(r"(pub )?mod ", l) else l for l in respell(texts[f], known, True, f).split("\n"))
    for f in fns:
        out[f] = respell(texts[f], {n for n in known if not made.match(n)} - set(ftops), False, f)
    camel = {n for n in known if re.search(r"[A-Z]", n) and re.match(r"[a-z]", n)} | {n for n in facts if n in known}
    for f in srcs:
        out[f] = respell(texts[f], camel, False, f)
        code = set(re.findall(r"\b(?:let|mut)\s+(\w+)", texts[f])) | set(re.findall(r"\b(\w+)\s*:", texts[f]))
        for w in sorted(camel):
            if re.search(r"(?<![\w.])%s\b" % re.escape(w), texts[f]) and snake(w) in code:
                bad.append("in %s: %s would be read as the code's %s" % (f, w, snake(w)))
    for f in edits:
        body = texts[f]
        kind = ".antt" in "".join(re.findall(r"^file: (.*)$", body, re.M))
        out[f] = respell(body, known if kind else camel, False, f)
    # pages name definitions between backquotes; notes of landings stay as they were written
    new = {name(n) for n in known}
    for f in ["README.md"] + sorted(glob.glob("docs/*.md")):
        texts[f] = open(f).read()

        def page(m):
            return WORD.sub(
                lambda w: w.group(0) if w.group(0) in new or name(w.group(0)) not in new else name(w.group(0)), m.group(0))

        out[f] = re.sub(r"`[^`\n]+`", page, texts[f])
    for b in bad:
        print("together:", b)
    n = sum(out[f] != texts[f] for f in out)
    print("spell: %d files, %d names" % (n, sum(snake(x) != x for x in known)))
    if bad:
        sys.exit(1)
    if not DRY:
        for f in out:
            if out[f] != texts[f]:
                open(f, "w").write(out[f])


main()

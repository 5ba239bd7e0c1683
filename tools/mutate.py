#!/usr/bin/env python3
"""A trial of the definitions of crates rules, lines, talk and c_face: one place is changed at a time, and the crate checked again, without
its code. A mutant of rules that is still proved is then checked under crate demands.

A mutant that is still proved either means the same as the definition, or shows a statement that is too weak.

    tools/mutate.py                     about 60 mutants, spread over all definitions
    tools/mutate.py --count 0           all of them
    tools/mutate.py --crate lines       those of one crate
    tools/mutate.py --seed 3 --list     only say which would be tried
    tools/mutate.py --only gap,suits    those of some definitions

Each line of the report is: verdict, place, definition, what was changed, and the first error. `refused`: a proof no longer holds. `beside`: only
laws that code is proved with no longer hold, and no statement rests on them. `void`: the changed definition itself has no meaning (a name out
of scope, a type that does not fit), which shows nothing, so the next mutant of the same definition takes its place. `untold`: the prover ran
out of steps. `survived`: everything is still proved."""
import argparse
import os
import random
import re
import shutil
import subprocess
import sys
import tempfile

FILES = {
    "rules": "Fixed Tests Round Kinds Words Holes Sound Allocate Free Resize Calls Readers Refusals Answers Outcome".split(),
    "lines": "Frames Lines Printed Wire".split(),
    "talk": ["Hearing"],
    "c_face": ["Face"],
}
# the crates of a trial, each with those that it builds on once its code is left out; and what a crate's statements are proved in; in rules, all
ROOMS = {
    "rules": {"rules": "", "demands": "rules"},
    "lines": {"rules": "", "lines": "rules"},
    "talk": {"rules": "", "lines": "rules", "talk": "rules lines memchr"},
    "c_face": {"rules": "", "c_face": "rules"},
}
STATED = {"lines": "Format", "talk": "Transcript", "c_face": "Statements"}
# bounds that only code is held to: without it nothing refuses a change of them
BOUNDS = {"answers_room", "Bounded", "Hears"}

# one name for another of the same type
SWAPS = [
    ("leb", "ltb"), ("not_after", "before"), ("&&", "||"), ("true", "false"), ("+", "-"), ("all", "any"), ("max", "min"), ("min_size", "grain"),
    ("arena_limit", "addr_limit"), (".bottom", ".top"), (".base", ".bottom"), (".pending", ".used"), ("front", "back"),
    ("down_to", "up_to"), ("/", "%"), ("≤", "<"),
]
# an order of tests is changed by exchanging what two of them give
CONSTRUCTORS = {
    "BadOpening", "Opened", "Unopened", "OtherLength", "NotSound", "BadLayout", "BadSpan", "PastArena", "BadStretch", "Rounded", "Bad", "Opening",
    "Allocated", "Freed", "Resized", "Extended", "Listed", "Room",
}
# the variables of lines that are numbers
NUMBERS = set("base named s align a n by code one two i x".split())
# where a name that a mutant brings comes from
HOMES = {
    **dict.fromkeys("leb ltb eqb true false max min ◌&&◌ ◌||◌ ◌+◌ ◌-◌ ◌/◌ ◌%◌ ◌<◌ ◌≤◌".split(), "Rattle.std.specs.Prelude"),
    "not_after": "Rattle.rules.specs.Kinds", "before": "Rattle.rules.specs.Kinds", "all": "Rattle.rules.specs.Tests",
    "any": "Rattle.rules.specs.Tests", "min_size": "Rattle.rules.specs.Fixed", "grain": "Rattle.rules.specs.Fixed",
    "arena_limit": "Rattle.rules.specs.Fixed", "addr_limit": "Rattle.rules.specs.Fixed", "up_to": "Rattle.rules.specs.Round",
    "down_to": "Rattle.rules.specs.Round",
}
# a field is a word of its own
TOKEN = re.compile(r"--[^\n]*|\.[A-Za-z]\w*|(?:(?!\.[A-Za-z])[^\s(){};,])+|[(){};,]")


class Mutant:
    def __init__(self, place, name, start, end, old, new, what):
        self.crate, self.file = place
        self.name, self.start, self.end, self.old, self.new, self.what = name, start, end, old, new, what

    def text(self, source):
        changed = source[: self.start] + self.new + source[self.end :]
        for word in re.findall(r"[^\s(){};,]+", self.new):
            changed = imported(changed, word)
        return changed


def imported(source, word):
    """The source with the name imported, if it is one that a mutant brings."""
    for name in (word, f"◌{word}◌"):
        home = HOMES.get(name)
        if home is None:
            continue
        lines = source.split("\n")
        for line in lines:
            if line.startswith("use ") and re.search(r"[{ ]" + re.escape(name) + r"[,}]", line):
                return source
        if re.search(r"^abbrev pub " + re.escape(name) + " ", source, re.M):
            return source
        first = next(i for i, line in enumerate(lines) if line.startswith("use "))
        lines.insert(first, f"use {home}.{{{name}}}")
        return "\n".join(lines)
    return source


def definitions(source):
    """Name and stretches of text of each definition: what stands behind the = of its clauses, or the types of a record of statements."""
    found, name, kind, at = {}, None, None, 0
    for line in source.split("\n"):
        end = at + len(line)
        if head := re.match(r"(?:abbrev|unfoldable) pub (\S+) :", line):
            name, kind = head.group(1), "clauses"
        elif head := re.match(r"pub record (\S+) \(", line):
            name, kind = head.group(1), "types"
        elif re.match(r"pub (record|data) ", line):
            kind = None
        elif not line.strip() or line.startswith(("--", "use ")):
            pass
        elif kind == "clauses" and not line.startswith(" "):
            sign = line.index(" =")
            found.setdefault(name, []).append((at + sign + 2, end))
        elif kind == "clauses":
            found.setdefault(name, []).append((at, end))
        elif kind == "types" and " : " in line:
            found.setdefault(name, []).append((at + line.index(" : ") + 3, end))
        at = end + 1
    return found


def joined(parts):
    """The stretches of one clause as one, so that a list over several lines is seen whole."""
    whole = []
    for start, end in parts:
        if whole and start - whole[-1][1] == 1:
            whole[-1] = (whole[-1][0], end)
        else:
            whole.append((start, end))
    return whole


def atoms(text, at, count):
    """The next arguments from a place on: words, with their fields, or what stands in parentheses."""
    out = []
    while len(out) < count:
        while at < len(text) and text[at].isspace():
            at += 1
        if at >= len(text):
            return None
        start = at
        if text[at] == "(":
            depth = 0
            while at < len(text):
                depth += {"(": 1, ")": -1}.get(text[at], 0)
                at += 1
                if depth == 0:
                    break
            at += len(re.match(r"(?:\.\w+)*", text[at:]).group())
        else:
            while at < len(text) and not text[at].isspace() and text[at] not in "()":
                at += 1
        out.append((start, at))
    return out


def mutants(place, source):
    for name, parts in definitions(source).items():
        for start, end in joined(parts):
            text = source[start:end]

            def made(a, b, new, what):
                return Mutant(place, name, start + a, start + b, text[a:b], new, what)

            tokens = [t for t in TOKEN.finditer(text) if not t.group().startswith("--")]
            for t in tokens:
                word = t.group()
                if re.fullmatch(r"\d+|0x[0-9a-f]+", word):
                    yield made(t.start(), t.end(), str(int(word, 0) + 1), f"{word} to {int(word, 0) + 1}")
                for pair in SWAPS:
                    for old, new in (pair, pair[::-1]):
                        if word == old:
                            yield made(t.start(), t.end(), new, f"{old} to {new}")
                if word == "cond":
                    args = atoms(text, t.end(), 3)
                    if args:
                        (b0, b1), (c0, c1) = args[1], args[2]
                        yield made(b0, c1, text[c0:c1] + text[b1:c0] + text[b0:b1], "arms of cond exchanged")
            named = [t for t in tokens if t.group() in CONSTRUCTORS]
            for a, b in zip(named, named[1:]):
                if a.group() != b.group():
                    new = b.group() + text[a.end() : b.start()] + a.group()
                    yield made(a.start(), b.end(), new, f"{a.group()} and {b.group()} exchanged")
            yield from dropped(text, made)
            if place[0] == "lines":
                yield from renamed(tokens, source[source.rindex("\n", 0, start) + 1 : start], made)


def renamed(tokens, left, made):
    """A number for the one before it or behind it on the left side of the clause: which is which in a frame or an answer is an order."""
    names = [word for word in re.findall(r"[^\s(){};,]+", left) if word in NUMBERS]
    for t in tokens:
        for a, b in [*zip(names, names[1:]), *zip(names[1:], names)]:
            if t.group() == a:
                yield made(t.start(), t.end(), b, f"{a} to {b}")


def dropped(text, made):
    """One test of a list is left out: a stretch up to a ∷, at one depth of parentheses."""
    opened, begin = [], 0
    for i, char in enumerate(text):
        if char == "(":
            opened.append(begin)
            begin = i + 1
        elif char == ")":
            begin = opened.pop()
        elif char == "∷":
            test = re.sub(r"--[^\n]*\n", "", text[begin:i]).strip()
            if re.search(r"[ .]", test):
                yield made(begin, i + 1, " ", f"{' '.join(test.split())} left out")
            begin = i + 1


def sample(found, count, seed):
    """So many, in turn from every definition."""
    chance = random.Random(seed)
    by = {}
    for m in found:
        by.setdefault((m.crate, m.file, m.name), []).append(m)
    for ms in by.values():
        chance.shuffle(ms)
    keys = list(by)
    chance.shuffle(keys)
    turn = 0
    queue = []
    while any(len(by[k]) > turn for k in keys):
        queue += [by[k][turn] for k in keys if len(by[k]) > turn]
        turn += 1
    return queue if count == 0 else queue[:count], queue[count:] if count else []


def types(source):
    """The types and constants that a source file declares, what clauses see of them, what they name of other files, and the modules below it,
    without any function."""
    blocks = re.findall(r"^(?:pub )?const \w+: [^;]*?;\n|^pub (?:enum|struct) .*?^}\n|^impl[^\n]* Model for .*?^}\n", source, re.M | re.S)
    named = set(re.findall(r"\w+", "".join(blocks)))
    uses = []
    for public, path, names in re.findall(r"^(pub )?use ([\w:]+)::(\w+|{[^}]*});\n", source, re.M):
        kept = [n for n in re.findall(r"\w+", names) if n[0].isupper() and (public or n in named)]
        if kept:
            uses.append(f"{public}use {path}::{{{', '.join(kept)}}};\n")
    return "".join(re.findall(r"^(?:pub )?mod \w+;\n", source, re.M) + uses + blocks)


def copied(repo, room, crate):
    """A repository of the crate and of what its trial needs beside it. Code stays out, and so do the proofs of functions: what refuses a
    mutant is a law or a statement."""
    for name in ROOMS[crate]:
        for part in ("src", "specs", "proofs"):
            shutil.copytree(os.path.join(repo, "crates", name, part), os.path.join(room, "crates", name, part))
        if name not in ROOMS["rules"]:
            stripped(os.path.join(room, "crates", name))
    with open(os.path.join(room, "crates.txt"), "w") as out:
        out.writelines(f"{name}: {below}\n" for name, below in ROOMS[crate].items())


def stripped(own):
    """The crate's types are left of its code."""
    kept = {}
    for file in os.listdir(os.path.join(own, "src")):
        with open(os.path.join(own, "src", file)) as text:
            kept[file[:-3]] = types(text.read())
    for name in os.listdir(os.path.join(own, "proofs")):
        if os.path.isdir(os.path.join(own, "proofs", name)):
            shutil.rmtree(os.path.join(own, "proofs", name))
    empty = [name for name, text in kept.items() if not text and name != "lib"]
    for name, text in kept.items():
        if name in empty:
            os.remove(os.path.join(own, "src", name + ".rt"))
            continue
        with open(os.path.join(own, "src", name + ".rt"), "w") as out:
            out.write("".join(line for line in text.splitlines(True) if not re.match(rf"(pub )?mod ({'|'.join(empty)});", line)))


def stated(crate):
    """The files of laws that the crate's statements rest on."""
    name = os.path.basename(crate)
    found, left = set(), [STATED[name]] if name in STATED else []
    while left:
        file = left.pop()
        found.add(f"proofs/{file}.antt")
        with open(os.path.join(crate, f"proofs/{file}.antt")) as text:
            for word in re.findall(rf"^use Rattle\.{name}\.proofs\.(\w+)", text.read(), re.M):
                if f"proofs/{word}.antt" not in found:
                    left.append(word)
    return found


def checked(room, word, crate):
    """The verdict of one check of the crate, and its errors."""
    run = subprocess.run(["rt", word], capture_output=True, text=True, cwd=os.path.join(room, "crates", crate))
    said = run.stdout + run.stderr
    errors = [re.sub(r"^\./", "", line)[:240] for line in said.split("\n") if ": error" in line]
    if run.returncode == 0 and "logic=proved" in said:
        return "survived", []
    return ("refused" if "logic=not-proved" in said else "untold"), errors


def tried(known, m, source):
    """The verdict on a mutant. What does not depend on the change is taken from the check of the crate as it is. A mutant that passes is
    checked whole, and the demands over it."""
    with tempfile.TemporaryDirectory() as room:
        own = os.path.join(room, "own")
        shutil.copytree(known, own, symlinks=True)
        crate = os.path.join(own, "crates", m.crate)
        with open(os.path.join(crate, f"specs/{m.file}.antt"), "w") as out:
            out.write(m.text(source))
        verdict, errors = checked(own, "check", m.crate)
        if verdict == "survived":
            verdict, errors = checked(own, "verdict", "demands" if m.crate == "rules" else m.crate)
        first = errors[0] if errors else ""
        if first.startswith(f"specs/{m.file}.antt"):
            verdict = "void"
        elif verdict == "refused" and stated(crate) and not any(e.split(":")[0] in stated(crate) for e in errors):
            verdict = "beside"
        return verdict, first


def main():
    here = os.path.dirname(os.path.dirname(os.path.abspath(__file__)))
    words = argparse.ArgumentParser(description=__doc__, formatter_class=argparse.RawDescriptionHelpFormatter)
    words.add_argument("--repo", default=here)
    words.add_argument("--seed", type=int, default=1)
    words.add_argument("--count", type=int, default=60)
    words.add_argument("--skip", type=int, default=0)
    words.add_argument("--only", default="")
    words.add_argument("--crate", choices=sorted(FILES))
    words.add_argument("--list", action="store_true")
    given = words.parse_args()
    sources, found = {}, []
    for crate in [given.crate] if given.crate else FILES:
        for file in FILES[crate]:
            with open(os.path.join(given.repo, f"crates/{crate}/specs/{file}.antt")) as text:
                sources[crate, file] = text.read()
            found += [m for m in mutants((crate, file), sources[crate, file]) if m.name not in BOUNDS]
    if given.only:
        found = [m for m in found if m.name in given.only.split(",")]
    queue, spare = sample(found, given.count, given.seed)
    queue = queue[given.skip :]
    if given.list:
        for m in queue:
            print(f"{m.crate} {m.file}.{m.name}: {m.what}")
        print(f"{len(found)} mutants of {len({(m.crate, m.file, m.name) for m in found})} definitions")
        return 0
    rooms, known = tempfile.TemporaryDirectory(), {}
    for crate in sorted({m.crate for m in queue}):
        known[crate] = os.path.join(rooms.name, crate)
        copied(given.repo, known[crate], crate)
        verdict, errors = checked(known[crate], "check", crate)
        if verdict != "survived":
            print(f"crate {crate} as it is: {verdict}: {errors[:1]}")
            return 2
    tally = {}
    while queue:
        m = queue.pop(0)
        source = sources[m.crate, m.file]
        verdict, first = tried(known[m.crate], m, source)
        tally[verdict] = tally.get(verdict, 0) + 1
        line = source.count("\n", 0, m.start) + 1
        print(f"{verdict}\t{m.crate}/specs/{m.file}.antt:{line}\t{m.name}\t{m.what}\t{first}", flush=True)
        if verdict == "void":
            other = next((s for s in spare if (s.crate, s.name) == (m.crate, m.name)), None)
            if other:
                spare.remove(other)
                queue.append(other)
    print(" ".join(f"{k}={v}" for k, v in sorted(tally.items())))
    return 0


if __name__ == "__main__":
    sys.exit(main())

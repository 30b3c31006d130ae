#!/usr/bin/env python3
"""Spells the repository's own definitions and lemmas as Rattle's library spells its names.

usage: python3 tools/spell.py [--check]     at the top; --check writes nothing and prints the table, old and new

What is a type, a record or a fact over values is in upper camel case; everything else is in snake case. A dash stays only
in a lemma about one of the library's functions, as in 'length-map'. Names that Rattle makes (a proof's goals), names of src/,
strings and comments stay; names that a file takes from elsewhere stay in that file. Two names that would fall together are
told apart by the rows of APART and APART_IN, and the script stops where a pair is left.
"""

import glob
import os
import re
import sys

WORD = re.compile(r'[^\s(){}.;,@"«»]+')
QUIET = re.compile(r'"(?:[^"\\\n]|\\.)*"|(?<![^\s(){}.;,@"«»])--[^\n]*')
HEAD = re.compile(
    r"^( *)((?:(?:abbrev|unfoldable|pub|mutual|private|data|record|where|let|do|in|ruleset) +)*)([^\s(){}.;,@\"«»:]+)((?: +[({][^\n]*?[)}])*) +: (.*)$"
)
BOUND = re.compile(r"[({]((?:[^\s(){}.;,@\"«»:]+ +)+): ")
LET = re.compile(r"\blet +([^\s(){}.;,@\"«»:=]+)(?: +:| +=)")
LAMBDA = re.compile(r"λ ([^.()]+)\.")
IMPORT = re.compile(r"^(?:pub )?use (\S+?)\.\{([^}]*)\}", re.M)
GOAL = re.compile(r":\s+(?:goal|need|goals)\.")
MADE = re.compile(r"^(returns|loop|invariant|decreases|overflow|nonzero|bounds|slice_bounds|prove|ghost)(-|$)|-requires(-\d+)?$")
CLAUSE = re.compile(r"\b(?:requires|ensures)\s*\*?\s*(?:\w+\s*)?\{|\bghost\s+\w+\s*(?::|=)\s*\{")
GHOST_USE = re.compile(r"ghost\s+use\b[^;]*;")
# functions of the library that lemmas are about
LIBRARY = {"length", "take", "drop", "map", "append", "sum", "replicate", "slice_set", "slice_index"}
# old: new, where the rule would let two names fall together
APART = {
    "all-writable": "all_writable_lem",
    "block-then": "block_then_lem",
    "body-of": "body_of_lem",
    "high-branch": "high_branch_lem",
    "how-many": "how_many_lem",
    "is-reserved": "is_reserved_lem",
    "low-branch": "low_branch_lem",
    "no-word": "no_word_lem",
    "per-block": "per_block_lem",
    "lawfulReply": "reply_is_lawful",
    "lawfulAnswer": "answer_is_lawful",
    "lawfulExchange": "exchange_is_lawful",
    "onPage": "is_on_page",
}
# the same for one crate alone
APART_IN = {"capture": {"word-at": "word_at_lem"}}
# names that two crates have, neither of which sees the other's
TWO_CRATES = {"read_as", "one_more", "word_at"}


def snake(word):
    return re.sub(r"([a-z0-9])([A-Z])", r"\1_\2", word).lower()


def camel(word):
    return "".join(p[:1].upper() + p[1:] for p in re.split(r"[-_]", word))


def logical(text):
    """The lines of an antt file with continuation lines joined to the line that they continue, as (line, joined)."""
    lines = text.split("\n")
    for i, line in enumerate(lines):
        joined = line
        indent = len(line) - len(line.lstrip())
        for further in lines[i + 1 :]:
            if not further.strip() or len(further) - len(further.lstrip()) <= indent or re.search(r"\bwhere$", joined):
                break
            joined += " " + further.strip()
        yield line, joined


def declared(path, text):
    """(name, kind) for each name that a file declares: a type, a definition, a lemma or a variable."""
    for line, joined in logical(text):
        if line.lstrip().startswith("--"):
            continue
        m = HEAD.match(line)
        if m and m[3] not in ("let", "in", "where", "elim", "use"):
            words = m[2].split()
            whole = HEAD.match(joined)
            sort = whole[5] if whole else m[5]
            sort = re.sub(r"\s+where$", "", sort.strip())
            if not GOAL.search(" : " + sort):
                if "record" in words or "data" in words or re.search(r"(^|→ *)Type [01]$", sort):
                    yield m[3], "type"
                elif "abbrev" in words or "unfoldable" in words or m[1]:
                    yield m[3], "definition"
                else:
                    yield m[3], "lemma"
        for m in BOUND.finditer(line):
            for name in m[1].split():
                yield name, "variable"
        for m in LET.finditer(line):
            yield m[1], "variable"
        for m in LAMBDA.finditer(line):
            for name in m[1].split():
                yield name, "variable"


def antt_files():
    return sorted(f for d in ("specs", "proofs") for f in glob.glob(f"crates/*/{d}/**/*.antt", recursive=True))


def read(path):
    with open(path, encoding="utf-8") as f:
        return f.read()


def table():
    kinds = {}
    for path in antt_files():
        for name, kind in declared(path, read(path)):
            kinds.setdefault(name, set()).add(kind)
    new = {}
    for name, kind in kinds.items():
        if name in APART:
            new[name] = APART[name]
        elif MADE.search(name) or not re.fullmatch(r"[A-Za-zℕℤ][\w'-]*", name):
            continue
        elif "type" in kind:
            new[name] = camel(name)
        elif name[0].isupper():
            # a type's name is joined by a dash to what is said of it
            continue
        else:
            head, dash, rest = name.partition("-")
            dash = "-" if head in LIBRARY and kind == {"lemma"} else "_"
            new[name] = snake(head) + dash + snake(rest.replace("-", "_")) if rest else snake(head)
    taken = {}
    for name in kinds:
        taken.setdefault(new.get(name, name), set()).add(name)
    clashes = {k: v for k, v in taken.items() if len(v) > 1 and k not in TWO_CRATES}
    return {a: b for a, b in new.items() if a != b}, clashes, kinds


def turned(text, names, foreign):
    def word(m):
        w = m[0]
        return names[w] if w in names and w not in foreign else w

    out, at = [], 0
    for quiet in QUIET.finditer(text):
        out += [WORD.sub(word, text[at : quiet.start()]), quiet[0]]
        at = quiet.end()
    return "".join(out + [WORD.sub(word, text[at:])])


def imported(text, own):
    """The names that a file takes from modules that are not the repository's."""
    found = set()
    for m in IMPORT.finditer(text):
        if m[1].split(".")[:2] not in own or ".declared." in m[1]:
            found |= {part for item in m[2].split(",") for part in item.split(" as ")[0].split()}
    return found


def clauses(text):
    """The spans of a .rt file that contracts and proofs see."""
    for m in GHOST_USE.finditer(text):
        yield m.start(), m.end()
    for m in CLAUSE.finditer(text):
        depth, at = 1, m.end()
        while depth and at < len(text):
            depth += {"{": 1, "}": -1}.get(text[at], 0)
            at += 1
        yield m.end(), at


def main():
    names, clashes, kinds = table()
    check = "--check" in sys.argv
    for to, olds in sorted(clashes.items()):
        print(f"falls together: {to}: {', '.join(f'{o} ({min(kinds[o])})' for o in sorted(olds))}")
    if check:
        for old in sorted(names):
            print(f"{old}\t{names[old]}\t{' '.join(sorted(kinds[old]))}")
        return
    if clashes:
        raise SystemExit("spell: nothing was written")
    own = [["Rattle", os.path.basename(d)] for d in glob.glob("crates/*")]
    common, names = names, None
    for path in antt_files():
        text = read(path)
        names = {**common, **APART_IN.get(path.split("/")[1], {})}
        write(path, text, turned(text, names, imported(text, own)))
    names = common
    for path in sorted(glob.glob("crates/*/src/**/*.rt", recursive=True)):
        text = read(path)
        foreign = imported(re.sub(r"(?m)^\s*ghost use", "use", text), own)
        spans = sorted(clauses(text))
        out, at = [], 0
        for a, b in spans:
            if a >= at:
                out += [text[at:a], turned(text[a:b], names, foreign)]
                at = b
        write(path, text, "".join(out) + text[at:])
    for path in sorted(glob.glob("crates/*/must-fail/*.edit")):
        text = read(path)
        write(path, text, re.sub(r"(?m)^(old|new): (.*)$", lambda m: f"{m[1]}: {turned(m[2], names, set())}", text))
    for path in ["README.md"] + sorted(glob.glob("docs/*.md")):
        text = read(path)
        write(path, text, re.sub(r"`[^`\n]+`", lambda m: "`" + WORD.sub(lambda w: names.get(w[0], w[0]), m[0][1:-1]) + "`", text))


def write(path, old, new):
    if old != new:
        with open(path, "w", encoding="utf-8") as f:
            f.write(new)


if __name__ == "__main__":
    main()

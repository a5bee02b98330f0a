#!/usr/bin/env python3
"""Counts the places of docs/DESIGN-PASS.md in the sources of a tree.

    python3 tools/design.py [TREE] [--list]

It goes by text, so it finds candidates: each is looked at by hand, and the page says what became of it.
"""
import glob
import os
import re
import sys


def sources(tree):
    for path in sorted(glob.glob(os.path.join(tree, "crates/*/src/**/*.rt"), recursive=True)):
        yield path[len(tree):].lstrip("/"), open(path).read()


def bare(text):
    """The text without its comments, line by line."""
    return re.sub(r"//[^\n]*", "", text)


def enums(tree):
    for path, text in sources(tree):
        for m in re.finditer(r"\benum (\w+)[^{]*\{\n(.*?)\n\}", bare(text), re.S):
            variants = [v.strip() for v in m.group(2).split("\n") if v.strip()]
            yield path, m.group(1), variants


REFUSING = re.compile(r"^(Refused|Wrong|Bad|Stop|Halt|Short|Amiss|Unsound|Lacks|Nothing|Nowhere|Outside|Taken|Stuck|Failed|Shut|Behind)\b")


def like_option_or_result(tree):
    """Two variants of which one carries a value, or one that refuses among others."""
    for path, name, variants in enums(tree):
        payload = [v for v in variants if "(" in v]
        if (len(variants) == 2 and payload) or any(REFUSING.match(v) and "(" in v for v in variants):
            yield path, name + " { " + " ".join(variants) + " }"


def matching(tree, pattern):
    """The lines, without their comments, in which the pattern stands."""
    for path, text in sources(tree):
        for i, line in enumerate(bare(text).split("\n"), 1):
            if re.search(pattern, line):
                yield path, f"{i}: {line.strip()}"


def refusal_numbers(tree):
    """A refusal that is passed on as two or three bare numbers."""
    return matching(tree, r"\b(Refused|Wrong|Bad|Stop|Halt)\((u64, u64|\d+,|number, )")


def sentinels(tree):
    """A number that says 'none' in a result: the comment names it, or the code compares with it."""
    for path, text in sources(tree):
        for i, line in enumerate(text.split("\n"), 1):
            if re.search(r"//.*(\bor 0\b|, 0 where|else 0\b|; 32 where|, 32 where|, 7 where|, 11 where|0 where neither|82 where)", line):
                yield path, f"{i}: {line.strip()}"


def structs(tree):
    """Each struct with named fields: where it stands, its name, its fields."""
    for path, text in sources(tree):
        for m in re.finditer(r"struct (\w+) \{\n(.*?)\n\}", bare(text), re.S):
            yield path, m.group(1), m.group(2)


def flags(tree):
    """A bool field with the value that it speaks of beside it."""
    for path, name, fields in structs(tree):
        if re.search(r"\b(stands|seen|found|some|has\w*): (bool|\[bool)", fields):
            yield path, name


def kinds_by_number(tree):
    """A table of small numbers that stand for kinds or steps, and a match on one."""
    for path, text in sources(tree):
        for m in re.finditer(r"const (\w+): \[u8; (\d+)\] = \[", bare(text)):
            yield path, m.group(1)
        for m in re.finditer(r"match (action|kind|step|code) \{\s*\d+ =>", bare(text)):
            yield path, "match " + m.group(1)


def loops(tree):
    return matching(tree, r"^\s*(while\b|loop \{)")


def by_hand(tree):
    """Comparisons, copies and conversions through a function of this repository."""
    for path, text in sources(tree):
        for i, line in enumerate(bare(text).split("\n"), 1):
            for m in re.finditer(r"\bkit::(wide::)?(less|same|size|magnitude|negative|lesser|copy_at|between|put_two|with_sign)\(", line):
                yield path, f"{i}: {m.group(0)}"
        for m in re.finditer(r"\n(?:pub )?fn (low|lesser|less|same|same_kind|less_one|wide|negative|size|copy|signed|natural)\b", bare(text)):
            yield path, "fn " + m.group(1)


def repeated_clauses(tree):
    """A part of a `requires` that stands in three functions or more."""
    seen = {}
    for path, text in sources(tree):
        for m in re.finditer(r"requires\s*\w*\s*\{(.*?)\}\s*(?=\n\s*(?:requires|ensures|\{))", bare(text), re.S):
            for part in re.split(r"×", m.group(1)):
                part = re.sub(r"\s+", " ", part).strip(" ()")
                if part:
                    seen.setdefault(part, []).append(path)
    for part, paths in sorted(seen.items(), key=lambda x: -len(x[1])):
        if len(paths) >= 3:
            yield f"{len(paths)} functions", part


def long_lists(tree):
    """Functions of seven parameters or more."""
    for path, text in sources(tree):
        for m in re.finditer(r"\bfn (\w+)(?:<[^>]*>)?\((.*?)\)", bare(text), re.S):
            n = len([p for p in m.group(2).split(",") if p.strip()])
            if n >= 7:
                yield path, f"{m.group(1)}: {n}"


def parallel(tree):
    """An array with its length or its flags in a field beside it."""
    for path, name, fields in structs(tree):
        arrays = len(re.findall(r": \[", fields))
        counted = re.search(r"\b(len|count|held|used|descriptions): (u32|usize)", fields)
        if arrays >= 2 or (arrays and counted):
            yield path, name


def proof_lines(tree):
    files = [p for p in glob.glob(os.path.join(tree, "crates/*/proofs/**/*.antt"), recursive=True)]
    yield f"{len(files)} files", f"{sum(len(open(p).read().splitlines()) for p in files)} lines"
    walks = [p for p in files if os.path.basename(p) == "Proof.antt"]
    yield f"{len(walks)} walks by hand", f"{sum(len(open(p).read().splitlines()) for p in walks)} lines"


POINTS = [
    ("1 enums of the shape of Option or Result", like_option_or_result),
    ("1 refusals as bare numbers", refusal_numbers),
    ("1 numbers that say 'none'", sentinels),
    ("1 flags with a value beside", flags),
    ("1 numbers for kinds", kinds_by_number),
    ("3 while and loop", loops),
    ("4 compared, copied or converted by hand", by_hand),
    ("5 clauses that three functions or more repeat", repeated_clauses),
    ("5 functions of seven parameters or more", long_lists),
    ("6 arrays with a length, flags or another array beside", parallel),
    ("8 proofs", proof_lines),
]


def main():
    args = [a for a in sys.argv[1:] if a != "--list"]
    tree = args[0] if args else "."
    for name, find in POINTS:
        found = list(find(tree))
        if name.startswith("8"):
            print(name + ": " + "; ".join(a + ", " + b for a, b in found))
            continue
        print(f"{name}: {len(found)}")
        if "--list" in sys.argv:
            for where, what in found:
                print(f"    {where}: {what}")


main()

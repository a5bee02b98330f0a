"""The trusted text as one page to read, and its counts as tables."""
import re

from .sources import VARIANTS, words

FENCE = "```"
HEAD = """# The trusted text

What the contracts of {functions} public functions and the statements of {theorems} told theorems reach: {summary}. Nothing else of this repository has to be believed; [BELIEVE.md](BELIEVE.md) says how to read it. `docs/believe --write` makes this page from the sources, and the tests compare it.

Each definition stands behind what it rests on, with its comment and its line number. Of a decision (`Dec P`: it answers yes exactly where P holds) only the type is shown, since it says all. `use` lines are not shown; where one gives a new name, that stands under the file's heading.

| | Chapter | Beside it | Definitions | Lines |
|---|---|---|---|---|"""
MISPLACED = """
## Words of theorems that stand under `proofs/`

No contract names one. A told theorem may name a worked example there: a value that is about no variable, and what only such values name. These are no examples:
"""
COUNTS = """| | Files | Lines by file | Definitions | Lines by definition | First tier | Second tier | Types of the code |
|---|---|---|---|---|---|---|---|"""
FUNCTIONS = """| | Definitions | Lines | First tier | Second tier | Types of the code |
|---|---|---|---|---|---|"""


def summary(text, items):
    return f"{len(items):,} definitions, {text.size(items):,} lines"


def renamed(file, said):
    """What a file calls by another name than where it stands: `use` lines are not shown."""
    names, heads = set(said), {word.split(".")[0] for word in said if "." in word}
    for module, items, _ in file.uses:
        where = re.sub(r"^Rattle\.(\w+)\.(?:specs|proofs)\.(?:declared\.)?", r"\1/", module).removesuffix(VARIANTS)
        yield from (f"`{new}` is `{old}` of {where}" for new, old in items.items() if new != old and new in names)
        yield from (f"`{alias}.` is of {where}" for alias, other in file.aliases.items()
                    if other == module and alias in heads and not where.endswith(f"/{alias}"))


def part(text, file, items, bodies=False):
    """The declarations of one file under their heading, each row with its number; what a section fixes stands once."""
    lines, said, done = [], [], set()
    for item in items:
        whole = bodies or item.key not in text.table.CUT
        rows = [row for row in item.rows(whole) if row not in done]
        done.update(rows)
        said += words(file.lines[row] for row in rows)
        lines += ["" if lines else FENCE, *(f"{row + 1:4}  {file.lines[row]}".rstrip() for row in rows)]
        if item.key in text.table.CUT and (item.told or not whole):
            told = " and ".join(text.table.CUT[item.key][0])
            lines.append(f"      (what it does is told by {told}{'' if item.told else '; its body is in the second tier'})")
        elif item.decides and item.body:
            lines.append("      (its type says all)")
    names = dict.fromkeys(renamed(file, said)) if file.title else ()
    notes = [file.title] * bool(file.title) + [f"({'; '.join(names)}.)"] * bool(names)
    return ["", f"### {file.path.removeprefix('crates/')}", *notes, "", *lines, FENCE]


def chapter(text, number, what):
    beside = f"Beside it: {what.beside}. " if what.beside else ""
    lines = ["", f"## {number}. {what.title}", "", f"{beside}{summary(text, what.items)}."]
    for file, items in text.arranged(what.items):
        lines += part(text, file, items, what.tier > 1)
    if what.body:
        lines += part(text, what.body.file, [what.body], True)
    for file in dict.fromkeys(function.file for function in what.functions):
        lines += part(text, file, [function for function in what.functions if function.file is file])
    return lines


def kit(text):
    """The words of the kit that the text uses, which are not shown."""
    found = {}
    for word in text.named([*text.items, *text.functions, *text.theorems]):
        if isinstance(word, tuple):
            found.setdefault(word[0], set()).add(f"`{word[1]}`")
    return [f"- `{module}`: {' '.join(sorted(names))}" for module, names in sorted(found.items())]


def by_definition(text, items):
    sets = [items, items & text.tier(1), items & text.tier(2), {item for item in items if item.kind == "code"}]
    return f"{len(items):,} | " + " | ".join(f"{text.size(some):,}" for some in sets) + " |"


def functions(text):
    """What each public function rests on."""
    names = {item: f"{item.owner}::{item.name}".removeprefix("::") for item in text.functions}
    return [FUNCTIONS, *(f"| `{name}` | {by_definition(text, text.rests(item))}" for item, name in names.items())]


def counts(text):
    """Both counts, by file and by definition: for the functions of each source, for the table's groups, and for all."""
    groups = {}
    for item in text.functions:
        groups.setdefault(f"crates/{item.file.label}", []).append(item)
    named = {", ".join(f"`{item.name}`" for item in items if not item.exported or items == [item]): items for items in groups.values()}
    for title, sources in text.table.GROUPS.items():
        named[title] = [item for item in text.functions if item.file.label in sources or item.file.crate in sources]
    lines = [COUNTS]
    for title, items in named.items():
        files = text.by_file({item.file for item in items})
        lines.append(f"| {title} | {len(files)} | {sum(len(file.lines) - 1 for file in files):,} | {by_definition(text, text.rests(*items))}")
    stray = text.misplaced()
    return lines + [f"| and what the told theorems name | | | {by_definition(text, text.items)}", "",
                    f"{len(text.functions)} contracts and {len(text.theorems)} told theorems. The last row counts {text.size(text.tier(3)):,} lines of worked "
                    f"examples too. Words of theorems that stand under `proofs/` and are no examples: {len(stray)}, {text.size(stray):,} lines."]


def page(text):
    lines = [HEAD.format(functions=len(text.functions), theorems=len(text.theorems), summary=summary(text, text.items))]
    for number, what in enumerate(text.chapters, 1):
        lines.append(f"| {number} | {what.title} | {what.beside} | {len(what.items):,} | {text.size(what.items):,} |")
    last = 0
    for number, what in enumerate(text.chapters, 1):
        lines += ["", f"# {text.table.TIERS[what.tier]}"] * (what.tier != last) + chapter(text, number, what)
        last = what.tier
    lines += ["", "# Besides", "", "## What each function rests on", "", *functions(text), MISPLACED]
    lines += [f"- `{item.name}` ({item.file.path.removeprefix('crates/')}:{item.head.start + 1})" for item in text.misplaced()]
    return "\n".join([*lines, "", "## Words of Rattle's own library", "", *kit(text), ""])


def said(text):
    """The counts in a line."""
    contracts = text.rests(*text.functions)
    first, second = (text.size(contracts & text.tier(tier)) for tier in (1, 2))
    return (f"{len(text.functions)} contracts rest on {text.size(contracts):,} lines, {first:,} in the first tier and {second:,} in the second; "
            f"with {len(text.theorems)} theorems {text.size(text.items):,}")

"""The trusted text as a crate of its own. The prover takes it only where no definition is missed.

A decision is a hole under its type, and so is what told theorems say all of. A theorem leads from its statement to itself:
the statement is read, and nothing is to be proved. A clause of a contract is a definition over the parameters as they come
(`·old`) and as they are left (`·new`), and over the result.
"""
import re
import subprocess

from .sources import VARIANTS, Antt, Item, indent, words

NUMBERS = {**dict.fromkeys(["u8", "u16", "u32", "u64", "usize"], "ℕ"), **dict.fromkeys(["i8", "i16", "i32", "i64", "isize"], "ℤ"),
           "f64": "Float", "bool": "Bool"}
IMPLICIT = re.compile(r"\{([^{}=:]+:(?:[^{}]|\{[^{}]*\})*)\}")  # {x : A}, which may not stand within a type
BASE = {**dict.fromkeys(["ℕ", "ℤ", "Bool", "List", "Option", "Result"], "Rattle.std.specs.Prelude"), "Float": "Rattle.std.specs.Float.Ieee"}


def label(file):
    """The module that holds what the text has of a file."""
    return file.crate.title().replace("_", "") + file.folder.title() + file.module.replace(".", "")


def parts(inside):
    """What stands between commas at the outermost level."""
    found, depth = [""], 0
    for letter in inside:
        depth += (letter in "<(") - (letter in ">)")
        if letter == "," and not depth:
            found.append("")
        else:
            found[-1] += letter
    return [part.strip() for part in found if part.strip()]


def logical(kind):
    """A type of the code as the logic has it: lists for slices, whole numbers for machine numbers, pairs for tuples."""
    part = re.match(r"&(?:'\w+ )?(?:mut )?\[(\w+)\]", kind)
    if part:
        return f"List {NUMBERS[part[1]]}"
    if kind == "()":
        return "(Unit {0})"
    if kind.startswith("("):
        return f"({' × '.join(logical(one) for one in parts(kind[1:-1]))})"
    generic = re.fullmatch(r"(Option|Result)<(.*)>", kind, re.S)
    if generic:
        return f"({generic[1]} {' '.join(logical(one) for one in parts(generic[2]))})"
    return NUMBERS.get(kind, kind)


class Crate:
    def __init__(self, text, folder, left_out):
        self.text, self.folder, self.own = text, folder, f"Rattle.{folder.name}.specs"
        self.items = {item for item in text.items | set(text.theorems) if item.key not in left_out}
        self.files, self.code = {}, {}
        for item in sorted(self.items, key=lambda item: item.place):
            group = self.files if isinstance(item.file, Antt) else self.code
            group.setdefault(item.file if group is self.files else item.file.crate, []).append(item)

    def write(self):
        """The types of each crate as a module of the code; the definitions of each file, and the contracts, as modules of specs/."""
        files = {f"src/{crate}.rt": self.types(items) for crate, items in self.code.items()}
        files["src/lib.rt"] = ["// The types of the trusted text."] + [f"pub mod {crate};" for crate in self.code]
        modules = {label(file): self.definitions(file, items) for file, items in self.files.items()}
        for file in {function.file for function in self.text.functions}:
            modules[label(file)] = self.contracts(file)
        files.update({f"specs/{module}.antt": lines for module, lines in modules.items()})
        files["specs/Lib.antt"] = ["-- The trusted text."] + [f"pub mod {module}" for module in modules]
        for name, lines in files.items():
            (self.folder / name).parent.mkdir(parents=True, exist_ok=True)
            (self.folder / name).write_text("\n".join(lines) + "\n")

    def types(self, items):
        named = {other for other in self.text.named(items) if other.file.crate != items[0].file.crate}
        lines = [f"use crate::{other.file.crate}::{other.name};" for other in named]
        return lines + [item.file.lines[row] for item in items for row in item.rows()]

    def definitions(self, file, items):
        lines, done = [], set()
        for item in items:
            bare = item.told and item not in self.text.items
            rows = [row for row in item.rows() if row not in done and not (bare and row in item.head)]
            done.update(rows)
            lines += ["", *(file.lines[row] for row in rows)]
            margin = " " * indent(file.lines[item.head.start])
            if bare:
                head = " ".join(file.lines[row].split(" --")[0].strip() for row in item.head)
                said = IMPLICIT.sub(r"(\1)", head.split(" : ", 1)[1])
                lines += [f"{margin}{item.name} : ({said}) → ({said})", f"{margin}{item.name} it· = it·"]
            elif item.decides:
                lines.append(f"{margin}{item.name} = ?")
        return [f"-- {file.path}", *self.uses(file, words(lines)), *lines]

    def uses(self, file, said):
        """The `use` lines for what some words of a file name."""
        find, names, heads = self.text.repo.find, set(said), {word.split(".")[0] for word in said if "." in word}
        for module, brought, _ in file.uses:
            for new, old in brought.items():
                if new in names or ("◌" in new and set(filter(None, new.split("◌"))) <= names):
                    target = self.target(module, find(module, old, file))
                    if target:
                        yield f"use {target}.{{{old}{'' if new == old else f' as {new}'}}}"
        for alias in heads & set(file.aliases):
            module = file.aliases[alias]
            target = self.target(module, self.text.repo.module(module) or find(module, "", file))
            if target:
                yield f"use {target} as {alias}"

    def target(self, module, found):
        """Where a module or a name of the repository stands in the crate; None if the text has nothing of it."""
        if isinstance(found, tuple):
            return module
        if isinstance(found, Item) and found not in self.items:
            return None
        if isinstance(found, Item) and found.kind == "code":
            variants = VARIANTS if module.endswith(VARIANTS) else ""
            return f"{self.own}.declared.{found.file.crate}.{found.name}{variants}"
        file = found.file if isinstance(found, Item) else found
        return f"{self.own}.{label(file)}" if file in self.files else None

    def contracts(self, file):
        """The clauses of the contracts of a file, as definitions."""
        lines, here = [], [function for function in self.text.functions if function.file is file]
        for function in here:
            for number, (word, term) in enumerate(file.contract(function)):
                lines += self.clause(function, f"{word}_{function.name}_{number}", word, term)
        kinds = {item for item in self.text.named(here) if isinstance(item, Item) and item.kind == "code" and item in self.items}
        uses = [*self.uses(file, words(lines)), *(f"use {self.target('', item)}.{{{item.name}}}" for item in kinds)]
        uses += [f"use {module}.{{{name}}}" for name, module in BASE.items() if name not in file.imports]
        return [f"-- the contracts of {file.path}", *dict.fromkeys(uses), *lines]

    def clause(self, function, name, word, term):
        parameters, returned = function.file.parameters(function)
        binders, names = "", []
        for parameter, kind in parameters:
            now = [f"{parameter}·old", f"{parameter}·new"] if "[" in kind else [parameter]
            names += now
            binders += f"({' '.join(now)} : {logical(kind)}) → "
            term = re.sub(rf"\b{parameter}\.(old|now)\b", f"{parameter}·old" if "[" in kind else parameter, term)
            term = re.sub(rf"\b{parameter}\.new\b", f"{parameter}·new", term)
        gives = f"{logical(returned)} → Type 0" if word == "ensures" else "Type 0"
        term = re.sub(r"\bresult\.now\b", "result", term)
        names += ["result"] * (word == "ensures")
        return ["", f"abbrev pub {name} : {binders}{gives}", f"{name} {' '.join(names)} = {' '.join(term.split())}"]


def write(text, folder, left_out=()):
    """Write the crate; say what it holds, and how many holes it has: where the type says all, and for a theorem that a statement names."""
    crate, theorems = Crate(text, folder, left_out), set(text.theorems)
    crate.write()
    typed = sum(item.decides for item in crate.items - theorems)
    clauses = sum(len(function.file.contract(function)) for function in text.functions)
    return (f"{len(crate.items - theorems):,} definitions, {typed} by their types alone; {len(theorems)} theorems; {clauses} clauses of contracts",
            typed + len(theorems & text.items))


def confirm(text, folder, left_out=()):
    """Have the prover check the crate: no error, and no hole but those that are there on purpose."""
    said, holes = write(text, folder, left_out)
    run = subprocess.run(["rt", "check", folder.name, "--allow-holes"], capture_output=True, text=True, cwd=folder)
    lines = (run.stdout + run.stderr).split("\n")
    if f"holes={holes}" not in lines or any(": error:" in line for line in lines):
        wrong = [line for line in lines if "error" in line] or lines
        raise SystemExit("\n".join(wrong[-20:]) + "\nthe prover does not take the trusted text alone")
    return f"the prover takes the trusted text alone: {said}"

#!/usr/bin/env python3
"""Spells the repository's own antt names as Rattle's style asks, right after port.py has run.

usage, at the top of the repository:
    python3 tools/respell.py            rewrite crates/ in place, print a summary
    python3 tools/respell.py --check    the same, but write nothing
    python3 tools/respell.py --map      print the map alone: module, old name, new name
    python3 tools/respell.py --edits    turn names in the old:/new: texts of crates/*/must-fail/*.edit, and nothing else: before or
                                        after the tree is turned. What port.py respells stays old, but where the cited file has
                                        the new name

The rule. A name that a file of specs/ or proofs/ declares gets '_' in place of each dash between words, and a value in camel
case becomes snake case (yearDays, year_days); a type's dashes go for upper camel case (Within-whole, WithinWhole), and a type
of one word stays. A use follows the module that it is imported from, so a name that comes from the toolchain, or that Rattle
makes from the source, keeps its spelling in that file, also where the repository has a name of that spelling elsewhere. Behind
a dot a name turns if a record or a data type of the repository has it and it does not stand where Rattle's own names stand. A
local name turns by the rule. In a function's Proof.antt what is declared for a goal stays: what the call of tie.spec lists,
what is of a type tie.Need-.., and f-spec. Comments turn only inside backquotes. In a .rt file only clauses and 'ghost use' turn.

Two names that would fall together are told apart by TABLE below; one that is left is printed as 'collision' and the run
ends with status 1 and writes nothing.
"""

import collections
import os
import re
import sys

# (module below Rattle, the name as port.py leaves it): the new name, where the rule would give a name that is taken.
TABLE = {
    ("areas.proofs.MadeMaps", "getD-last"): "get_or_last",
    ("calendar.proofs.FieldLaws", "dated-of"): "dated_at",
    ("days.proofs.YearLaws", "all-le"): "all_le_lem",
    ("read_values.proofs.ValueLaws", "is-number"): "is_number_lem",
}

# Reserved words, and the names that every file has.
WORDS = set(
    """data record deriving module where use mod pub package open as unfoldable abbrev axiom unfold unfolding ruleset mutual
    infix infixl infixr elim let in do λ ∀ Type 𝕀 𝔽 coe fcoe tcoe hcom com ∨ ∧ | → = × ↦ : [ ]""".split()
)
RESERVED = WORDS | set("rw simp search cc omega grind assumption yes no tt absurd Unit".split())

N = r'[^\s(){}.;,@"«»]+'
NAME = re.compile(N)
QUIET = re.compile(r'"(?:[^"\\\n]|\\.)*"|(?<![^\s(){}.;,@"«»])--[^\n]*|\{-.*?-\}', re.S)
SPAN = re.compile(r"`([^`\n]+)`")
CHAIN = re.compile(rf"(?:(?P<head>{N})|(?P<close>[)}}]))(?P<tail>(?:\.{N})*)")
USE = re.compile(
    rf"\buse\s+(?P<path>{N}(?:\.{N})*)(?:\.\{{(?P<items>[^}}]*)\}}|\s+as\s+(?P<alias>{N}))?"
)
DECL = re.compile(
    rf"^( *)((?:(?:pub|abbrev|unfoldable|axiom) +)*)({N})((?: \{{[^{{}}\n]*\}})*) :(?=\s)(.*)$"
)
SEVERAL = re.compile(rf"^ *(?:pub +)?({N}(?: +{N})+) +:(?=\s)")
BLOCK = re.compile(rf"^( *)(?:pub +)?(record|data) +({N})(?P<rest>.*)$")
CLAUSE = re.compile(
    r"(?:requires|ensures)\s*\*?\s*(?:\w+\s*)?\{|ghost\s*(?:\w+\s*(?::\s*(?:(?:owns|lends)\s*)?|=\s*))?\{"
)
EQUALS = re.compile(r"\s*=(?=\s)")
GHOST_USE = re.compile(r"ghost\s+use\b[^;]*;")
RUST = re.compile(
    r"""//[^\n]*|/\*.*?\*/|[bc]?r(#*)".*?"\1|[bc]?"(?:\\.|[^"\\])*"|b?'(?:\\u\{[0-9a-fA-F_]+\}|\\x..|\\.|[^'\\])'|'?\w+|\s+|.""",
    re.S,
)
# Behind these a name is Rattle's: a step, a parameter or a variable of the source.
MADE_BEHIND = set("before args loop fits ranges well_formed initial locals".split())
# A name that one of these follows is a step of the source.
MADE_AHEAD = set("ensures requires result before args loop fits".split())
# Modules that Rattle makes.
MADE = re.compile(r"\.specs\.declared\b|\.(?:Statement|Tie|Goals|Conditions)$|\.proofs\..*\b(?:Statement|Tie|Goals)\b")


def blank(text):
    """The text without its comments and quoted texts, each character in its place."""
    return QUIET.sub(lambda m: re.sub(r"[^\n]", " ", m[0]), text)


def to_snake(name):
    """The name by the rule for values."""
    if "◌" in name or not re.search(r"[^\W\d_]", name):
        return name
    # camel case, but a name of capitals alone or one that begins with a capital keeps them
    parts = re.split(r"(?<=[\w'?])-(?=\w)|(?<=[^\W_])-(?=\w)|(?<=[×⊎¬])-(?=\w)", name)
    out = []
    for it in parts:
        if it[:1].islower():
            it = re.sub(r"(?<=[a-z0-9])([A-Z])(?=[a-z]|$)", lambda m: "_" + m[1].lower(), it)
        out.append(it)
    return "_".join(out)


def to_camel(name):
    """The name by the rule for types."""
    parts = re.split(r"[-_]", name) if re.fullmatch(r"[\w'-]+", name) else [name]
    return "".join(it[:1].upper() + it[1:] for it in parts)


class File:
    def __init__(self, where, text):
        self.where, self.text = where, text
        steps = where.split("/")
        self.crate = steps[1]
        self.kind = "rt" if where.endswith(".rt") else "antt"
        inner = where[:-5].split("/")[1:] if self.kind == "antt" else []
        if inner and inner[-1] == "Lib":
            inner = inner[:-1]
        self.module = ".".join(inner)
        self.is_proof = where.endswith("/Proof.antt")
        self.declared = {}  # old: new, what others can import
        self.local = {}  # old: new, of where blocks
        self.fields, self.constructors = {}, {}
        self.kept_labels = set()
        self.imports = {}  # name here: (module, name there) or None if it is the toolchain's
        self.aliases = {}  # name: module, or None
        self.reexports = {}
        self.names = {}  # the map of unqualified names
        self.globs = []


class Repository:
    def __init__(self, top="."):
        self.top = top
        self.files, self.modules = [], {}
        self.said = collections.defaultdict(list)
        self.count = collections.Counter()
        for where in sorted(self.sources((".antt", ".rt"))):
            with open(os.path.join(top, where), encoding="utf-8", newline="") as f:
                it = File(where, f.read())
            if it.kind == "antt" and it.where.split("/")[2] not in ("specs", "proofs"):
                continue
            self.files.append(it)
            if it.kind == "antt":
                self.modules[it.module] = it
        self.crates = {it.crate for it in self.files}
        self.field_map, self.constructor_map = {}, {}
        for it in self.files:
            if it.kind == "antt":
                self.declare(it)
        for it in self.files:
            self.read_uses(it)
        for it in self.files:
            self.scope(it)

    def sources(self, kinds):
        for folder, folders, names in os.walk(os.path.join(self.top, "crates")):
            folders[:] = sorted(f for f in folders if not f.startswith("."))
            for name in sorted(names):
                if name.endswith(kinds):
                    yield os.path.relpath(os.path.join(folder, name), self.top)

    # ---- what a file declares

    def new_name(self, it, old, a_type=False):
        if (it.module, old) in TABLE:
            return TABLE[it.module, old]
        return to_camel(old) if a_type else to_snake(old)

    def declare(self, it):
        code = blank(it.text)
        lines = code.split("\n")
        closing = code.rfind("tie.close") if "tie.close" in code else code.rfind("tie.spec")
        listed = set(NAME.findall(code[closing:])) if it.is_proof and closing >= 0 else set()
        block = None
        for row, line in enumerate(lines):
            if not line.strip():
                continue
            indent = len(line) - len(line.lstrip())
            if block and indent <= block[1]:
                block = None
            m = BLOCK.match(line)
            if m and not block and (m[2] == "data" or re.search(r"\s:\s", m["rest"])):
                block = (m[2], indent)
                it.declared[m[3]] = self.new_name(it, m[3], "-" in m[3])
                continue
            several = SEVERAL.match(line) if block else None
            for name in several[1].split() if several else ():
                mine = it.fields if block[0] == "record" else it.constructors
                mine[name] = it.declared[name] = self.new_name(it, name)
            m = DECL.match(line)
            if several or not m or m[3] in WORDS:
                continue
            name = m[3]
            # the whole signature, for its last line
            last, below = m[5].rstrip(), row + 1
            while below < len(lines) and lines[below][:1] == " " and lines[below].strip() and len(lines[below]) - len(lines[below].lstrip()) > indent:
                last = lines[below].rstrip()
                below += 1
            # (a name that says so already, or has but one word, stays)
            a_type = bool(re.search(r"(?:→|:|^) *Type(?: \d+| ℓ\w*)?$", last)) and not block
            if block and block[0] == "record":
                new = self.new_name(it, name)
                it.fields[name] = it.declared[name] = new
            elif block:
                new = self.new_name(it, name)
                it.constructors[name] = it.declared[name] = new
            elif it.is_proof and indent == 0 and (
                name in listed or name.endswith(("-spec", "_spec")) or re.match(r" *(?:tie\.(?:Need|invariant|decreases)|goal\.)", m[5])
            ):
                it.kept_labels.add(name)
                it.declared[name] = name
            else:
                new = self.new_name(it, name, a_type and "-" in name)
                in_where = indent > 0 and not m[2] and not self.in_module(lines, row, indent)
                (it.local if in_where else it.declared).setdefault(name, new)
        for mine, all_of in ((it.fields, self.field_map), (it.constructors, self.constructor_map)):
            for old, new in mine.items():
                if all_of.setdefault(old, new) != new:
                    self.said["undecided"].append(f"{it.where}: {old} is {new} here and {all_of[old]} elsewhere, behind a dot")

    @staticmethod
    def in_module(lines, row, indent):
        """Whether the line stands directly in a 'module _ .. where'."""
        for k in range(row - 1, -1, -1):
            if lines[k].strip() and len(lines[k]) - len(lines[k].lstrip()) < indent:
                return bool(re.match(r" *(?:pub +)?module ", lines[k]))
        return False

    # ---- what a file imports

    def own_module(self, path):
        """The module below Rattle of a path of this repository, or None if it is the toolchain's or Rattle makes it."""
        steps = path.split(".")
        if steps[0] != "Rattle" or len(steps) < 3 or steps[1] not in self.crates:
            return None
        if MADE.search(path):
            return None
        return ".".join(steps[1:])

    def uses_of(self, it):
        if it.kind == "antt":
            code = blank(it.text)
            for m in re.finditer(r"(?m)^ *(?:unfoldable +|abbrev +)?(pub +)?(?=use\b)", code):
                u = USE.match(code, m.end())
                if u:
                    yield u, bool(m[1])
        else:
            for start, end, kind in self.pieces(it.text):
                if kind == "use":
                    u = USE.search(it.text, start, end)
                    if u:
                        yield u, False

    def read_uses(self, it):
        for u, public in self.uses_of(it):
            path, own = u["path"], self.own_module(u["path"])
            if u["items"] is not None:
                for item in filter(None, map(str.strip, u["items"].split(","))):
                    name, _, alias = (s.strip() for s in item.partition(" as "))
                    here = alias or name
                    if name == "*":
                        it.globs.append(own)
                        continue
                    it.imports[here] = (own, name) if own else None
                    if public:
                        it.reexports[here] = it.imports[here]
            elif u["alias"]:
                it.aliases[u["alias"]] = own
            else:
                # a module by its last step, or one item
                above, last = path.rpartition(".")[::2]
                if own and own in self.modules:
                    it.aliases[last] = own
                elif own and self.own_module(above) in self.modules:
                    it.imports[last] = (self.own_module(above), last)
                else:
                    it.aliases[last] = None

    def exported(self, module, name, seen=()):
        """The new name of what a module of this repository has; None if it is not found there."""
        it = self.modules.get(module)
        if it is None or module in seen:
            # a data type or a record as a namespace: M.T.{a}
            above, _, last = module.rpartition(".")
            if it is None and above in self.modules and last in self.modules[above].declared:
                return self.modules[above].declared.get(name)
            return None
        if name in it.declared:
            return it.declared[name]
        if name in it.reexports:
            whence = it.reexports[name]
            if whence is None:
                return name
            if name != whence[1]:
                return to_snake(name) if name[:1].islower() else name
            return self.exported(*whence, (*seen, module))
        return None

    def scope(self, it):
        names = dict(it.local)
        for here, whence in it.imports.items():
            if whence is None:
                names[here] = here
                continue
            module, name = whence
            new = self.exported(module, name)
            if new is None:
                new = name
                if module in self.modules or to_snake(name) != name:
                    self.said["undecided"].append(f"{it.where}: {name} is imported from {module}, which has no such name: left")
            if here != name:
                new = TABLE.get((it.module or it.where, here)) or (to_camel(here) if here[:1].isupper() and new[:1].isupper() else to_snake(here))
            names[here] = new
        # what stands in the toolchain under an alias of the file
        for here, whence in it.imports.items():
            if whence is None and re.search(rf" as +{re.escape(here)}(?![^\s,}}])", it.text):
                names[here] = to_camel(here) if here[:1].isupper() else to_snake(here)
        names.update(it.declared)
        it.names = names

    # ---- turning

    def own_anywhere(self):
        """Each own name whose new spelling is the same wherever it is declared."""
        if not hasattr(self, "_anywhere"):
            found = collections.defaultdict(set)
            for it in self.files:
                for old, new in it.declared.items():
                    found[old].add(new)
            self._anywhere = {old: min(new) for old, new in found.items() if len(new) == 1}
        return self._anywhere

    def plain(self, it, word, told=True):
        """The new spelling of an unqualified name."""
        if word in it.names:
            return it.names[word]
        if (it.module or it.where, word) in TABLE:
            return TABLE[it.module or it.where, word]
        new = to_snake(word) if word[:1].islower() else word
        if new != word and told:
            self.locals_of[it.where].add(word)
        return new

    def behind(self, it, word, before, after):
        """The new spelling of a name behind a dot."""
        if before in MADE_BEHIND or after in MADE_AHEAD:
            return word
        one = self.constructor_map if before[:1].isupper() else self.field_map
        if word in one:
            return one[word]
        if to_snake(word) != word and not it.is_proof:
            self.said["behind a dot, left"].append(f"{it.where}: .{word}")
        return word

    def chain(self, it, m, code):
        head, tail = m["head"], m["tail"].split(".")[1:]
        if head is None:
            words = [m["close"], *tail, ""]
            return m["close"] + "".join("." + self.behind(it, words[k], words[k - 1], words[k + 1]) for k in range(1, len(words) - 1))
        out = [head]
        if not tail:
            return self.label(it, m, code) or self.plain(it, head)
        if head == "Rattle" and len(tail) > 2:
            path = [head, *tail]
            deepest = max((k for k in range(3, len(path) + 1) if self.own_module(".".join(path[:k])) in self.modules), default=0)
            if not deepest:
                return m[0]
            out = path[:deepest]
            module = self.own_module(".".join(out))
            if len(path) > deepest:
                out.append(self.exported(module, path[deepest]) or path[deepest])
        elif head in it.aliases and head not in it.local:
            own = it.aliases[head]
            if own is None:
                return m[0]
            new = self.exported(own, tail[0])
            if new is None:
                inner = self.exported(f"{own}.{tail[0]}", tail[1]) if len(tail) > 1 else None
                if inner is None and to_snake(tail[0]) != tail[0]:
                    self.said["undecided"].append(f"{it.where}: {own} has no {tail[0]}: left")
                new = tail[0]
            out.append(new)
        elif it.is_proof and head in ("tie", "statement", "goal"):
            return m[0]
        else:
            out = [self.plain(it, head)]
        words = [head, *tail, ""]
        for k in range(len(out), len(words) - 1):
            out.append(self.behind(it, words[k], words[k - 1], words[k + 1]))
        return ".".join(out)

    def label(self, it, m, code):
        """A field in 'record { f = .. }' or an implicit argument '{x = ..}'."""
        if m["head"] not in self.field_map or not EQUALS.match(code, m.end()):
            return None
        at = m.start() - 1
        while at > 0 and code[at].isspace():
            at -= 1
        return self.field_map[m["head"]] if code[at] in "{;" else None

    def code(self, it, text):
        """The text of a file of antt, or of a clause, with its names turned."""
        code, out, at = blank(text), [], 0
        uses = collections.deque(USE.finditer(code))
        for m in CHAIN.finditer(code):
            while uses and uses[0].end() <= m.start():
                uses.popleft()
            u = uses[0] if uses else None
            if u and u.start("path") <= m.start() < u.end("path"):
                new = self.path(it, u) if m.start() == u.start("path") else m[0]
                if u.end("path") < m.end():
                    new += code[u.end("path") : m.end()]
            elif u and u["items"] is not None and u.start("items") <= m.start() < u.end("items"):
                new = self.item(it, m, u, code)
            elif u and u["alias"] and u.start("alias") == m.start():
                new = m[0]
            else:
                new = self.chain(it, m, code)
            out += [text[at : m.start()], new]
            at = m.end()
        return self.comments("".join(out) + text[at:], it)

    def path(self, it, u):
        above, last = u["path"].rpartition(".")[::2]
        whence = it.imports.get(last)
        if u["items"] is None and not u["alias"] and whence and whence[0] == self.own_module(above):
            return f"{above}.{it.names[last]}"
        return u["path"]

    def item(self, it, m, u, code):
        """A name in the braces of a 'use'."""
        word = m["head"]
        if word in (None, "as", "*") or m["tail"]:
            return m[0]
        is_alias = bool(re.search(r"\sas\s+$", code[: m.start()]))
        has_alias = re.match(rf"\s+as\s+({N})", code[m.end() :])
        if is_alias:
            return it.names.get(word, word)
        own = self.own_module(u["path"])
        new = (self.exported(own, word) if own else word) or word
        if has_alias and new == it.names.get(has_alias[1]):
            self.said["undecided"].append(f"{it.where}: {word} as {has_alias[1]} reads {new} as {new}")
        return new

    def comments(self, text, it):
        def span(m):
            def one(w):
                if to_snake(w[0]) == w[0]:
                    return w[0]
                return it.names.get(w[0]) or self.own_anywhere().get(w[0], w[0])

            return "`" + NAME.sub(one, m[1]) + "`"

        return QUIET.sub(lambda m: m[0] if m[0][0] == '"' else SPAN.sub(span, m[0]), text)

    @staticmethod
    def closing(text, at):
        depth = 0
        for m in re.compile(QUIET.pattern + r"|[{}]", re.S).finditer(text, at):
            depth += (m[0] == "{") - (m[0] == "}")
            if depth < 0:
                return m.start()
        return None

    def pieces(self, text):
        """The parts of a .rt file: start, end and one of 'use', 'clause', 'comment', 'rust'."""
        at = 0
        while at < len(text):
            m = RUST.match(text, at)
            word, end, kind = m[0], m.end(), "rust"
            if word in ("requires", "ensures", "ghost"):
                clause, use = CLAUSE.match(text, at), GHOST_USE.match(text, at)
                if use:
                    end, kind = use.end(), "use"
                elif clause:
                    close = self.closing(text, clause.end())
                    if close:
                        yield at, clause.end(), "rust"
                        at, end, kind = clause.end(), close, "clause"
            elif word[:2] in ("//", "/*"):
                kind = "comment"
            yield at, end, kind
            at = end

    def turned(self, it):
        if it.kind == "antt":
            return self.code(it, it.text)
        out = []
        for start, end, kind in self.pieces(it.text):
            part = it.text[start:end]
            if kind in ("use", "clause"):
                part = self.code(it, part)
            elif kind == "comment":
                part = SPAN.sub(lambda m: self.in_comment(it, m), part)
            out.append(part)
        return "".join(out)

    def in_comment(self, it, m):
        turn = lambda w: w[0] if to_snake(w[0]) == w[0] else it.names.get(w[0]) or self.own_anywhere().get(w[0], w[0])
        return "`" + NAME.sub(turn, m[1]) + "`"

    # ---- what would fall together

    def unqualified(self, it):
        """The names that stand in the file behind no dot, but for labels of records and paths."""
        texts = [it.text] if it.kind == "antt" else [it.text[a:b] for a, b, kind in self.pieces(it.text) if kind in ("use", "clause")]
        found = set()
        for text in texts:
            code = blank(text)
            skip = []
            for u in USE.finditer(code):
                if u["items"] is not None:
                    skip.append((u.start("path"), u.end("items")))
                    for item in filter(None, map(str.strip, u["items"].split(","))):
                        name, _, alias = (s.strip() for s in item.partition(" as "))
                        found.add(alias or name)
                else:
                    skip.append((u.start("path"), u.end("path")))
            for m in CHAIN.finditer(code):
                if m["head"] and not any(a <= m.start() < b for a, b in skip):
                    if not self.label(it, m, code) or m["tail"]:
                        found.add(m["head"])
        return found

    def collisions(self):
        out = []
        for it in self.files:
            by_new = collections.defaultdict(set)
            names = self.unqualified(it) | set(it.declared)
            for old in names:
                by_new[self.plain(it, old, False)].add(old)
            for new, olds in sorted(by_new.items()):
                if len(olds) > 1:
                    out.append(f"{it.where}: {', '.join(sorted(olds))} would all be {new}")
                elif new not in olds and (new in RESERVED or re.fullmatch(r"[0-9][0-9_]*|0[xob]\w*", new)):
                    out.append(f"{it.where}: {min(olds)} would be the word {new}")
            if it.kind == "rt":
                out += self.hidden(it)
        return out

    def hidden(self, it):
        """Names of the source that would hide a turned name in a clause."""
        out, parts = [], list(self.pieces(it.text))
        rust = "".join(it.text[a:b] if kind == "rust" else " " * (b - a) for a, b, kind in parts)
        heads = [m.start() for m in re.finditer(r"\bfn \w+", rust)]
        for k, start in enumerate(heads):
            end = heads[k + 1] if k + 1 < len(heads) else len(rust)
            body = rust.find("\n{", start, end)
            sign = rust[start : body if body >= 0 else end]
            binds = set(re.findall(r"\b(\w+)\s*:(?!:)", sign)) | set(re.findall(r"\blet (?:mut )?(\w+)", rust[start:end]))
            for a, b, kind in parts:
                if kind == "clause" and start <= a < end:
                    for m in CHAIN.finditer(blank(it.text[a:b])):
                        if m["head"] and self.plain(it, m["head"], False) != m["head"] and self.plain(it, m["head"], False) in binds:
                            out.append(f"{it.where}: {m['head']} would be {self.plain(it, m['head'], False)}, which {rust[start:start+40].split('(')[0].strip()} binds")
        return sorted(set(out))

    def run(self, write):
        self.locals_of = collections.defaultdict(set)
        bad = self.collisions()
        results = {}
        for it in self.files:
            new = self.turned(it)
            if new != it.text:
                new, moved = realigned(it.text, new)
                self.count["lines moved"] += moved
                results[it.where] = new
        for old, news in sorted(self.locals_of.items()):
            self.count["local names"] += len(news)
        own = {(it.module, old) for it in self.files for old, new in it.declared.items() if old != new}
        local = {(it.module, old) for it in self.files for old, new in it.local.items() if old != new}
        self.count["names declared and turned"] = len(own)
        self.count["names of where blocks turned"] = len(local)
        self.count["files turned"] = len(results)
        for kind in sorted(self.said):
            for line in sorted(set(self.said[kind])):
                print(f"{kind}: {line}")
        for line in bad:
            print(f"collision: {line}")
        print("; ".join(f"{what} {n}" for what, n in sorted(self.count.items())))
        if bad:
            print("respell: nothing was written: give the names that collide a row in TABLE")
            return 1
        for where, new in results.items() if write else ():
            with open(os.path.join(self.top, where), "w", encoding="utf-8", newline="") as f:
                f.write(new)
        return 0


WHERE = re.compile(r"(?<![^\s(){};,])(?:where|do|let|mutual) +(?=\S)")


def realigned(old, new):
    """The new text, in which the later lines of a block stand under its first item again."""
    was, now, lines = blank(old).split("\n"), blank(new).split("\n"), new.split("\n")
    by = [0] * len(lines)
    for row, (a, b) in enumerate(zip(was, now)):
        if a == b:
            continue
        for x, y in zip(WHERE.finditer(a), WHERE.finditer(b)):
            below = row + 1
            while x.end() != y.end() and below < len(was):
                if was[below].strip() and was[below][: x.end()].strip():
                    break
                by[below] += (y.end() - x.end()) * bool(was[below].strip())
                below += 1
    return "\n".join(" " * n + line if n >= 0 else line[-n:] for n, line in zip(by, lines)), sum(map(bool, by))


def edits(top, write):
    """Turns own names in the texts of must-fail edits, by the file that each cites, before or after the tree is turned."""
    repository, count = Repository(top), collections.Counter()
    by_where = {it.where: it for it in repository.files}
    # (names of the repository, as they are when the tree is turned; a label of a goal is none)
    anywhere = {new for it in repository.files for old, new in it.declared.items() if old not in it.kept_labels}
    repository.locals_of = collections.defaultdict(set)
    for where in sorted(repository.sources((".edit",))):
        with open(os.path.join(top, where), encoding="utf-8", newline="") as f:
            text = f.read()
        crate = "/".join(where.split("/")[:2])
        out, it = [], None
        for line in text.split("\n"):
            m = re.match(r"file: *(\S+)", line)
            if m:
                it = by_where.get(f"{crate}/{m[1]}")
            if it and re.match(r"(?:old|new):", line):
                news = set(it.names.values())
                table = {old: new for (module, old), new in TABLE.items() if new in news}

                def turn(w, it=it, news=news, table=table):
                    new = table.get(w[0]) or it.names.get(w[0]) or to_snake(w[0])
                    return new if new in news or new in anywhere else w[0]

                cut = [0, *(k for m in QUIET.finditer(line, 4) for k in m.span()), len(line)]
                parts = [line[a:b] for a, b in zip(cut, cut[1:])]
                # (what stands between quotes, and a comment, stays)
                line = "".join(it if k % 2 else it[: 4 * (k == 0)] + NAME.sub(turn, it[4 * (k == 0) :]) for k, it in enumerate(parts))
            out.append(line)
        new = "\n".join(out)
        count["edits read"] += 1
        if new != text:
            count["edits turned"] += 1
            if write:
                with open(os.path.join(top, where), "w", encoding="utf-8", newline="") as f:
                    f.write(new)
    print("; ".join(f"{what} {n}" for what, n in sorted(count.items())))
    return 0


def main(args):
    if set(args) - {"--check", "--map", "--edits"}:
        sys.exit(__doc__)
    if not os.path.isdir("crates"):
        sys.exit("respell: run it at the top of the repository")
    if "--edits" in args:
        return edits(".", "--check" not in args)
    repository = Repository()
    if "--map" in args:
        for it in repository.files:
            for old, new in sorted(it.declared.items()):
                if old != new:
                    print(f"{it.module}\t{old}\t{new}")
        return 0
    return repository.run("--check" not in args)


if __name__ == "__main__":
    sys.exit(main(sys.argv[1:]))

"""The sources as a reader of definitions needs them: declarations with their rows, and what each of them names.

The prover's own reading is not at hand, so this one is plain. Within one clause, a name that the clause binds anywhere is a
variable; any other name is what the file's own declarations and `use` lines make it. Where that is wrong a definition is
missed, and `docs/believe --confirm` finds it.
"""
import re
from dataclasses import dataclass, field

NAME = r'[^\s(){}.;,@"]+'
TOKEN = re.compile(rf'"(?:\\.|[^"\\])*"|--.*|(?<![^\s(){{}}])\.{NAME}|{NAME}(?:\.{NAME})*|[(){{}}.;,@]')
MARKS = {"unfoldable", "abbrev", "pub", "axiom"}
KEYWORDS = {"data", "record", "where", "let", "in", "λ", "→", "×", ":", "=", "_", "Type", "↦", "|", "[", "]", "unfolding", "elim", "∀"}
USE = re.compile(r"((?:ghost |unfoldable |pub )*)use ([^{;\s]+?)(?:\.\{(.*)\})?(?: as (\S+?))?;?$")
OURS = re.compile(r"Rattle\.(\w+)\.(specs|proofs)\.(.+)$")
USED = re.compile(r"^(?:pub )?use ([^;]+);", re.M)
VARIANTS = ".TheVariants"


def words(lines):
    return [word for line in lines for word in TOKEN.findall(line) if not word.startswith("--")]


def plain(word):
    """Whether a word can be somebody's name."""
    return word not in KEYWORDS and word[0] not in '(){}.;,@"' and not word.isdigit()


def outside(said):
    """The words that stand in no bracket, with their places."""
    depth = 0
    for at, word in enumerate(said):
        depth -= word in (")", "}")
        if depth == 0:
            yield at, word
        depth += word in ("(", "{")


def top(said, mark):
    """Where a mark first stands in no bracket, or the end."""
    return next((at for at, word in outside(said) if word == mark), len(said))


def label(said, at):
    """Whether the word is the label of a part, as in {x = e; y = f}."""
    return said[at + 1:at + 2] == ["="] and at > 0 and said[at - 1] in ("{", ";")


def binders(said):
    """The names that λ, let and (x y : A) bind in a term."""
    names = set()
    for at, word in enumerate(said):
        rest = said[at + 1:]
        if word == "λ":
            names.update(name for _, name in outside(rest[:top(rest, ".")]) if plain(name))
        elif word == "let":
            names.add(rest[0])
        elif word in ("(", "{"):
            end = next((k for k, name in enumerate(rest) if not plain(name)), 0)
            names.update(rest[:end] if rest[end:end + 1] == [":"] else ())
    return names


def signature(said):
    """Whether a declaration `name : type` or `name {A : B} : type` starts here."""
    return said[1:2] == [":"] or (said[1:2] == ["{"] and top(said, ":") < top(said, "="))


def indent(line):
    return len(line) - len(line.lstrip())


def spread(path):
    """The paths of a `use` of the code, as a::b and a::c of a::{b, c}."""
    front, brace, inner = path.partition("{")
    if not brace:
        return [path.strip()]
    return [whole for part in re.split(r",(?![^{]*\})", inner.strip().removesuffix("}")) if part.strip() for whole in spread(front.strip() + part.strip())]


def behind(lines, at, end):
    """The row behind a declaration: what stands deeper goes on, and what closes a bracket; a comment only where more follows."""
    last = at
    for row in range(at + 1, end):
        text = lines[row].strip()
        if text and indent(lines[row]) <= indent(lines[at]) and text[0] not in ")}]":
            break
        if text and not text.startswith("--"):
            last = row
    return last + 1


def blocks(lines, at, end):
    """The declarations at one depth: the rows of the comment right above, the first row, and the row behind the last."""
    comment = []
    while at < end:
        text = lines[at].strip()
        if text and not text.startswith("--"):
            first, at = at, behind(lines, at, end)
            yield comment, first, at
            comment = []
        else:
            comment = comment + [at] if text else []
            at += 1


def opened(lines, at, end):
    """The row behind the first line from here that ends in `where`."""
    return next((row + 1 for row in range(at, end) if words([lines[row]])[-1:] == ["where"]), end)


@dataclass(eq=False)
class Item:
    """A declaration: a definition, a type of the code, or a public function with its contract."""
    file: object
    name: str
    kind: str  # def, data, record; code; fn
    comment: list  # rows
    head: range  # its type; of a data or record, up to `where`; of the code's types and functions, all
    sections: tuple = ()  # the rows of each `module _ (..) where` around it
    body: list = field(default_factory=list)  # the rows of each clause; of a data or record, of all that it holds
    builders: list = field(default_factory=list)  # constructors
    owner: str = ""  # of a method, its type
    exported: bool = False
    told: bool = False  # a theorem that its crate tells, or a definition that such theorems say all of: its type is enough

    @property
    def key(self):
        return f"{self.file.label}.{self.name}"

    @property
    def place(self):
        return self.file.rank, self.file.path, self.head.start

    @property
    def statement(self):
        """The words behind its name, up to its body."""
        said = words(self.file.lines[row] for row in self.head)
        return said[said.index(self.name) + 1:]

    @property
    def result(self):
        """The first word of what a definition gives."""
        said = self.statement[top(self.statement, ":") + 1:] if self.kind == "def" else []
        while top(said, "→") < len(said):
            said = said[top(said, "→") + 1:]
        return said[0] if said else ""

    @property
    def decides(self):
        """Whether its type says all, as of a decision `Dec P`: it answers yes exactly where P holds, whatever its body is."""
        return self.told or self.result in ("Dec", "Discrete")

    def rows(self, body=True):
        """The rows to show: its sections, its comment, its type and, unless that is a decision's, its body."""
        shown = [row for section in self.sections for row in section] + self.comment + list(self.head)
        return shown + [row for part in self.body for row in part] if body and not self.decides else shown


class Source:
    """A file: its `use` lines and its declarations."""
    title = ""

    def __init__(self, repo, path):
        self.repo, self.path = repo, path
        _, self.crate, self.folder, rest = path.split("/", 3)
        self.module, self.rank = rest.rpartition(".")[0].replace("/", "."), repo.crates.index(self.crate)
        self.lines = (repo.root / path).read_text().split("\n")
        self.uses, self.imports, self.aliases, self.names, self.items = [], {}, {}, {}, []
        self.cut()

    def use(self, line):
        marks, module, names, alias = USE.match(line.split("--")[0].strip()).groups()
        pairs = [pair.split(" as ") for pair in (names or "").split(",") if pair]
        items = {pair[-1].strip(): pair[0].strip() for pair in pairs}
        self.uses.append((module, items, "pub" in marks))
        if names is None:
            self.aliases[alias or module.split(".")[-1]] = module
        for new, old in items.items():
            for piece in [new, *new.split("◌")]:  # an operator's name is ◌+◌
                self.imports[piece] = (module, old)

    def find(self, word):
        """What a word means here: an item, a word of the kit as (module, name), or None."""
        front, _, rest = word.partition(".")
        if rest and front in self.aliases:
            return self.repo.find(self.aliases[front], rest, self)
        return self.names.get(front) or (self.repo.find(*self.imports[front], self) if front in self.imports else None)

    def builds(self, word):
        """Whether a word of a pattern is somebody's constructor and no variable."""
        item = self.find(word)
        if not isinstance(item, Item):
            return item is not None
        return item.kind == "code" or self.imports.get(word, ("", word.rpartition(".")[2]))[1] in item.builders

    def pattern(self, said):
        """The variables of a pattern."""
        return {word for at, word in enumerate(said) if plain(word) and not label(said, at) and not self.builds(word)}

    def follow(self, said, variables):
        """What the words of a term name, but for variables: those given, and those that it binds itself."""
        free = variables | binders(said)
        for end in (at for at, word in enumerate(said) if word == "↦"):  # an arm of an elim, [ pattern ↦ term | .. ]
            start = max(at for at in range(end) if said[at] in ("[", "|"))
            free |= self.pattern(said[start:end])
        return {self.find(word) for at, word in enumerate(said) if plain(word) and word.split(".")[0] not in free and not label(said, at)} - {None}


class Antt(Source):
    """A file of definitions or of proofs."""

    def cut(self):
        self.label = f"{self.crate}/{'proofs/' if self.folder == 'proofs' else ''}{self.module}"
        first = next((row for row, line in enumerate(self.lines) if not line.startswith("-- ")), 0)
        self.title = " ".join(line[3:] for line in self.lines[:first])
        self.take(0, len(self.lines), ())

    def take(self, at, end, sections):
        for comment, first, stop in blocks(self.lines, at, end):
            said = [word for word in words(self.lines[first:stop]) if word not in MARKS]
            inner = opened(self.lines, first, stop)
            if said[0] == "use":
                self.use(self.lines[first])
            elif said[0] == "module":
                self.take(inner, stop, sections + (range(first, inner),))
            elif said[0] in ("data", "record"):
                self.add(Item(self, said[1], said[0], comment, range(first, inner), sections, [range(inner, stop)]))
            elif signature(said):
                self.add(Item(self, said[0], "def", comment, range(first, stop), sections))
            elif said[0] != "mod":
                self.items[-1].body.append(range(comment[0] if comment else first, stop))

    def add(self, item):
        self.items.append(item)
        if item.kind == "data":
            item.builders = [name for names, _ in self.entries(item) for name in names]
        for name in [item.name] + item.builders:
            self.names.setdefault(name, item)

    def entries(self, item):
        """The names and the type of each line of constructors or fields."""
        for _, first, stop in blocks(self.lines, item.body[0].start, item.body[0].stop):
            said = words(self.lines[first:stop])
            yield said[:said.index(":")], said[said.index(":") + 1:]

    def clauses(self, first, stop):
        """The words of a clause, and of those that its `where` holds."""
        where = next((row for row in range(first + 1, stop) if words([self.lines[row]]) == ["where"]), stop)
        yield words(self.lines[first:where])
        for _, at, end in blocks(self.lines, where + 1, stop):
            yield from self.clauses(at, end)

    def clause(self, rows, variables):
        """What a clause names. Where it has a `where`, a variable of one part counts as one in all."""
        parts = list(self.clauses(rows.start, rows.stop))
        for said in parts:
            if said and said[0] != "unfolding":
                variables = variables | ({said[0]} if signature(said) else self.pattern(said[:top(said, "=")]))
        return set().union(*(self.follow(said, variables) for said in parts))

    def type_of(self, item):
        """What the type of a declaration names, with the sections around it; and the variables that these fix."""
        around = [words(self.lines[row] for row in section)[2:] for section in item.sections]
        variables = set().union(*map(binders, around))
        return set().union(*(self.follow(said, variables) for said in [*around, item.statement])) - {item}, variables

    def reached(self, item):
        """What a declaration names: by its type, and by its body unless that is a decision's."""
        found, variables = self.type_of(item)
        if item.kind == "def":
            return found.union(*(self.clause(rows, variables) for rows in item.body if not item.decides)) - {item}
        variables |= binders(item.statement)
        for names, said in self.entries(item):
            found |= self.follow(said, variables)
            variables |= set(names if item.kind == "record" else ())  # a field hides what has its name, in the fields behind it
        return found - {item}


class Rattle(Source):
    """A file of the code: its types and constants, and its public functions with their contracts."""

    def cut(self):
        self.label, self.paths = f"{self.crate}/{self.module}.rt", {}
        for path in (path for used in USED.findall("\n".join(self.lines)) for path in spread(used)):
            said, _, new = path.partition(" as ")
            self.paths[new or said.split("::")[-1]] = said.split("::")
        comment, owner = [], ""
        for row, line in enumerate(self.lines):
            if found := re.match(r"(?:pub )?(?:struct|enum|const|type) (\w+)", line):
                end = next(at for at in range(row, len(self.lines)) if re.match(r"\S.*[;}]$|\}", self.lines[at]))
                self.names[found[1]] = Item(self, found[1], "code", comment, range(row, end + 1))
            elif found := re.match(r'\s*pub (extern "C" )?fn (\w+)', line):
                end = next(at for at in range(row, len(self.lines)) if self.lines[at].endswith("{"))
                self.items.append(Item(self, found[2], "fn", comment, range(row, end), owner=owner, exported=bool(found[1])))
            elif line.strip().startswith("ghost use "):
                self.use(line)
            elif found := re.match(r"impl (\w+)|\}", line):
                owner = found[1] or ""
            if not line.strip().startswith("#["):
                comment = comment + [row] if line.strip().startswith("//") else []

    def find(self, word):
        """What a word of a clause means here: a type or constant of the code needs no import there."""
        return super().find(word) or self.type(word.partition(".")[0])

    def type(self, name):
        """A type or constant that a piece of code names, or None."""
        if name in self.names or name not in self.paths:
            return self.names.get(name)
        front, *rest = self.paths[name]
        crate = front if front in self.repo.crates else self.crate
        return self.repo.type(crate, rest if front in (crate, "super", "crate") else self.paths[name])

    def types(self, text):
        return {self.type(name) for name in re.findall(r"\b[A-Z]\w*", re.sub(r"//.*", "", text))} - {None}

    def text(self, item):
        return "\n".join(self.lines[row] for row in item.head)

    def parameters(self, item):
        """The (name, type) of each parameter, and the type returned."""
        inner, returned = re.search(r"\((.*?)\)\s*(?:->\s*(.+?))?\s*(?:requires|ensures|\Z)", self.text(item), re.S).groups()
        pairs = re.findall(r"(\w+)(?:: *([^,]+))?(?:,|$)", re.sub(r"//.*", "", inner).strip())
        return [(name, kind.strip() or item.owner) for name, kind in pairs], (returned or "").strip()

    def contract(self, item):
        """The clauses of a contract: its word, and the term."""
        return re.findall(r"^\s*(requires|ensures)\b[^{]*\{(.*?)\}\s*(?=^\s*(?:requires|ensures)\b|\Z)", self.text(item), re.S | re.M)

    def reached(self, item):
        if item.kind == "code":
            return self.types(self.text(item).split(item.name, 1)[1]) - {item}
        pairs, returned = self.parameters(item)
        found = self.types(" ".join([returned, *(kind for _, kind in pairs)]))
        names = {"result", *(name for name, _ in pairs)}
        return found.union(*(self.follow(words(term.split("\n")), names) for _, term in self.contract(item)))


class Repo:
    """The repository, read as far as it is asked for."""

    def __init__(self, root):
        self.root, self.files = root, {}
        self.crates = re.findall(r"^([a-z0-9_]+)(?: staticlib)?:", (root / "crates.txt").read_text(), re.M)

    def file(self, path):
        if path not in self.files:
            if not (self.root / path).is_file():
                raise SystemExit(f"there is no {path}")
            self.files[path] = (Antt if path.endswith(".antt") else Rattle)(self, path)
        return self.files[path]

    def sources(self, crate):
        return [self.file(str(path.relative_to(self.root))) for path in sorted((self.root / "crates" / crate / "src").glob("*.rt"))]

    def type(self, crate, path):
        """A type of the code by its path; what stands in no module is in lib.rt, or in a program's main.rt."""
        stems = ["/".join(path[:-1])] if path[1:] else ["lib", "main"]
        source = next((file for file in self.sources(crate) if file.module in stems), None)
        if not source or not source.type(path[-1]):
            raise SystemExit(f"there is no type {'::'.join([crate, *path])}")
        return source.type(path[-1])

    def ours(self, module):
        """What a module's path says of a module of ours; None of the kit's."""
        found = OURS.match(module)
        return found if found and found[1] in self.crates else None

    def module(self, module):
        """The file that a module of ours is; None of the kit's, and of the code's types."""
        ours = self.ours(module)
        if ours and not ours[3].startswith("declared."):
            return self.file(f"crates/{ours[1]}/{ours[2]}/{ours[3].replace('.', '/')}.antt")

    def find(self, module, name, user):
        """What a name of a module is: a word of the kit, a type of the code, or a declaration, perhaps handed on by `pub use`."""
        ours, file = self.ours(module), self.module(module)
        if not ours:
            return module, name
        if not file:
            return self.type(ours[1], ours[3].removesuffix(VARIANTS).split(".")[1:])
        if name in file.names:
            return file.names[name]
        for other, items, public in file.uses:
            if public and name in items:
                return self.find(other, items[name], file)
        raise SystemExit(f"{user.path}: {file.path} has no {name}")

    def item(self, key):
        """A definition by CRATE/Module.NAME, or None."""
        path, _, name = key.rpartition(".")
        path = "crates/{}/specs/{}.antt".format(*path.split("/"))
        return self.file(path).names.get(name) if (self.root / path).is_file() else None

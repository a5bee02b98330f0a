"""The trusted text: what the contracts and the told theorems reach, in chapters of three tiers."""
from dataclasses import dataclass

from . import table as project
from .sources import Item, top, words


@dataclass(eq=False)
class Chapter:
    tier: int
    title: str
    beside: str
    items: set
    functions: list
    body: object = None  # the definition whose body the chapter is


def nothing(item):
    return False


def general(item):
    """Whether a theorem or a definition is about variables."""
    return bool(item.sections) or top(item.statement, "→") < len(item.statement)


def example(item):
    """What a told theorem may name under proofs/: a value that is about no variable, and with it what only such values name."""
    return item.file.folder == "proofs" and item.kind == "def" and not item.told and not general(item) and item.result != "Type"


def in_order(items):
    return sorted(items, key=lambda item: item.place)


class Text:
    def __init__(self, repo, table=project):
        self.repo, self.table, self.chapters, self.items, self.edges = repo, table, [], set(), {}
        self.theorems = [item for crate in repo.crates for item in self.told(crate)]
        self.functions = [item for crate, which in table.PUBLIC.items() for file in repo.sources(crate)
                          for item in file.items if which == "all" or item.owner]
        self.cuts = {}
        for key, (_, accepts, refuses, _) in table.CUT.items():
            self.cut(*(repo.item(name) if name else None for name in (key, accepts, refuses)))
        self.contracts()
        self.words()

    def cut(self, item, accepts, refuses):
        """Have a definition read by the rules that its theorems name: with the first tier by the one, whole by both, or by its body."""
        if item:
            self.cuts[item], item.told = refuses, bool(refuses)
            first = item.file.type_of(item)[0] | {accepts}
            self.edges[item, False], self.edges[item, True] = first, first | ({refuses} if refuses else item.file.reached(item))

    def told(self, crate):
        """The theorems that a crate's Theorems.antt hands on."""
        path = f"crates/{crate}/proofs/Theorems.antt"
        file = self.repo.file(path) if (self.repo.root / path).is_file() else None
        for module, items, _ in file.uses if file else ():
            for name in items.values():
                item = self.repo.find(module, name, file)
                item.told = True
                yield item

    def reached(self, item, whole=True):
        """What an item names; its type alone, where its body is left for later."""
        if (item, whole) not in self.edges:
            self.edges[item, whole] = item.file.reached(item) if whole else item.file.type_of(item)[0]
        return self.edges[item, whole]

    def named(self, users):
        return [item for user in users for item in self.reached(user)]

    def closure(self, roots, cut=(), stop=nothing):
        """All that the roots reach: but for the bodies of those in `cut`, and for what `stop` has."""
        seen, todo = set(), list(roots)
        while todo:
            item = todo.pop()
            if isinstance(item, Item) and item not in seen and not stop(item):
                seen.add(item)
                todo += self.reached(item, item not in cut)
        return seen

    def rests(self, *functions):
        """All that the contracts of some functions rest on."""
        return self.closure(self.named(functions))

    def chapter(self, tier, title, beside, roots, functions=(), cut=(), stop=nothing, body=None):
        """What of all this no chapter before has."""
        new = self.closure([*roots, *self.named(functions)], cut, stop) - self.items
        self.items |= new
        if new or functions:
            self.chapters.append(Chapter(tier, title, beside, new, list(functions), body))

    def contracts(self):
        """The first tier as the table has it; the exports, which say the same for other languages, behind all others."""
        left = list(self.functions)
        for title, beside, sources, rules in self.table.CHAPTERS:
            here = [item for item in left if item.file.label in sources and not item.exported]
            left = [item for item in left if item not in here]
            self.chapter(1, title, beside, filter(None, map(self.repo.item, rules)), here, self.cuts)
        self.chapter(1, *self.table.EXPORTS, (), [item for item in left if item.exported], self.cuts)
        self.chapter(1, *self.table.OTHERS, (), [item for item in left if not item.exported], self.cuts)

    def words(self):
        """What the theorems name besides: in the first tier what stands without the bodies of the second."""
        named = self.named(filter(general, self.theorems))
        deep = self.closure(self.named(self.cuts)) - self.items
        light = [root for root in named if not self.closure([root], self.cuts, example) & deep]
        self.chapter(1, *self.table.WORDS, light, (), self.cuts, example)
        for cut, rules in self.cuts.items():
            self.chapter(2, f"`{(rules or cut).name}`", self.table.CUT[cut.key][3], self.reached(cut), body=None if rules else cut)
        self.chapter(2, *self.table.REFUSALS, named, stop=example)
        self.chapter(3, *self.table.EXAMPLES, self.named(self.theorems))

    def tier(self, number):
        return set().union(*(chapter.items for chapter in self.chapters if chapter.tier == number))

    def size(self, items):
        """The lines of some items that are not blank, each once: a section's head belongs to all that it holds."""
        return len({(item.file, row) for item in items for row in item.rows() if item.file.lines[row].strip()})

    def arranged(self, items):
        """The items by file: a file stands behind those that it rests on, else in the order of crates.txt."""
        groups, order, seen = {}, {}, set()
        for item in in_order(items):
            groups.setdefault(item.file, []).append(item)

        def visit(file):
            if file in groups and file not in seen:
                seen.add(file)
                for item in in_order(item for item in self.named(groups[file]) if isinstance(item, Item)):
                    visit(item.file)
                order[file] = groups[file]

        for file in groups:
            visit(file)
        return order.items()

    def by_file(self, files):
        """The definition files that some sources import, directly or by others, as a reader by file would have them."""
        seen, todo = set(), list(files)
        while todo:
            found = {self.repo.module(module) for module, _, _ in todo.pop().uses} - seen - {None}
            seen |= found
            todo += found
        return seen

    def table_faults(self):
        """A row that names what is not there, or theorems that are not told of a definition and its rules."""
        cuts = [key for key, (_, *rules, _) in self.table.CUT.items() for key in [key, *rules] if key]
        for key in [rule for *_, rules in self.table.CHAPTERS for rule in rules] + cuts:
            if not self.repo.item(key):
                yield f"the table names {key}, which is not there"
        for key, (names, *rules, _) in self.table.CUT.items():
            told = [theorem for theorem in self.theorems if theorem.name in names]
            said = self.closure(self.named(told), stop=lambda item: item.key == key)
            lacking = [rule for rule in filter(None, rules) if self.repo.item(rule) not in said]
            if {theorem.name for theorem in told} != set(names) or lacking or self.repo.item(key) not in self.named([*told, *said]):
                yield f"the table has {', '.join(names)} for {key}: no such theorems are told of {', '.join([key, *lacking])}"

    def faults(self):
        """What is not as it should be: a row of the table, a contract over proofs/, a decision that is looked into."""
        yield from self.table_faults()
        for function in self.functions:
            for item in in_order(self.rests(function)):
                if item.file.folder == "proofs":
                    yield f"{item.file.path}:{item.head.start + 1}: the contract of {function.name} rests on {item.name}"
        for item in in_order(self.items):
            for rows in [] if item.decides else item.body:
                said = words(item.file.lines[row] for row in rows)
                for at, (word, held) in enumerate(zip(said, said[1:])):
                    if word in ("yes", "no") and held not in ("(", ")", ",") and held in said[at + 2:]:
                        yield f"{item.file.path}:{rows.start + 1}: {item.name} looks into a decision: it uses what `{word}` holds"

    def misplaced(self):
        """The words of theorems about variables that stand under proofs/, though they are no examples."""
        named = self.closure(self.named(filter(general, self.theorems)), (), example)
        return in_order(item for item in named if item.file.folder == "proofs" and not item.told)

    def why(self, name):
        """The shortest chains of names from a contract or a theorem to the definitions of a name."""
        todo = [*self.functions, *self.theorems]
        came = dict.fromkeys(todo)
        for user in todo:
            for item in self.reached(user):
                if isinstance(item, Item) and item not in came:
                    came[item] = user
                    todo.append(item)
        for item in todo:
            if item.name == name:
                chain = [item]
                while came[chain[-1]]:
                    chain.append(came[chain[-1]])
                yield " < ".join(link.key for link in chain)

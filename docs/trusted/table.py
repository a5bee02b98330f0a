"""What the program knows of this project; nothing else in it does."""

# The sources whose public functions count: all of `ionex`, and of `calendar` the methods.
PUBLIC = {"ionex": "all", "calendar": "methods"}

# The chapters in reading order: title, what to lay beside it, sources of the public functions, rules that no contract names.
CHAPTERS = [
    ("Dates and seconds", "01, 'Header records' (an epoch); 02, Ask 6", ["calendar/lib.rt"], []),
    ("A text and its map set", "01, 'Lines and fields', 'Header records', 'Maps'; 02, Asks 1, 4, 7", [], ["layout/Layout.Makes"]),
    ("Reading into lent areas", "01, 'What comes back'", ["ionex/reader.rt"], []),
    ("Canonical text and writing", "01, 'Canonical text'", ["ionex/writing.rt"], []),
    ("The value at a place and second", "01, 'The value at a place and second'; 02, Asks 2, 3", ["ionex/asking.rt"], []),
    ("Where an answer came from", "02, Ask 10", ["ionex/explaining.rt"], []),
    ("The delay in metres", "02, Ask 13", ["ionex/delays.rt"], []),
    ("Two map sets joined", "02, Asks 11, 12", ["ionex/joiner.rt"], []),
    ("The week in figures", "02, Ask 5", ["ionex/weekly.rt"], []),
    ("The index beside a text", "02, Ask 8", ["ionex/indexing.rt"], []),
    ("Biases", "02, Ask 7", ["ionex/bias_reader.rt"], ["biases/Rules.Makes", "biases/Rules.Tells"]),
    ("An epoch moved, for other languages", "01, 'Header records' (an epoch moved)", ["ionex/moving.rt"], []),
]

# The chapters behind these: the exports, public functions of other sources, and what only theorems name.
THEOREMS = "BELIEVE.md, 'The theorems'"
EXPORTS = "As they cross to other languages", "include/ionex.h"
OTHERS = "Other public functions", ""
WORDS = "Further words of the theorems", THEOREMS
REFUSALS = "Further words of the theorems on refusals", THEOREMS
EXAMPLES = "Texts, map sets and questions", THEOREMS

# The definitions whose bodies are not read with the first tier: the told theorems that say what each does, the rules by which
# these say what it accepts and what it refuses, and what to lay beside the second tier. With rules for its refusals a body is no
# part of the text; without, it is the second tier.
CUT = {
    "reading/Read.read": (["reads_exactly", "refused_exactly_at"], "layout/Layout.Makes", "refusals/Faulty.Faulty",
                          "01, 'What comes back', the table of refusals"),
    "biases/Read.biases": (["biases_exactly"], "biases/Rules.Makes", "", "02, Ask 7, the refusals"),
}

TIERS = {1: "What is accepted and answered", 2: "Which refusal, and where", 3: "What the worked examples are about"}

# Rows of the table of counts besides one for each source: sources or crates taken together.
GROUPS = {
    "reading, writing, asking, an epoch moved": ["ionex/reader.rt", "ionex/writing.rt", "ionex/asking.rt", "ionex/moving.rt"],
    "all of `ionex`": ["ionex"],
    "and `Epoch`'s methods": ["ionex", "calendar"],
}

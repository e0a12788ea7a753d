"""Holds the code and docs/PROMISES.md to each other; docs/CHECKING.md ("Names") says what is asked. tools/names prints what is found here."""

import re

import contracts
import marks

DOCUMENT = marks.ROOT / "docs/PROMISES.md"
CODE = re.compile(r"`([^`]+)`")
BAR = re.compile(r"\|(?=(?:[^`]*`[^`]*`)*[^`]*$)")
NAMED = re.compile(r"(?:\b([a-z_]+) )?`((?:\w+::)*[^\W\d]\w*)`")

CRATES = marks.crates()
FUNCTIONS = {(one.crate, one.path): one for one in contracts.functions()}
THEOREMS = {(one.crate, one.name): one for one in contracts.theorems()}
PROVED = {(one.crate, one.of) for one in THEOREMS.values()}


def rows():
    """The rows of the document's tables, as (line, cells by the columns' heads)."""
    found, head = [], None
    for number, line in enumerate(DOCUMENT.read_text(encoding="utf-8").splitlines(), 1):
        cells = [cell.strip() for cell in BAR.split(line)[1:-1]] if line.startswith("|") else []
        if not cells:
            head = None
        elif head is None:
            head = cells
        elif set(line) - set("|-: "):
            found.append((number, dict(zip(head, cells))))
    return found


def named_in(cell):
    """The functions that a cell names, "stored `fill`, `next_word`", as (crate, path). The crate is None where none stands before."""
    found, crate = [], None
    for before, name in NAMED.findall(cell):
        crate = before if before in CRATES else crate
        found.append((crate, tuple(name.split("::"))))
    return found


def lacking(function):
    """What is asked of a function and not there, as (what the table of exceptions calls it, what is to be said of it)."""
    found = []
    if function.public and not function.requires and (function.crate, function.path) not in PROVED:
        found.append(("a theorem", "can be called by any crate, requires nothing and has no theorem of one outcome"))
    missing = function.without_equation()
    if missing and not function.ensures:
        found.append(("an equation", "has no `ensures`, so nothing says what it returns or leaves"))
    elif missing:
        found.append(("an equation", f"has no `ensures` that is an equation of {' and of '.join(missing)}"))
    return found


def theorem_faults():
    """Theorems that are of no function, or leave out a part of its outcome, as (file, line, what)."""
    found = []
    for one in THEOREMS.values():
        function = FUNCTIONS.get((one.crate, one.of))
        if function is None:
            found.append((one.file, one.line, f"{one.name} is not `OneResult` and `OneContent` of what is learnt of one function of {one.crate}, alone"))
            continue
        left_out = ["the result"] if function.returns and not one.result else []
        left_out += [f"`{name}.new`" for place, name in function.lent.items() if place not in one.places]
        found += [(one.file, one.line, f"{one.name} says nothing of {what}") for what in left_out]
    return found


def row_faults(cells):
    """What is wrong with a row that promises one outcome."""
    named, cited = named_in(cells["function"]), CODE.findall(cells["one outcome"])[:1]
    function = FUNCTIONS.get(named[0]) if len(named) == 1 else None
    if function is None or not function.public:
        return [f"no function that other crates can call is named by: {cells['function']}"]
    wrong = [f"{function} requires something of its caller"] if function.requires else []
    theorem = THEOREMS.get((function.crate, cited[0])) if cited else None
    if theorem is None:
        wrong.append(f"no theorem {''.join(cited)} in crates/{function.crate}/proofs/OutcomeTheorems.antt")
    elif theorem.of not in (None, function.path):
        wrong.append(f"{theorem.name} is of {FUNCTIONS.get((theorem.crate, theorem.of), 'no function')} and not of {function}")
    definitions = CODE.findall(cells["definition"])
    words = set(re.findall(r"[^\s(){}«».,]+", " ".join(function.ensures)))
    wrong += [] if definitions else [f"no definition for {function}"]
    wrong += [f"{name} is not in the contract of {function}" for name in definitions if name not in words]
    tried = cells.get("edit", cells.get("wrong answers ruled out", ""))
    return wrong + ([] if "must-fail `" in tried or tried == "none of its own" else [f"no must-fail edit for {function}, and no 'none of its own'"])


def exception_faults(cells):
    """What is wrong with a row of exceptions: each function has to lack just what the row says."""
    wrong, without = [] if cells.get("ground") else ["no ground"], cells["without"].split(", ")
    for name in named_in(cells["function"]):
        function = FUNCTIONS.get(name)
        if function is None:
            wrong.append(f"no function {name[0]} `{'::'.join(name[1])}`")
        elif without != [what for what, _ in lacking(function)]:
            wrong.append(f"{function} is without {', '.join(what for what, _ in lacking(function)) or 'nothing that is asked'}")
    return wrong


def faults():
    """Everything that is wrong, as (file, line, what)."""
    found, excepted, promised = contracts.unread() + theorem_faults(), set(), set()
    for number, cells in rows():
        if "one outcome" in cells:
            found += [(DOCUMENT, number, what) for what in row_faults(cells)]
            promised.update((crate, name) for crate, _ in named_in(cells["function"]) for name in CODE.findall(cells["one outcome"])[:1])
        elif "without" in cells:
            found += [(DOCUMENT, number, what) for what in exception_faults(cells)]
            excepted.update(named_in(cells["function"]))
    found += [(one.file, one.line, f"{one.name} has no row in docs/PROMISES.md") for key, one in THEOREMS.items() if key not in promised]
    for key, one in FUNCTIONS.items():
        found += [(one.file, one.line, f"{one} {what}") for _, what in lacking(one) if key not in excepted]
    return found

"""The functions of crates/*/src with their contracts, and the theorems of one outcome, read from the files as text."""

import functools
import pathlib
import re
import typing

import marks

# Comments and literals, in which no word and no bracket counts.
HIDDEN = {
    ".rt": re.compile(r"//[^\n]*|/\*.*?\*/|\bb?r(#*)\".*?\"\1|b?\"(?:\\.|[^\"\\])*\"|b?'(?:\\.|[^'\\\n])'", re.DOTALL),
    ".antt": re.compile(r"--(?<!\S--)[^\n]*|\{-.*?-\}", re.DOTALL),
}
# A function as far as its name, a block of a module, of a type, of a trait or of anything else, and a block's end. What an `impl` of a trait has is as public
# as the trait, and so counts as public, as what a `pub trait` has.
PART = re.compile(
    r"(?P<shown>\bpub\s+)?(?:(?:const|extern|ghost|unsafe)\s+)*\bfn\s+(?P<function>\w+)"
    r"|(?P<opened>\bpub\s+)?\bmod\s+(?P<module>\w+)\s*\{"
    r"|^[ \t]*(?:unsafe\s+)?impl\b(?P<kind>[^{;]*)\{"
    r"|(?P<told>\bpub\s+)?\btrait\s+(?P<trait>\w+)[^{;]*\{"
    r"|[{}]",
    re.MULTILINE,
)
CLAUSE = re.compile(r"\b(requires|ensures|ghost)\b[^{;]*\{|[{;]")
DECLARED = re.compile(r"(\bpub\s+)?\bmod\s+(\w+)\s*;")
PASSED_ON = re.compile(r"\bpub\s+use\b")
RESULT = re.compile(r"\s*->")
CLOSED_BY = {"(": ")", "{": "}", "[": "]", "<": ">"}

# In a file of theorems: one with its type, a line that names what is learnt of a call, and what a type says of a result and of a place.
THEOREM = re.compile(r"^pub (one_outcome_\S+) :(.*?)^(?=\S)", re.DOTALL | re.MULTILINE)
LEARNT = re.compile(r"^use Rattle\.(\w+)\.proofs\.([\w.]+)\.Reads\.\{\s*Learnt as ([^\s,}]+)\s*,?\s*\}", re.MULTILINE)
MEANT = re.compile(r"^use Rattle\.whole\.specs\.Outcome\.\{([^}]*)\}", re.MULTILINE)
OUTCOME = re.compile(r"OneResult ([^\s()]+)|OneContent ([^\s()]+) \(λ κs e\. e((?:\.1)*)\.0\.now\)")


class Function(typing.NamedTuple):
    """A function. `path` has its modules, its type where it is a method, and its name; `lent` names what it may change, by the parameter's place."""

    crate: str
    path: tuple
    file: pathlib.Path
    line: int
    public: bool
    returns: bool
    lent: dict
    requires: list
    ensures: list

    def __str__(self):
        return f"{self.crate} `{'::'.join(self.path)}`"

    def without_equation(self):
        """What the contract gives no equation of: the result, and what is lent, as the function returns."""
        missing = [] if not self.returns or any(is_equation_of("result", clause) for clause in self.ensures) else ["its result"]
        return missing + [f"`{name}.new`" for name in self.lent.values() if not any(is_equation_of(f"{name}.new", clause) for clause in self.ensures)]


class Theorem(typing.NamedTuple):
    """A theorem of one outcome. `of` is the path of the function whose contract it reads, None where it is of no known form."""

    crate: str
    name: str
    file: pathlib.Path
    line: int
    of: typing.Optional[tuple]
    result: bool
    places: set


def is_equation_of(place, clause):
    """Whether a clause is an equation in which a place stands: `result`, or a parameter as it is left, `out.new`. A name that a clause takes for a word of its
    own stands between « and »."""
    name, _, projection = place.partition(".")
    stands = rf"(?<![\w.'«])(?:{name}|«{name}»)" + (rf"\s*\.{projection}" if projection else "") + r"(?![\w'])"
    return "≡" in clause and re.search(stands, clause) is not None


@functools.lru_cache(maxsize=None)
def bare(file):
    """The text of a file with blanks in place of comments and literals."""
    return HIDDEN[file.suffix].sub(lambda found: re.sub(r"[^\n]", " ", found[0]), file.read_text(encoding="utf-8"))


def line_at(text, at):
    """The line of a place of a text, counted from 1."""
    return text.count("\n", 0, at) + 1


def after_bracket(text, at):
    """The place after the bracket that closes the one at a place. In `->` there is none."""
    depth, opened, closed = 0, text[at], CLOSED_BY[text[at]]
    while True:
        depth += (text[at] == opened) - (text[at] == closed and text[at - 1:at + 1] != "->")
        at += 1
        if depth == 0:
            return at


def lent_in(parameters):
    """The parameters that a function may change, by their place."""
    found = {}
    for place, parameter in enumerate(re.split(r",(?![^<(\[]*[>)\]])", parameters)):
        name, _, kind = parameter.partition(":")
        if re.search(r"&\s*(?:'\w+\s+)?mut\b", kind or name):
            found[place] = name.split()[-1]
    return found


def signature(text, at):
    """Of the function whose name ends at a place: whether it returns something, what is lent, what it requires and ensures, and where its body begins."""
    after_name = re.compile(r"\s*").match(text, at).end()
    opened = text.index("(", after_bracket(text, after_name) if text[after_name] == "<" else at)
    closed = after_bracket(text, opened)
    clauses = {"requires": [], "ensures": [], "ghost": []}
    clause = CLAUSE.search(text, after_result(text, closed))
    returns = RESULT.match(text, closed) is not None
    while clause[1]:
        end = after_bracket(text, clause.end() - 1)
        clauses[clause[1]].append(text[clause.end():end - 1])
        clause = CLAUSE.search(text, end)
    return returns, lent_in(text[opened + 1:closed - 1]), clauses["requires"], clauses["ensures"], clause.start()


def after_result(text, at):
    """The place after the type of a function's result, whose brackets may hold a `;`."""
    while text[at] not in "{;" and not re.compile(r"\b(?:requires|ensures|ghost|where)\b").match(text, at):
        at = after_bracket(text, at) if text[at] in "([" else at + 1
    return at


def type_of(kind):
    """Of an `impl`, what stands between that word and its block: the type, and whether it is of a trait."""
    at = len(kind) - len(kind.lstrip())
    kind = kind[after_bracket(kind, at) if kind[at:at + 1] == "<" else at:]
    trait, of_trait, type_ = kind.rpartition(" for ")
    return re.search(r"\w+", type_)[0], of_trait != ""


def functions_in(file, crate, modules, public):
    """The functions of a file, which is a module of a crate. In a body nothing is public."""
    text = bare(file)
    found, within, at = [], [(modules, public, False)], 0
    while part := PART.search(text, at):
        names, reached, all_shown = within[-1]
        at = part.end()
        if part["function"]:
            *contract, at = signature(text, at)
            path, is_public = names + (part["function"],), reached and (all_shown or part["shown"] is not None)
            found.append(Function(crate, path, file, line_at(text, part.start("function")), is_public, *contract))
            within += [(path, False, False)] if text[at] == "{" else []
            at += 1
        elif part["module"]:
            within.append((names + (part["module"],), reached and part["opened"] is not None, False))
        elif part["kind"]:
            type_, of_trait = type_of(part["kind"])
            within.append((names + (type_,), reached, of_trait))
        elif part["trait"]:
            within.append((names + (part["trait"],), reached and part["told"] is not None, True))
        elif part[0] == "{":
            within.append((names, False, False))
        else:
            within.pop()
    return found


def modules_from(file, source, modules, public):
    """A file and those that its `mod` lines lead to, as (file, modules, whether other crates reach it)."""
    if not file.exists():
        return []
    found = [(file, modules, public)]
    for shown, name in DECLARED.findall(bare(file)):
        found += modules_from(source.joinpath(*modules, f"{name}.rt"), source, modules + (name,), public and shown != "")
    return found


def modules_of(crate):
    """The files of a crate, from its root on. Nothing of a program is reached by others."""
    source = marks.ROOT / "crates" / crate / "src"
    main, library = source / "main.rt", source / "lib.rt"
    return modules_from(main, source, (), False) if main.exists() else modules_from(library, source, (), True)


def functions():
    """Every function of every crate."""
    return [one for crate in marks.crates() for file, modules, public in modules_of(crate) for one in functions_in(file, crate, modules, public)]


def unread():
    """What this reading does not see, as (file, line, what): a file that no `mod` line leads to, and a name that is passed on."""
    found = []
    for crate in marks.crates():
        files = {file for file, _, _ in modules_of(crate)}
        for file in sorted((marks.ROOT / "crates" / crate / "src").rglob("*.rt")):
            text = bare(file)
            found += [(file, 1, "no `mod` line leads to this file, so nothing proves it")] if file not in files else []
            found += [(file, line_at(text, use.end()), "a `pub use`: what is public is told by `pub mod` alone") for use in PASSED_ON.finditer(text)]
    return found


def theorem_of(kind, learnt):
    """The function that a theorem's type is of, whether it is of the result, and of which places: a product of `OneResult` and `OneContent`, no more."""
    outcomes = list(OUTCOME.finditer(kind))
    about = {one[1] or one[2] for one in outcomes}
    if re.sub(r"[\s×()]", "", OUTCOME.sub("", kind)) or len(about) != 1:
        return None, False, set()
    places = {one[3].count(".1") for one in outcomes if one[2]}
    return learnt.get(about.pop()), any(one[1] for one in outcomes), places


def theorems():
    """Every theorem of one outcome, in a crate's file of them. What is learnt of a call, and what one outcome is, count by where they come from."""
    found = []
    for file in sorted(marks.ROOT.glob("crates/*/proofs/OutcomeTheorems.antt")):
        crate, text = file.parts[-3], bare(file)
        learnt = {alias: tuple(path.split(".")) for home, path, alias in LEARNT.findall(text) if home == crate}
        meant = {name.strip() for names in MEANT.findall(text) for name in names.split(",")}
        for one in THEOREM.finditer(text + "\nend"):
            said = theorem_of(one[2], learnt if meant.issuperset(re.findall(r"\bOne\w+", one[2])) else {})
            found.append(Theorem(crate, one[1], file, line_at(text, one.start()), *said))
    return found

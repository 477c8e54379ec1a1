"""What the pages are made from: the definitions of specs/, with the comment over each, the rule lists among them, and the public functions."""
import pathlib
import re
import sys
from typing import NamedTuple

ROOT = pathlib.Path(__file__).resolve().parent.parent
WORD = re.compile(r"[A-Za-z_«][\w»′'-]*")
RULE = re.compile(r"(\d+) when ")
DEFINITION = re.compile(r"(?:abbrev |unfoldable |pub )*pub (?:record |data )?(?!mod )([^\s:(]+)")


class Block(NamedTuple):
    """A definition as it stands in a file."""
    path: str  # from the root
    name: str  # none for a comment that stands over nothing
    text: str
    comment: str  # the nearest above it: a comment speaks of all that stands below it up to the next
    direct: bool  # whether it is the first below that comment


def crates():
    """The listed library crates, in their order, but for those that are not done."""
    for line in (ROOT / "crates.txt").read_text().partition("# Not done:")[0].splitlines():
        name = line.split("#")[0].split(":")[0].strip()
        if name and (ROOT / "crates" / name / "src" / "lib.rt").exists():
            yield name


def pieces(text):
    """The comments, definitions and other lines of a file, in turn. A definition goes up to an empty line or a comment."""
    kind, held = "", []
    for line in text.splitlines():
        begins = DEFINITION.match(line)
        if line.startswith("--"):
            now = "comment"
        elif not line.strip():
            now = ""
        else:
            now = "definition" if begins or kind == "definition" else "other"
        if held and (now != kind or begins):
            yield kind, "\n".join(held)
            held = []
        kind = now
        if kind:
            held.append(line)
    if held:
        yield kind, "\n".join(held)


def blocks(path):
    """The definitions of a file, each with its comment."""
    where, comment, direct = str(path.relative_to(ROOT)), "", False
    for kind, text in [*pieces(path.read_text()), ("other", "")]:
        if kind == "definition":
            yield Block(where, DEFINITION.match(text).group(1), text, comment, direct)
            direct = False
            continue
        if direct:
            yield Block(where, "", "", comment, direct)
        comment = re.sub(r"^-- ?", "", text, flags=re.M) if kind == "comment" else ""
        direct = kind == "comment"


def imported(text):
    """The names that `use` lines bring from specs: each with the crate and file that have it, and its name there."""
    names = {}
    for crate, file, listed in re.findall(r"use Rattle\.(\w+)\.specs\.([\w.]+)\.\{([^}]*)\}", text):
        for item in listed.split(","):
            name, _, other = item.strip().partition(" as ")
            names[other or name] = (crate, file, name)
    return names


class Definition(NamedTuple):
    block: Block
    signature: str
    body: str  # its clauses; of a record, all
    imports: dict


def spec_files():
    """Each file of a listed crate's specs/: the crate, the file's name there, and its path."""
    for crate in crates():
        specs = ROOT / "crates" / crate / "specs"
        for path in sorted(specs.rglob("*.antt")):
            yield crate, ".".join(path.relative_to(specs).with_suffix("").parts), path


def read_definitions():
    """Each definition of the specs, by crate, file and name."""
    known = {}
    for crate, file, path in spec_files():
        imports = imported(path.read_text())
        for block in filter(lambda block: block.name, blocks(path)):
            text = re.sub(r"^(\s*--|unfolding ).*\n", "", block.text + "\n", flags=re.M)
            clause = re.search(rf"^{re.escape(block.name)} ", text, re.M)
            at = clause.start() if clause else 0
            known[crate, file, block.name] = Definition(block, text[:at], text[at:], imports)
    return known


KNOWN = read_definitions()


def target(word, crate, file, imports):
    """The definition that a word means in a file of a crate."""
    return next((key for key in (imports.get(word), (crate, file, word)) if key in KNOWN), None)


def named(key):
    """The definitions that a definition names, in turn."""
    crate, file, _ = key
    return [t for t in (target(w, crate, file, KNOWN[key].imports) for w in WORD.findall(KNOWN[key].body)) if t]


def lists_rules(key):
    """Whether a definition is a list of rules."""
    return re.search(r"[:→] List Rule$", KNOWN[key].signature.strip()) is not None


def atoms(text):
    """The arguments at the front of a text: words, and what stands in brackets."""
    found, depth = [""], 0
    for mark in re.findall(r"[()]|\s+|[^\s()]+", text):
        depth += {"(": 1, ")": -1}.get(mark, 0)
        if depth < 0 or not depth and mark in ("++", "∷", "="):
            break
        if mark.isspace() and not depth:
            found.append("")
        else:
            found[-1] += mark
    return [atom for atom in found if atom]


class Rule(NamedTuple):
    """A number with its condition; a list that is taken in (with no number), with its arguments; or the lists that a form of the card names ("form"). A name is a
    definition, or the place of a parameter, which the caller gives."""
    number: str
    name: object
    arguments: tuple = ()


class Listed(NamedTuple):
    """A rule list, with the definitions that are given to it; or the clauses that a contract writes out itself."""
    key: tuple
    given: tuple = ()
    own: tuple = ()

    def found(self, name):
        """What a name of its clauses means: a definition, or none."""
        return name if not isinstance(name, int) else self.given[name] if name < len(self.given) else None

    def taken_in(self, rule):
        """The lists that a rule without a number takes in."""
        name = self.found(rule.name)
        if rule.number == "form":
            return [Listed(key) for key in named(name) if lists_rules(key)] if name else []
        return [Listed(name, tuple(map(self.found, rule.arguments)))] if name and lists_rules(name) else []


def meaning(crate, file, imports, parameters=()):
    """What a word or an argument means in a clause: a definition, the place of a parameter, or none. Of a function it is what the function begins with."""
    def meant(text):
        first = WORD.search(re.sub(r"λ [^.]*\.", "", text))
        first = first and first.group()
        return parameters.index(first) if first in parameters else target(first, crate, file, imports)

    return meant


def clause_rules(text, meant, own=()):
    """The rules of a clause of a list, given its right side."""
    taken_in = set()
    for token in re.finditer(rf"{RULE.pattern}(\S+)|(\w+)\.rules\b|{WORD.pattern}", text):
        if token.group(1):
            yield Rule(token.group(1), meant(token.group(2)) if WORD.match(token.group(2)) else None)
            continue
        if token.group(3):
            yield Rule("form", meant(token.group(3)))
            continue
        name = meant(token.group())
        if name in taken_in or not (isinstance(name, int) or name and lists_rules(name)):
            continue
        arguments = tuple(map(meant, atoms(text[token.end():])))
        if name == own:
            taken_in |= set(arguments)
            continue
        yield Rule("", name, arguments)
        if not isinstance(name, int):
            # a list among the arguments that this one takes in stands there, and not here too
            places = {rule.name for run in clauses(Listed(name)) for rule in run if not rule.number}
            taken_in |= {argument for i, argument in enumerate(arguments) if i in places}


def clauses(listed):
    """What a rule list says: the rules of each clause."""
    if listed.own:
        return listed.own
    crate, file, name = listed.key
    found = []
    for clause in re.split(rf"^{re.escape(name)} ", KNOWN[listed.key].body, flags=re.M):
        if clause.strip():
            left, _, right = clause.partition("=")
            found.append(tuple(clause_rules(right, meaning(crate, file, KNOWN[listed.key].imports, atoms(left)), listed.key)))
    return found


def rules(listed):
    """The rules of a list with those that it takes in, and a condition for each; where the caller gives it, the list itself."""
    for rule in (rule for run in clauses(listed) for rule in run):
        if rule.number.isdigit():
            by_caller = isinstance(rule.name, int) and rule.name >= len(listed.given)
            yield Rule(rule.number, listed.key if by_caller else listed.found(rule.name))
        else:
            for other in listed.taken_in(rule):
                yield from rules(other)


def is_form(key):
    """Whether a definition is a form of the card: its rules are asked where a list takes them in, and nowhere else."""
    return KNOWN[key].signature.strip().endswith(": Form")


def applied(text, meant, given=()):
    """The definitions that a text names, each with what it is given; what a function that is given names is no part of it."""
    found = Listed((), given).found
    outside = re.sub(r"\(λ [^()]*(?:\([^()]*\)[^()]*)*\)", lambda m: " " * len(m.group()), text)
    for token in WORD.finditer(outside):
        name = meant(token.group())
        if name and not isinstance(name, int):
            yield Listed(name, tuple(found(meant(atom)) for atom in atoms(text[token.end():])))


def names_in(listed):
    """The definitions that a definition names, each with what it is given."""
    crate, file, name = listed.key
    whole, *clauses_in = re.split(rf"^{re.escape(name)} ", KNOWN[listed.key].body, flags=re.M)
    for clause in clauses_in or ["=" + whole]:
        left, _, right = clause.partition("=")
        yield from applied(right, meaning(crate, file, KNOWN[listed.key].imports, atoms(left)), listed.given)


def nearest_lists(contract, imports):
    """The rule lists that a contract writes out or names, or else the definitions that it names, or theirs, and so on."""
    meant = meaning("", "", imports)
    if own := [rule for rule in clause_rules(contract, meant) if rule.number.isdigit()]:
        return [Listed((), (), (tuple(own),))]
    level, seen = list(applied(contract, meant)), set()
    while level := [k for k in dict.fromkeys(level) if k not in seen]:
        seen |= set(level)
        if lists := [k for k in level if lists_rules(k.key)]:
            return lists
        level = [t for k in level if not is_form(k.key) for t in names_in(k)]
    return []


def public_functions():
    """Every `pub fn` of the public modules of every crate, and of a type that a crate's root hands on: its path, its signature, and the rule lists nearest to its
    contract."""
    def read(path):
        text = re.sub(r"//[^\n]*", "", path.read_text())
        return text, imported(" ".join(text.split()))

    def functions(path, text, imports, indent=""):
        for m in re.finditer(rf"^{indent}pub fn (\w+)", text, re.M):
            end = text.find(f"\n{indent}{{", m.end())
            signature, said, contract = text[m.start():end].partition("ensures")
            name = "::".join([*path, m.group(1)])
            if not said or "requires" in signature + contract:
                sys.exit(f"{name} has no contract, or asks")
            arguments = re.sub(r"(\( ?|, )mut ", r"\1", " ".join(signature.split())[len("pub fn " + m.group(1)):])
            arguments = arguments.replace("( ", "(").replace(", )", ")")
            yield name, arguments, nearest_lists(contract, imports)

    def walk(crate, path, module):
        text, imports = read(path)
        yield from functions([crate, *module], text, imports)
        here = (ROOT / "crates" / crate / "src").joinpath(*module)
        for file, name in re.findall(r"^pub use (\w+)::(\w+);", text, re.M):
            handed_on, imports = read(here / f"{file}.rt")
            for impl in re.findall(rf"^impl {name} \{{$(.*?)^\}}$", handed_on, re.M | re.S):
                yield from functions([crate, *module, name], impl, imports, " " * 4)
        for inner in re.findall(r"\bpub mod (\w+);", text):
            yield from walk(crate, here / f"{inner}.rt", [*module, inner])

    for crate in crates():
        yield from walk(crate, ROOT / "crates" / crate / "src" / "lib.rt", [])


class Method(NamedTuple):
    """A conversion by From or TryFrom, or a method of a public trait: as the trait has it, and as an impl has it."""
    name: str
    arguments: str
    lists: list  # the rule lists nearest to its contract; none where each impl has its own
    reads: str  # where its contract is read (proofs/Unique speaks of that); nothing for the trait's
    public: bool  # whether who calls can name its type


def camel(kind):
    """A type, as the name of an impl has it."""
    array = re.fullmatch(r"\[(\w+); (\d+)\]", kind)
    return f"Array{camel(array.group(1))}{array.group(2)}" if array else kind[0].upper() + kind[1:]


def source_files():
    """Each source of each crate: the crate, its module, and its text without comments."""
    for crate in crates():
        src = ROOT / "crates" / crate / "src"
        for path in sorted(src.rglob("*.rt")):
            parts = path.relative_to(src).with_suffix("").parts
            yield crate, [] if parts == ("lib",) else list(parts), re.sub(r"//[^\n]*", "", path.read_text())


def methods():
    """Every method of the public traits of public modules, and of each impl of these, From and TryFrom: a derived one has no contract of its own."""
    files = list(source_files())
    told = {crate: "".join(text for c, _, text in files if c == crate) for crate, _, _ in files}
    traits = {}
    for crate, module, text in files:
        if all(f"pub mod {name};" in told[crate] for name in module):
            imports = imported(" ".join(text.split()))
            for trait, body in re.findall(r"^pub trait (\w+)[^{]*\{$(.*?)^\}$", text, re.M | re.S):
                by_impl = re.findall(r"^    ghost (\w+): \{ .*→ List Rule \};$", body, re.M)
                found = re.findall(r"^    fn (\w+)(.*?)\s+ensures \{(.*?)\};$", body, re.M | re.S)
                if len(found) != len(re.findall(r"\bfn ", body)) or "requires" in body:
                    sys.exit(f"{crate}: {trait} has a method that asks, or has no contract")
                traits[trait] = {name: contract for name, _, contract in found}
                for name, arguments, contract in found:
                    own = set(by_impl) & set(WORD.findall(contract))
                    yield Method("::".join([crate, *module, trait, name]), arguments, None if own else nearest_lists(contract, imports), "", True)
    for crate, module, text in files:
        imports = imported(" ".join(text.split()))
        for trait, given, kind, body in re.findall(r"^impl(?:<[^>]*>)? (\w+)(?:<([^<>\n]*)>)? for (\S+) \{$(.*?)^\}$", text, re.M | re.S):
            ghosts = {name: re.sub(r"^λ [^.]*\.", "", said) for name, said in re.findall(r"^    ghost (\w+) = \{ (.*?) \};$", body, re.M | re.S)}
            for name, arguments in re.findall(r"^    fn (\w+)(.*?) \{$", body, re.M | re.S):
                contract = ghosts.get(f"{name}_gives") if trait in ("From", "TryFrom") else traits.get(trait, {}).get(name)
                if contract is not None:
                    said = re.sub(WORD, lambda m: ghosts.get(m.group(), m.group()), contract)
                    local = [t for t in (kind, given) if re.search(rf"\b(?:struct|enum) {re.escape(t)}\b", told[crate])] if given else [kind]
                    public = all(re.search(rf"\bpub (?:struct|enum) {re.escape(t)}\b", told[crate]) for t in local)
                    path = "::".join([crate, kind, name] if kind in local else [kind, name])
                    shown = arguments if kind in local else re.sub(rf"\b({'|'.join(local)})\b", rf"{crate}::\1", arguments)
                    reads = ".".join([crate, "proofs", *module, f"{camel(kind)}{trait}{camel(given) if given else ''}", name, "Reads"])
                    yield Method(path, shown, nearest_lists(said, imports), reads, public)


def keep(page, text):
    """Writes a page; with --check writes nothing, and ends with 1 where it is not what the sources say now."""
    name, path = f"docs/{page}", ROOT / "docs" / page
    if "--check" not in sys.argv[1:]:
        path.write_text(text)
    elif not path.exists() or path.read_text() != text:
        sys.exit(f"{name} is not what the sources say: run tests/{pathlib.Path(sys.argv[0]).name}")
    print(f"{name} is what the sources say")

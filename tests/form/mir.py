# The MIR of a function as the kit prints it: a file of definitions in antt's terms, which are read here.
import re
from dataclasses import dataclass

from tokens import NotUnderstood


@dataclass(frozen=True)
class Function:
    parameters: int  # locals 1 to this one
    types: list  # of the locals; local 0 is the answer
    in_memory: frozenset  # the locals that a pointer can reach
    declared: dict  # the declarations of structs and enums that it uses, by name
    body: list  # statements, in order


CONS, NIL = "List.◌∷◌", "List.[]"
TOKEN = re.compile(r"[(),;{}]|[^\s(),;{}]+")
# The module that names a function: where it is proved, or, of a call within a cycle, where its contract stands.
NAMED = re.compile(r"use Rattle\.(\w+)\.(?:proofs\.(.*)\.Symbol|specs\.contracts\.(.*)\.Key)(?: as (\S+))?$")


class Terms:
    """A term of a definition, as nested lists: what is applied, and to what. A tuple or a record is a list too, with its sort first."""

    def __init__(self, text):
        self.tokens, self.at = TOKEN.findall(text), 0

    def next(self):
        if self.at == len(self.tokens):
            raise NotUnderstood("a term of the MIR ends too soon")
        self.at += 1
        return self.tokens[self.at - 1]

    def read(self):
        term = self.applied()
        if self.at != len(self.tokens):
            raise NotUnderstood(f"no term of the MIR: {' '.join(self.tokens[self.at:self.at + 9])}")
        return term

    def applied(self):
        """Terms up to a closing sign."""
        found = []
        while self.at < len(self.tokens) and self.tokens[self.at] not in (")", ",", ";", "}"):
            found.append(self.one())
        return found[0] if len(found) == 1 else found

    def one(self):
        token = self.next()
        if token == "record":
            return self.record()
        if token != "(":
            return token
        parts = [self.applied()]
        while (sign := self.next()) == ",":
            parts.append(self.applied())
        if sign != ")":
            raise NotUnderstood("a bracket of the MIR is not closed")
        return parts[0] if len(parts) == 1 else ["tuple", *[part for part in parts if part != []]]

    def record(self):
        fields = ["record"]
        self.next()
        while self.tokens[self.at] != "}":
            name, _ = self.next(), self.next()
            fields.append([name, self.applied()])
            self.next()
        self.next()
        return fields


class File:
    """The definitions of a file, and the functions that it calls, by the names that it has for them."""

    def __init__(self, text):
        self.defined, self.called = {}, {}
        for line in text.splitlines():
            if found := NAMED.match(line):
                crate, proof, contract, alias = found.groups()
                name = alias or ("Symbol" if proof else "Key")
                self.called[f"{name}.name"] = "::".join([crate, *(proof or contract).split(".")])
        for block in text.split("\n\n"):
            if found := re.match(r"abbrev pub (\S+) : .*\n\1 =(.*)", block, re.S):
                self.defined[found[1]] = found[2]

    def term(self, term):
        """A term without names of this file: what they stand for is in their place, and libraries' names have no module before them."""
        if isinstance(term, list):
            return ["record", *([name, self.term(part)] for name, part in term[1:])] if term[:1] == ["record"] else [self.term(part) for part in term]
        if term in self.called:
            return ["function", self.called[term]]
        if term in self.defined:
            return self.term(Terms(self.defined[term]).read())
        return term if term in (CONS, NIL) else re.sub(r"^(?:Syntax|Table)\.", "", term)

    def function(self):
        # Where it uses types with names, `function` is made of another one and the table of these.
        fields = dict(self.term("by_name" if "by_name" in self.defined else "function")[1:])
        table = listed(self.term("table")) if "table" in self.defined else []
        locals_ = [local[1:] for local in listed(fields["locals"])]
        in_memory = frozenset(at for at, (_, home) in enumerate(locals_) if home != "value_local")
        declared = {text(symbol): declaration for _, symbol, _, declaration in table}
        return Function(int(fields["params"]), [kind for kind, _ in locals_], in_memory, declared, statements(fields["body"]))


def functions(folder):
    """The functions whose MIR stands in a folder that the kit wrote, by their paths."""
    found = {}
    for file in sorted(folder.glob("Rattle-*-proofs/**/Code/*.antt")):
        library, *modules, name, _, _ = file.relative_to(folder).parts
        if name.startswith("+"):
            name = file.stem.removeprefix("+")
        crate = re.fullmatch(r"Rattle-(\w+)-proofs", library)[1]
        try:
            found["::".join([crate, *modules, name])] = File(file.read_text()).function()
        except (KeyError, ValueError, TypeError, IndexError) as why:
            raise NotUnderstood(f"{file.relative_to(folder)} is not understood: {why}") from None
    return found


def listed(term):
    """The items of a list."""
    items = []
    while term not in (NIL, "tnil", "ttnil"):
        if len(term) != 3 or term[0] not in (CONS, "tcons", "ttcons"):
            raise NotUnderstood(f"no list: {shown(term)}")
        items.append(term[1])
        term = term[2]
    return items


def text(term):
    """The text of a symbol: with the types that it is taken at, which are none here."""
    return "".join(chr(int(code)) for code in listed(term))


def statements(term):
    """The statements of seq FIRST REST, in order."""
    found = []
    while isinstance(term, list) and term[0] == "seq":
        found.extend(statements(term[1]))
        term = term[2]
    return [*found, term]


def arms(term):
    """The arms of a switch: the numbers of each, and its statements. Every number has an arm."""
    found = []
    while isinstance(term, list) and term[0] == "arm":
        found.append(([int(number) for number in listed(term[1])], statements(term[2])))
        term = term[3]
    if term != "no_default":
        raise NotUnderstood("a switch with a default")
    return found


def variants(declaration):
    """The fields of each variant of an enum, by their types."""
    return [listed(fields) for fields in listed(declaration[1])]


def named_type(local_type):
    """The name of a struct or an enum."""
    _, [_, symbol, _], _ = local_type
    return text(symbol)


def is_words(local_type, access):
    """Whether this is the type of a slice of words that can be read (`imm`) or written (`mut`)."""
    match local_type:
        case ["ty_struct", name, ["tcons", ["ty_ref", _, found, ["ty_int", "w64"]], _]]:
            return text(name) == "&[]" and found == access
    return False


def shown(term):
    """A term as one line, shorter than as it is printed."""
    match term:
        case str():
            return term
        case ["place", local, projections]:
            return "_" + local + "".join("." + ("*" if p[0] == "deref" else shown(p[1:])) for p in listed(projections))
        case ["copy", place] | ["rv_opd", place]:
            return shown(place)
        case ["int", _, number]:
            return number
        case ["op1" | "op2", operation, *operands]:
            return " ".join(map(shown, [operation, *operands]))
        case ["aggregate", operands]:
            return "{" + ", ".join(map(shown, listed(operands))) + "}"
        case [only]:
            return shown(only)
    return "(" + " ".join(map(shown, term)) + ")"


def lines(body, indent=""):
    """Statements as lines, for a function that is pinned by its form. Loops are not shown."""
    for statement in body:
        match statement:
            case "return" | "skip":
                yield indent + statement
            case ["assign", place, value]:
                yield f"{indent}{shown(place)} = {shown(value)}"
            case ["call", ["function", name], operands, place]:
                yield " ".join([f"{indent}{shown(place)} = {name}", *map(shown, listed(operands))])
            case ["cond", condition, yes, no]:
                yield f"{indent}if {shown(condition)}"
                yield from lines(statements(yes), indent + "    ")
                yield indent + "else"
                yield from lines(statements(no), indent + "    ")
            case _:
                yield f"{indent}{statement[0]} .."

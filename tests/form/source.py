# The functions of a library by their sources: what each is handed, what it promises, and its text. Functions without type parameters
# are read; other items are passed over.
from dataclasses import dataclass

from tokens import NotUnderstood, Tokens

CLAUSES = ("requires", "ensures", "ghost")


@dataclass(frozen=True)
class Function:
    path: str
    is_exported: bool
    parameters: list  # names and types
    clauses: list  # of its contract: the words before the braces, and what stands within
    text: str  # from its name on


def depends(root):
    """The crates of crates.txt, each with those that it depends on."""
    lines = [line.split("#")[0].partition(":") for line in (root / "crates.txt").read_text().splitlines()]
    return {name.split()[0]: rest.split() for name, colon, rest in lines if colon}


def crates_of(root, name):
    """A crate and those of the repository that it depends on, each behind its own."""
    known, ordered = depends(root), []

    def visit(crate):
        for other in known.get(crate, []):
            visit(other)
        if crate in known and crate not in ordered:
            ordered.append(crate)

    visit(name)
    return ordered


def functions_in(root, crates):
    """The functions of some crates, by their paths."""
    found = {}
    for crate in crates:
        File(found, crate, root / "crates" / crate / "src" / "lib.rt").read()
    return found


def functions_of(root, name):
    """The functions of a crate and of those that it depends on, by their paths."""
    return functions_in(root, crates_of(root, name))


class File:
    """One file of a crate, whose functions are noted."""

    def __init__(self, found, path, file):
        self.found, self.path, self.file = found, path, file
        self.tokens = Tokens(path, file.read_text())

    def read(self):
        while not self.tokens.at_end():
            self.item()

    def item(self):
        tokens = self.tokens
        if tokens.takes("pub") and tokens.sees("("):
            tokens.brackets()
        if tokens.takes("#"):
            self.attribute()
        elif tokens.takes("mod"):
            self.child(tokens.word())
        elif tokens.takes("fn"):
            self.function(False)
        elif tokens.takes("extern"):
            tokens.wants('"C"')
            tokens.wants("fn")
            self.function(True)
        else:
            self.pass_over()

    def pass_over(self):
        """Passes over an item, or a part of one: up to a semicolon, or behind braces."""
        self.tokens.skip_to("{", ";")
        if self.tokens.sees("{"):
            self.tokens.brackets()
        else:
            self.tokens.next()

    def attribute(self):
        self.tokens.takes("!")
        if self.tokens.brackets() == "cfg(test)":
            self.pass_over()

    def child(self, name):
        """A module, in a file of its own or in braces; functions within braces are not read."""
        if not self.tokens.takes(";"):
            return
        folder = self.file.parent if self.file.name in ("lib.rt", "mod.rt") else self.file.with_suffix("")
        files = [file for file in (folder / f"{name}.rt", folder / name / "mod.rt") if file.is_file()]
        if len(files) != 1:
            raise NotUnderstood(f"{self.path}: no one file of the module {name}")
        File(self.found, f"{self.path}::{name}", files[0]).read()

    def function(self, is_exported):
        tokens, begun = self.tokens, self.tokens.at
        path = f"{self.path}::{tokens.word()}"
        if not tokens.sees("("):
            return
        parameters, clauses = [named(text) for text in tokens.listed()], []
        tokens.text_to("{", *CLAUSES)
        while not tokens.sees("{"):
            clauses.append((tokens.text_to("{"), tokens.brackets()))
        tokens.brackets()
        if path in self.found:
            raise NotUnderstood(f"{path} is there twice")
        self.found[path] = Function(path, is_exported, parameters, clauses, tokens.words(begun, tokens.at))


def named(text):
    """The name and the type of a parameter or a field."""
    name, colon, kind = text.partition(":")
    words = name.split()
    if not colon or not words or words[:-1] not in ([], ["pub"], ["mut"]):
        raise NotUnderstood(f"no name with a type: {text}")
    return words[-1], kind.strip()

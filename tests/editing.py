# What tests/edits and tests/faults share: a copy of the crates, and the replacements of an edit.
import shutil
from pathlib import Path


def copied(source, to):
    """The crates of the repository at `source`, in a folder of their own, without what checks left there."""
    def left_out(folder, _):
        return ["out"] if Path(folder).parent == source / "crates" else []

    shutil.copytree(source / "crates", to / "crates", ignore=left_out)
    shutil.copy(source / "crates.txt", to)


def pairs(edit):
    """The replacements of an edit: file of the crate, old text, new text."""
    file = old = ""
    for line in edit.read_text().splitlines():
        if line.startswith("file: "):
            file = line[6:]
        elif line.startswith("old: "):
            old = line[5:]
        elif line.startswith("new:"):
            yield file, old, line[4:].removeprefix(" ")
            old = ""


def replaced(file, old, new):
    """Makes one replacement; answers how often the old text stood there, and changes nothing unless once."""
    text = file.read_text()
    count = text.count(old) if old else 0
    if count == 1:
        file.write_text(text.replace(old, new))
    return count

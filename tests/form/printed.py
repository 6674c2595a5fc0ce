# Has the kit print the MIR of a library's functions. `rattle check --start FUNCTION --generated FOLDER` writes what the kit makes of a
# function, its MIR among it, from the sources of its crate and of those below: nothing need be proved, and nothing is proved.
import os
import subprocess
import tempfile
from concurrent.futures import ThreadPoolExecutor
from pathlib import Path

import mir
from source import crates_of, depends
from tokens import NotUnderstood

JOBS = int(os.environ.get("RT_JOBS") or min(2, os.cpu_count() or 1))


def is_lent_words(function):
    """Whether a function is lent words to be written, and an allowance or a budget, by itself or in a call given as data."""
    taken = dict(function.parameters)
    kinds = set(taken.values())
    return "&mut [u64]" in kinds and ("allowance" in taken or bool(kinds & {"&mut Budget", "Call"}))


def kit():
    """The kit's folder, where the page stands that `rt doc` names."""
    return Path(subprocess.run(["rt", "doc"], stdout=subprocess.PIPE, text=True, check=True).stdout.strip()).parent


def command(of_kit, root, crate):
    """The kit's command for a crate, with every crate below it as a source."""
    known, crates = depends(root), crates_of(root, crate)
    libraries = ["core", "std", *sorted({other for name in crates for other in known[name] if other not in known})]
    words = [of_kit / "bin" / "rattle", "check", "--crate-name", crate, root / "crates" / crate / "src" / "lib.rt"]
    for other in crates[:-1]:
        uses = ",".join(["core", "std", *known[other]])
        words += ["--lib", f"{other}:{uses}={root / 'crates' / other / 'src' / 'lib.rt'}"]
    for library in libraries:
        words += ["--extern", f"{library}={of_kit / 'rlibs' / (library + '.rlib')}"]
    words += ["-L", f"dependency={of_kit / 'rlibs'}", "--antt-project", of_kit / "rattle" / "logic" / "antt-project.json"]
    return [*words, "--logic-built", of_kit / "logic_built", "--jobs", "1"]


def of_crate(of_kit, root, crate, paths):
    """The MIR of some functions of a crate, by their paths; of all functions of their cycles of calls."""
    with tempfile.TemporaryDirectory() as folder:
        words = [*command(of_kit, root, crate), "--generated", folder]
        for path in paths:
            words += ["--start", path.partition("::")[2]]
        run = subprocess.run(words, stdout=subprocess.PIPE, stderr=subprocess.STDOUT, text=True)
        if run.returncode != 0:
            said = run.stdout.splitlines()
            raise NotUnderstood(f"the MIR of {crate}: {next((line for line in said if 'error' in line), said[-1:])}")
        return mir.functions(Path(folder))


def printed(root, paths):
    """The MIR of functions of several crates, by their paths."""
    by_crate, of_kit = {}, kit()
    for path in paths:
        by_crate.setdefault(path.split("::")[0], []).append(path)
    with ThreadPoolExecutor(JOBS) as pool:
        found = pool.map(lambda crate: of_crate(of_kit, root, crate, by_crate[crate]), by_crate)
    return {path: function for functions in found for path, function in functions.items()}

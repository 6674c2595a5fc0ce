# What the language sees to, by the source of crate `stores`: a budget has private fields and no derive, so that outside this crate it is
# neither made, read, changed, copied nor dropped but by the functions here; and these are the ones that are read by their form.
import re

from tokens import NotUnderstood

SOURCE = "crates/stores/src"
DECLARED = """\
pub struct Budget {
    allowance: u32,
    due: u32,
}

impl Budget {
"""


def budget_is_kept(root, pinned):
    """Asks that the crate has the struct, one impl, and no function but these."""
    files = sorted((root / SOURCE).rglob("*.rt"))
    if [file.name for file in files] != ["lib.rt"]:
        raise NotUnderstood(f"{SOURCE} has other files than lib.rt")
    text = re.sub(r"^ *//.*\n", "", files[0].read_text(), flags=re.M)
    before, found, behind = text.partition(DECLARED)
    if not found or before.rstrip()[-1:] != ";":
        raise NotUnderstood("stores::Budget is not declared as it was read")
    functions = [f"stores::Budget::{name}" for name in re.findall(r"\bfn (\w+)", before + behind)]
    others = re.findall(r"^(?:pub )?(?:impl|trait|mod|macro_rules|struct|enum|union|type|static)\b.*", before + behind, re.M)
    if sorted(functions) != sorted(pinned) or others or "unsafe" in text:
        raise NotUnderstood(f"{SOURCE} has more than the budget: {', '.join(others or functions)}")

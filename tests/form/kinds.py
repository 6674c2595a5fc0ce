# What is known of a function's locals while it is read: their kinds, and how the call stands.
from dataclasses import dataclass, field, replace

# PLAIN decides nothing about stores.
PLAIN, ARRAY, READABLE, POINTER, OWN = "a number", "the array", "the array to be read", "a pointer into it", "own memory"
ALLOWANCE, BUDGET, BUDGET_AT = "the allowance", "the budget", "a pointer to the budget"
CUT, MADE, LEFT = "whether it is cut", "how many stores were made", "the allowance that is left"
ANSWER, CALL, MIXED = "an answer", "a call as data", "one or the other"


@dataclass(frozen=True)
class Tagged:
    """A value of an enum, made here: its variant, and which field of it is the budget, if one is."""

    variant: int
    budget: int | None


@dataclass(frozen=True)
class Answered:
    """What a storing call answered by an enum: for each variant the field that is the budget; none: it has made no store."""

    budgets: dict = field(hash=False)


def is_harmless(kind):
    """Whether a value of this kind decides nothing about stores, and no store can be made through it."""
    return kind in (PLAIN, READABLE, OWN, ANSWER) or isinstance(kind, Tagged) and kind.budget is None


# How a call stands. UNBEGUN: it has no budget yet. COUNTING: it has one. WITHIN: the same, and behind a split that was not cut. ENDED:
# no store can follow, so that the reply may look at anything.
UNBEGUN, COUNTING, WITHIN, ENDED = "unbegun", "counting", "within", "ended"


@dataclass(frozen=True)
class State:
    stands: str
    kinds: dict  # of the locals; PLAIN where none is noted

    def kind(self, local):
        return self.kinds.get(local, PLAIN)

    def having(self, local, kind):
        return replace(self, kinds={**self.kinds, local: kind})


def joined(one, other):
    """The state where two ways meet, or None where the stores have ended on one of them alone."""
    both = {one.stands, other.stands}
    if len(both) > 1 and both != {UNBEGUN, ENDED}:
        return None
    kinds = {}
    for local in one.kinds.keys() | other.kinds.keys():
        met = {one.kind(local), other.kind(local)}
        kinds[local] = met.pop() if len(met) == 1 else PLAIN if all(map(is_harmless, met)) else MIXED
    return State(one.stands if len(both) == 1 else ENDED, kinds)

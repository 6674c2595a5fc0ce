# The form of the stores, read from the MIR: what `check` says at its head. A function that is lent the index array to be written
# is read once for what it is handed: each local has a kind. That a budget is not copied, dropped or taken apart outside its crate, the
# language sees to (budget.py). Whatever is not understood is refused.
from dataclasses import replace

from kinds import (ALLOWANCE, ANSWER, ARRAY, BUDGET, BUDGET_AT, CALL, COUNTING, CUT, ENDED, LEFT, MADE, MIXED, OWN, PLAIN, POINTER, READABLE,
                   UNBEGUN, WITHIN, Answered, State, Tagged, is_harmless, joined)
from mir import arms, is_words, lines, listed, named_type, shown, statements, variants
from tokens import NotUnderstood

BEGIN, RESUME, STORE, DUE, IS_CUT, MADE_OF = (f"stores::Budget::{name}" for name in ("new", "resume", "store", "due", "is_cut", "made"))
END = "replies::after_stores"
# Calls itself behind a split, with the allowance that is left.
RESUMES = "index::put"
PERFORM = "index::perform"
# The number of a Result's variant Err.
ERR = 1

# The functions that are read by their whole form. Whoever changes one reads it again: that the allowance decides in the one about this
# one store alone, and in the others about the reply alone.
PINNED = {
    # allowance
    BEGIN: """\
_0 = {_1, 0}
return
""",
    # allowance, due; no call of the library begins so
    RESUME: """\
_0 = {_1, _2}
return
""",
    # self, words, at, value
    STORE: """\
_5 = _1.*.1
_6 = _1.*.0
_7 = (lt unsigned) _5 _6
if _7
    _8 = (mul unsigned) _3 8
    _9 = offset _2.0 _8
    _9.* = _4
else
    skip
_5 = _1.*.1
_6 = (add unsigned) _5 1
_1.*.1 = _6
_0 = opd_unit
return
""",
    # self; no call of the library asks it before its stores have ended
    DUE: """\
_0 = _1.*.1
return
""",
    # self
    IS_CUT: """\
_2 = _1.*.0
_3 = _1.*.1
_0 = (lt unsigned) _2 _3
return
""",
    # self
    MADE_OF: """\
_2 = _1.0
_3 = _1.1
_0 = core::int::u32::min _2 _3
return
""",
    # reply, budget
    END: """\
_3 = _2
_6 = (addr_of _3)
_5 = stores::Budget::is_cut _6
if _5
    _8 = {6}
    _7 = {1, _8}
else
    _7 = _1
_4 = _7
_10 = _3
_9 = stores::Budget::made _10
_0 = {_4, _9}
return
""",
}


class Reading:
    """One function read with what it is handed: a kind for each parameter."""

    def __init__(self, check, name, handed):
        self.check, self.name, self.function = check, name, check.functions[name]
        self.answers = []  # of the ways that end here: BUDGET, BUDGET_AT, ANSWER or Tagged
        self.frames = []  # of the blocks around a statement, the inmost last: the ways that leave each; None for a loop
        self.is_lent_budget = BUDGET_AT in handed
        stands = COUNTING if self.is_lent_budget else UNBEGUN
        if self.run(State(stands, dict(enumerate(handed, start=1))), self.function.body) is not None:
            self.fail("ends without an answer")

    def fail(self, what):
        raise NotUnderstood(f"{self.name}: {what}")

    # Statements. Each takes a state and answers the one behind it, or None where no way comes there.

    def run(self, state, body):
        for statement in body:
            if state is None:
                self.fail("statements that no way comes to")
            state = self.step(state, statement)
        return state

    def step(self, state, statement):
        match statement:
            case "skip":
                return state
            case "return":
                return self.returned(state)
            case ["exit", outward]:
                self.frame(int(outward)).append(state)
                return None
            case ["assign", place, value]:
                return self.assigned(state, place, value)
            case ["call", ["function", name] | [["function", name], *_], operands, place]:
                return self.called(state, name, listed(operands), place)
            case ["cond", condition, yes, no]:
                return self.branched(state, condition, statements(yes), statements(no))
            case ["switch", value, cases]:
                return self.switched(state, value, arms(cases))
            case ["block", body]:
                return self.blocked(state, statements(body))
            case ["loop", body]:
                return self.looped(state, statements(body))
        self.fail(f"not understood: {shown(statement)[:80]}")

    def meet(self, one, other):
        """The state where two ways meet; None is a way that does not come there."""
        if one is None or other is None:
            return one or other
        met = joined(one, other)
        if met is None:
            self.fail("the stores have ended on one of two ways that meet")
        return met

    def frame(self, outward):
        """The ways that leave the block so far outward."""
        if outward >= len(self.frames) or self.frames[-1 - outward] is None:
            self.fail("an exit that is not understood")
        return self.frames[-1 - outward]

    def blocked(self, state, body):
        """A block: behind it come its end and the exits from it."""
        self.frames.append([])
        behind = self.run(state, body)
        for way in self.frames.pop():
            behind = self.meet(behind, way)
        return behind

    def looped(self, state, body):
        """A loop, read again until nothing new is learnt about where it begins. Only an exit from a block around it leaves it."""
        while True:
            self.frames.append(None)
            again = self.meet(state, self.run(state, body))
            self.frames.pop()
            if again == state:
                return None
            state = again

    def branched(self, state, condition, yes, no):
        kind = self.operand(state, condition)
        if kind == CUT:
            # Behind a split: no store follows where it is cut.
            return self.meet(self.run(replace(state, stands=ENDED), yes), self.run(replace(state, stands=WITHIN), no))
        self.harmless(state, kind, "decides which way is taken")
        return self.meet(self.run(state, yes), self.run(state, no))

    def switched(self, state, value, cases):
        local, projections = self.place(value[1])
        kind = state.kind(local)
        if not isinstance(kind, Answered):
            self.harmless(state, self.operand(state, value), "decides which way is taken")
        behind = None
        for numbers, body in cases:
            way = state
            if isinstance(kind, Answered):
                if len(numbers) != 1 or numbers[0] not in kind.budgets:
                    self.fail("a variant that the call does not answer")
                if kind.budgets[numbers[0]] is None:
                    way = replace(state, stands=UNBEGUN).having(local, PLAIN)
            behind = self.meet(behind, self.run(way, body))
        return behind

    def returned(self, state):
        kind = state.kind(0)
        if self.is_lent_budget:
            if state.stands != COUNTING or not is_harmless(kind):
                self.fail("is lent the budget, and answers otherwise")
            self.answers.append(BUDGET_AT)
        elif kind == BUDGET or isinstance(kind, Tagged) and kind.budget is not None:
            self.answers.append(kind)
        elif state.stands == UNBEGUN:
            self.answers.append(kind if isinstance(kind, Tagged) else ANSWER)
        elif state.stands == ENDED:
            # Of whatever variant it is: the stores were made, so that the caller may begin none.
            self.answers.append(ANSWER)
        else:
            self.fail("the budget is not answered")
        return None

    # Values.

    def place(self, term):
        return int(term[1]), [(p if isinstance(p, str) else p[0], p[1:]) for p in listed(term[2])]

    def harmless(self, state, kind, what):
        """Asks that a value decides nothing about stores; where they have ended, that no store can be made through it."""
        if not is_harmless(kind) and (state.stands != ENDED or kind in (ARRAY, POINTER, MIXED)):
            self.fail(f"{kind} {what}")

    def operand(self, state, term):
        match term:
            case "opd_unit" | "opd_true" | "opd_false":
                return PLAIN
            case ["int" | "int_neg" | "int_big", _, _]:
                return PLAIN
            case ["copy", place]:
                return self.read(state, *self.place(place))
        self.fail(f"not understood: {shown(term)}")

    def read(self, state, local, projections):
        """The kind of what stands at a place."""
        kind = state.kind(local)
        if not projections:
            return kind
        if kind in (ARRAY, READABLE, OWN) and projections[0][0] == "field":
            pointer = OWN if kind == OWN else POINTER
            return self.behind_pointer(pointer if projections[0][1] == ["0"] else PLAIN, projections[1:])
        if kind in (POINTER, OWN):
            return self.behind_pointer(kind, projections)
        if kind == CALL and [p[0] for p in projections] == ["variant", "field"]:
            (_, [variant]), (_, [position]) = projections
            return ALLOWANCE if self.is_allowance(local, int(variant), int(position)) else PLAIN
        if isinstance(kind, Answered) and [p[0] for p in projections] == ["variant", "field"]:
            (_, [variant]), (_, [position]) = projections
            return BUDGET if kind.budgets.get(int(variant)) == int(position) else PLAIN
        self.harmless(state, kind, "is taken apart")
        return PLAIN

    def is_allowance(self, call, variant, position):
        """Whether a field of a call given as data is the allowance, the one of 32 bits. Field 0 is the variant's number."""
        fields = variants(self.function.declared[named_type(self.function.types[call])])[variant]
        return position > 0 and fields[position - 1] == ["ty_int", "w32"]

    def behind_pointer(self, kind, projections):
        if not projections:
            return kind
        if kind != PLAIN and [p[0] for p in projections] == ["deref"]:
            return PLAIN
        self.fail("a place that is not understood")

    def value(self, state, value, local_type):
        """The kind of a value that is computed."""
        match value:
            case ["rv_opd", operand]:
                return self.operand(state, operand)
            case ["repeat", operand, _]:
                self.harmless(state, self.operand(state, operand), "is repeated")
                return PLAIN
            case ["addr_of", place]:
                local, projections = self.place(place)
                if projections and projections[-1][0] == "deref":
                    return self.read(state, local, projections[:-1])
                if local not in self.function.in_memory:
                    self.fail("a pointer to a local that has no place")
                return BUDGET_AT if state.kind(local) == BUDGET and not projections else OWN
            case ["aggregate", operands]:
                return self.aggregate(state, listed(operands), local_type)
            case ["op1" | "op2", operation, *operands]:
                return self.computed(state, operation, [self.operand(state, operand) for operand in operands])
        self.fail(f"not understood: {shown(value)[:80]}")

    def aggregate(self, state, operands, local_type):
        kinds = [self.operand(state, operand) for operand in operands]
        if kinds and kinds[0] in (POINTER, OWN) and len(kinds) == 2:
            if kinds[0] == OWN:
                return OWN
            if is_words(local_type, "mut"):
                return ARRAY
            if is_words(local_type, "imm"):
                return READABLE
        variant = int(operands[0][2]) if operands and operands[0][:2] == ["int", "w8"] else None
        budgets = [at for at, kind in enumerate(kinds) if kind == BUDGET]
        for kind in kinds:
            if kind != BUDGET:
                self.harmless(state, kind, "is put into a value")
        if not budgets:
            return PLAIN if variant is None else Tagged(variant, None)
        if variant is None or len(budgets) > 1:
            self.fail("the budget is put into a value")
        return Tagged(variant, budgets[0])

    def computed(self, state, operation, kinds):
        if operation == "offset" and kinds[0] in (POINTER, OWN):
            self.harmless(state, kinds[1], "is an address")
            return kinds[0]
        if self.name == RESUMES and state.stands == WITHIN and kinds == [ALLOWANCE, MADE] and operation == ["sub", "unsigned"]:
            return LEFT
        for kind in kinds:
            self.harmless(state, kind, "is computed with")
        return PLAIN

    def assigned(self, state, place, value):
        local, projections = self.place(place)
        if any(p[0] == "deref" for p in projections):
            if state.kind(local) != OWN:
                self.fail(f"a word is assigned outside {STORE}")
            self.harmless(state, self.value(state, value, None), "is stored in own memory")
            return state
        kind = self.value(state, value, self.function.types[local])
        if projections:
            self.harmless(state, kind, "is put into a value")
            self.harmless(state, state.kind(local), "is changed")
            return state
        return self.noted(state, local, kind)

    def noted(self, state, local, kind):
        """A local gets a value. What a pointer can reach may change unseen, so no allowance is kept there; of a budget no part is."""
        if local in self.function.in_memory and kind != BUDGET:
            self.harmless(state, kind, "is kept where a pointer reaches it")
            return state.having(local, PLAIN)
        return state.having(local, kind)

    # Calls.

    def called(self, state, name, operands, place):
        target, projections = self.place(place)
        kinds = [self.operand(state, operand) for operand in operands]
        if projections and any(kind in (ARRAY, ALLOWANCE, BUDGET, BUDGET_AT) for kind in kinds):
            self.fail("a call that decides about stores answers into a part of a value")
        if name == BEGIN:
            return self.begun(state, kinds, target)
        if name == RESUME:
            self.fail("a budget begins with another count than 0")
        if name == END and BUDGET in kinds:
            return self.noted(replace(state, stands=ENDED), target, ANSWER)
        if self.name == RESUMES and name == IS_CUT and kinds == [BUDGET_AT] and state.stands == COUNTING:
            return self.noted(state, target, CUT)
        if self.name == RESUMES and name == MADE_OF and kinds == [BUDGET] and state.stands == WITHIN:
            return self.noted(state, target, MADE)
        if ARRAY in kinds:
            return self.storing(state, name, kinds, target)
        for kind in kinds:
            self.harmless(state, kind, f"is handed to {name}")
        # A `?` that leaves answers an Err, in which no budget is.
        answer = Tagged(ERR, None) if name.endswith("::from_residual") else PLAIN
        return state if projections else self.noted(state, target, answer)

    def begun(self, state, kinds, target):
        """A budget begins: one for a call, with the call's own allowance."""
        if kinds != [ALLOWANCE]:
            self.fail(f"{BEGIN} is not handed the allowance")
        if state.stands != UNBEGUN:
            self.fail("a budget begins where the stores have begun")
        return self.noted(replace(state, stands=COUNTING), target, BUDGET)

    def storing(self, state, name, kinds, target):
        """A call that is lent the array to be written."""
        if state.stands == ENDED:
            self.fail(f"{name} is called where the stores have ended")
        resumes = name == RESUMES == self.name and state.stands == WITHIN and LEFT in kinds
        handed = tuple(ALLOWANCE if resumes and kind == LEFT else PLAIN if is_harmless(kind) else kind for kind in kinds)
        for kind in set(handed) - {PLAIN}:
            if kind not in (ARRAY, ALLOWANCE, BUDGET_AT):
                self.fail(f"{name} is handed {kind}")
            if handed.count(kind) > 1:
                self.fail(f"{name} is handed {kind} twice")
        if (BUDGET_AT in handed) == (ALLOWANCE in handed):
            self.fail(f"{name} is not handed the allowance or the budget")
        if ALLOWANCE in handed and state.stands != UNBEGUN and not resumes:
            self.fail(f"{name} is handed the allowance where the stores have begun")
        return self.behind_stores(state, self.check.read(name, handed), target)

    def behind_stores(self, state, answer, target):
        if answer == BUDGET_AT:
            return self.noted(state, target, PLAIN)
        if answer == ANSWER:
            return self.noted(replace(state, stands=ENDED), target, ANSWER)
        return self.noted(replace(state, stands=COUNTING), target, answer)


class Check:
    """The functions of a library, each read once with what it is handed."""

    def __init__(self, found):
        self.functions, self.answers = found, {}

    def pinned(self):
        """The functions that are read by their whole form have it."""
        for name, form in PINNED.items():
            found = "".join(line + "\n" for line in lines(self.functions[name].body))
            if found != form:
                raise NotUnderstood(f"{name} is not of the form that was read:\n{found}")

    def read(self, name, handed):
        """What a function answers that is lent the array: BUDGET_AT, the budget that it was lent, BUDGET, ANSWER, or Answered."""
        key = (name, handed)
        if key not in self.answers:
            if name not in self.functions:
                raise NotUnderstood(f"{name} is lent the array, and its MIR is not there")
            self.answers[key] = ANSWER if name == RESUMES else None
            self.answers[key] = self.store(handed) if name == STORE else self.answer(name, handed)
        if self.answers[key] is None:
            raise NotUnderstood(f"{name} calls itself")
        return self.answers[key]

    def store(self, handed):
        if handed != (BUDGET_AT, ARRAY, PLAIN, PLAIN):
            raise NotUnderstood(f"{STORE} is handed {', '.join(handed)}")
        return BUDGET_AT

    def answer(self, name, handed):
        answers = Reading(self, name, handed).answers
        if len(set(answers)) == 1 and answers[0] in (BUDGET, BUDGET_AT):
            return answers[0]
        if all(isinstance(answer, Tagged) for answer in answers) and any(answer.budget is not None for answer in answers):
            budgets = {answer.variant: answer.budget for answer in answers}
            if len(budgets) != len(set(answers)):
                raise NotUnderstood(f"{name}: a variant with and without the budget")
            return Answered(budgets)
        if all(answer == ANSWER or isinstance(answer, Tagged) and answer.budget is None for answer in answers):
            return ANSWER
        raise NotUnderstood(f"{name}: answers the budget on some ways alone")


def handed_by_source(taken):
    """What a function is handed from outside, by the names and types of its parameters."""
    by_source = {("words", "&mut [u64]"): ARRAY, ("allowance", "u32"): ALLOWANCE}
    return tuple(by_source.get(parameter, PLAIN) for parameter in taken)


def form_of(functions, roots):
    """Reads every function of these that is lent the index array to be written, from the exported ones down, and from `perform`
    down; answers how many they are."""
    check = Check(functions)
    check.pinned()
    for path, taken in roots.items():
        handed = handed_by_source(taken)
        if ARRAY in handed:
            check.read(path, handed)
    check.read(PERFORM, (ARRAY, OWN, CALL))
    if STORE not in {name for name, _ in check.answers}:
        raise NotUnderstood(f"{STORE} is never called")
    return len({name for name, _ in check.answers})

# The exported functions of the library, read from their sources: the promise of each stands here a second time, so that none
# can be changed, weakened or left out unseen. A proof shows that a function keeps its promise, whatever it is.
from tokens import NotUnderstood

LIBRARY = "page_index"
PROMISES = {
    "page_index_format": "Told (outcome_of words.old (Format depth segments allowance)) result words.new",
    "page_index_get": "Told (outcome_of words.now (Get key)) result words.now",
    "page_index_put": "Told (outcome_of words.old (Put key value allowance)) result words.new",
    "page_index_remove": "Told (outcome_of words.old (Remove key allowance)) result words.new",
    "page_index_merge": "Told (outcome_of words.old (Merge key allowance)) result words.new",
    "page_index_mend": "Told (outcome_of words.old (Mend allowance)) result words.new",
    "page_index_list": "ToldWriting (listing words.now (length list.old)) result list.old list.new",
    "page_index_list_block": "ToldBlock words.now index result list.old list.new next.old next.new",
    "month_board_set": "Told (set_job words.old year month number pages allowance) result words.new",
    "month_board_read": "Told (read_job words.now year month number) result words.now",
    "month_board_remove": "Told (remove_job words.old year month number allowance) result words.new",
    "month_board_print": "ToldWriting (print_year words.now year (length buffer.old)) result buffer.old buffer.new",
}


def promise(clauses):
    """The one clause of a contract, or all that it has in its place."""
    if len(clauses) == 1 and clauses[0][0] == "ensures":
        return clauses[0][1]
    return "; ".join(f"{kind} {{ {text} }}" for kind, text in clauses) or "nothing"


def exported_of(functions):
    """Those of the library's functions that are exported, by their names."""
    found = [function for function in functions.values() if function.is_exported]
    names = [function.path.rpartition("::")[2] for function in found]
    if len(set(names)) != len(names) or any(not function.path.startswith(f"{LIBRARY}::") for function in found):
        raise NotUnderstood(f"exported functions that are not understood: {', '.join(function.path for function in found)}")
    return dict(zip(names, found))


def exported(functions):
    """The exported functions by their paths, each with its parameters; each promises what it must."""
    found = exported_of(functions)
    if found.keys() != PROMISES.keys():
        raise NotUnderstood(f"exported, or to be exported: {', '.join(sorted(found.keys() ^ PROMISES.keys()))}")
    for name, function in found.items():
        promised = promise(function.clauses)
        if promised != PROMISES[name]:
            raise NotUnderstood(f"{name} promises {promised}\n    and must promise {PROMISES[name]}")
    return {function.path: function.parameters for function in found.values()}

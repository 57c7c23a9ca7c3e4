"""Stand-ins: functions whose bodies are replaced while twins are tried (README.md)."""

from wrong_bodies.twins import folder_of

ANSWERS = """\
use Rattle.{crate}.proofs.{path}.Goals as goal

pub unreachable-requires : goal.unreachable-requires
unreachable-requires = ?
"""


def stand_ins_of(functions, proofs):
    """The functions that may be stand-ins: those that may have a twin, share no line with another function,
    and contain no other function."""
    is_inside = lambda its, it: its is not it and its.file == it.file and it.spans(its.head)
    holds_another = lambda it: any(is_inside(its, it) for its in functions)
    may = lambda it: it.opens < it.closes and not it.is_const and not holds_another(it)
    return [it for it in functions if may(it) and proofs.let_twins_of(it, functions)]


def with_stand_ins(functions, texts):
    """Sources, as lists of lines, in which these functions have bodies that are never reached."""
    changed = {path: [*lines] for path, lines in texts.items()}
    for it in functions:
        lines = changed[it.file]
        head = lines[it.opens - 1]
        lines[it.opens - 1] = f"{head[: head.rindex('{') + 1]} unreachable!()"
        for at in range(it.opens, it.closes - 1):
            lines[at] = ""
    return changed


def proofs_of_stand_ins(functions, proofs, crate):
    """The proof files of stand-ins: each gets a file with the hole, and its own files are removed."""
    texts = {}
    for it in functions:
        texts |= dict.fromkeys(proofs.of(it))
        path = it.unit.replace("::", ".")
        texts[f"{folder_of(it)}/Answers.antt"] = ANSWERS.format(crate=crate.name, path=path)
    return texts

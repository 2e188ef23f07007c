"""Terms as ghcdb prints them, for tests/parts.py, blames.py and those beside them: reads them, puts bindings in, and
writes them.

A variable or an integer is its text. All else is a name and its arguments: an atom has none, and a list cell is
named `.`.
"""
import re

from lib.judged_runs import Wrong

VARIABLE = re.compile(r"\b_(\d+)_(\d+)\b")
TOKEN = re.compile(r"-?\d+|\w+|[()\[\],|]")
EMPTY: tuple[str, list] = ("[]", [])


def items_at(tokens, at, closing):
    """The terms from a token on, up to one of the closing tokens, and where that stands."""
    items = []
    while True:
        term, at = term_at(tokens, at)
        items.append(term)
        if tokens[at] in closing:
            return items, at
        at += 1


def list_at(tokens, at):
    """The list whose inside begins at a token, and where it ends."""
    if tokens[at] == "]":
        return EMPTY, at + 1
    items, at = items_at(tokens, at, "]|")
    rest = EMPTY
    if tokens[at] == "|":
        rest, at = term_at(tokens, at + 1)
    for item in reversed(items):
        rest = (".", [item, rest])
    return rest, at + 1


def term_at(tokens, at):
    """The term that begins at a token, and where it ends."""
    first = tokens[at]
    if first == "[":
        return list_at(tokens, at + 1)
    if VARIABLE.fullmatch(first) or re.fullmatch(r"-?\d+", first):
        return first, at + 1
    if tokens[at + 1 : at + 2] != ["("]:
        return (first, []), at + 1
    items, at = items_at(tokens, at + 2, ")")
    return (first, items), at + 1


def read(text):
    """The term of a text."""
    tokens = TOKEN.findall(text)
    term, end = term_at(tokens, 0)
    if "".join(tokens) != text or end != len(tokens):
        raise Wrong(f"this is no term: {text!r}")
    return term


def end_of(term, store):
    """Where the bindings lead from a term: an unbound variable, or a term that is none."""
    while isinstance(term, str) and term in store:
        term = store[term]
    return term


def resolved(term, store):
    """The term with its variables replaced by what they lead to."""
    term = end_of(term, store)
    return term if isinstance(term, str) else (term[0], [resolved(it, store) for it in term[1]])


def is_cell(term):
    return not isinstance(term, str) and term[0] == "." and len(term[1]) == 2


def written(term):
    """The text of a term."""
    if isinstance(term, str):
        return term
    if not is_cell(term):
        return term[0] + (f"({','.join(map(written, term[1]))})" if term[1] else "")
    items = []
    while is_cell(term):
        items.append(written(term[1][0]))
        term = term[1][1]
    end = "" if term == EMPTY else f"|{written(term)}"
    return f"[{','.join(items)}{end}]"


def shown(text, store):
    """The text of a term or a call with bindings put in."""
    return written(resolved(read(text), store))


def word_shown(word, store):
    """A word of an equation or an assignment with bindings put in: a term, maybe in brackets of the expression."""
    opening = len(word) - len(word.lstrip("("))
    inside = word[opening:]
    closing = max(0, inside.count(")") - inside.count("("))
    term = inside[: len(inside) - closing]
    return "(" * opening + (shown(term, store) if re.match(r"[\w\[]|-\d", term) else term) + ")" * closing


def goal_shown(text, store):
    """The text of a goal of any kind with bindings put in."""
    return " ".join(word_shown(word, store) for word in text.split(" "))


def variables_in(term):
    if isinstance(term, str):
        return {term} if VARIABLE.fullmatch(term) else set()
    return set().union(*map(variables_in, term[1]))


def reached(term, store):
    """The variables that stand in a term, or in the value of one that it reaches."""
    found, open_ones = set(), variables_in(term)
    while open_ones:
        one = open_ones.pop()
        if one not in found:
            found.add(one)
            open_ones |= variables_in(store[one]) if one in store else set()
    return found

"""The index of calls: of each its first sentence, the names of its clauses, its refusals and its cost; and the laws."""
import re

# What the comment of a law begins with that is a lemma of the field: its name, perhaps of which case, and what it says.
LEMMA = re.compile(r"\*([^*]+)\*(, [^:]+)?: (.*)", re.DOTALL)


def cell(text):
    return text.replace("|", "\\|").replace("\n", " ")


def refused(call, numbers):
    """The refusals of a call as `F16, F17, F1`."""
    return ", ".join(f"F{numbers[name]}" for name in call.refusals(numbers))


def row(call, numbers):
    place = f"[{call.full_name}](../../{call.path}#L{call.line})"
    return f"| {place} | {cell(call.first_sentence())} | {', '.join(call.clauses)} | {refused(call, numbers)} | {cell(call.cost())} |"


HEAD = ["| call | does | clauses | refusals | cost |", "|---|---|---|---|---|"]


def calls_page(calls, order, numbers):
    lines = [
        "# The calls", "",
        "Each call with the first sentence of its comment, the names of its clauses (`ensures` where one has no name), the refusals that comment or "
        "contract names, and its cost. Made by `tools/make-pages` from `crates/*/src`: change the comments there. Laws stand in [laws](laws.md).",
        "",
    ]
    for crate in order:
        here = [call for call in calls if call.crate == crate and not call.is_law and "ensures" in call.head]
        for title, chosen in (
            (f"## {crate}", [call for call in here if call.is_open]),
            (f"### Within {crate}", [call for call in here if not call.is_open]),
        ):
            if chosen:
                lines += [title, "", *HEAD, *[row(call, numbers) for call in chosen], ""]
    return lines


def laws_page(calls, specs, order):
    lines = [
        "# The laws", "",
        "A law is the contract of a function that does nothing. Words: how many definitions one reads to know all that it says. Made by "
        "`tools/make-pages` from `crates/*/src`: change the comments there.", "",
    ]
    for crate in order:
        here = [call for call in calls if call.crate == crate and call.is_law]
        if here:
            lines += [f"## {crate}", "", "| law | says | words |", "|---|---|---|"]
            lines += [
                f"| [{law.name}](../../{law.path}#L{law.line}) | {cell(law.doc)} | {words_of(law, specs)} |"
                for law in here
            ]
            lines.append("")
    return lines


def lemmas_table(calls, specs):
    """The laws that are lemmas of the field, under their names there."""
    yield "| lemma | law | says | words |"
    yield "|---|---|---|---|"
    for law in (call for call in calls if call.is_law):
        if found := LEMMA.match(law.doc):
            name, case, says = found.groups()
            place = f"[{law.name}](../{law.path}#L{law.line})"
            yield f"| {name}{case or ''} | {place} | {cell(says[:1].upper() + says[1:])} | {words_of(law, specs)} |"


def words_of(call, specs):
    return len(specs.reached(specs.of_contract(call)))


def types_page(kinds, specs):
    lines = [
        "# What types keep", "",
        "Each type with an invariant: a value of it has this property wherever it stands, and nothing tests it again. Words: how many definitions one reads "
        "for it. Made by `tools/make-pages` from `crates/*/src`: change the comments there.", "",
        "| crate | type | is | words |", "|---|---|---|---|",
    ]
    for kind in kinds:
        needed = specs.reached(specs.in_text(kind.invariant, kind.scope))
        lines.append(
            f"| {kind.crate} | [{kind.name}](../../{kind.path}#L{kind.line}) | {cell(kind.doc)} | {len(needed)} |"
        )
    return lines

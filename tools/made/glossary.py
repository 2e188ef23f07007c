"""The glossary: the words of specs/ by the rungs of the ladder, each with its comment, its place, and who cites it."""

import re

# Each rung: its page, what one reads it for, where it begins, and how that is called in a title. A rung begins with a
# word of specs/, by crate and name, or with the contract of a call; it has what its beginning reaches and the rungs
# below it do not.
RUNGS = [
    ("replay", "the state is the replay of the kept steps", ("word", "ghc_core", "IsReplay")),
    ("changes", "changes keep it so", ("word", "ghc_core", "Reaches")),
    ("events", "each event gets its answer", ("word", "ghc_core", "Meets")),
    ("session", "what a session writes is the replies to its lines", ("call", "ghc_console", "session")),
]
SHORT = 24
INTO_DEFINITION = re.compile(r"^(?P<head>[^:.]{0,80}?): (?P<rest>.+)$")


def beginning(specs, calls, start):
    """The words with which a rung begins."""
    kind, crate, name = start
    if kind == "word":
        return {word for word in specs.by_name[name] if word.crate == crate}
    found = [call for call in calls if call.crate == crate and call.name == name and call.is_open]
    return specs.of_contract(found[0])


def rungs(specs, calls):
    """Each rung with all words that it needs, and those that it has more than the rungs below it."""
    below: set = set()
    for name, reason, start in RUNGS:
        needed = specs.reached(beginning(specs, calls, start))
        yield name, reason, start, needed, needed - below
        below |= needed


def shown(word):
    """A word as its comment shows it, with the names of its arguments where the comment gives them, and what the
    comment says."""
    found = INTO_DEFINITION.match(word.comment)
    if found and found["head"].split()[0] == word.name:
        return found["head"].strip("`"), sentence(found["rest"])
    return word.name, sentence(word.comment)


def sentence(text):
    """A text that begins with a capital, but for the name of a variable, and ends with a full stop."""
    if text[1:2].isalpha() or text.startswith("a "):
        text = text[0].upper() + text[1:]
    return text if not text or text.endswith((".", ")", "`")) else text + "."


def citing(specs, calls):
    """Of each word the open calls whose contracts name it themselves."""
    found: dict[str, list] = {}
    for call in calls:
        if call.is_open:
            for word in specs.of_contract(call):
                found.setdefault(word, []).append(call.full_name)
    return found


def signature(word):
    """What a word without a comment of its own is: its first line, without what says only how it is kept."""
    return (
        re.sub(r"^((pub|abbrev|opaque|prop|instance) )+", "", word.text[0].strip())
        .removesuffix(" where")
        .removesuffix(" =")
    )


def entry(word, cited, up):
    head, text = shown(word)
    text = text or f"`{signature(word)}`"
    names = sorted(set(cited.get(word, [])))
    told = ", ".join(f"`{name}`" for name in names[:2]) + (f" and {len(names) - 2} more" if len(names) > 2 else "")
    place = f"[{word.file}]({up}{word.path}#L{word.line})"
    return f"- **`{head}`** ({place}) {text}" + (f" Cited by {told}." if names else "")


def listed(specs, order, words, cited, up="../../"):
    """Words by crate and file, in the order of the crates and of the files."""
    lines = []
    for crate in order:
        here = [
            word
            for module in sorted(specs.files)
            for word in specs.files[module]
            if word in words and word.crate == crate
        ]
        if here:
            lines += [f"## {crate}", "", *[entry(word, cited, up) for word in here], ""]
    return lines


def in_short(specs, start):
    """The first words of a rung from the top: those with which it begins, and what these name, as far as a screen
    goes."""
    seen: list = []
    left = list(start)
    while left and len(seen) < SHORT:
        word = left.pop(0)
        if word not in seen and word.comment:
            seen.append(word)
            left += sorted(specs.names_of(word), key=lambda one: "\n".join(word.text).find(one.name))
    return [
        "## In short",
        "",
        "From the top, and no further than a screen goes; each stands below with its place.",
        "",
        *[f"- **`{shown(word)[0]}`** {shown(word)[1]}" for word in seen],
        "",
    ]


def lines_of(words):
    return sum(len(word.text) for word in words)


def pages(specs, calls, order):
    """The pages of the glossary: one for each rung, and one for all words beside them that a contract cites."""
    cited, below, made = citing(specs, calls), 0, {}
    for name, reason, start, needed, more in rungs(specs, calls):
        rest = f", {len(more)} of them beside the rungs below" if below else ""
        made[f"words_{name}.md"] = [
            f"# The words of `{start[2]}`",
            "",
            f"What one reads to believe that {reason}: {len(needed)} words, {lines_of(needed)} lines{rest}. {MADE}",
            "",
            *in_short(specs, sorted(beginning(specs, calls, start), key=lambda word: word.name)),
            *listed(specs, order, more, cited),
        ]
        below += len(more)
    told = set().union(*(more for *_, more in rungs(specs, calls)))
    for name, what, words in beside(specs, calls):
        made[f"words_{name}.md"] = [
            f"# The words of {what}",
            "",
            f"What {what} cite beside the words of the pages before: {len(words - told)} words, {lines_of(words - told)} lines. {MADE}",
            "",
            *listed(specs, order, words - told, cited),
        ]
        told |= words
    return made


def beside(specs, calls):
    """What is read beside the ladder: the words of laws, of all calls that other crates can make, and those of the code
    alone."""
    for name, what, chosen in (
        ("laws", "the laws", [call for call in calls if call.is_law]),
        ("other_calls", "other calls", [call for call in calls if call.is_open]),
    ):
        yield name, what, set().union(*(specs.reached(specs.of_contract(call)) for call in chosen))
    yield "code", "calls within a crate, invariants and lemmas", set(specs.words.values())


MADE = "Made by `tools/make-pages` from `crates/*/specs`: change the comments there."


def ladder(specs, calls, up):
    """The table of the ladder, for a page by hand."""
    yield "| to believe that .. | one reads | beside the rungs above | page |"
    yield "|---|---|---|---|"
    for name, reason, start, needed, more in rungs(specs, calls):
        yield f"| {reason} (`{start[2]}`) | {len(needed)} words, {lines_of(needed)} lines | {len(more)} words | [words_{name}]({up}words_{name}.md) |"

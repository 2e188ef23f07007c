"""How long the pages by hand are, and where their links lead. What the tool makes within a page does not count."""

import re

# The most words of each page by hand; of all together there may be fewer.
PAGES = {
    "README.md": 900,
    "docs/TUTORIAL.md": 2000,
    "docs/LANGUAGE.md": 9000,
    "docs/FORMATS.md": 5600,
    "docs/ARCHITECTURE.md": 3000,
    "docs/THEOREMS.md": 1600,
    "docs/DECISIONS.md": 4000,
    "CONTRIBUTING.md": 1000,
    "CHANGELOG.md": 800,
    "docs/PAGE.md": 2200,
    "docs/TERMINAL.md": 1800,
    "docs/RACE.md": 1000,
    "docs/CHEATSHEET.md": 600,
    "examples/wrong/README.md": 300,
    "examples/wrong/HABITS.md": 5500,
    "examples/wrong/ANSWERS.md": 4000,
}
MOST_WORDS = 39_700
MOST_IN_SENTENCE = 40
LINK = re.compile(r"\]\(([^)\s]+)\)")


def by_hand(text):
    """A page without its made parts."""
    return re.sub(r"(?s)<!-- made: .*?<!-- end of made -->", "", text)


def words(text):
    """How many words a page has: the cells of a table stand apart, and its lines are none."""
    return len(re.sub(r"(?m)^\|[-|]+\|$|(?<!\\)\|", " ", by_hand(text)).split())


def sentences(text):
    """The sentences of a page's paragraphs and lists."""
    text = re.sub(r"(?m)^(    .*|[#|!].*)$", "", re.sub(r"(?ms)^```.*?^```$", "", by_hand(text)))
    text = re.sub(r"\]\([^)]*\)", "]", text)
    for paragraph in re.split(r"\n\s*\n|\n(?=\s*(?:-|\d+\.) )", text):
        for one in re.split(r"(?<=[.!?:;])\s+(?=[\[*`A-Z0-9])", " ".join(paragraph.split())):
            if one:
                yield one


def pages(root):
    """Each page by hand, with the most words that it may have."""
    for name, most in PAGES.items():
        yield root / name, most


def too_long(root):
    """What is too long, said in a line each."""
    total = 0
    for path, most in pages(root):
        name = path.relative_to(root)
        if not path.exists():
            yield f"{name} is not there"
            continue
        count = words(path.read_text(encoding="utf-8"))
        total += count
        if count > most:
            yield f"{name} has {count:,} words by hand; it may have {most:,}"
    if total > MOST_WORDS:
        yield f"the pages have {total:,} words by hand; they may have {MOST_WORDS:,}"
    for one in sentences((root / "README.md").read_text(encoding="utf-8")):
        if len(one.split()) > MOST_IN_SENTENCE:
            yield f"README has a sentence of {len(one.split())} words; the most is {MOST_IN_SENTENCE}: {one[:60]} .."


def anchors(text):
    """The anchors of a page's headings."""
    for heading in re.findall(r"(?m)^#+ (.+)$", re.sub(r"(?ms)^```.*?^```$", "", text)):
        plain = re.sub(r"[^\w\s-]", "", re.sub(r"[`*]", "", heading).lower())
        yield plain.strip().replace(" ", "-")


def broken_links(root):
    """Links of the pages by hand that lead nowhere."""
    for page, _ in pages(root):
        name = page.relative_to(root)
        if not page.exists():
            continue
        text = re.sub(r"(?ms)^```.*?^```$", "", page.read_text(encoding="utf-8"))
        for link in LINK.findall(text):
            if "://" in link:
                continue
            file, _, anchor = link.partition("#")
            target = (page.parent / file).resolve() if file else page
            if not target.exists():
                yield f"{name}: {link} leads nowhere"
            elif anchor and target.suffix == ".md" and anchor not in anchors(target.read_text(encoding="utf-8")):
                yield f"{name}: {link} names no heading"

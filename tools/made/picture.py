"""The picture of the crates, from crates.txt: each stands above those that it uses. An arrow that others imply is left
out."""

from html import escape

# Each crate: its group, what it is for, and its place by column and level, which are set by hand. A crate without an
# entry is an error.
PURPOSES = {
    "ghc_term": ("text", "terms, store, refusals", 1, 0),
    "ghc_reader": ("text", "bytes to program and query", 0, 1),
    "ghc_flat": ("text", "which programs may run", 0, 2),
    "ghc_match": ("step", "a clause laid over a goal", 0, 3),
    "ghc_unify": ("step", "two terms made equal", 2, 3),
    "ghc_fire": ("step", "what one step would do", 1, 4),
    "ghc_hooks": ("goal", "ready, waiting or failed", 0, 5),
    "ghc_records": ("run", "what happened, as tables and texts", 2, 5),
    "ghc_depend": ("run", "what came of what", 2, 6),
    "ghc_core": ("run", "one state, all its changes", 1, 7),
    "ghc_trace": ("told", "ports, news, why, who", 0, 8),
    "ghc_shared": ("threads", "one core behind one lock", 2, 8),
    "ghc_pool": ("threads", "runs, by 1 to 64 workers", 1, 9),
    "ghc_console": ("told", "lines in, replies out", 1, 10),
    "ghcdb": ("told", "files, options, exit status", 1, 11),
    "ghc_tests": ("told", "what no clause says", 2, 11),
}
COLOURS = {
    "text": "#dbeafe",
    "step": "#dcfce7",
    "goal": "#fef9c3",
    "run": "#fee2e2",
    "told": "#f3e8ff",
    "threads": "#e5e7eb",
}
GROUPS = {
    "text": "what a program says", "step": "what a step does", "goal": "how a goal stands",
    "run": "what is kept, and changes", "told": "what is told", "threads": "threads",
}
WIDE, HIGH, GAP, ROW = 214, 44, 26, 66


def uses(root):
    """What each crate uses, in the order of crates.txt."""
    lines = [line.split("#")[0].partition(":") for line in (root / "crates.txt").read_text().split("\n")]
    return {name.split()[0]: rest.split() for name, colon, rest in lines if colon}


def below(crate, own, seen):
    for one in own[crate]:
        if one not in seen:
            seen.add(one)
            below(one, own, seen)
    return seen


def arrows(used):
    """Of each crate those below it that no other of them uses."""
    own = {crate: {one for one in low if one in used} for crate, low in used.items()}
    return {
        crate: sorted(
            one
            for one in own[crate]
            if not any(one in below(other, own, set()) for other in own[crate] if other != one)
        )
        for crate in own
    }


def arrow(x, y, u, v):
    """The path from a box to one below it; past boxes of the same column it goes along their side."""
    if u == x and v - y > ROW + 1:
        side = (x + WIDE + 9 if x < 300 else x - 9) + 20
        return f"M{x + WIDE - 14:.0f} {y + HIGH} C {side:.0f} {y + HIGH + 40:.0f} {side:.0f} {v - 40:.0f} {u + WIDE - 14:.0f} {v}"
    return f"M{x + WIDE / 2 + (u - x) * 0.12:.0f} {y + HIGH} L{u + WIDE / 2 + (x - u) * 0.12:.0f} {v}"


def box(crate, x, y, outside):
    group, purpose, *_ = PURPOSES[crate]
    more = f' <tspan fill="#666" font-size="9" font-weight="normal">{", ".join(outside)}</tspan>' if outside else ""
    yield f'<rect x="{x:.0f}" y="{y:.0f}" width="{WIDE}" height="{HIGH}" rx="6" fill="{COLOURS[group]}" stroke="#777"/>'
    yield f'<text x="{x + 9:.0f}" y="{y + 18:.0f}" font-size="13" font-weight="bold">{crate}{more}</text>'
    yield f'<text x="{x + 9:.0f}" y="{y + 35:.0f}" font-size="11.5" fill="#333">{escape(purpose)}</text>'


def picture(root):
    """The lines of the SVG."""
    used = uses(root)
    if set(used) != set(PURPOSES):
        raise SystemExit(
            f"tools/made/picture.py has no purpose of, or crates.txt has no: {sorted(set(used) ^ set(PURPOSES))}"
        )
    top = max(level for *_, level in PURPOSES.values())
    place = {
        crate: (10 + column * (WIDE + GAP), 10 + (top - level) * ROW)
        for crate, (_, _, column, level) in PURPOSES.items()
    }
    width, height = 20 + 3 * WIDE + 2 * GAP, 44 + (top + 1) * ROW
    lines = [
        f'<svg xmlns="http://www.w3.org/2000/svg" viewBox="0 0 {width} {height}" width="{width}" font-family="sans-serif">',
        '<defs><marker id="a" viewBox="0 0 8 8" refX="7" refY="4" markerWidth="7" markerHeight="7" orient="auto"><path d="M0 0L8 4L0 8z" fill="#555"/></marker></defs>',
        f'<rect width="{width}" height="{height}" fill="#fff"/>',
    ]
    for crate, low in arrows(used).items():
        lines += [
            f'<path d="{arrow(*place[crate], *place[one])}" fill="none" stroke="#555" marker-end="url(#a)"/>'
            for one in low
        ]
    for crate in PURPOSES:
        lines += box(crate, *place[crate], [one for one in used[crate] if one not in used])
    x = 10.0
    for group, words in GROUPS.items():
        lines.append(
            f'<rect x="{x:.0f}" y="{height - 24}" width="12" height="12" fill="{COLOURS[group]}" stroke="#777"/><text x="{x + 16:.0f}" y="{height - 14}" font-size="10">{words}</text>'
        )
        x += 26 + 5.3 * len(words)
    return lines + ["</svg>"]

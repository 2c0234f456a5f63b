"""A page of what a recording says, one file without outside parts."""
from __future__ import annotations

from typing import Any
from collections.abc import Iterator
import html


from gathjumli.printout_lines import HEADING, PAGE_LENGTH, page_text


WIDTH, LEFT, LANE = 1100, 90, 46
MOST_CARDS = 6
MOST_FILES = 40
FEW_STORES = 4
STYLE = """
body{font:15px/1.5 Georgia,serif;background:#e9e6df;color:#222;max-width:1140px;margin:2em auto;padding:0 1em}
h1{font-size:28px;margin:0}h2{margin:1.6em 0 .4em}.note{color:#666;font-size:13px}
.console{background:#fffdf5;border:1px solid #d8d2c0;border-left:14px solid #e7dfca;box-shadow:0 2px 5px #0002;
padding:12px 18px;font:13px/1.45 'Courier New',monospace;white-space:pre-wrap;max-height:520px;overflow:auto}
.when{color:#998;font-size:11px}.typed{color:#23408e;font-weight:bold}.other{color:#8a3b12}.guest{color:#1d6b3a}
summary{color:#777;cursor:pointer;font-style:italic}
.paper{font:13px/18px 'Courier New',monospace;white-space:pre;padding:0 44px;min-height:144px;border:1px solid #cfd8cc;
overflow:auto;
background:radial-gradient(circle at 15px 9px,#cfcfc4 4px,#0000 5px) 0 0/44px 18px repeat-y,
radial-gradient(circle at calc(100% - 15px) 9px,#cfcfc4 4px,#0000 5px) 100% 0/100% 18px repeat-y,
repeating-linear-gradient(#fff 0 36px,#dff0dd 36px 72px)}
.paper+.paper{border-top:1px dashed #aaa}svg{display:block;max-width:100%}.time{background:#fffdf5;border:1px solid #d8d2c0}
.card{margin:5px 0}.picture{background:#fff;border:1px solid #d8d2c0;overflow:auto;padding:6px}
table{border-collapse:collapse}td{padding:0 1.2em 0 0}
"""
# the rows of a card that a character punches: 12, 11, 0, 1 .. 9
PUNCHES = {item: (row,) for row, item in zip(range(2, 12), "0123456789")}
PUNCHES |= {item: (0, row) for row, item in zip(range(3, 12), "ABCDEFGHI")}
PUNCHES |= {item: (1, row) for row, item in zip(range(3, 12), "JKLMNOPQR")}
PUNCHES |= {item: (2, row) for row, item in zip(range(4, 12), "STUVWXYZ")}
PUNCHES |= {"/": (2, 3), "-": (1,), "&": (0,), ".": (0, 5, 10), ",": (2, 5, 10), "*": (1, 6, 10), "(": (0, 7, 10),
            ")": (1, 7, 10), "+": (0, 8, 10), "=": (8, 10), "'": (7, 10), ":": (4, 10), "#": (5, 10), "@": (6, 10),
            "$": (1, 5, 10), ";": (1, 8, 10), "<": (0, 6, 10), ">": (2, 8, 10), "%": (2, 6, 10), "_": (2, 7, 10),
            "?": (2, 9, 10), '"': (9, 10)}  # fmt: skip


def page(title: Any, about: Any, story: Any, looks: Any, pictures: Any) -> str:
    """The page: about has lines of its head, looks how many pages came until which moment, pictures titles and pictures."""
    pieces = [f"<!doctype html><html lang=en><meta charset=utf-8><title>{html.escape(title)}</title><style>{STYLE}</style>",
              f"<h1>GATHJUMLI</h1><table>{''.join(row(*cells) for cells in about)}</table>",
              '<p class=note>Green: how much of a stretch of time the machine ran. Red, above: devices were served. Blue, below: '
              'lines were typed. Purple: no frame was free. Grey: pages came to frames. Time goes by units and typed lines.</p>',
              line_of_time(story, looks)]  # fmt: skip
    shown = [(name, life) for name, life in story.lives.items() if life.lines or life.decks]
    pieces.append(index([name for name, _ in shown], [title for title, _ in pictures]))
    for name, life in shown:
        pieces += [f'<h2 id="{place(name)}">{name}</h2>', console(life), connections(life)]
        pieces += deck_pieces(life)
        pieces += file_pieces(story.files, name)
    for name, picture in pictures:
        pieces.append(
            f'<h2 id="{place(name)}">{html.escape(name)}</h2><div class=picture>{picture}</div>'
        )
    return "\n".join(pieces)


def place(title: Any) -> Any:
    return html.escape(title.replace(" ", "-"))


def index(users: list, titles: Any) -> Any:
    """Where on the page each user and each picture is."""
    return "<p>" + " · ".join(
        f'<a href="#{place(item)}">{html.escape(item)}</a>' for item in [*users, *titles]
    )


def connections(life: Any) -> str:
    """When somebody was at a user's terminal, and from where."""
    rows = "".join(f"<tr><td>{begun} UTC<td>{ended + ' UTC' if ended else 'until the end'}<td>{html.escape(address)}"
                   for begun, ended, address in life.connections)  # fmt: skip
    return (
        f"<details><summary>{len(life.connections)} connections</summary><table>{rows}</table></details>"
        if rows
        else ""
    )


def row(name: str, value: Any) -> str:
    return f"<tr><td class=note>{html.escape(name)}<td>{html.escape(value)}"


def line_of_time(story: Any, looks: Any) -> str:
    """A lane for each user, and one of page-ins."""
    time = story.time
    moments = max(1, time.now)
    people = story.are_people()
    shown = [item for item, life in story.lives.items() if life.lines and item in people]
    parts = []
    for place, name in enumerate(shown):
        parts += lane(name, place * LANE + 8, time.lanes[name], time.width, moments)
    below = len(shown) * LANE + 8
    if looks:
        parts += page_ins(looks, below, moments)
        below += LANE
    parts += clock(time.clock, below + 10, moments)
    height = below + 18
    return f'<svg class=time width="{WIDTH}" height="{height}" viewBox="0 0 {WIDTH} {height}">{"".join(parts)}</svg>'


def x_of(moment: Any, moments: Any) -> Any:
    return LEFT + min(1, moment / moments) * (WIDTH - LEFT - 10)


def lane(name: str, top: Any, counts: Any, width: Any, moments: Any) -> Iterator:
    yield f'<text x="6" y="{top + 22}" font-size="13" font-family="monospace">{name}</text>'
    yield f'<path d="M{LEFT} {top + 26.5}H{WIDTH - 10}" stroke="#ddd5c0"/>'
    wide = max(1.0, width / moments * (WIDTH - LEFT - 10))
    for place, units in sorted(counts["units"].items()):
        height = max(2, min(1, units / width) * 20)
        x = x_of(place * width, moments)
        yield rectangle(x, top + 26 - height, wide, height, "#5b8c5a", f"{units} units")
    for kind, y, height, color in (
        ("serves", 0, 5, "#c0392b"),
        ("shortages", 27, 4, "#8e44ad"),
        ("lines", 32, 3, "#23408e"),
    ):
        for place, count in sorted(counts[kind].items()):
            yield rectangle(
                x_of(place * width, moments),
                top + y,
                max(1.5, wide),
                height,
                color,
                f"{count} {kind}",
            )


def rectangle(x: Any, y: Any, width: Any, height: Any, color: Any, title: Any) -> str:
    size = f'x="{x:.1f}" y="{y:.1f}" width="{width:.1f}" height="{height:.1f}"'
    return f'<rect {size} fill="{color}"><title>{html.escape(title)}</title></rect>'


def page_ins(looks: Any, top: Any, moments: Any) -> Iterator:
    """How many pages came in each stretch between looks."""
    yield f'<text x="6" y="{top + 22}" font-size="13" font-family="monospace">page-ins</text>'
    most = max((after[1] - before[1] for before, after in zip(looks, looks[1:])), default=0)
    for before, after in zip(looks, looks[1:]):
        count = after[1] - before[1]
        height = max(0.5, 22 * count / max(1, most))
        x, end = x_of(before[0], moments), x_of(after[0], moments)
        yield rectangle(
            x, top + 26 - height, max(1, end - x - 1), height, "#8a8575", f"{count} pages"
        )


def clock(times: Any, y: Any, moments: Any) -> Iterator:
    free = 0
    for moment, text in times:
        x = x_of(moment, moments)
        if x >= free and x < WIDTH - 60:
            yield f'<text x="{x:.1f}" y="{y}" font-size="11" fill="#666"><title>{text} UTC</title>{text[11:]}</text>'
            free = x + 70


def console(life: Any) -> str:
    """The console; where many lines are stored one after another they can be unfolded."""
    pieces, stores, shown = [], [], ""
    for kind, text, when in [*life.console, ("", "", "")]:
        line = f'<span class="{kind}">{html.escape(text)}</span>\n'
        if kind == "typed" and text.startswith("STORE ") or stores and text == "STORED":
            stores.append(line)
            continue
        pieces += folded(stores)
        stores = []
        if when and when != shown:
            # a time is shown where it changes, and the date with it where that does
            moment = when[11:] if when[:10] == shown[:10] else when
            pieces.append(f'<time class="when">{moment}</time>\n')
            shown = when
        pieces.append(line)
    left = life.lines - len(life.console)
    more = f'<p class="note">{left} lines before these</p>' if left else ""
    return f'{more}<div class="console">{"".join(pieces)}</div>'


def folded(stores: Any) -> Any:
    if len(stores) <= 2 * FEW_STORES:
        return stores
    return [
        f"<details><summary>{(len(stores) + 1) // 2} times STORE</summary>{''.join(stores)}</details>"
    ]


def deck_pieces(life: Any) -> Iterator:
    for deck in life.decks:
        yield f"<p class=note>a deck from the operator, {len(deck)} cards</p>{cards(deck)}"


def file_pieces(files: list, user: str) -> Iterator:
    """The files that a user printed and punched for the operator."""
    own = [
        (heading, entries) for heading, entries in files if HEADING.fullmatch(heading)[3] == user
    ]
    for heading, entries in own[:MOST_FILES]:
        kind = HEADING.fullmatch(heading)[1]
        yield f"<p class=note>{'printed' if kind == 'PRT' else 'punched'}: {html.escape(heading.removeprefix('== '))}</p>"
        if kind == "PRT":
            text = page_text(kind, entries, PAGE_LENGTH)
            yield "".join(
                f'<div class="paper">{html.escape(part)}</div>' for part in text.split("\f")
            )
        else:
            yield cards(entries)
    if len(own) > MOST_FILES:
        yield f"<p class=note>and {len(own) - MOST_FILES} more files</p>"


def cards(lines: list) -> Any:
    more = (
        f'<p class="note">and {len(lines) - MOST_CARDS} more cards</p>'
        if len(lines) > MOST_CARDS
        else ""
    )
    return "".join(map(card, lines[:MOST_CARDS])) + more


def card(text: str) -> Any:
    """A card with its holes and what they say above."""
    parts = []
    for column, character in enumerate(text.ljust(80)[:80]):
        x = 14 + column * 8
        if character != " ":
            parts.append(
                f'<text x="{x}" y="12" font-size="9" font-family="monospace">{html.escape(character)}</text>'
            )
        for hole in PUNCHES.get(character, ()):
            parts.append(
                f'<rect x="{x + 1}" y="{17 + hole * 9}" width="4" height="7" fill="#3b3120"/>'
            )
    edge = '<path d="M14 .5H667.5V129.5H.5V16Z" fill="#f3e6c0" stroke="#cdbb87"/>'
    return f'<svg class="card" width="668" height="130">{edge}{"".join(parts)}</svg>'

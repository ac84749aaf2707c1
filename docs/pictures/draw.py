#!/usr/bin/env python3
"""`docs/pictures/draw.py [NAME..]` draws each docs/pictures/NAME.txt as NAME.svg, which follows the reader's light or
dark colours.

A text begins with `layers TITLE` or `sequence TITLE`. In layers each line is `LABEL: BOX | BOX ..`, the highest first.
In a sequence the line `who: A | B ..` names the columns, and each further line is one step: `A -> B: TEXT` is an
arrow, `A: TEXT` a box in the column of A, and `-- TEXT` a rule across with words. A ` / ` in a text breaks it. With
`--check` nothing is written, and the status is 1 where a picture isn't what its text says.
"""

import html
import os
import sys

HERE = os.path.dirname(os.path.abspath(__file__))
LETTER, LINE, PAD = 7.4, 17, 10
STYLE = """<style>
  text { font: 13px system-ui, sans-serif; fill: #1f2933; }
  .title { font-size: 15px; font-weight: 600; }
  .label { fill: #52606d; }
  .box { fill: #eef4fb; stroke: #6b8fb5; }
  .who { fill: #dbe8f6; stroke: #3c6694; }
  .line { stroke: #52606d; fill: none; }
  .rail { stroke: #b6c2cd; stroke-dasharray: 3 4; }
  .tip { fill: #52606d; }
  .ground { fill: #ffffff; }
  .free, .label { paint-order: stroke; stroke: #ffffff; stroke-width: 4px; }
  @media (prefers-color-scheme: dark) {
    text { fill: #e4e7eb; }
    .label { fill: #9aa5b1; }
    .box { fill: #1d2b3a; stroke: #5f86ad; }
    .who { fill: #26405c; stroke: #7ba6d2; }
    .line { stroke: #9aa5b1; }
    .rail { stroke: #3e4c59; }
    .tip { fill: #9aa5b1; }
    .ground { fill: #12181f; }
    .free, .label { stroke: #12181f; }
  }
</style>"""


def broken(text):
    return [it.strip() for it in text.split(" / ")]


def width_of(text):
    return LETTER * max(map(len, broken(text))) + 2 * PAD


def height_of(text):
    return LINE * len(broken(text)) + PAD


def words(x, y, text, kind="", anchor="middle"):
    """The lines of a text, the first with its middle at y."""
    told = ""
    for at, line in enumerate(broken(text)):
        told += '<text x="%.0f" y="%.0f" text-anchor="%s" class="%s">%s</text>\n' % (
            x,
            y + LINE * at + 4.5,
            anchor,
            kind,
            html.escape(line, quote=False),
        )
    return told


def box(x, y, width, text, kind="box"):
    """A box with its middle at x and its top at y."""
    size = (x - width / 2, y, width, height_of(text), kind)
    rect = '<rect x="%.0f" y="%.0f" width="%.0f" height="%.0f" rx="5" class="%s"/>\n' % size
    return rect + words(x, y + (LINE + PAD) / 2, text)


def page(title, width, height, body):
    width = max(width, width_of(title) * 1.2)
    size = 'width="%.0f" height="%.0f" viewBox="0 0 %.0f %.0f"' % (width, height, width, height)
    head = '<svg xmlns="http://www.w3.org/2000/svg" %s role="img" aria-label="%s">\n' % (size, html.escape(title))
    ground = '<rect class="ground" width="%.0f" height="%.0f"/>\n' % (width, height)
    return head + STYLE + "\n" + ground + words(PAD, 20, title, "title", "start") + body + "</svg>\n"


def layers(title, lines):
    """Rows of boxes, each with its label at the left."""
    parts = [it.partition(":") for it in lines]
    rows = [(label.strip(), [it.strip() for it in boxes.split("|")]) for label, _, boxes in parts]
    left = max(width_of(label) for label, _ in rows) + PAD
    y, right, body = 44.0, 0.0, ""
    for label, boxes in rows:
        x, height = left, max(map(height_of, boxes))
        body += words(left - PAD, y + height / 2, label, "label", "end")
        for it in boxes:
            body += box(x + width_of(it) / 2, y, width_of(it), it)
            x += width_of(it) + PAD
        right = max(right, x)
        y += height + PAD
    return page(title, right, y + PAD, body)


def columns_of(lines):
    """The columns of a sequence and where their middles are: so far apart that each arrow's words have room."""
    who = [it.strip() for it in lines[0].partition(":")[2].split("|")]
    apart = [(width_of(one) + width_of(other)) / 2 + PAD for one, other in zip(who, who[1:])]
    first = width_of(who[0]) / 2
    last = width_of(who[-1]) / 2
    for line in lines[1:]:
        head, _, text = line.partition(":")
        names = [it.strip() for it in head.split("->")]
        if line.startswith("--") or any(it not in who for it in names):
            continue
        low, high = sorted(who.index(it) for it in (names[0], names[-1]))
        if low == high:
            first = max(first, width_of(text) / 2) if low == 0 else first
            last = max(last, width_of(text) / 2) if low == len(who) - 1 else last
            for at in (low - 1, low):
                if 0 <= at < len(apart):
                    apart[at] = max(apart[at], width_of(text) / 2 + 2 * PAD)
        else:
            for at in range(low, high):
                apart[at] = max(apart[at], (width_of(text) + PAD) / (high - low))
    places = [first + PAD]
    for it in apart:
        places.append(places[-1] + it)
    rules = [width_of(it[2:].strip()) for it in lines[1:] if it.startswith("--")]
    return who, dict(zip(who, places)), max([places[-1] + last + PAD, *rules])


def sequence(title, lines):
    """Columns with a rail each, and the steps from top to bottom."""
    who, place, right = columns_of(lines)
    y, body = 44.0 + max(map(height_of, who)) + PAD, ""
    for line in lines[1:]:
        if line.startswith("--"):
            text = line[2:].strip()
            y += PAD / 2
            body += '<line x1="%d" y1="%.0f" x2="%.0f" y2="%.0f" class="rail"/>\n' % (PAD, y, right - PAD, y)
            body += words(PAD, y + LINE - 4, text, "label", "start")
            y += LINE + PAD
            continue
        head, _, text = line.partition(":")
        names = [it.strip() for it in head.split("->")]
        unknown = [it for it in names if it not in place]
        if unknown:
            sys.exit("%s: no column is named %s" % (title, unknown[0]))
        if len(names) == 1:
            body += box(place[names[0]], y, width_of(text), text.strip())
            y += height_of(text) + PAD
            continue
        begin, end = place[names[0]], place[names[1]]
        y += LINE * len(broken(text)) - 4
        body += words((begin + end) / 2, y - LINE * len(broken(text)) + 8, text.strip(), "free")
        tip = 7 if end < begin else -7
        body += '<line x1="%.0f" y1="%.0f" x2="%.0f" y2="%.0f" class="line"/>\n' % (begin, y + 6, end, y + 6)
        body += '<path d="M %.0f %.0f l %d -4 v 8 z" class="tip"/>\n' % (end, y + 6, tip)
        y += LINE + 4
    rails = "".join(
        '<line x1="%.0f" y1="44" x2="%.0f" y2="%.0f" class="rail"/>\n' % (x, x, y) for x in place.values()
    )
    heads = "".join(box(place[it], 40, width_of(it), it, "who") for it in who)
    return page(title, right, y + PAD, rails + heads + body)


def drawn(text):
    head, *lines = [it for it in text.splitlines() if it.strip() and not it.startswith("#")]
    kind, _, title = head.partition(" ")
    return {"layers": layers, "sequence": sequence}[kind](title, lines)


def main(given):
    is_check = "--check" in given
    names = [it for it in given if it != "--check"] or sorted(
        it[:-4] for it in os.listdir(HERE) if it.endswith(".txt")
    )
    stale = 0
    for name in names:
        with open(os.path.join(HERE, name + ".txt"), encoding="utf-8") as it:
            svg = drawn(it.read())
        path = os.path.join(HERE, name + ".svg")
        if is_check:
            was = open(path, encoding="utf-8").read() if os.path.exists(path) else ""
            if was != svg:
                print("docs/pictures/%s.svg: pictures: it isn't what its text says" % name)
                stale += 1
        else:
            with open(path, "w", encoding="utf-8") as it:
                it.write(svg)
    return 1 if stale else 0


if __name__ == "__main__":
    sys.exit(main(sys.argv[1:]))

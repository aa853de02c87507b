"""Pages in HTML that need nothing else: no script, no style sheet, no font and no picture from elsewhere.

Functions here take text of HTML ("markup") and return it. What comes from outside has to pass `text`, or `Names`.
"""
from __future__ import annotations

import math
from collections import Counter
from fractions import Fraction
from typing import Iterable, List, NamedTuple, Sequence

import committee_pictures
from committee_pictures import clean

SMALL = 12  # rows of a table that is printed on one page

STYLE = """\
:root { color-scheme: light dark; --ink: #1f2328; --dim: #59636e; --paper: #ffffff; --soft: #f1f3f5; --line: #d1d9e0;
  --bar: #4c78a8; --alarm: #b3261e }
* { box-sizing: border-box }
html { background: var(--paper); color: var(--ink); font: 16px/1.5 system-ui, "Liberation Sans", Arial, sans-serif;
  -webkit-text-size-adjust: 100%; text-size-adjust: 100% }
body { max-width: 54rem; margin: 0 auto; padding: 1.5rem 1rem 3rem; overflow-wrap: anywhere }
h1 { font-size: 1.8rem; line-height: 1.2; margin: 0 0 .3rem }
h2 { font-size: 1.3rem; line-height: 1.25; margin: 2.2rem 0 .6rem; padding-top: .5rem;
  border-top: 2px solid var(--line) }
h3 { font-size: 1.05rem; line-height: 1.3; margin: 1.6rem 0 .4rem }
p { margin: .5rem 0 }
a { color: inherit }
.date, .note, caption, figcaption { color: var(--dim) }
nav ul { display: flex; flex-wrap: wrap; gap: .2rem 1.2rem; padding: 0; margin: .8rem 0 0; list-style: none }
.wide { overflow-x: auto; margin: .8rem 0 }
table { border-collapse: collapse; width: 100%; font-variant-numeric: tabular-nums }
caption { text-align: left; padding-bottom: .3rem }
th, td { padding: .3rem .6rem .3rem 0; border-bottom: 1px solid var(--line); text-align: left; vertical-align: top }
thead th { border-bottom: 2px solid var(--line); vertical-align: bottom; overflow-wrap: normal }
tbody th { font-weight: inherit; min-width: 6.5rem }
.number { text-align: right; white-space: nowrap; overflow-wrap: normal; width: 1%; padding-right: 1.2rem }
.short { white-space: nowrap; overflow-wrap: normal; padding-right: 1.2rem }
th.number { white-space: normal }
.rule { overflow-wrap: normal; padding-right: .5rem; font-size: .85em }
.share { min-width: 9rem; width: 40% }
.share div { display: flex; align-items: center; gap: .6rem }
.share b { font-weight: inherit; flex: none; width: 4rem; text-align: right; white-space: nowrap }
.share i { flex: auto; height: .75rem; background: var(--soft); border: 1px solid var(--line) }
.share i i { display: block; height: 100%; background: var(--bar); border: 0; margin: 0;
  -webkit-print-color-adjust: exact; print-color-adjust: exact }
.no { color: var(--alarm); font-weight: 600 }
.tie { border-left: 4px solid var(--line); padding-left: .8rem }
.facts th { width: 14rem; min-width: 7rem; color: var(--dim) }
.facts p { margin: 0 0 .3rem }
figure { margin: 1rem 0 }
figure div { overflow-x: auto }
figure svg { display: block; max-width: 100%; height: auto }
pre, code { font-family: ui-monospace, "Liberation Mono", Menlo, Consolas, monospace; font-size: .85em }
pre { white-space: pre-wrap; background: var(--soft); border: 1px solid var(--line); padding: .6rem .8rem; margin: .5rem 0 }
@media (max-width: 32rem) {
  .facts th, .facts td { display: block; width: auto }
  .facts th { border-bottom: 0; padding-bottom: 0 }
  .share { width: auto; min-width: 6.5rem }
  .share b { width: 3.8rem }
  .number, .short { padding-right: .6rem }
}
@media screen and (prefers-color-scheme: dark) {
  :root { --ink: #e4e4e4; --dim: #a5adb5; --paper: #181a1b; --soft: #232729; --line: #454b50; --bar: #7fb0e3;
    --alarm: #ff8d7e }
}
@page { size: A4; margin: 15mm }
@media print {
  :root { color-scheme: light }
  html { font-size: 10pt }
  body { max-width: none; padding: 0 }
  nav { display: none }
  h1, h2, h3, caption, .note { break-after: avoid }
  #picture { break-before: page }
  tr, figure, .small, .facts, .tie { break-inside: avoid }
  p, pre { orphans: 3; widows: 3 }
  .wide, figure div { overflow: visible }
  figure svg { min-width: 0 !important; max-height: 235mm }
  pre { background: none; -webkit-box-decoration-break: clone; box-decoration-break: clone }
}
"""


# ---- elements


def text(words: object) -> str:
    """Markup of any text, also for the value of an attribute."""
    return clean(str(words)).replace('"', "&quot;")


def paragraph(*sentences: str, kind: str = "") -> str:
    return f"<p{kind and f' class={chr(34)}{kind}{chr(34)}'}>{' '.join(sentences)}</p>\n"


def percent(part: int, whole: int) -> str:
    """A share with one digit after the point, rounded half up."""
    thousandths = (2000 * part + whole) // (2 * whole)
    return f"{thousandths // 10}.{thousandths % 10} %"


class Column(NamedTuple):
    """The heading of a column, and the class of its cells."""

    heading: str
    kind: str = ""

    def cell(self, name: str, content: str, scope: str = "") -> str:
        kind = f' class="{self.kind}"' if self.kind else ""
        return f"<{name}{scope and f' scope={chr(34)}{scope}{chr(34)}'}{kind}>{content}</{name}>"


def share_of(part: int, whole: int) -> str:
    """What a cell of a column of shares has: a share of the voters, and a bar."""
    share = percent(part, whole)
    bar = f'<i aria-hidden="true"><i style="width:{share.replace(" ", "")}"></i></i>'
    return f"<div><b>{share}</b>{bar}</div>"


def table(caption: str, columns: Sequence[Column], rows: Iterable[Sequence[str]]) -> str:
    """A table whose first column heads its rows."""
    first, *others = columns
    rows = list(rows)
    size = " small" if len(rows) <= SMALL else ""
    heads = "".join(column.cell("th", column.heading, "col") for column in columns)
    lines = [
        f'<div class="wide{size}"><table>\n<caption>{caption}</caption>\n<thead><tr>{heads}</tr></thead>\n<tbody>\n'
    ]
    for head, *cells in rows:
        row = first.cell("th", head, "row") + "".join(map(Column.cell, others, ["td"] * len(others), cells))
        lines.append(f"<tr>{row}</tr>\n")
    return "".join([*lines, "</tbody>\n</table></div>\n"])


def facts(caption: str, rows: Iterable[Sequence[str]]) -> str:
    """A table of names and values."""
    lines = "".join(f'<tr><th scope="row">{name}</th><td>{value}</td></tr>\n' for name, value in rows)
    return f'<table class="facts">\n<caption>{caption}</caption>\n<tbody>\n{lines}</tbody>\n</table>\n'


def lines_of(words: str) -> str:
    """Text with the lines that it has."""
    return f"<pre>{text(words)}</pre>\n"


def drawn(picture: committee_pictures.Picture, name: str, caption: str) -> str:
    """A picture, which on a small screen is moved sideways before it is too small to be read."""
    least = min(picture.width, 760)
    markup = picture.draw(name).replace("<svg ", f'<svg style="min-width:{least}px" ', 1)
    return f"<figure>\n<div>{markup}</div>\n<figcaption>{caption}</figcaption>\n</figure>\n"


# ---- names


class Names:
    """Names of candidates or parties, as markup. One without a name has its number, and so have those whose name is
    that of another."""

    def __init__(self, names: Sequence[str], word: str):
        self.word = word
        self.names = [name.strip() for name in names]
        self.counts = Counter(self.names)

    def __call__(self, number: int) -> str:
        name = self.names[number - 1]
        if not name:
            return f"{self.word} {number}"
        return f"<bdi>{text(name)}</bdi>" + (f" ({number})" if self.counts[name] > 1 else "")


# ---- numbers


def decimal(value: Fraction, is_square: bool = False) -> str:
    """A number, or the root of a square, with at most three digits after the point."""
    square = value if is_square else value * value
    # The whole part of the root of a fraction is that of its whole part.
    thousandths = (math.isqrt(int(square * 4_000_000)) + 1) // 2
    about = "" if Fraction(thousandths, 1000) ** 2 == square else "about "
    digits = f"{thousandths // 1000:,}.{thousandths % 1000:03}".rstrip("0").rstrip(".")
    return f"{about}{digits}"


def fraction(value: Fraction) -> str:
    """A fraction as the program prints it, but reduced; beside it a decimal number, if it is not whole."""
    if value.denominator == 1:
        return f"{value.numerator:,}"
    return f"{value.numerator}/{value.denominator} ({decimal(value)})"


# ---- the page


class Section(NamedTuple):
    name: str  # its id
    heading: str
    content: str


class Page(NamedTuple):
    title: str
    date: str
    sections: List[Section]

    def whole(self) -> str:
        title = text(self.title)
        date = paragraph(text(self.date), kind="date") if self.date else ""
        links = "".join(f'<li><a href="#{section.name}">{section.heading}</a></li>\n' for section in self.sections)
        return "".join(
            [
                '<!DOCTYPE html>\n<html lang="en">\n<head>\n<meta charset="utf-8">\n',
                '<meta name="viewport" content="width=device-width, initial-scale=1">\n',
                f"<title>{title}</title>\n<style>\n{STYLE}{committee_pictures.STYLE}</style>\n</head>\n<body>\n",
                f'<header>\n<h1>{title}</h1>\n{date}<nav aria-label="Contents">\n<ul>\n{links}</ul>\n</nav>\n</header>\n',
                "<main>\n",
                *(
                    f'<section id="{section.name}">\n<h2>{section.heading}</h2>\n{section.content}</section>\n'
                    for section in self.sections
                ),
                "</main>\n</body>\n</html>\n",
            ]
        )

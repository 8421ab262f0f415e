"""A page as blocks, written as one HTML file or as text for a terminal."""
import html
import os
import textwrap

TEXT_WIDTH = 100


class Section:
    """A part of a page with a title; its blocks have `html` and `text`."""

    def __init__(self, title, *blocks):
        self.title, self.blocks = title, [block for block in blocks if block]


class Words:
    """A paragraph. `text` are its words on a terminal, where they are others: there are no colours. `head` are the
    first of the words, where they stand out."""

    def __init__(self, words, kind="", number=None, text=None, head=""):
        self.words, self.kind, self.number, self.on_terminal, self.head = words, kind, number, text or words, head

    def html(self):
        """As HTML; a number that tests look for is an attribute."""
        mark = f' class="{self.kind}"' if self.kind else ""
        mark += f' data-number="{self.number}"' if self.number is not None else ""
        begin = f"<strong>{html.escape(self.head)}</strong>" if self.head else ""
        return f"<p{mark}>{begin}{html.escape(self.words.removeprefix(self.head))}</p>"

    def text(self):
        """As lines."""
        return textwrap.wrap(self.on_terminal, TEXT_WIDTH)


class Table:
    """A table. A cell is a text; rows may have attributes for HTML. In a narrow window each row is a block."""

    def __init__(self, heads, rows, attributes=None, kind=""):
        self.heads, self.rows, self.kind = heads, rows, kind
        self.attributes = attributes or [{} for _ in rows]

    def html(self):
        """As HTML."""
        parts = [f'<table class="{self.kind}"><thead><tr>']
        parts += [f"<th>{html.escape(head)}</th>" for head in self.heads] + ["</tr></thead><tbody>"]
        for row, attributes in zip(self.rows, self.attributes):
            marks = "".join(f' {name}="{html.escape(str(value))}"' for name, value in attributes.items())
            cells = (
                f'<td data-head="{html.escape(head)}">{html.escape(cell)}</td>' for head, cell in zip(self.heads, row)
            )
            parts.append(f"<tr{marks}>{''.join(cells)}</tr>")
        return "\n".join(parts + ["</tbody></table>"])

    def text(self):
        """As lines, with columns as wide as their longest cell; those that do not fit stand below their row."""
        rows = [self.heads] + self.rows
        widths = [max(len(row[index]) for row in rows) for index in range(len(self.heads))]
        fitting = sum(sum(widths[: count + 1]) + 2 * count <= TEXT_WIDTH for count in range(len(widths)))
        lines = []
        for row in rows:
            lines.append("  ".join(cell.ljust(width) for cell, width in zip(row[:fitting], widths)).rstrip())
            for head, cell in zip(self.heads[fitting:], row[fitting:]) if row is not self.heads else ():
                lines += textwrap.wrap(f"{head}: {cell}", TEXT_WIDTH, initial_indent=6 * " ", subsequent_indent=8 * " ")
        return lines


class Commands:
    """Commands, or other text that stands as it is."""

    def __init__(self, lines, kind="commands"):
        self.lines, self.kind = lines, kind

    def html(self):
        """As HTML."""
        return f'<pre class="{self.kind}">' + html.escape("\n".join(self.lines)) + "</pre>"

    def text(self):
        """As lines."""
        return ["    " + line for line in self.lines]


class Marked:
    """Lines of a source or a listing: each is (kind, margin, number, text), of which kind says how it is marked."""

    def __init__(self, title, lines, is_listing=False):
        self.title, self.lines, self.kind = title, lines, "marked listing" if is_listing else "marked"

    def html(self):
        """As HTML: a table whose last column takes what is left."""
        parts = [f'<h3>{html.escape(self.title)}</h3><table class="{self.kind}"><tbody>']
        for kind, margin, number, text in self.lines:
            cells = f'<td class="margin">{html.escape(margin)}</td><td class="number">{html.escape(number)}</td>'
            parts.append(f'<tr class="{kind}">{cells}<td class="code">{html.escape(text) or " "}</td></tr>')
        return "\n".join(parts + ["</tbody></table>"])

    def text(self):
        """As lines."""
        width = max([len(margin) for _, margin, _, _ in self.lines], default=0)
        signs = {"cut": ">", "secret": "|", "parted": ">"}
        rows = [
            f"{signs.get(kind, ' ')} {margin.rjust(width)} {number.rjust(10)}  {text}".rstrip()
            for kind, margin, number, text in self.lines
        ]
        return [self.title, ""] + rows


class Drawing:
    """A picture in two widths, and in words."""

    def __init__(self, wide, narrow, words):
        self.wide, self.narrow, self.words = wide, narrow, words

    def html(self):
        """As HTML: the width of the window says which one is shown."""
        return f'<div class="wide">{self.wide}</div><div class="narrow">{self.narrow}</div>'

    def text(self):
        """As lines."""
        return self.words


class Folded:
    """Lines behind a title, which a click opens and closes; only many lines are closed at first."""

    def __init__(self, title, lines):
        self.title, self.block, self.mark = title, Commands(lines), " open" if len(lines) <= 40 else ""

    def html(self):
        """As HTML."""
        return f"<details{self.mark}><summary>{html.escape(self.title)}</summary>{self.block.html()}</details>"

    def text(self):
        """As lines."""
        return [self.title, ""] + self.block.text()


def html_page(title, sections):
    """The whole page, with its style in it."""
    with open(os.path.join(os.path.dirname(os.path.abspath(__file__)), "page.css"), encoding="utf-8") as file:
        style = file.read()
    head = (
        f'<!DOCTYPE html>\n<html lang="en"><head><meta charset="utf-8"><title>{html.escape(title)}</title>\n'
        f'<meta name="viewport" content="width=device-width, initial-scale=1">\n<style>\n{style}</style></head><body>\n'
    )
    parts = [head, f"<h1>{html.escape(title)}</h1>"]
    for section in sections:
        blocks = "\n".join(block.html() for block in section.blocks)
        heading = f"<h2>{html.escape(section.title)}</h2>\n" if section.title else ""
        parts.append(f"<section>{heading}{blocks}</section>")
    return "\n".join(parts + ["</body></html>", ""])


def text_page(title, sections):
    """The page as text."""
    lines = [title, "=" * len(title), ""]
    for section in sections:
        lines += [section.title, "-" * len(section.title), ""] if section.title else []
        for block in section.blocks:
            lines += block.text() + [""]
    return "\n".join(lines)

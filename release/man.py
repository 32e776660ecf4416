"""A manual page of a page of the documents: the same text, turned over from Markdown to roff (man, with tbl for tables).

It knows the Markdown that the documents use: headings, paragraphs, lists, tables, indented and fenced blocks, `code`, **bold**,
and links. Needs Python 3 and nothing else.
"""

from __future__ import annotations

import re
from dataclasses import dataclass

INLINE = re.compile(r"`([^`]+)`|\*\*(.+?)\*\*|\[([^\]]+)\]\([^)]*\)")
ITEM = re.compile(r"(\s*)(?:[-*]|(\d+)\.) (.*)")


@dataclass(frozen=True)
class Page:
    """What the head of a manual page tells."""

    name: str
    section: int
    what: str
    date: str
    version: str


def plain(text: str) -> str:
    """Text whose signs mean nothing to roff."""
    return text.replace("\\", "\\e").replace("-", "\\-").replace("'", "\\(aq").replace("`", "\\(ga").replace("^", "\\(ha").replace("~", "\\(ti")


def inline(text: str) -> str:
    made, at = [], 0
    for found in INLINE.finditer(text):
        code, bold, link = found.groups()
        font, inner = ("B", plain(code or "")) if code else ("B", inline(bold)) if bold else ("I", plain(link))
        made += [plain(text[at : found.start()]), f"\\f{font}{inner}\\fR"]
        at = found.end()
    return "".join(made) + plain(text[at:])


def shielded(line: str) -> str:
    """A line that does not begin with a request."""
    return "\\&" + line if line.startswith((".", "'")) else line


def block(lines: list[str]) -> list[str]:
    """Lines that stand as they are."""
    return [".PP", ".RS 4", ".nf", *(shielded(plain(line)) for line in lines), ".fi", ".RE"]


def cells(line: str) -> list[str]:
    """A row of a table; a bar behind a backslash, or in `code`, is none of its bars."""
    parts = re.split(r"(?<!\\)\|", line.strip().strip("|"))
    return [part.strip().replace("\\|", "|") for part in parts]


def table(lines: list[str]) -> list[str]:
    head, rows = cells(lines[0]), [cells(line) for line in lines[2:]]
    count = len(head)
    form = "lx " * (count - 1) + "lx."
    made = [".PP", ".TS", "allbox;", form]
    for row in ([head] if any(head) else []) + rows:
        texts = [shielded(inline(cell)) for cell in (row + [""] * count)[:count]]
        made.append("\t".join(f"T{{\n{text}\nT}}" for text in texts))
    return [*made, ".TE"]


def items(lines: list[str]) -> list[str]:
    """A list, of which lines that begin further in go on."""
    made: list[str] = []
    for line in lines:
        found = ITEM.match(line)
        if found:
            mark = f"{found[2]}." if found[2] else "\\(bu"
            made += [f'.IP "{mark}" 4', shielded(inline(found[3]))]
        else:
            made.append(shielded(inline(line.strip())))
    return made


def groups(text: str) -> list[list[str]]:
    """The lines of each part: what stands between empty lines, or a whole fenced block."""
    made: list[list[str]] = [[]]
    fenced = False
    for line in text.splitlines():
        if line.startswith("```"):
            fenced = not fenced
            made += [[line]] if fenced else []
            made[-1] += [] if fenced else [line]
            made += [] if fenced else [[]]
        elif fenced or (line.strip() and not (line.startswith("#") and made[-1])):
            made[-1].append(line)
        elif made[-1]:
            made.append([line] if line.strip() else [])
    return [each for each in made if each]


def body(text: str) -> list[str]:
    made: list[str] = []
    for lines in groups(text):
        first = lines[0]
        if first.startswith("#"):
            marks, _, words = first.partition(" ")
            made.append(f".{'SH' if len(marks) < 3 else 'SS'} {inline(words)}")
            lines = lines[1:]
            if not lines:
                continue
            first = lines[0]
        if first.startswith("```"):
            made += block(lines[1:-1])
        elif first.startswith("    "):
            made += block([line[4:] for line in lines])
        elif first.startswith("|"):
            made += table(lines)
        elif ITEM.match(first):
            made += items(lines)
        else:
            made += [".PP", *(shielded(inline(line)) for line in lines)]
    return made


def manual(page: Page, text: str) -> str:
    """The manual page of a document, whose first heading is its title."""
    head = f'.TH {page.name.upper()} {page.section} {page.date} "tilefarm {page.version}" tilefarm'
    title, _, rest = text.partition("\n")
    first = [".SH NAME", f"{page.name} \\- {plain(page.what)}", ".SH DESCRIPTION", f".B {inline(title.lstrip('# '))}"]
    return "\n".join(["'\\\" t", head, ".ad l", *first, *body(rest)]) + "\n"


def of_help(page: Page, text: str) -> str:
    """The manual page of a command's own help."""
    return "\n".join([f'.TH {page.name.upper()} {page.section} {page.date} "tilefarm {page.version}" tilefarm',
                      ".SH NAME", f"{page.name} \\- {plain(page.what)}", ".SH DESCRIPTION", *block(text.splitlines())]) + "\n"  # fmt: skip

"""Makes the man pages eggnet(1) and eggnet.conf(5) from docs/FORMATS.md, the pages for administrators and the program's help.

It reads just the Markdown of these pages: headings, paragraphs, lists, tables, and code that is indented or fenced. A row
of a table becomes a paragraph whose first cell is its tag.
"""
import collections
import re
import subprocess
import sys

# A piece of a page: what it is, its text or rows, and how deep a heading or a list's item stands.
Block = collections.namedtuple("Block", "kind text depth", defaults=[0])
# What groff shows otherwise than as the byte that stands for it.
SIGNS = {"\\": "\\e", "~": "\\(ti", "^": "\\(ha", "`": "\\(ga", "'": "\\(aq", '"': "\\(dq"}
# The pages for administrators; the first one says what the program is.
PAGES = ["docs/OPERATING.md", "docs/OPERATING_A_NET.md", "docs/WHEN_SOMETHING_IS_WRONG.md"]
# Their sections that eggnet(1) has, and those that it calls by the names that man pages have.
SECTIONS = ["Start it", "Commands to a running bot", "Change it while it runs", "The log", "A net",
            "Several bots on one channel", "Limits", "Statuses", "The folder", "As a service", "An older copy",
            "When a disk is full", "When a disk fails"]
CUSTOMARY = {"Statuses": "Exit status", "The folder": "Files"}


def kind_of(line):
    """Returns what a line of Markdown begins or continues."""
    if not line.strip():
        return "gap"
    if re.match(r"#+ ", line):
        return "heading"
    if re.match(r" *- ", line):
        return "item"
    if line.startswith("    "):
        return "code"
    return "row" if line.startswith("|") else "paragraph"


def blocks_of(markdown):
    """Returns the pieces of a text, each line of a list, a table or code as one of its own."""
    found, is_fenced = [], False
    for line in markdown.split("\n"):
        if line.startswith("```"):
            is_fenced = not is_fenced
            continue
        kind = "code" if is_fenced else kind_of(line)
        if kind == "gap" and found and found[-1].kind == "code":
            kind, line = "code", ""
        if kind == "heading":
            found.append(Block(kind, line.lstrip("# "), line.count("#", 0, line.index(" "))))
        elif kind == "item":
            found.append(Block(kind, line.strip()[2:], (len(line) - len(line.lstrip())) // 2))
        elif kind == "code":
            found.append(Block(kind, line if is_fenced else line[4:]))
        else:
            found.append(Block(kind, line.strip()))
    return found


def escape(text, is_code=False):
    """Returns a text as groff shows it."""
    text = "".join(SIGNS.get(sign, sign) if is_code or sign != "'" else sign for sign in text)
    text = text.replace("-", "\\-") if is_code else text
    return f"\\&{text}" if text[:1] in (".", "'") else text


def part(text):
    """Returns a part of a line: code, what is marked, or neither."""
    if text.startswith("`"):
        return f"\\fB{escape(text[1:-1], True)}\\fR"
    return f"\\fB{escape(text[2:-2])}\\fR" if text.startswith("**") else escape(text)


def inline(text):
    """Returns a line of Markdown as a line for groff: code and what is marked is bold, and of a link its text is left."""
    text = re.sub(r"\[([^\]]+)\]\([^)]+\)", r"\1", text)
    shown = "".join(part(it) for it in re.split(r"(`[^`]+`|\*\*[^*]+\*\*)", text) if it)
    return f"\\&{shown}" if shown[:1] in (".", "'") else shown


def cells_of(row):
    return [it.strip() for it in row.strip("|").split("|")]


def table(rows):
    """Returns the lines of a table: each row's first cell is a tag, and further columns have their names before them."""
    head, *body = [cells_of(it) for it in rows if not re.fullmatch(r"[|\- :]+", it)]
    shown = []
    for tag, *cells in body:
        named = [f"{name}: {cell}" if len(head) > 2 else cell for name, cell in zip(head[1:], cells) if cell]
        shown += [".TP", inline(tag), *"\n.br\n".join(inline(it) for it in named or ["none"]).split("\n")]
    return shown


def items(found):
    """Returns the lines of a list, of which a part may stand one step deeper."""
    shown, depth = [], 0
    for it in found:
        shown += [".RS"] * (it.depth - depth) + [".RE"] * (depth - it.depth) + [".IP \\(bu 2", inline(it.text)]
        depth = it.depth
    return shown + [".RE"] * depth + [".PP"]


def code(found):
    lines = "\n".join(escape(it.text, True) for it in found).rstrip("\n").split("\n")
    return [".PP", ".RS 4", ".nf", *lines, ".fi", ".RE", ".PP"]


def shown_of(kind, found):
    """Returns the lines for groff of adjoining pieces of one kind."""
    if kind == "heading":
        return [f".SS {escape(it.text)}" for it in found]
    if kind == "paragraph":
        return [line for it in found for line in (".PP", inline(it.text))]
    if kind == "row":
        return table([it.text for it in found]) + [".PP"]
    return {"gap": lambda _: [], "item": items, "code": code}[kind](found)


def roff(markdown):
    """Returns a text of Markdown as lines for groff."""
    shown, same = [], []
    for it in [*blocks_of(markdown), Block("end", "")]:
        if same and it.kind != same[0].kind:
            shown += shown_of(same[0].kind, same)
            same = []
        same.append(it)
    # A paragraph mark that stands before another mark says nothing.
    marks = (".PP", ".SH", ".SS")
    return [it for it, after in zip(shown, [*shown[1:], ".SH"]) if it != ".PP" or not after.startswith(marks)]


def sections_of(page):
    """Returns the sections of a page of Markdown by their headings, and what stands before the first under ''."""
    parts = re.split(r"^## (.+)\n", f"\n{page}", flags=re.M)
    return {"": re.sub(r"\A\s*# .*\n", "", parts[0]), **dict(zip(parts[1::2], parts[2::2]))}


def operating_of(text_of):
    """Returns the sections of the pages for administrators, by a function that returns the text of a page."""
    first, *others = [sections_of(text_of(it)) for it in PAGES]
    return {**{name: text for it in others for name, text in it.items()}, **first}


def pick(sections, name):
    return roff(sections[name]) if name in sections else sys.exit(f"package: a page has no section {name!r} any more")


def help_of(program, *words):
    return subprocess.run([program, *words, "--help"], capture_output=True, text=True, check=True).stdout


def commands_of(program):
    """Returns the commands that the program's help names, each with what it does."""
    listed = re.search(r"^Commands:\n((?:  .*\n)+)", help_of(program), re.M).group(1)
    return {name: what for name, what in re.findall(r"^  (\S+) +(.+)$", listed, re.M) if name != "help"}


def usage_of(program, command):
    """Returns the words of a command, such as `tell <FOLDER> <WORDS>...`."""
    return re.search(r"^Usage: \S+ (.+)$", help_of(program, command), re.M).group(1)


def words_of_tell(operating):
    """Returns the words that a running bot obeys, each once, from the table of commands in the administrators' pages."""
    rows = [it.text for it in blocks_of(operating["Commands to a running bot"]) if it.kind == "row"]
    said = [words.split()[0] for row in rows[2:] for words in re.findall(r"`([^`]+)`", cells_of(row)[0])]
    return [*dict.fromkeys(said)]


def page(name, number, about, day, version, *parts):
    """Returns a man page of sections, each a heading and its lines."""
    title = f'.TH {name.upper()} {number} "{day}" "eggnet {version}"'
    shown = [title, ".nh", ".ad l", ".SH NAME", f"{name} \\- {about}"]
    for heading, lines in parts:
        shown += [f".SH {escape(heading.upper())}", *lines]
    return "\n".join(shown) + "\n"


def program_page(program, operating, day, version):
    """Returns eggnet(1)."""
    commands = commands_of(program)
    usages = [re.sub("[<>]", "", usage_of(program, it)) for it in commands]
    synopsis = [line for it in usages for line in (f".B eggnet {escape(it)}", ".br")]
    listed = [line for it, what in commands.items() for line in (".TP", f".B {it}", inline(what))]
    seen = [".BR eggnet.conf (5);",
            "the pages in /usr/share/doc/eggnet/docs, of which FORMATS.md has the scripts of \\fBreplay\\fR."]
    chosen = [(CUSTOMARY.get(it, it), pick(operating, it)) for it in SECTIONS]
    return page("eggnet", 1, "IRC bots that share a userfile", day, version, ("synopsis", synopsis),
                ("description", pick(operating, "")), ("commands", listed), *chosen, ("see also", seen))


def configuration_page(operating, formats, day, version):
    """Returns eggnet.conf(5)."""
    files = [".TP", ".I /etc/eggnet/NAME.conf", "the configuration of the bot that the service \\fBeggnet@NAME\\fR runs"]
    return page("eggnet.conf", 5, "configuration of a bot of eggnet", day, version,
                ("description", pick(operating, "A configuration")),
                ("lines", pick(sections_of(formats), "Configuration file")), ("procs", pick(operating, "Its procs")),
                ("files", files), ("see also", [".BR eggnet (1)"]))

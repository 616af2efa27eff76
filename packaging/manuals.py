#!/usr/bin/env python3
"""The manual pages, made of the texts that the pages of docs/ and the programs have: nothing is written here twice.

    packaging/manuals.py FOLDER

writes archive.1, archive.conf.5, upload.1, with_sidecars.1, adopt.1 and backup.1 to FOLDER."""
import pathlib
import re
import subprocess
import sys
import textwrap

ROOT = pathlib.Path(__file__).resolve().parent.parent
VERSION = (ROOT / "VERSION").read_text(encoding="ascii").strip()
# The paths of the pages in the package.
DOCS = "/usr/share/doc/boqitsel"

# The sections of the pages that each manual has, in order.
COMMANDS = [
    "A session", "What a configuration says", "What a suite shows, and lines for scripts", "Why an upload was refused, or waits", "Lists of commands",
    "What an upload is", "Uploading", "Installing from it", "A tree for any web server", "Copying a whole suite", "Testing and stable",
    "Taking a package out", "How long files count", "How large a file may be", "Moments",
]
SERVICE = ["Serving", "Stopping the service", "A tree beside the server"]
CONFIGURATION = ["What a configuration says", "Until when a Release is valid", "How long files count", "How large a file may be", "Testing and stable"]
# What is said of a fault's letter, in archive.conf(5) and in archive(1).
FAULTS_OF_CONFIGURATIONS = "Configurations: F"

NAMES = """The Debian package has the program as \\fBboqitsel\\fR, and its helpers as \\fBboqitsel\\-upload\\fR, \\fBboqitsel\\-with\\-sidecars\\fR,
\\fBboqitsel\\-adopt\\fR and \\fBboqitsel\\-backup\\fR, names of its own. \\fBarchive\\fR, \\fBupload\\fR, \\fBwith_sidecars\\fR, \\fBadopt\\fR and \\fBbackup\\fR are other names
of them, which update\\-alternatives(1) gives if nothing else has these.
"""


# ---- texts


def page(name):
    """The text of a page of docs."""
    return (ROOT / name).read_text(encoding="utf-8")


def section(name, title):
    """The text of a page's section with this title."""
    [text] = re.findall(rf"^## {re.escape(title)}\n(.*?)(?=^## |\Z)", page(name), re.M | re.S)
    return text


def sections(name):
    """The titles of a page's sections."""
    return re.findall(r"^## (.*)$", page(name), re.M)


# ---- roff


def escaped(text):
    """A text as roff has it, without what begins a request."""
    text = text.replace("\\", "\\e").replace("-", "\\-").replace("`", "\\`").replace("^", "\\(ha").replace("~", "\\(ti").replace("'", "\\(aq")
    return "\n".join("\\&" + line if line.startswith(".") else line for line in text.split("\n"))


def inline(text):
    """A text with its spans, `code` and **strong**, as roff has it. Pages of the repository are named by their paths in the
    package."""
    text = re.sub(r"\bdocs/(\w+\.md)", rf"{DOCS}/\1", text)
    text = re.sub(r"\bbin/(upload|with_sidecars|adopt|backup)\b", r"\1", text)
    made = ""
    for part in re.split(r"(`[^`]+`|\*\*(?:`[^`]+`|[^*`])+\*\*)", text):
        if part.startswith("**"):
            made += f"\\fB{escaped(part.strip('*').replace('`', ''))}\\fR"
        elif part.startswith("`"):
            made += f"\\fB{escaped(part.strip('`'))}\\fR"
        else:
            made += escaped(part)
    return "\\&" + made if made.startswith((".", "'")) else made


def block(text):
    """Lines that stand as they are, and options with what each does."""
    made = ""
    for it in re.split(r"\n\s*\n(?= *--)", text):
        made += options(it) if it.lstrip().startswith("--") else f".RS 4\n.EX\n{escaped(textwrap.dedent(it).rstrip())}\n.EE\n.RE\n"
    return made


def options(text):
    """Options, each with a text that may go on in lines below it."""
    made = ""
    for line in textwrap.dedent(text).splitlines():
        option = re.fullmatch(r"(--\w+(?: [A-Z=]+)?) +(\S.*)", line)
        made += f".TP\n.B {escaped(option[1])}\n{inline(option[2])}\n" if option else f"{inline(line.strip())}\n"
    return made


def table(lines):
    """The rows of a table: the first cell stands out, and each of the others begins a line."""
    made = ""
    for line in lines[2:]:
        first, *others = (cell.strip() for cell in line.strip().strip("|").split("|"))
        made += f".TP\n{inline(first)}\n" + "\n.br\n".join(map(inline, others)) + "\n"
    return made


def item(lines):
    """An item of a list, which may have texts that are set in."""
    made = ".IP \\(bu 2\n"
    return made + body("\n".join([lines[0][2:], *(line[2:] for line in lines[1:])]), is_item=True)


def parts(text):
    """The parts of a section: lists of lines that belong together, each with what they are."""
    kept, lines = [], text.split("\n")
    while lines:
        line = lines.pop(0)
        if not line.strip():
            continue
        kind = "block" if line.startswith("    ") else "table" if line.startswith("|") else "item" if line.startswith("- ") else "text"
        found = [line]
        while lines and goes_on(kind, lines):
            found.append(lines.pop(0))
        kept.append((kind, found))
    return kept


def goes_on(kind, lines):
    """Whether the first of these lines belongs to what was begun."""
    line = lines[0]
    if kind == "block":
        return line.startswith("    ") or (not line.strip() and any(lines[1:]) and lines[1].startswith("    "))
    if kind == "item":
        return line.startswith("  ") or (not line.strip() and any(lines[1:]) and lines[1].startswith("  "))
    if kind == "table":
        return line.startswith("|")
    return bool(line.strip()) and not line.startswith(("    ", "|", "- "))


def body(text, is_item=False):
    """The text of a section, or of an item of a list, as roff has it."""
    made = ""
    for number, (kind, lines) in enumerate(parts(text)):
        if kind == "block":
            made += block("\n".join(lines))
        elif kind == "table":
            made += table(lines)
        elif kind == "item":
            made += item(lines)
        else:
            begin = "" if number == 0 else ".IP\n" if is_item else ".PP\n"
            made += begin + inline("\n".join(line.strip() for line in lines)) + "\n"
    return made


def head(name, part, what):
    """The head of a manual."""
    kind = {"1": "User Commands", "5": "File Formats"}[part]
    return f'.TH {name.upper()} {part} "" "boqitsel {VERSION}" "{kind}"\n.nh\n.ad l\n.SH NAME\n{what}\n'


def titled(title, text):
    return f".SH {escaped(title.upper())}\n{text}"


# ---- the manuals


def commands():
    """The command lines of USING.md with what each does."""
    [[_, lines]] = [it for it in parts(section("docs/USING.md", "Commands")) if it[0] == "block"]
    found = []
    for line in map(str.strip, lines):
        words, _, comment = line.partition("#")
        if words:
            found.append([words.strip(), comment.strip()])
        else:
            found[-1][1] += f" {comment.strip()}"
    return found


def archive():
    """archive(1)."""
    rows = commands()
    about = page("README.md").partition("\n\n")[2].partition("\n\n## ")[0]
    lacks, limits = (section("README.md", it) for it in ("What it does not do", "Limits"))
    rest = section("docs/USING.md", "Commands").partition("\n\n")[2]
    made = head("archive", "1", "archive, boqitsel \\- a Debian package archive with an incoming queue")
    made += titled("Synopsis", "".join(f".B {escaped(words)}\n.br\n" for words, _ in rows))
    made += titled("Description", inline(about) + "\n.PP\n" + NAMES + ".SS What it does not do\n" + body(lacks) + ".SS Limits\n" + body(limits))
    made += titled("Commands", "".join(f".TP\n.B {escaped(words)}\n{inline(comment)}\n" for words, comment in rows) + ".PP\n" + body(rest))
    made += "".join(titled(it, body(section("docs/USING.md", it))) for it in COMMANDS)
    made += "".join(titled(it, body(section("docs/OPERATING.md", it))) for it in SERVICE)
    made += "".join(titled(it, body(section("docs/FAULTS.md", it))) for it in sections("docs/FAULTS.md"))
    return made + see("archive.conf(5)", "upload(1)", "with_sidecars(1)", "adopt(1)", "backup(1)", "apt(8)", "sources.list(5)", "dput(1)", "dpkg-buildpackage(1)")


def see(*names):
    """What is read beside a manual."""
    text = ", ".join(map(escaped, names))
    return titled("See also", f"{text}; the pages USING.md, OPERATING.md, FAULTS.md and WORDS.md in {escaped(DOCS)}, and the examples there.\n")


def configuration():
    """archive.conf(5)."""
    made = head("archive.conf", "5", "archive.conf, box.conf \\- the configuration of a package archive")
    example = next(lines for kind, lines in parts(section("docs/USING.md", "An archive in five minutes")) if kind == "block")
    made += titled("Description", body(section("docs/USING.md", "The configuration")))
    made += titled("Example", block("\n".join(example)))
    made += "".join(titled(it, body(section("docs/USING.md", it))) for it in CONFIGURATION)
    made += titled("Another configuration", body(section("docs/OPERATING.md", "Another configuration")))
    made += titled("Faults", body(section("docs/FAULTS.md", FAULTS_OF_CONFIGURATIONS)))
    return made + see("archive(1)")


def helper(name):
    """The manual of a helper, which is what it says of itself."""
    words = [sys.executable, ROOT / "bin" / name, "--help"]
    first, _, text = subprocess.run(words, check=True, capture_output=True, text=True).stdout.partition("\n\n")
    usage, _, text = text.partition("\n\n")
    what = escaped(first[0].lower() + first[1:].rstrip("."))
    made = head(name, "1", f"{name}, boqitsel\\-{name.replace('_', chr(92) + '-')} \\- {what}")
    made += titled("Synopsis", "".join(f".B {escaped(line.strip())}\n.br\n" for line in usage.splitlines())) + titled("Description", f"{body(text)}.PP\n{NAMES}")
    return made + see("archive(1)", "archive.conf(5)")


MANUALS = {
    "archive.1": archive,
    "archive.conf.5": configuration,
    "upload.1": lambda: helper("upload"),
    "with_sidecars.1": lambda: helper("with_sidecars"),
    "adopt.1": lambda: helper("adopt"),
    "backup.1": lambda: helper("backup"),
}


def main(words):
    if len(words) != 1 or words[0].startswith("-"):
        print("usage: manuals.py FOLDER", file=sys.stderr)
        return 2
    folder = pathlib.Path(words[0])
    folder.mkdir(parents=True, exist_ok=True)
    for name, made in MANUALS.items():
        (folder / name).write_text(made(), encoding="utf-8")
    return 0


if __name__ == "__main__":
    sys.exit(main(sys.argv[1:]))

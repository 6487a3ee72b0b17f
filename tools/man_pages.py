"""Manual pages, made from what programs say for --help, or from a Markdown text with tables."""
import re


def escaped(text):
    """A text as roff shows it."""
    text = text.replace("\\", "\\e").replace("-", "\\-")
    return "\n".join("\\&" + line if line[:1] in (".", "'") else line for line in text.split("\n"))


def head(name, what):
    return [f'.TH {name.upper()} 1 "" screenrec', ".SH NAME", f"{escaped(name)} \\- {escaped(what)}"]


def first_sentence(text):
    """What a page says of its program in a line: the first sentence, without its full stop."""
    sentence = " ".join(text.split()).split(". ")[0].rstrip(".")
    return sentence[:1].lower() + sentence[1:]


def entries(lines):
    """(words, text) of a list of options as argparse prints it: two columns, of which the first may fill a line."""
    found = []
    for line in lines:
        option = re.match(r"  (\S.*?)(?:  +(\S.*))?$", line)
        if option and not line.startswith("   "):
            found.append([option[1], option[2] or ""])
        elif found and line.strip():
            found[-1][1] = f"{found[-1][1]} {line.strip()}".strip()
    return found


def from_help(name, text):
    """The page of a program whose --help has a usage, paragraphs, and lists under a word with a colon."""
    usage, *rest = re.split(r"\n\n+", text.strip())
    usage = re.sub(r"^usage: ", "", usage)
    page = head(name, first_sentence(rest[0])) + [".SH SYNOPSIS", ".nf", escaped(re.sub(r"(?m)^ +", "", usage)), ".fi", ".SH DESCRIPTION"]
    for piece in rest:
        lines = piece.split("\n")
        if re.fullmatch(r"[a-z ]+:", lines[0]):
            page.append(f".SH {lines[0][:-1].upper()}")
            for words, meaning in entries(lines[1:]):
                page += [".TP", f"\\fB{escaped(words)}\\fR", escaped(meaning) or "\\&"]
        else:
            page += [".PP", escaped(" ".join(piece.split()))]
    return "\n".join(page) + "\n"


def plain(text):
    """Markdown's words without its marks."""
    return re.sub(r"[`*]", "", text)


def from_markdown(name, what, text):
    """The page of a program that a section of a Markdown document tells of: its paragraphs, and its tables as lists."""
    page = head(name, what) + [".SH DESCRIPTION"]
    for piece in re.split(r"\n\n+", text.strip()):
        lines = piece.split("\n")
        if lines[0].startswith("|"):
            for line in lines[2:]:
                first, *cells = (escaped(plain(cell.strip())) for cell in line.strip("|").split("|"))
                # A last column says what is built.
                page += [".TP", f"\\fB{first}\\fR", "; ".join(cell for cell in cells if cell not in ("", "yes")) or "\\&"]
        elif lines[0].startswith("#"):
            page.append(f".SH {escaped(plain(lines[0].strip('# ').upper()))}")
        else:
            page += [".PP", escaped(plain(" ".join(piece.split())))]
    return "\n".join(page) + "\n"

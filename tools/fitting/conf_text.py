"""The lines of a slurm.conf and the pairs on them, as slurm.conf(5) has them."""
import dataclasses
import os
import re

PAIR = re.compile(r'\s*([A-Za-z0-9_.]+)\s*[-*+/]?=\s*(?:"([^"]*)"|(\S+))(?=\s|\Z)')
INCLUDE = re.compile(r"\s*include\s+(\S+)\s*\Z", re.IGNORECASE)
MOST_INCLUDES = 16


@dataclasses.dataclass
class Line:
    """A logical line: where it begins, its pairs, and the comment that ends it."""
    place: object
    pairs: list
    comment: str


def decoded(data, report, place):
    """A line's bytes as text."""
    try:
        return data.decode("utf-8")
    except UnicodeDecodeError:
        report.replaced(place, "bytes that aren't UTF-8", "they are taken as Latin-1")
        return data.decode("latin-1")


def cut_comment(text):
    """A line before its comment, and the comment. A `#` behind a backslash or within quotes is plain."""
    quoted, at = False, 0
    while at < len(text):
        if text[at] == "\\" and text[at + 1:at + 2] == "#":
            at += 1
        elif text[at] == '"':
            quoted = not quoted
        elif text[at] == "#" and not quoted:
            return text[:at], text[at:].rstrip("\\ \t\r")
        at += 1
    return text, ""


def logical_lines(data, report):
    """Each logical line: the number of its first line, its text and its comment."""
    place, text = 1, ""
    for number, raw in enumerate(data.split(b"\n"), 1):
        if not text:
            place = number
        part, comment = cut_comment(decoded(raw, report, number).rstrip("\r"))
        ahead = part.rstrip()
        if ahead.endswith("\\") and not comment:
            text += ahead[:-1]
            continue
        yield place, (text + part).replace("\\#", "#"), comment
        text = ""
    if text:
        yield place, text, ""


def pairs_of(text, report, place):
    """The pairs of a line, and a fault for each word that is none."""
    pairs, at = [], 0
    while text[at:].strip():
        found = PAIR.match(text, at)
        if found:
            pairs.append((found[1], found[2] if found[2] is not None else found[3]))
            at = found.end()
            continue
        word = text[at:].split()[0]
        report.fault(
            place, word, "it isn't Key=Value, with a value that double quotes may enclose as a whole; left out")
        at = text.index(word, at) + len(word)
    return pairs


def included(name, path, cluster, report, place, depth):
    """The lines of the file that a line includes."""
    name = os.path.join(os.path.dirname(path), name.replace("%c", cluster))
    if depth == MOST_INCLUDES:
        report.fault(place, f"Include {name}", "files include each other too deeply; left out")
        return
    try:
        with open(name, "rb") as file:
            data = file.read()
    except OSError as error:
        report.fault(place, f"Include {name}", f"{error.strerror}; its lines are missing")
        return
    report.replaced(place, f"Include {name}", "its lines stand in the fitted file")
    for line in lines_of(data, name, report, depth + 1, cluster):
        line.place = place
        yield line


def lines_of(data, path, report, depth=0, cluster=""):
    """All lines of a file, those of the files that it includes at their places."""
    for place, text, comment in logical_lines(data, report):
        include = INCLUDE.match(text)
        if include:
            yield from included(include[1], path, cluster, report, place, depth)
            continue
        line = Line(place, pairs_of(text, report, place), comment)
        for key, value in line.pairs:
            cluster = value if key.lower() == "clustername" else cluster
        yield line


def write_pair(key, value):
    """A pair as the profile reads it."""
    if value == "" or re.search(r"[\s#]", value):
        return f'{key}="{value}"'
    return f"{key}={value}"

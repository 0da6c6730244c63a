"""The lines of `sacctmgr dump` and of `sacctmgr -P show qos`, as sacctmgr(1) has them."""
import dataclasses
import re

KINDS = {"cluster": "Cluster", "parent": "Parent", "account": "Account", "user": "User", "qos": "QOS"}
HEAD = re.compile(r"\s*(\w+)\s*-\s*(?:'([^']*)'|\"([^\"]*)\"|([^:]*?))\s*(?::|\Z)")
OPTION = re.compile(r"([^:='\"]+)=((?:'[^']*'|\"[^\"]*\"|[^:'\"])*)(?::|\Z)")


@dataclasses.dataclass
class Line:
    """A line: what it speaks of, its name, and its options."""
    place: int
    kind: str
    name: str
    options: list


def options_of(text, report, place):
    """The options behind a name."""
    found, at = [], 0
    while at < len(text):
        option = OPTION.match(text, at)
        if option is None:
            cut = text.find(":", at)
            word = text[at:] if cut < 0 else text[at:cut]
            if word.strip():
                report.fault(place, word, "it isn't Key=Value; left out")
            at = len(text) if cut < 0 else cut + 1
            continue
        found.append((option[1].strip(), option[2].replace("'", "").replace('"', "").strip()))
        at = option.end()
    return found


def line_of(text, report, place):
    """What a line says; None where it is of no form."""
    head = HEAD.match(text)
    kind = KINDS.get(head[1].lower()) if head else None
    if kind is None:
        report.fault(
            place, text,
            "it is no line `Cluster - `, `Parent - `, `Account - `, `User - ` or `QOS - ` with a name; left out")
        return None
    name = next(part for part in head.groups()[1:] if part is not None)
    return Line(place, kind, name.strip(), options_of(text[head.end():], report, place))


def lines_of(data, report):
    """All lines that say something."""
    found = []
    for place, raw in enumerate(data.decode("utf-8", "replace").split("\n"), 1):
        text = raw.strip()
        line = None if not text or text.startswith("#") else line_of(text, report, place)
        if line:
            found.append(line)
    return found


def qos_rows(data, report):
    """The rows of `sacctmgr -P show qos` as lines of qualities of service."""
    rows = [raw.split("|") for raw in data.decode("utf-8", "replace").splitlines() if raw.strip()]
    if not rows or "Name" not in rows[0]:
        report.fault(
            0, "the rows of --qos",
            "they begin with no line of titles that has Name: `sacctmgr -P show qos` writes one; left out")
        return []
    titles = rows[0]
    found = []
    for place, row in enumerate(rows[1:], 2):
        said = {title: value for title, value in zip(titles, row) if value and (title, value) not in NORMAL}
        found.append(Line(place, "QOS", said.pop("Name", ""), list(said.items())))
    return found


# What `sacctmgr show qos` writes where nothing was set.
NORMAL = (("PreemptMode", "cluster"), ("UsageFactor", "1.000000"), ("GraceTime", "00:00:00"), ("Priority", "0"))


def quoted(value):
    """A value as the program reads it: in quotes unless it is plain."""
    return value if re.fullmatch(r"[A-Za-z0-9_.,=-]*", value) else f"'{value}'"

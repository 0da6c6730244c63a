"""Names, numbers and times: what the profile takes, and what stands for the rest."""
import re

NAME = re.compile(r"[A-Za-z0-9_.-]{1,64}\Z", re.ASCII)
MOST_MINUTES = 52_560_000
UNLIMITED = ("UNLIMITED", "INFINITE", "-1")

# The forms of a time as the profile has them: of the later fields hours to 23, minutes and seconds to 59.
TIME = re.compile(
    r"(?:\d{1,9}|\d{1,9}:[0-5]?\d|\d{1,9}:[0-5]?\d:[0-5]?\d"
    r"|\d{1,9}-(?:[01]?\d|2[0-3])(?::[0-5]?\d){0,2})\Z", re.ASCII)
LOOSE_TIME = re.compile(r"(?:(\d+)-)?(\d+)(?::(\d+))?(?::(\d+))?\Z", re.ASCII)


def is_name(text):
    """Whether a text is a name as nodes, users and accounts have one."""
    return NAME.match(text) is not None


def named(text):
    """A name in place of a text: another byte becomes `_`."""
    return re.sub(r"[^A-Za-z0-9_.-]", "_", text, flags=re.ASCII)[:64]


def number(text):
    """The number that a text writes, or None."""
    return int(text) if re.fullmatch(r"\d{1,18}", text, re.ASCII) else None


def seconds(text):
    """How long a time lasts, in seconds; None where it has no end or isn't a time."""
    found = LOOSE_TIME.match(text)
    if not found:
        return None
    days, first, second, third = found.groups()
    parts = [int(part or 0) for part in (first, second, third)]
    if days is not None:
        return int(days) * 86400 + parts[0] * 3600 + parts[1] * 60 + parts[2]
    if third is not None:
        return parts[0] * 3600 + parts[1] * 60 + parts[2]
    return parts[0] * 60 + parts[1]


def fit_time(text):
    """A time of the profile that stands for a text; None where it is no time."""
    if text.upper() in UNLIMITED:
        return "UNLIMITED" if text == "-1" else text
    length = seconds(text)
    if length is None:
        return None
    minutes = -(-length // 60)
    if minutes > MOST_MINUTES:
        return str(MOST_MINUTES)
    return text if TIME.match(text) else str(minutes)

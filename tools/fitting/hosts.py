"""Host expressions: those of Slurm, with brackets anywhere, and those of the profile, with one at an item's end."""
import re

MOST_NAMES = 1024


class BadHosts(Exception):
    """A text that is no host expression, or makes too many names."""


def items_of(text):
    """The items between the commas outside brackets."""
    return re.findall(r"(?:[^,\[\]]|\[[^\]]*\]?|\])+", text)


def numbers_of(inside):
    """The numbers in a bracket, each as it is written."""
    found = []
    for part in inside.split(","):
        ends = re.fullmatch(r"(\d{1,9})(?:-(\d{1,9}))?", part, re.ASCII)
        if not ends:
            raise BadHosts(f"[{inside}] has no numbers and ranges of them")
        first, last = int(ends[1]), int(ends[2] or ends[1])
        if last < first or last - first >= MOST_NAMES:
            raise BadHosts(f"{part} is a range of more than {MOST_NAMES} numbers, or falls")
        found += [str(n).zfill(len(ends[1])) for n in range(first, last + 1)]
    return found


def names_of_item(item):
    """The names that an item makes, its brackets from the left."""
    names = [""]
    for plain, inside in re.findall(r"([^\[\]]+)|\[([^\]]*)\]", item):
        endings = [plain] if plain else numbers_of(inside)
        names = [name + ending for name in names for ending in endings]
        if len(names) > MOST_NAMES:
            raise BadHosts(f"{item} makes more than {MOST_NAMES} names")
    if item.count("[") != item.count("]"):
        raise BadHosts(f"{item} has a bracket that isn't closed")
    return names


def expand(text):
    """The names of a host expression, each once, in their order."""
    names = [name for item in items_of(text) for name in names_of_item(item)]
    if not names:
        raise BadHosts("there is no name")
    return list(dict.fromkeys(names))


def cut_number(name):
    """A name as what stands before its trailing digits, and these; of a name without digits the digits are empty."""
    found = re.fullmatch(r"(.*?)(\d{0,9})", name, re.ASCII | re.DOTALL)
    return found[1], found[2]


def follows(last, text):
    """Whether a number is the one behind another, as a range of a bracket writes it."""
    return str(int(last) + 1).zfill(len(last)) == text


def ranges_of(digits):
    """Numbers as they stand between the commas of a bracket: neighbours joined."""
    runs = []
    for text in digits:
        if runs and follows(runs[-1][1], text):
            runs[-1][1] = text
        else:
            runs.append([text, text])
    return ",".join(first if first == last else f"{first}-{last}" for first, last in runs)


def write(names):
    """A host expression of the profile that makes these names in this order."""
    groups = []
    for name in names:
        prefix, digits = cut_number(name)
        if groups and digits and groups[-1][0] == prefix and groups[-1][1] != [""]:
            groups[-1][1].append(digits)
        else:
            groups.append((prefix, [digits]))
    return ",".join(prefix + (digits[0] if len(digits) == 1 else f"[{ranges_of(digits)}]") for prefix, digits in groups)

"""The partitions of a slurm.conf, fitted."""
from . import conf_keys as keys
from . import hosts, names

MOST_PARTITIONS = 64
STATES = ("UP", "DOWN", "DRAIN", "INACTIVE")
BOOLEANS = {"YES": "YES", "UP": "YES", "TRUE": "YES", "1": "YES", "NO": "NO", "DOWN": "NO", "FALSE": "NO", "0": "NO"}
NUMBERS = {
    "PriorityJobFactor": (0, 65_533), "PriorityTier": (0, 65_533), "MinNodes": (0, 4_294_967_295),
    "MaxNodes": (0, 4_294_967_295), "DefMemPerNode": (0, 16_777_216), "DefMemPerCPU": (0, 16_777_216),
}
# What a key without an end is.
WITHOUT_END = {"MaxNodes": "UNLIMITED", "DefMemPerNode": "0", "DefMemPerCPU": "0"}


class Partitions:
    """The partitions of a file, by their lines. `known` has what an association file names, where there is one."""

    def __init__(self, report, nodes, known):
        self.report = report
        self.nodes = nodes
        self.known = known
        self.sets = {}
        self.lines = []
        self.named = {}
        self.has_nodes = False

    def add_set(self, place, pairs):
        """Takes a line NodeSet: nodes by a feature, by their names, or both."""
        given = {key.lower(): value for key, value in pairs}
        self.sets[given["nodeset"]] = (place, given)
        self.report.replaced(
            place, f"NodeSet={given['nodeset']}", "its nodes by their names, where a partition names it")

    def set_nodes(self, name):
        """The nodes of a set, in the order of the file."""
        place, given = self.sets[name]
        found = self.nodes.with_feature(given["feature"]) if "feature" in given else []
        listed = self.expand(place, "Nodes", given["nodes"]) if "nodes" in given else []
        wanted = set(found + listed)
        return [node for node in self.nodes.all_names() if node in wanted]

    def expand(self, place, key, text):
        """The nodes of a text in which sets may be named; those that no line has are told and left out."""
        found = []
        for item in hosts.items_of(text):
            if item in self.sets:
                found += self.set_nodes(item)
                continue
            try:
                found += hosts.expand(item)
            except hosts.BadHosts as error:
                self.report.fault(place, f"{key}={item}", f"{error}; left out")
        strange = [name for name in found if name not in self.nodes.known]
        if strange:
            self.report.fault(place, f"{key}={hosts.write(strange)}", "no line of nodes names them; left out")
        return list(dict.fromkeys(name for name in found if name in self.nodes.known))

    def fit(self, line, whole_nodes):
        """The pairs that stand for a line of a partition; None where it goes."""
        place, name = line.place, line.pairs[0][1]
        is_default = name.upper() == "DEFAULT"
        fitted = {"PartitionName": "DEFAULT" if is_default else name}
        for key, value in line.pairs[1:]:
            fitted.update(self.put(place, key, value))
        self.deny(place, line.pairs[1:], fitted)
        if whole_nodes and is_default is False and "OverSubscribe" not in fitted:
            fitted["OverSubscribe"] = "EXCLUSIVE"
        if is_default:
            self.has_nodes = self.has_nodes or "Nodes" in fitted
            return list(fitted.items()) if len(fitted) > 1 else None
        return list(fitted.items()) if self.is_good(place, name, fitted) else None

    def is_good(self, place, name, fitted):
        """Whether a partition may stand: by its name, its nodes, and how many there are."""
        if not names.is_name(name):
            self.report.fault(
                place, f"PartitionName={name}",
                "a name has 1 to 64 letters, digits, `_`, `-` and `.`; the line is left out")
        elif name in self.named:
            self.report.fault(place, f"PartitionName={name}", f"line {self.named[name]} names it; the line is left out")
        elif "Nodes" not in fitted and not self.has_nodes:
            self.report.changed(
                place, f"PartitionName={name}",
                "it has no nodes: the line is left out, and nothing can be handed in there")
        elif len(self.named) == MOST_PARTITIONS:
            self.report.fault(
                place, f"PartitionName={name}", f"{MOST_PARTITIONS} partitions at most; the line is left out")
        else:
            self.named[name] = place
            return True
        return False

    def put(self, place, key, value):
        """The pairs that stand for one."""
        low = key.lower()
        if low == "shared":
            return self.put(place, "OverSubscribe", value)
        if low == "priority":
            self.report.replaced(place, f"{key}={value}", "PriorityJobFactor and PriorityTier")
            return {**self.put(place, "PriorityJobFactor", value), **self.put(place, "PriorityTier", value)}
        known = keys.PARTITIONS.get(low)
        if known is None or known == "AllowGroups":
            return self.unknown(place, key, value)
        if known in keys.PARTITION_PASSED:
            return {known: value.replace('"', "'")}
        return self.read(place, known, value)

    def unknown(self, place, key, value):
        """A key that the program doesn't have, or whose rule it can't keep."""
        low = key.lower()
        for name, instead in {**keys.PARTITION_FAULTS, **keys.PARTITION_CHANGED}.items():
            if name.lower() != low:
                continue
            if value.upper() in ("NO", "ALL", "NONE", "", "0"):
                self.report.dropped(place, f"{key}={value}", "it is so here anyway")
            elif name in keys.PARTITION_FAULTS:
                self.report.fault(place, f"{key}={value}", instead)
            else:
                self.report.changed(place, f"{key}={value}", instead)
            return {}
        if low in [name.lower() for name in keys.PARTITION_DROPPED]:
            self.report.dropped(place, f"{key}={value}", "it decides nothing here")
        elif low not in ("denyaccounts", "denyqos"):
            self.report.fault(place, f"{key}={value}", "no key of a partition's line has this name; left out")
        return {}

    def read(self, place, key, value):
        """A key that the program reads."""
        if key == "Nodes":
            return self.read_nodes(place, value)
        if key in ("MaxTime", "DefaultTime"):
            return self.read_time(place, key, value)
        if key in NUMBERS:
            return self.read_number(place, key, value)
        if key in ("AllowAccounts", "AllowQos"):
            return self.read_names(place, key, value)
        if key == "Default":
            return self.one_of(place, key, value, BOOLEANS)
        if key == "State":
            return self.one_of(place, key, value, {state: state for state in STATES})
        return self.sharing(place, key, value)

    def read_nodes(self, place, value):
        """The nodes of a partition."""
        if value.upper() == "ALL":
            return {"Nodes": "ALL"}
        found = self.expand(place, "Nodes", value)
        if not found:
            return {}
        as_it_is = not any(item in self.sets for item in hosts.items_of(value)) and is_plain(value)
        return {"Nodes": value if as_it_is and hosts.expand(value) == found else hosts.write(found)}

    def read_time(self, place, key, value):
        """A time limit."""
        if key == "DefaultTime" and value.upper() == "NONE":
            return {}
        fitted = names.fit_time(value)
        if fitted is None:
            self.report.fault(place, f"{key}={value}", "it is no time; left out")
            return {}
        if fitted != value and value.upper() not in names.UNLIMITED:
            self.report.replaced(place, f"{key}={value}", fitted)
        return {key: fitted}

    def read_number(self, place, key, value):
        """A number, the nearest of those that the program takes."""
        if value.upper() in names.UNLIMITED and key in WITHOUT_END:
            return {key: WITHOUT_END[key]}
        least, most = NUMBERS[key]
        given = names.number(value)
        if given is None:
            self.report.fault(place, f"{key}={value}", f"it isn't a number from {least} to {most:,}; left out")
            return {}
        if given > most:
            self.report.changed(place, f"{key}={value}", f"{most} is the nearest that is taken")
        return {key: str(min(given, most))}

    def read_names(self, place, key, value):
        """Accounts or qualities of service that may use a partition."""
        if value.upper() == "ALL":
            return {key: "ALL"}
        parts = [part for part in value.split(",") if part]
        bad = [part for part in parts if not names.is_name(part)]
        if bad:
            self.report.fault(place, f"{key}={','.join(bad)}", "these are no names; left out")
        kept = [part for part in parts if part not in bad]
        if not kept:
            self.report.fault(place, f"{key}={value}", "nobody is left: the partition is INACTIVE")
            return {"State": "INACTIVE"}
        return {key: ",".join(kept)}

    def one_of(self, place, key, value, words):
        """A word of a list."""
        if value.upper() in words:
            return {key: words[value.upper()]}
        self.report.fault(place, f"{key}={value}", f"{', '.join(sorted(set(words.values())))} are known; left out")
        return {}

    def sharing(self, place, key, value):
        """Whether jobs have their nodes for themselves."""
        kind, _, most = value.upper().partition(":")
        if kind == "EXCLUSIVE":
            return {key: "EXCLUSIVE"}
        if kind in ("FORCE", "YES"):
            told = self.report.replaced if most == "1" or kind == "YES" else self.report.changed
            told(place, f"{key}={value}", "OverSubscribe=NO: no processor is given out twice")
        elif kind != "NO":
            self.report.fault(place, f"{key}={value}", "NO and EXCLUSIVE are known; left out")
            return {}
        return {key: "NO"}

    def deny(self, place, pairs, fitted):
        """Who may use a partition, from who may not."""
        given = {key.lower(): value for key, value in pairs}
        for deny, key, known in (("DenyAccounts", "AllowAccounts", "accounts"), ("DenyQos", "AllowQos", "qos")):
            if deny.lower() not in given or key in fitted:
                continue
            denied = given[deny.lower()].split(",")
            allowed = [name for name in self.known.get(known, []) if name not in denied]
            if allowed:
                fitted[key] = ",".join(allowed)
                self.report.replaced(
                    place, f"{deny}={','.join(denied)}", f"{key}={fitted[key]}: all others that there are now")
            else:
                self.report.fault(
                    place, f"{deny}={','.join(denied)}",
                    f"{key} with all others stands for it (--assoc tells which there are); as it is, all may use it")


def is_plain(text):
    """Whether each item of a host expression is as the profile has it: one bracket at most, at its end."""
    return all(item.count("[") <= 1 and ("[" not in item or item.endswith("]")) for item in hosts.items_of(text))

"""The text of `sacctmgr dump`, made into an association file that the program reads."""
import re

from . import assoc_keys as keys
from . import assoc_text, names

MOST_USERS, MOST_CHILDREN, MOST_DEPTH, MOST_QOS, LONGEST = 4096, 256, 16, 64, 4_194_304
CPU = re.compile(r"(?:cpu|1)[=:](-?\d+)\Z", re.IGNORECASE)


class Assocs:
    """What a dump's lines say, taken in one after the other."""

    def __init__(self, report):
        self.report = report
        self.parent = "root"
        self.depths = {"root": 0}
        self.children = {}
        self.users = set()
        self.accounts = []
        self.cluster = None
        self.inherited = {}
        self.qos = {}
        self.wanted = []
        self.preempting = []
        self.rows = []

    def take(self, line):
        """Takes in a line, by what it speaks of."""
        if not names.is_name(line.name):
            self.report.fault(
                line.place, f"{line.kind} - '{line.name}'",
                "a name has 1 to 64 letters, digits, `_`, `-` and `.`; left out")
            self.parent = None if line.kind == "Parent" else self.parent
        else:
            getattr(self, f"take_{line.kind.lower()}")(line)

    def take_cluster(self, line):
        """The cluster: its limits count for the accounts below root that have none."""
        if self.cluster is not None:
            self.report.fault(line.place, f"Cluster - '{line.name}'", "one cluster at most; left out")
            return
        self.cluster = line.name
        own = self.options(line, "Account")
        self.inherited = {key: own.pop(key) for key in ("MaxJobs", "MaxSubmitJobs") if key in own}
        for key in self.inherited:
            self.report.replaced(
                line.place, f"{key}={self.inherited[key]}", "it stands on each account below root that has none")
        for key in ("GrpJobs", "GrpSubmitJobs", "GrpTRES"):
            if key in own:
                self.report.changed(
                    line.place, f"{key}={own.pop(key)}",
                    "a cluster has no limits: an account above all others that has them stands for it")

    def take_parent(self, line):
        """The account of the lines that follow."""
        if line.name not in self.depths:
            self.report.fault(
                line.place, f"Parent - '{line.name}'",
                "no earlier line names this account; the lines under it are left out")
            self.parent = None
            return
        self.parent = line.name
        self.rows.append((line.place, f"Parent - '{line.name}'", {}))

    def take_account(self, line):
        """An account under the parent at hand."""
        if line.name == "root":
            self.report.dropped(line.place, "Account - 'root'", "root is there by itself, without limits")
            return
        if line.name in self.depths:
            self.report.fault(line.place, f"Account - '{line.name}'", "an earlier line names it; left out")
            return
        if not self.has_room(line):
            return
        own = self.options(line, "Account")
        if self.parent == "root":
            own = {**self.inherited, **own}
        self.depths[line.name] = self.depths[self.parent] + 1
        self.accounts.append(line.name)
        self.add(line, own)

    def take_user(self, line):
        """A user of the account at hand."""
        partition = next((value for key, value in line.options if key.lower() == "partition"), None)
        if (self.parent, line.name) in self.users:
            told = self.report.changed if partition else self.report.fault
            told(
                line.place, f"User - '{line.name}' of {self.parent}",
                "its first line stands for all: an association is of all partitions; left out")
            return
        if partition:
            self.report.changed(
                line.place, f"User - '{line.name}', Partition={partition}",
                "an association of all partitions; AllowAccounts keeps accounts apart")
        if self.has_room(line):
            self.users.add((self.parent, line.name))
            self.add(line, self.options(line, "User"))

    def take_qos(self, line):
        """A quality of service, which a dump of sacctmgr itself doesn't have."""
        if line.name in self.qos or len(self.qos) == MOST_QOS:
            self.report.fault(
                line.place, f"QOS - '{line.name}'",
                f"an earlier line names it, or there are more than {MOST_QOS}; left out")
            return
        self.qos[line.name] = self.options(line, "QOS")

    def has_room(self, line):
        """Whether an account or a user may stand where it stands."""
        if self.parent is None:
            self.report.fault(
                line.place, f"{line.kind} - '{line.name}'", "it stands under an account that isn't there; left out")
            return False
        full = ((self.children.get(self.parent, 0) >= MOST_CHILDREN,
                 f"{MOST_CHILDREN} accounts and users under {self.parent} at most"),
                (self.depths[self.parent] >= MOST_DEPTH, f"{MOST_DEPTH} levels at most"),
                (line.kind == "User" and len(self.users) >= MOST_USERS, f"{MOST_USERS:,} users at most"))
        for is_full, why in full:
            if is_full:
                self.report.fault(line.place, f"{line.kind} - '{line.name}'", f"{why}; left out")
                return False
        return True

    def add(self, line, own):
        """Notes an account or a user."""
        self.children[self.parent] = self.children.get(self.parent, 0) + 1
        self.rows.append((line.place, f"{line.kind} - '{line.name}'", own))

    def options(self, line, kind):
        """A line's options, fitted."""
        fitted = {}
        for key, value in line.options:
            fitted.update(self.option(line.place, kind, key, value))
        return fitted

    def option(self, place, kind, key, value):
        """The options that stand for one."""
        low = key.lower().rstrip("+-")
        if low in ("qos", "defaultqos") and kind != "QOS":
            self.wanted += [name.lstrip("+-") for name in value.split(",")]
            return {}
        if low in keys.SILENT:
            return {}
        name = keys.READ[kind].get(low)
        if name is None:
            self.unknown(place, low, key, value)
            return {}
        if value in ("", "-1"):
            return {}
        return self.read(place, name, key, value)

    def unknown(self, place, low, key, value):
        """An option that the program doesn't have."""
        if value in ("", "-1", "0") and low in keys.CHANGED:
            self.report.dropped(place, f"{key}={value}", "it is so here anyway")
        elif low in keys.CHANGED:
            self.report.changed(place, f"{key}={value}", keys.CHANGED[low])
        else:
            self.report.fault(place, f"{key}={value}", "no option has this name; left out")

    def read(self, place, name, key, value):
        """An option that the program reads."""
        if name == "DefaultAccount":
            return {name: value} if names.is_name(value) else {}
        if name in ("GrpTRES", "MaxTRESPerUser"):
            return self.processors(place, name, key, value)
        if name == "MaxWall":
            return self.wall(place, name, value)
        if name == "Preempt":
            return self.preempted(place, name, key, value)
        if name == "Fairshare" and value.lower() == "parent":
            self.report.changed(place, f"{key}=parent", "Fairshare=1: each user has a share of its own")
            return {}
        most = keys.MOST.get(name, 9_999_999_999)
        given = names.number(value)
        if given is None:
            self.report.fault(place, f"{key}={value}", "it is no number; left out")
            return {}
        if given > most:
            self.report.changed(place, f"{key}={value}", f"{most} is the nearest that is taken")
        return {name: str(min(given, most))}

    def wall(self, place, name, value):
        """The longest time of a job."""
        fitted = names.fit_time(value)
        if fitted is None:
            self.report.fault(place, f"{name}={value}", "it is no time; left out")
            return {}
        return {name: fitted}

    def preempted(self, place, name, key, value):
        """The qualities of service whose jobs go for those of one."""
        given = [one for one in value.split(",") if one]
        known = [one for one in given if names.is_name(one)]
        if known != given:
            self.report.fault(
                place, f"{key}={value}", "names of qualities of service between commas; the others are left out")
        self.preempting += [(self.report, place, one) for one in known]
        return {name: ",".join(known)} if known else {}

    def processors(self, place, name, key, value):
        """A limit of trackable resources: processors are the one that is counted."""
        parts = value.split(",") if re.search("[=:]", value) else [f"cpu={value}"]
        found = [CPU.match(part) for part in parts]
        gone = [part for part, cpu in zip(parts, found) if not cpu and not part.endswith("=-1")]
        if gone:
            self.report.changed(place, f"{key}={','.join(gone)}", "processors alone are counted: cpu=N")
        counts = [cpu[1] for cpu in found if cpu and not cpu[1].startswith("-")]
        return {name: f"cpu={min(int(counts[-1]), 9_999_999_999)}"} if counts else {}

    def add_wanted(self, also):
        """The qualities of service that are named somewhere, and of which nothing is known."""
        for name in dict.fromkeys(self.wanted + also):
            if name in self.qos or name in ("", "normal") or name.upper() == "ALL" or not names.is_name(name):
                continue
            if len(self.qos) < MOST_QOS - 1:
                self.qos[name] = {}
                self.report.changed(
                    0, f"QOS {name}",
                    "QOS without limits and of priority 0: a dump has none (--qos takes `sacctmgr -P show qos`)")
        self.keep_known()
        if any(name not in ("", "normal") for name in self.wanted):
            self.report.changed(
                0, "QOS lists of accounts and users",
                "everybody may use each QOS; AllowQos of a partition keeps them apart, and -q asks for one")


    def keep_known(self):
        """Takes out of each Preempt what is no quality of service of the file."""
        for own in self.qos.values():
            given = own.get("Preempt", "").split(",")
            own["Preempt"] = ",".join(name for name in given if name == "normal" or name in self.qos)
            if not own["Preempt"]:
                del own["Preempt"]
        for report, place, name in self.preempting:
            if name != "normal" and name not in self.qos:
                report.fault(place, f"Preempt of {name}", "no quality of service has this name; left out")


def write(name, options):
    """A line of the fitted file."""
    return name + "".join(f":{key}={assoc_text.quoted(value)}" for key, value in options.items())


def fit_assocs(text, report, qos_rows, qos_report, also):
    """The text that stands for a dump, and what it names. The rows of --qos have a report of their own."""
    made = Assocs(qos_report)
    for line in qos_rows:
        made.take(line)
    made.report = report
    for line in assoc_text.lines_of(text, report):
        made.take(line)
    made.add_wanted(also)
    if made.cluster is None:
        report.changed(0, "no line of the cluster", "Cluster - 'cluster'")
    lines = [f"Cluster - '{made.cluster or 'cluster'}'"]
    lines += [write(f"QOS - '{name}'", options) for name, options in made.qos.items()]
    lines += [write(name, options) for _, name, options in made.rows]
    fitted = "".join(f"{line}\n" for line in lines)
    if len(fitted) > LONGEST:
        report.fault(0, f"{len(fitted):,} bytes", f"{LONGEST:,} at most")
    return fitted, made

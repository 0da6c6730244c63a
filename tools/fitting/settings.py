"""The lines of settings of a slurm.conf, fitted."""
from . import conf_keys as keys
from . import names

MOST_SCHEDULER = {"bf_window": (1, 43_200), "bf_interval": (1, 10_800)}
WITH_MEMORY = ("CR_CPU_MEMORY", "CR_CORE_MEMORY", "CR_SOCKET_MEMORY", "CR_MEMORY")
KNOWN_SELECT = WITH_MEMORY[:2] + ("CR_CPU", "CR_CORE")


class Settings:
    """What a file's settings say together, as far as other lines rest on it."""

    def __init__(self, report):
        self.report = report
        self.whole_nodes = False
        self.memory_counts = None
        self.by_cores = False
        self.mem_default = False
        self.enforced = None
        self.basic = False
        self.typed = False

    def fit(self, place, key, value):
        """The pair that stands for one; None where it goes."""
        known = keys.SETTINGS.get(key.lower())
        if known is None:
            return self.unknown(place, key, value)
        if known in keys.NUMBERS:
            return self.number(place, known, value)
        if known in keys.PASSED:
            return self.passed(place, known, value)
        return getattr(self, known.lower())(place, known, value)

    def unknown(self, place, key, value):
        """A key that the program doesn't have."""
        for name, instead in keys.CHANGED.items():
            if name.lower() == key.lower():
                if value.upper() == keys.AS_HERE.get(name, "\0").upper():
                    self.report.dropped(place, f"{key}={value}", "it is so here anyway")
                else:
                    self.report.changed(place, f"{key}={value}", instead)
                return None
        why = keys.DROPPED.get(key.lower())
        if why is None:
            self.report.fault(place, f"{key}={value}", "no key of slurm.conf has this name; left out")
        else:
            self.report.dropped(place, f"{key}={value}", why)
        return None

    def passed(self, place, key, value):
        """A key with any value."""
        if key == "AccountingStorageEnforce":
            self.enforced = (place, value.lower())
        if '"' in value:
            self.report.replaced(place, f"{key}={value}", "its quotes became single ones")
        return key, value.replace('"', "'")

    def number(self, place, key, value):
        """A key with a number: the nearest of those that the program takes."""
        least, most = keys.NUMBERS[key]
        if key.startswith("DefMem"):
            self.mem_default = True
            value = "0" if value.upper() in names.UNLIMITED else value
        given = names.number(value)
        if given is None:
            self.report.fault(place, f"{key}={value}", f"it isn't a number from {least:,} to {most:,}; left out")
            return None
        if self.basic and key.startswith("PriorityWeight"):
            self.report.replaced(place, f"{key}={value}", "0: with priority/basic it has no effect")
            return None
        fitted = min(max(given, least), most)
        if fitted != given:
            self.report.changed(place, f"{key}={value}", f"{fitted} is the nearest that is taken")
        return key, str(fitted)

    def slurmuser(self, place, key, value):
        """The user of the controller, who may do what root may."""
        if not names.is_name(value):
            self.report.fault(place, f"{key}={value}", "it is no name; root alone may do what this user may")
            return None
        if value.isdigit():
            self.report.fault(place, f"{key}={value}", "users are known by their names: write the name of this number")
        return key, value

    def prioritytype(self, place, key, value):
        """How jobs are ranked."""
        self.typed = True
        if value.lower() not in ("priority/multifactor", "priority/basic"):
            self.report.changed(place, f"{key}={value}", "priority/multifactor")
        elif value.lower() == "priority/basic":
            self.report.replaced(
                place, f"{key}={value}", "priority/multifactor with weights of 0: the order of submission")
        return key, "priority/multifactor"

    def prioritydecayhalflife(self, place, key, value):
        """How usage is forgotten."""
        if names.seconds(value) != 0:
            self.report.changed(place, f"{key}={value}", "0: usage isn't forgotten while the server runs")
        return key, "0"

    def prioritymaxage(self, place, key, value):
        """When a job's age counts in full."""
        fitted = names.fit_time(value)
        if fitted is None:
            self.report.fault(place, f"{key}={value}", "it is no time; 7-0 stands, as without the key")
            return None
        if fitted.upper() in names.UNLIMITED or names.seconds(fitted) == 0:
            fitted = "1" if names.seconds(value) == 0 else str(names.MOST_MINUTES)
        if fitted != value:
            self.report.replaced(place, f"{key}={value}", fitted)
        return key, fitted

    def only(self, place, key, value, word, why):
        """The one word that the profile has for a key."""
        if value.lower() != word:
            self.report.changed(place, f"{key}={value}", f"{word}: {why}")
        return key, word

    def schedulertype(self, place, key, value):
        """How a plan is made."""
        return self.only(
            place, key, value, "sched/backfill", "a job may start before one of higher rank that it doesn't delay")

    def schedulerparameters(self, place, key, value):
        """The window and the interval of plans; all else goes."""
        kept, gone = [], []
        for item in filter(None, value.split(",")):
            name, _, text = item.partition("=")
            bounds = MOST_SCHEDULER.get(name.lower())
            given = names.number(text)
            if bounds is None:
                gone.append(item)
                continue
            fitted = min(max(given or 0, bounds[0]), bounds[1])
            if fitted != given:
                self.report.changed(place, f"{key}={item}", f"{name.lower()}={fitted}")
            kept.append(f"{name.lower()}={fitted}")
        if gone:
            self.report.dropped(place, f"{key}={','.join(gone)}", "a plan is of all jobs, at their exact seconds")
        return (key, ",".join(kept)) if kept else None

    def selecttype(self, place, key, value):
        """What is given out."""
        kind = value.lower()
        if kind == "select/linear":
            self.whole_nodes = True
            self.report.replaced(
                place, f"{key}={value}", "select/cons_tres, and OverSubscribe=EXCLUSIVE in each partition")
        elif kind == "select/cons_res":
            self.report.replaced(place, f"{key}={value}", "select/cons_tres")
        elif kind != "select/cons_tres":
            self.report.changed(place, f"{key}={value}", "select/cons_tres: each processor and megabyte by itself")
        return key, "select/cons_tres"

    def selecttypeparameters(self, place, key, value):
        """Whether memory counts, and whether cores are given out whole."""
        parts = [part for part in value.upper().split(",") if part]
        self.memory_counts = any(part in WITH_MEMORY for part in parts)
        self.by_cores = any(part.startswith(("CR_CORE", "CR_SOCKET")) and not part.endswith("BLOCK") for part in parts)
        fitted = "CR_CPU_Memory" if not self.by_cores else "CR_Core_Memory"
        gone = [part for part in parts if part not in KNOWN_SELECT]
        if any(part.startswith("CR_SOCKET") for part in gone):
            self.report.changed(
                place, f"{key}={value}", f"{fitted}: processors are given out one by one, and no whole sockets")
        elif gone:
            self.report.changed(place, f"{key}={value}", f"{fitted}; nothing stands for {','.join(gone)}")
        elif parts and fitted.upper() != parts[0]:
            self.report.replaced(place, f"{key}={value}", fitted)
        return key, fitted

    def preempttype(self, place, key, value):
        """By what it is decided which jobs go for others."""
        if value.lower() == "preempt/qos":
            return key, "preempt/qos"
        return self.only(
            place, key, value, "preempt/none",
            "PriorityTier says who is planned first, and Preempt of a QOS (preempt/qos) whose jobs go for others")

    def preemptmode(self, place, key, value):
        """What becomes of jobs that go for others."""
        modes = value.upper().split(",")
        fitted = "REQUEUE" if "REQUEUE" in modes else "OFF"
        gone = [mode for mode in modes if mode not in ("REQUEUE", "OFF")]
        if gone:
            self.report.changed(
                place, f"{key}={value}", f"{fitted}: a job that goes for another is requeued, and nothing else")
        elif value != fitted:
            self.report.replaced(place, f"{key}={value}", fitted)
        return key, fitted

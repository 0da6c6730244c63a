"""The nodes of a slurm.conf, fitted."""
import dataclasses

from . import conf_keys as keys
from . import hosts, names

MOST_NODES = 1024
MOST_CPUS = 1024
MOST_MEMORY = 16_777_216
MOST_WEIGHT = 4_294_967_280
STATES = {"UNKNOWN": "UNKNOWN", "DOWN": "DOWN", "DRAIN": "DRAIN", "FAIL": "DRAIN", "FAILING": "DRAIN", "FUTURE": "DOWN",
          "CLOUD": "UNKNOWN", "IDLE": "UNKNOWN", "DRAINED": "DRAIN", "DRAINING": "DRAIN"}
SYSTEM = {"corespeccount": "CoreSpecCount", "cpuspeclist": "CpuSpecList", "memspeclimit": "MemSpecLimit"}
PARTS = ("Boards", "Sockets", "CoresPerSocket", "ThreadsPerCore")
ALIASES = {"procs": "CPUs", "feature": "Features", "socketsperboard": "Sockets"}


@dataclasses.dataclass
class NodeLine:
    """A line of nodes: whether it is one of defaults, its names, its own pairs, and those with the defaults."""
    place: object
    is_default: bool
    names: list
    own: dict
    all: dict
    comment: str


class Nodes:
    """The nodes of a file, by their lines."""

    def __init__(self, report):
        self.report = report
        self.defaults = {}
        self.lines = []
        self.known = {}
        self.states = {}
        self.downed = []

    def add(self, line):
        """Takes a line that begins with NodeName."""
        place, pairs = line.place, line.pairs
        own = {}
        for key, value in pairs[1:]:
            self.put(place, own, key, value)
        if pairs[0][1].upper() == "DEFAULT":
            self.defaults.update(own)
            made = NodeLine(place, True, [], own, dict(self.defaults), line.comment)
        else:
            made = NodeLine(
                place, False, self.new_names(place, pairs[0][1]), own, {**self.defaults, **own}, line.comment)
        self.system(place, made)
        self.lines.append(made)
        return made

    def new_names(self, place, text):
        """The nodes that a line names for the first time."""
        try:
            found = hosts.expand(text)
        except hosts.BadHosts as error:
            self.report.fault(place, f"NodeName={text}", f"{error}; the line is left out")
            return []
        bad = [name for name in found if not names.is_name(name)]
        twice = [name for name in found if name in self.known]
        fresh = [name for name in found if name not in self.known and name not in bad]
        room = MOST_NODES - len(self.known)
        if bad:
            self.report.fault(
                place, f"NodeName={bad[0]}", "a name has 1 to 64 letters, digits, `_`, `-` and `.`; left out")
        if twice:
            self.report.fault(
                place, f"NodeName={hosts.write(twice)}", f"line {self.known[twice[0]].place} names it; left out")
        if len(fresh) > room:
            self.report.fault(
                place, f"NodeName={text}", f"{MOST_NODES:,} nodes at most; {hosts.write(fresh[room:])} left out")
        return fresh[:room]

    def settle(self, made):
        """Notes which line has each of its nodes."""
        for name in made.names:
            self.known[name] = made

    def put(self, place, own, key, value):
        """Takes one pair of a line."""
        low = key.lower()
        if low in SYSTEM or low in ALIASES or low in keys.NODES:
            known = ALIASES.get(low) or SYSTEM.get(low) or keys.NODES[low]
            fitted = fit_value(self, place, known, value)
            if fitted is not None:
                own[known] = fitted
            return
        for name, instead in keys.NODE_CHANGED.items():
            if name.lower() == low:
                self.report.changed(place, f"{key}={value}", instead)
                return
        if low in [name.lower() for name in keys.NODE_DROPPED]:
            self.report.dropped(place, f"{key}={value}", "it decides nothing here")
        else:
            self.report.fault(place, f"{key}={value}", "no key of a node's line has this name; left out")

    def system(self, place, made):
        """Takes what is kept for the system off the processors and the memory."""
        taken, memory = kept_for_system(made.all)
        for key in [key for key in SYSTEM.values() if key in made.own]:
            self.report.replaced(place, f"{key}={made.own.pop(key)}", "it is taken off the CPUs or the RealMemory")
        if made.names and taken:
            made.own["CPUs"] = made.all["CPUs"] = str(max(1, self.cpus(made.all) - taken))
        given = names.number(made.all.get("RealMemory", ""))
        if made.names and memory and given:
            made.own["RealMemory"] = made.all["RealMemory"] = str(max(1, given - memory))

    @staticmethod
    def cpus(pairs):
        """The processors of a node: as they are given, or the product of its parts."""
        if "CPUs" in pairs:
            return names.number(pairs["CPUs"])
        product = 1
        for key in PARTS:
            product *= names.number(pairs.get(key, "1"))
        return product

    def down(self, place, pairs):
        """Takes a line DownNodes: how nodes of other lines begin."""
        given = {key.lower(): value for key, value in pairs}
        state = self.state(place, given.get("state", "DOWN"))
        try:
            found = hosts.expand(given["downnodes"])
        except hosts.BadHosts as error:
            self.report.fault(place, f"DownNodes={given['downnodes']}", f"{error}; left out")
            return
        self.states.update({name: (place, state) for name in found})
        self.downed.append((place, found))
        self.report.replaced(place, f"DownNodes={given['downnodes']}", f"State={state} on the line of these nodes")

    def tell_strange(self):
        """Tells the nodes of lines DownNodes that no line has."""
        for place, found in self.downed:
            strange = [name for name in found if name not in self.known]
            if strange:
                self.report.fault(place, f"DownNodes={hosts.write(strange)}", "no line of nodes names them; left out")

    def state(self, place, text):
        """How a node begins."""
        plain = text.upper().rstrip("*")
        if plain not in STATES:
            self.report.fault(place, f"State={text}", "UNKNOWN, DOWN and DRAIN are known; UNKNOWN stands")
            return "UNKNOWN"
        if STATES[plain] != plain:
            told = self.report.replaced if plain != "CLOUD" else self.report.changed
            told(place, f"State={text}", f"State={STATES[plain]}")
        return STATES[plain]

    def with_feature(self, feature):
        """The nodes that have a feature, in the order of the file."""
        return [name for line in self.lines for name in line.names
                if feature in (line.all.get("Features") or "").split(",")]

    def all_names(self):
        """All nodes in the order of the file."""
        return [name for line in self.lines for name in line.names]


def kept_for_system(pairs):
    """The processors and the megabytes of a node that jobs don't get."""
    threads = names.number(pairs.get("ThreadsPerCore", "1")) or 1
    cores = names.number(pairs.get("CoreSpecCount", "0")) or 0
    memory = names.number(pairs.get("MemSpecLimit", "0")) or 0
    try:
        listed = len(hosts.numbers_of(pairs["CpuSpecList"])) if "CpuSpecList" in pairs else 0
    except hosts.BadHosts:
        listed = 0
    return listed or cores * threads, memory


def bounded(report, place, key, value, bounds):
    """A number of a node's line, the nearest of those that the program takes; None where it is none."""
    given = names.number(value)
    if given is None and value.upper() in names.UNLIMITED:
        given = bounds[1]
    if given is None:
        report.fault(place, f"{key}={value}", "it is no number; left out")
        return None
    fitted = min(max(given, bounds[0]), bounds[1])
    if fitted != given:
        report.changed(place, f"{key}={value}", f"{fitted} is the nearest that is taken")
    return str(fitted)


def fit_features(report, place, value):
    """Features as names between commas."""
    parts = [part for part in value.split(",") if part]
    fitted = [names.named(part) for part in parts]
    for part, name in zip(parts, fitted):
        if part != name:
            report.changed(place, f"Features={part}", f"the name {name}, by which jobs ask for it")
    return ",".join(fitted) or None


BOUNDS = {"CPUs": (1, MOST_CPUS), "RealMemory": (1, MOST_MEMORY), "Weight": (0, MOST_WEIGHT)}


def fit_value(nodes, place, key, value):
    """The value that stands for one of a node's line; None where the pair goes."""
    if key == "State":
        return nodes.state(place, value)
    if key == "Features":
        return fit_features(nodes.report, place, value)
    if key in BOUNDS:
        return bounded(nodes.report, place, key, value, BOUNDS[key])
    if key in PARTS:
        return bounded(nodes.report, place, key, value, (1, 4_294_967_295))
    return value.replace('"', "'")


def fit_pairs(nodes, line, raised):
    """The pairs of a node's line, with bounds; `raised` says whether each processor has a megabyte at least."""
    fitted = dict(line.own)
    cpus = Nodes.cpus(line.all)
    if line.names and cpus > MOST_CPUS:
        nodes.report.changed(line.place, f"{cpus} processors", f"CPUs={MOST_CPUS}")
        fitted["CPUs"] = str(MOST_CPUS)
    memory = names.number(line.all.get("RealMemory", "1"))
    if line.names and raised and memory < min(cpus, MOST_CPUS):
        nodes.report.replaced(
            line.place, f"RealMemory={memory}", f"{cpus}: a megabyte for each processor, since memory counts here")
        fitted["RealMemory"] = str(min(cpus, MOST_CPUS))
    return fitted


def groups_of(nodes, line):
    """The nodes of a line, those apart that a line DownNodes names."""
    groups = []
    for name in line.names:
        state = nodes.states.get(name, (0, None))[1]
        if groups and groups[-1][0] == state:
            groups[-1][1].append(name)
        else:
            groups.append((state, [name]))
    return groups


def written(nodes, line, raised):
    """The lines that stand for a line of nodes, each as its pairs."""
    fitted = fit_pairs(nodes, line, raised)
    if line.is_default:
        return [[("NodeName", "DEFAULT"), *fitted.items()]] if fitted else []
    made = []
    for state, group in groups_of(nodes, line):
        pairs = {**fitted, "State": state} if state else fitted
        made.append([("NodeName", hosts.write(group)), *pairs.items()])
    return made

"""A slurm.conf, made into one that the program reads."""
from . import conf_text, nodes, partitions, settings

SKIPPED = ("frontendname",)
LONGEST = 1_048_576
# Values of AccountingStorageEnforce with which Slurm too wants a user to have an association.
ENFORCED = ("associations", "limits", "qos", "safe", "all", "1")


class Conf:
    """A file's lines, taken in one after the other, and then written again."""

    def __init__(self, report, known):
        self.report = report
        self.settings = settings.Settings(report)
        self.nodes = nodes.Nodes(report)
        self.partitions = partitions.Partitions(report, self.nodes, known)
        self.entries = []

    def take(self, line):
        """Takes in a line, by its first key."""
        key = line.pairs[0][0].lower() if line.pairs else ""
        if key == "nodename":
            made = self.nodes.add(line)
            self.nodes.settle(made)
            self.entries.append(("nodes", made))
        elif key == "partitionname":
            self.entries.append(("partition", line))
        elif key == "nodeset":
            self.partitions.add_set(line.place, line.pairs)
        elif key == "downnodes":
            self.nodes.down(line.place, line.pairs)
        elif key in SKIPPED:
            self.report.dropped(line.place, f"{line.pairs[0][0]}={line.pairs[0][1]}", "there are no front ends")
        else:
            self.entries.append(("settings", line))

    def settings_pairs(self, line):
        """The pairs of a line of settings, fitted."""
        fitted = [self.settings.fit(line.place, key, value) for key, value in line.pairs]
        return [pair for pair in fitted if pair]

    def counts_memory(self):
        """Whether jobs have to be given a megabyte for each processor, since Slurm counts no memory there."""
        return self.settings.memory_counts is False and not self.settings.mem_default

    def rows_of(self, kind, entry):
        """The lines that stand for an entry, each as its pairs."""
        if kind == "nodes":
            return nodes.written(self.nodes, entry, self.counts_memory())
        pairs = self.partitions.fit(entry, self.settings.whole_nodes) if kind == "partition" else entry.pairs
        return [pairs] if pairs else []

    def texts(self):
        """The fitted file, line by line."""
        for kind, entry in self.entries:
            rows = [" ".join(conf_text.write_pair(*pair) for pair in row) for row in self.rows_of(kind, entry)]
            if kind == "settings" and not rows and not entry.gone:
                yield entry.comment
            yield from (f"{row}  {entry.comment}" for row in rows)

    def fit_settings(self):
        """Fits the lines of settings, on which those of nodes and partitions rest."""
        lines = [entry for kind, entry in self.entries if kind == "settings"]
        self.settings.basic = any(("prioritytype", "priority/basic") == (key.lower(), value.lower())
                                  for line in lines for key, value in line.pairs)
        for line in lines:
            fitted = self.settings_pairs(line)
            line.gone = bool(line.pairs) and not fitted
            line.pairs = fitted
        self.tell_whole()
        self.nodes.tell_strange()

    def tell_whole(self):
        """What the settings say only together."""
        if self.counts_memory():
            self.report.changed(
                0, "SelectTypeParameters without memory",
                "memory counts here: DefMemPerCPU=1, so that a job that asks for none hinders nobody")
        if self.settings.by_cores and any((line.all.get("ThreadsPerCore") or "1") != "1" for line in self.nodes.lines):
            self.report.changed(
                0, "SelectTypeParameters by cores, with ThreadsPerCore",
                "processors are given out one by one: CPUs=CORES on lines of nodes keeps jobs off each other's cores")
        if not any(word in (self.settings.enforced or (0, ""))[1] for word in ENFORCED):
            self.report.changed(
                self.settings.enforced[0] if self.settings.enforced else 0,
                "AccountingStorageEnforce without associations",
                "only users of the association file may hand in jobs (--users makes one)")


def fit_conf(data, path, report, known):
    """The text that stands for a slurm.conf."""
    conf = Conf(report, known)
    for line in conf_text.lines_of(data, path, report):
        conf.take(line)
    conf.fit_settings()
    lines = list(conf.texts())
    if conf.counts_memory():
        lines.insert(0, "DefMemPerCPU=1")
    if not conf.partitions.named:
        report.fault(0, "no partition", "the program wants one at least: PartitionName=NAME Nodes=ALL Default=YES")
    text = "".join(line.rstrip() + "\n" for line in lines)
    if len(text.encode()) > LONGEST:
        report.fault(0, f"{len(text.encode()):,} bytes", f"{LONGEST:,} at most: take comments out")
    return text

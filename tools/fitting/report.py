"""What is told of a file: each finding with its line and what stands for it."""

# From the gravest down: a fault wants somebody's decision; what is changed isn't decided as the file says; what is
# replaced is said in other words; what is dropped has no effect on anything that this program decides.
KINDS = ("fault", "changed", "replaced", "dropped")


class Report:
    """The findings of one file, by their places."""

    def __init__(self, name):
        self.name = name
        self.findings = []

    def tell(self, kind, place, what, instead):
        """Notes a finding: its kind, its line (0 is the file as a whole), what stands there, and what stands for it."""
        self.findings.append((place, kind, what, instead))

    def fault(self, place, what, instead):
        """What the profile can't say, and nobody but the site can decide."""
        self.tell("fault", place, what, instead)

    def changed(self, place, what, instead):
        """What this program decides otherwise than the file says."""
        self.tell("changed", place, what, instead)

    def replaced(self, place, what, instead):
        """What the fitted file says in other words."""
        self.tell("replaced", place, what, instead)

    def dropped(self, place, what, instead):
        """What has no effect here."""
        self.tell("dropped", place, what, instead)

    def count(self, kind):
        """How many findings are of a kind."""
        return sum(1 for finding in self.findings if finding[1] == kind)

    def lines(self):
        """All findings in the order of their lines, and how many there are of each kind."""
        for place, kind, what, instead in sorted(self.findings, key=lambda finding: finding[0]):
            where = f"{self.name}: line {place}" if place else self.name
            yield f"{where}: {kind}: {what}: {instead}"
        told = ", ".join(f"{self.count(kind)} {kind}" for kind in KINDS)
        yield f"{self.name}: {told}"

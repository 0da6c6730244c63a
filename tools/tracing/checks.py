"""What was drawn beside what the model's formulas say."""
import functools
import math
from dataclasses import dataclass

from tracing import model


@dataclass
class Row:
    """A figure: what was drawn, what the formula says, and the deviation that chance alone gives."""

    what: str
    drawn: float
    formula: float
    chance: float

    def deviation(self):
        """How many times that deviation the two are apart."""
        return abs(self.drawn - self.formula) / self.chance if self.chance else 0.0


def share_row(what, count, of, share):
    """The row of a share of some items."""
    return Row(what, count / of, share, math.sqrt(share * (1 - share) / of))


# Sizes.

def log_share_below(processors, log):
    """The share of drawn logarithms of sizes below one."""
    least, middle, most = model.stages(processors)

    def part(low, high):
        return min(max((log - low) / (high - low), 0.0), 1.0) if high > low else float(log >= high)

    return model.LOWER_STAGE * part(least, middle) + (1 - model.LOWER_STAGE) * part(middle, most)


def power_shares(processors):
    """The share of each size among the jobs whose logarithm is rounded."""
    most = processors.bit_length() - 1
    below = functools.partial(log_share_below, processors)
    shares = {2**each: below(each + 0.5) - below(each - 0.5) for each in range(most + 1)}
    total = sum(shares.values())
    return {size: share / total for size, share in shares.items() if share}


def other_shares(processors):
    """The share of each size among the jobs of any size."""
    logs = [log_share_below(processors, math.log2(size + 0.5)) for size in range(processors + 1)]
    return {size: high - low for size, low, high in zip(range(1, processors + 1), logs, logs[1:]) if high > low}


@functools.cache
def size_shares(processors):
    """The share of each size."""
    if model.stages(processors)[2] < model.LEAST:
        return {1: 1.0}
    shares = {1: model.SERIAL}
    kinds = ((model.POWERS, power_shares), (1 - model.SERIAL - model.POWERS, other_shares))
    for part, of_kind in kinds:
        for size, share in of_kind(processors).items():
            shares[size] = shares.get(size, 0.0) + part * share
    return shares


def size_rows(jobs, cluster):
    """Shares of serial jobs and powers of two, and the mean of the sizes and of their logarithms."""
    shares, count = size_shares(cluster.processors), len(jobs)
    powers = sum(share for size, share in shares.items() if size & (size - 1) == 0)
    yield share_row("share of serial jobs", sum(job.size == 1 for job in jobs), count, shares[1])
    yield share_row("share of powers of two, serial ones too", sum(job.size & (job.size - 1) == 0 for job in jobs), count, powers)
    for what, of in (("mean size", float), ("mean of the size's logarithm to 2", math.log2)):
        mean = sum(share * of(size) for size, share in shares.items())
        square = sum(share * of(size) ** 2 for size, share in shares.items())
        yield Row(what, sum(of(job.size) for job in jobs) / count, mean, math.sqrt((square - mean * mean) / count))


# Runs.

@functools.cache
def run_parts(of):
    """The mean of a function of the logarithm of a run, for short and for long jobs, and how many of each are below the most."""
    parts = []
    for shape, scale in (model.SHORT, model.LONG):
        share = model.integral(0, model.MOST_RUN, 4000, functools.partial(model.density, shape, scale))
        parts.append((share, model.mean_below(shape, scale, model.MOST_RUN, of)))
    return parts


def run_mean(size, of):
    """The mean of a function of the logarithm of the run of a job of a size."""
    short, ((short_below, of_short), (long_below, of_long)) = model.short_share(size), run_parts(of)
    weights = short * short_below, (1 - short) * long_below
    return (weights[0] * of_short + weights[1] * of_long) / sum(weights)


def log_of(log):
    return log


def square_of(log):
    return log * log


def run_of(log):
    return math.exp(log)


def run_square_of(log):
    return math.exp(2 * log)


def work(cluster):
    """The mean of processors times seconds of a job, by the formulas."""
    return sum(share * size * run_mean(size, run_of) for size, share in size_shares(cluster.processors).items())


def mean_row(what, drawn, means):
    """The row of the mean of figures, each with its own mean and mean square."""
    count = len(drawn)
    variance = sum(square - mean * mean for mean, square in means)
    return Row(what, sum(drawn) / count, sum(mean for mean, _ in means) / count, math.sqrt(variance) / count)


def run_rows(jobs):
    """Means over runs, for the sizes that were drawn."""
    logs = [(run_mean(job.size, log_of), run_mean(job.size, square_of)) for job in jobs]
    yield mean_row("mean of the run's natural logarithm, at these sizes", [job.log_run for job in jobs], logs)
    works = [(job.size * run_mean(job.size, run_of), job.size**2 * run_mean(job.size, run_square_of)) for job in jobs]
    yield mean_row("processors times seconds of a job, at these sizes", [job.size * math.exp(job.log_run) for job in jobs], works)


# Arrivals and users.

def arrival_rows(jobs, days, stretch):
    """How often jobs come, and when in the day."""
    shape = (*model.between_shape(), model.MOST_BETWEEN)
    log, mean = model.mean_below(*shape, log_of), model.mean_between()
    means = [(log, model.mean_below(*shape, square_of))] * len(jobs)
    yield mean_row("mean of the natural logarithm of the time between two", [job.between for job in jobs], means)
    spread = model.mean_below(*shape, run_square_of) / mean**2 - 1
    wanted = days * model.DAY / (mean * stretch)
    yield Row("jobs", len(jobs), wanted, math.sqrt(wanted * spread))
    weights = model.slot_weights()
    for first in range(0, model.SLOTS, 12):
        share = sum(weights[first : first + 12]) / model.SLOTS
        count = sum(first <= job.submit % model.DAY // model.SLOT < first + 12 for job in jobs)
        chance = math.sqrt(share * (1 - share) * spread / len(jobs))
        yield Row(f"share that comes from {first // 2} to {first // 2 + 6} o'clock", count / len(jobs), share, chance)


def user_rows(jobs, cluster):
    """The shares of the user with most jobs and of the next one."""
    sums = [0.0, *model.user_sums(cluster.users)]
    for user in range(1, min(cluster.users, 2) + 1):
        share = sums[user] - sums[user - 1]
        yield share_row(f"share of user{user}", sum(job.user == user for job in jobs), len(jobs), share)


def rows(jobs, days, cluster, stretch):
    """All figures of a trace."""
    yield from arrival_rows(jobs, days, stretch)
    yield from size_rows(jobs, cluster)
    yield from run_rows(jobs)
    yield from user_rows(jobs, cluster)


def load(jobs, days, cluster):
    """The part of the cluster's processors that the jobs of these days want."""
    return sum(job.size * job.run for job in jobs) / (cluster.processors * days * model.DAY)


def is_right(job):
    """Whether a job is as it has to be: within its limit, started no earlier than handed in, of at least a second."""
    return job.size >= 1 and 1 <= job.run <= job.limit * 60 and job.start >= job.submit

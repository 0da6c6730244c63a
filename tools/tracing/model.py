"""The model of Lublin and Feitelson for the jobs of a parallel computer, and what is added to it here.

U. Lublin, D. G. Feitelson: The workload on parallel supercomputers: modeling the characteristics of rigid jobs. Journal of
Parallel and Distributed Computing 63 (2003). The parameters are those for all jobs of a computer, interactive ones among
them. docs/REPLAY.md says what each of them means.
"""
import functools
import heapq
import itertools
import math
from dataclasses import dataclass

from tracing.draws import Draws, density, integral

# Sizes: the share of serial jobs, that of powers of two, the least logarithm, how far below the greatest the middle is, and
# the share of the lower stage.
SERIAL, POWERS, LEAST, MIDDLE_BELOW, LOWER_STAGE = 0.244, 0.576, 0.8, 2.5, 0.86
# Runs: the gamma numbers of short and of long jobs, each by shape and scale, the share of short ones by the size, the most.
SHORT, LONG, SHORT_AT_0, SHORT_BY_SIZE, MOST_RUN = (4.2, 0.94), (312.0, 0.03), 0.78, -0.0054, 12.0
# Arrivals: the gamma number of the busy hours by shape and scale, its shape over the day, the most; the day's half hours.
BETWEEN, OVER_THE_DAY, MOST_BETWEEN = (10.2303, 0.4871), 1.0225, 13.0
DAY_SLOTS, SLOT, SLOTS, FIRST_SLOT = (8.1737, 3.9631), 1800, 48, 11
# Own: the limit is the next usual value (minutes) above so many times the run; one of so many jobs fails.
TIMES_OVER = (1.1, 1.5, 2, 3, 5, 10)
USUAL = (5, 10, 15, 20, 30, 45, 60, 90, 120, 180, 240, 360, 480, 720, 960, 1440, 2880, 4320, 5760, 7200, 10080)
FAILED = 0.05

DAY = 86400


@dataclass
class Cluster:
    """What jobs are drawn for: nodes of so many processors, users who belong to accounts, and when a job is a short one."""

    nodes: int
    of_each: int
    users: int
    accounts: int
    short: int

    @property
    def processors(self):
        return self.nodes * self.of_each

    def account(self, user):
        """The account of a user; both count from 1."""
        return (user - 1) % self.accounts + 1


@dataclass
class Job:
    """A job: its number, moments and lengths in seconds, its limit in minutes, and what was drawn for them."""

    number: int
    submit: int
    run: int
    size: int
    user: int
    limit: int
    failed: bool
    log_run: float
    between: float
    start: int = 0


# Sizes.

def stages(processors):
    """The logarithms between which the two stages of sizes lie."""
    most = math.log2(processors)
    return LEAST, max(LEAST, most - MIDDLE_BELOW), most


def drawn_size(draws, processors):
    """The size of a job: serial, a power of two, or any."""
    least, middle, most = stages(processors)
    kind = draws.share()
    if kind <= SERIAL or most < LEAST:
        return 1
    while True:
        log = draws.between(least, middle) if draws.share() <= LOWER_STAGE else draws.between(middle, most)
        size = int(2 ** (int(log + 0.5) if kind <= SERIAL + POWERS else log) + 0.5)
        if size <= processors:
            return size


# Runs.

def short_share(size):
    """The share of short jobs among those of a size."""
    return min(max(SHORT_AT_0 + SHORT_BY_SIZE * size, 0.0), 1.0)


def drawn_log_run(draws, size):
    """The natural logarithm of the seconds that a job runs."""
    while True:
        log = draws.gamma(*(SHORT if draws.share() <= short_share(size) else LONG))
        if log <= MOST_RUN:
            return log


# Arrivals.

@functools.cache
def slot_weights():
    """How busy each half hour of the day is, from midnight on; 1 in the mean."""
    weights = [0.0] * SLOTS
    for slot in range(FIRST_SLOT, FIRST_SLOT + SLOTS):
        weights[(slot - 1) % SLOTS] = integral(slot - 0.5, slot + 0.5, 20, functools.partial(density, *DAY_SLOTS))
    mean = sum(weights) / SLOTS
    return [weight / mean for weight in weights]


def between_shape():
    """The shape and the scale of the logarithm of the time between two arrivals."""
    return BETWEEN[0] * OVER_THE_DAY, BETWEEN[1]


def drawn_log_between(draws):
    """The natural logarithm of the seconds between two arrivals on a day that is even."""
    while True:
        log = draws.gamma(*between_shape())
        if log <= MOST_BETWEEN:
            return log


def mean_below(shape, scale, most, of):
    """The mean of a function of a gamma number, where only numbers up to a bound count."""
    whole = integral(0, most, 4000, lambda at: density(shape, scale, at))
    return integral(0, most, 4000, lambda at: density(shape, scale, at) * of(at)) / whole


@functools.cache
def mean_between():
    """The mean seconds between two arrivals, as the model has them."""
    return mean_below(*between_shape(), MOST_BETWEEN, math.exp)


class Clock:
    """The time of day at which so much of an even day is over."""

    def __init__(self):
        self.slot, self.spent = 0, 0.0

    def forward(self, seconds):
        """Lets seconds of an even day go by, and tells the moment."""
        weights, rest = slot_weights(), self.spent + seconds / SLOT
        while rest > weights[self.slot % SLOTS]:
            rest -= weights[self.slot % SLOTS]
            self.slot += 1
        self.spent = rest
        return SLOT * (self.slot + rest / weights[self.slot % SLOTS])


def arrivals(seed, days, stretch):
    """The arrivals of so many days, each with the logarithm that was drawn; times between them are stretched so much."""
    draws, clock = Draws(seed, "arrivals"), Clock()
    while True:
        log = drawn_log_between(draws)
        moment = clock.forward(math.exp(log) * stretch)
        if moment >= days * DAY:
            return
        yield int(moment), log


# Own.

def user_sums(users):
    """The shares of the users added up: that of the Nth is in proportion to 1 / N."""
    sums = list(itertools.accumulate(1 / each for each in range(1, users + 1)))
    return [part / sums[-1] for part in sums]


def drawn_limit(draws, run):
    """The time limit of a job that runs for so many seconds, in minutes."""
    wanted = run * draws.pick(TIMES_OVER) / 60
    return next((usual for usual in USUAL if usual >= wanted), USUAL[-1])


def drawn_jobs(seed, days, cluster, stretch, shorter):
    """The jobs of so many days, in the order in which they are handed in; their runs are so many times shorter than drawn."""
    names = ("sizes", "runs", "users", "limits", "ends")
    sizes, runs, users, limits, ends = (Draws(seed, name) for name in names)
    sums, jobs = user_sums(cluster.users), []
    for submit, between in arrivals(seed, days, stretch):
        size = drawn_size(sizes, cluster.processors)
        log = drawn_log_run(runs, size)
        run = max(1, int(math.exp(log) / shorter))
        user, limit, failed = users.pick_by(sums) + 1, drawn_limit(limits, run), ends.share() < FAILED
        jobs.append(Job(len(jobs) + 1, submit, run, size, user, limit, failed, log, between))
    give_starts(jobs, cluster.processors)
    return jobs


def give_starts(jobs, processors):
    """Starts the jobs as they come, none before an earlier one, as soon as so many processors are free."""
    free, now, running = processors, 0, []
    for job in jobs:
        now = max(now, job.submit)
        while running and (running[0][0] <= now or free < job.size):
            end, size = heapq.heappop(running)
            now, free = max(now, end), free + size
        job.start, free = now, free - job.size
        heapq.heappush(running, (now + job.run, job.size))

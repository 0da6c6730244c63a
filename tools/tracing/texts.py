"""The texts: a trace in either form, and the files of the cluster that it is for."""
import time

KEPT = 20000
LONGEST = "7-0"
RESERVE = 1000


def partition(job, cluster):
    """The partition that a job asks for: 1 is main, 2 is short."""
    return 2 if cluster.short and job.limit <= cluster.short else 1


def swf_text(jobs, cluster, words):
    """The trace in the Standard Workload Format."""
    lines = [
        "; Version: 2.2",
        f"; Note: {words}",
        "; Note: drawn after Lublin and Feitelson (2003); waits are those of first come, first served",
        f"; MaxJobs: {len(jobs)}",
        f"; MaxNodes: {cluster.nodes}",
        f"; MaxProcs: {cluster.processors}",
        f"; MaxRuntime: {max((job.run for job in jobs), default=0)}",
        "; Partition: 1 main",
    ]
    if cluster.short:
        lines.append("; Partition: 2 short")
    for job in jobs:
        fields = [job.number, job.submit, job.start - job.submit, job.run, job.size, -1, -1, job.size, job.limit * 60, -1]
        fields += [0 if job.failed else 1, job.user, cluster.account(job.user), -1, -1, partition(job, cluster), -1, -1]
        lines.append(" ".join(map(str, fields)))
    return "".join(line + "\n" for line in lines)


def date(moment):
    """A moment as sacct writes it, in UTC."""
    return time.strftime("%Y-%m-%dT%H:%M:%S", time.gmtime(moment))


def limit_text(minutes):
    """A time limit as sacct writes it."""
    days, rest = divmod(minutes, 1440)
    return (f"{days}-" if days else "") + f"{rest // 60:02}:{rest % 60:02}:00"


def sacct_text(jobs, cluster, begin):
    """The trace as `sacct -P -n -o ..` writes it, its first midnight at a moment."""
    lines = []
    for job in jobs:
        account, name = f"group{cluster.account(job.user)}", ("main", "short")[partition(job, cluster) - 1]
        moments = [date(begin + moment) for moment in (job.submit, job.start, job.start + job.run)]
        sizes = [-(-job.size // cluster.of_each), job.size]
        state = "FAILED" if job.failed else "COMPLETED"
        fields = [job.number, f"user{job.user}", account, name, "normal", *moments, limit_text(job.limit), *sizes, "", state]
        lines.append("|".join(map(str, fields)))
    return "".join(line + "\n" for line in lines)


def conf_text(jobs, cluster, name):
    """The slurm.conf of the cluster."""
    partitions = f"PartitionName=main Nodes=ALL Default=YES MaxTime={LONGEST}\n"
    if cluster.short:
        partitions += f"PartitionName=short Nodes=ALL MaxTime={cluster.short} PriorityTier=2\n"
    return (
        f"# The cluster of {name}.trace: {cluster.nodes} nodes of {cluster.of_each} processors, {cluster.processors} in all.\n"
        f"ClusterName={name}\nMaxJobCount={min(KEPT, len(jobs) + RESERVE)}\n"
        "SchedulerParameters=bf_window=10080,bf_interval=30\nDefMemPerCPU=1000\n"
        "PriorityWeightAge=1000\nPriorityWeightFairshare=1000\n"
        f"NodeName=n[1-{cluster.nodes}] CPUs={cluster.of_each} RealMemory={1000 * cluster.of_each}\n" + partitions
    )


def assoc_text(cluster, name):
    """The association file: accounts and the users in them."""
    accounts = range(1, cluster.accounts + 1)
    lines = [f"# The users of {name}.trace; user1 hands in most.", f"Cluster - '{name}'", "Parent - 'root'"]
    lines += [f"Account - 'group{account}'" for account in accounts]
    for account in accounts:
        users = range(account, cluster.users + 1, cluster.accounts)
        lines += [f"Parent - 'group{account}'", *(f"User - 'user{user}'" for user in users)]
    return "".join(line + "\n" for line in lines)

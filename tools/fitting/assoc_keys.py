"""The options of `sacctmgr dump`: those that the program reads, and what stands for the others."""

LIMITS = {
    "fairshare": "Fairshare", "share": "Fairshare", "grpjobs": "GrpJobs", "grpsubmitjobs": "GrpSubmitJobs",
    "grpsubmit": "GrpSubmitJobs", "grptres": "GrpTRES", "grpcpus": "GrpTRES", "maxjobs": "MaxJobs",
    "maxsubmitjobs": "MaxSubmitJobs", "maxsubmit": "MaxSubmitJobs",
}

# Of each kind of line the options with effect; those of a QOS also by the titles of `sacctmgr show qos`.
READ = {
    "Account": LIMITS,
    "User": {**LIMITS, "defaultaccount": "DefaultAccount"},
    "QOS": {
        "priority": "Priority", "grpjobs": "GrpJobs", "grpsubmitjobs": "GrpSubmitJobs", "grpsubmit": "GrpSubmitJobs",
        "grptres": "GrpTRES", "maxjobsperuser": "MaxJobsPerUser", "maxjobspu": "MaxJobsPerUser",
        "maxsubmitjobsperuser": "MaxSubmitJobsPerUser", "maxsubmitpu": "MaxSubmitJobsPerUser",
        "maxsubmitjobspu": "MaxSubmitJobsPerUser", "maxtresperuser": "MaxTRESPerUser", "maxtrespu": "MaxTRESPerUser",
        "maxwall": "MaxWall", "maxwalldurationperjob": "MaxWall", "preempt": "Preempt",
    },
}

# What says nothing of what is decided here.
SILENT = ("description", "organization", "adminlevel", "coordinator", "wckeys", "defaultwckey", "partition",
          "usagefactor", "flags", "id", "name")

MOST = {"Fairshare": 65_535, "Priority": 4_294_967_295}

NO_SUCH = "no such limit"
BY_TIME = "MaxTime of a partition or MaxWall of a QOS"

# What isn't kept here, with what is nearest.
CHANGED = {
    "maxwalldurationperjob": BY_TIME, "maxwall": BY_TIME, "maxwalldurationperuser": BY_TIME,
    "maxtresperjob": "MaxNodes of a partition is nearest", "maxtres": "MaxNodes of a partition is nearest",
    "maxnodesperjob": "MaxNodes of a partition", "maxnodes": "MaxNodes of a partition",
    "maxcpusperjob": NO_SUCH, "maxcpus": NO_SUCH, "maxtrespernode": NO_SUCH, "maxtresmins": BY_TIME,
    "maxtresminsperjob": BY_TIME, "maxcpuminsperjob": BY_TIME, "maxcpumins": BY_TIME, "mintres": NO_SUCH,
    "mintresperjob": NO_SUCH, "grptresmins": NO_SUCH, "grpcpumins": NO_SUCH, "grptresrunmins": NO_SUCH,
    "grptresrunmin": NO_SUCH, "grpcpurunmins": NO_SUCH, "grpwall": NO_SUCH, "grpnodes": "GrpTRES=cpu=N is nearest",
    "grpmem": "GrpTRES=cpu=N is nearest", "grpjobsaccrue": NO_SUCH, "maxjobsaccrue": NO_SUCH, "minprio": NO_SUCH,
    "minpriothresh": NO_SUCH, "minpriothreshold": NO_SUCH, "priority": "Priority of a QOS, which -q asks for",
    "maxtrespa": NO_SUCH, "maxtresperaccount": NO_SUCH, "maxjobspa": "MaxJobs of accounts",
    "maxjobsperaccount": "MaxJobs of accounts", "maxsubmitpa": "MaxSubmitJobs of accounts",
    "maxsubmitjobspa": "MaxSubmitJobs of accounts", "maxsubmitjobsperaccount": "MaxSubmitJobs of accounts",
    "maxtresrunminspa": NO_SUCH, "maxtresrunminspu": NO_SUCH, "maxjobsaccruepa": NO_SUCH, "maxjobsaccruepu": NO_SUCH,
    "preempt": "Preempt of a QOS says whose jobs go for others",
    "preemptmode": "PreemptMode of slurm.conf counts for all: OFF or REQUEUE",
    "preemptexempttime": "a job may be requeued for another as soon as it runs",
    "gracetime": "a job that is requeued for another goes at once",
    "usagethres": NO_SUCH, "limitfactor": NO_SUCH, "lineage": NO_SUCH,
}

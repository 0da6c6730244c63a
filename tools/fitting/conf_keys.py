"""The keys of slurm.conf(5): those that the program reads or passes over, and why each of the others is gone."""

# Settings that the program reads as numbers: least and greatest.
NUMBERS = {
    "FirstJobId": (1, 67_043_328), "MaxJobCount": (1, 20_000), "MaxArraySize": (1, 10_001), "MinJobAge": (0, 65_533),
    "SlurmdTimeout": (0, 65_533), "JobRequeue": (0, 1), "PriorityWeightAge": (0, 4_294_967_295),
    "PriorityWeightFairshare": (0, 4_294_967_295), "PriorityWeightJobSize": (0, 4_294_967_295),
    "PriorityWeightPartition": (0, 4_294_967_295), "PriorityWeightQOS": (0, 4_294_967_295),
    "DefMemPerNode": (0, 16_777_216), "DefMemPerCPU": (0, 16_777_216),
}

# Settings with a grammar of their own, in settings.py.
OTHERS_READ = (
    "SlurmUser", "PriorityType", "PriorityDecayHalfLife", "PriorityMaxAge", "SchedulerType", "SchedulerParameters",
    "SelectType", "SelectTypeParameters", "PreemptType", "PreemptMode",
)

# Settings that the program takes with any value.
PASSED = """ClusterName SlurmctldHost ControlMachine SlurmctldPort SlurmdPort AuthType CryptoType StateSaveLocation
SlurmdSpoolDir SlurmctldPidFile SlurmdPidFile SlurmctldLogFile SlurmdLogFile SlurmctldDebug SlurmdDebug SlurmdUser
ProctrackType TaskPlugin SwitchType MpiDefault ReturnToService JobCompType JobCompLoc JobAcctGatherType
JobAcctGatherFrequency AccountingStorageType AccountingStorageHost AccountingStoreFlags AccountingStorageEnforce
InactiveLimit Waittime KillWait SlurmctldTimeout MailProg Prolog Epilog DebugFlags SlurmctldParameters LaunchParameters
TmpFS""".split()

NODE_READ = (
    "NodeName", "CPUs", "Boards", "Sockets", "SocketsPerBoard", "CoresPerSocket", "ThreadsPerCore", "RealMemory",
    "Weight", "Feature", "Features", "State",
)
NODE_PASSED = ("NodeAddr", "NodeHostname", "Port", "TmpDisk", "Reason")

PARTITION_READ = (
    "PartitionName", "Nodes", "Default", "MaxTime", "DefaultTime", "State", "PriorityJobFactor", "PriorityTier",
    "MinNodes", "MaxNodes", "AllowAccounts", "AllowQos", "AllowGroups", "OverSubscribe",
    "DefMemPerNode", "DefMemPerCPU",
)
PARTITION_PASSED = ("Hidden", "GraceTime")

# Settings that change nothing here: why, and which.
DROPPED_GROUPS = (
    ("where other daemons have their files, hosts and logs", """PluginDir PlugStackConfig SlurmctldSyslogDebug
        SlurmdSyslogDebug SlurmSchedLogFile SlurmSchedLogLevel SlurmctldPlugstack LogTimeFormat SlurmctldPrimaryOffProg
        SlurmctldPrimaryOnProg SlurmctldAddr ControlAddr BackupController BackupAddr MailDomain"""),
    ("how messages go; a server is called on this machine alone", """BcastExclude BcastParameters TCPTimeout
        MessageTimeout CommunicationParameters TreeWidth RoutePlugin AuthAltTypes AuthAltParameters AuthInfo CredType
        EioTimeout SrunPortRange MaxDBDMsgs"""),
    ("there is no accounting", """AccountingStorageBackupHost AccountingStorageExternalHost AccountingStorageParameters
        AccountingStoragePass AccountingStoragePort AccountingStorageTRES AccountingStorageUser
        AccountingStoreJobComment AcctGatherNodeFreq AcctGatherEnergyType AcctGatherInterconnectType
        AcctGatherFilesystemType AcctGatherProfileType JobAcctGatherParams JobCompHost JobCompParams JobCompPass
        JobCompPort JobCompUser ExtSensorsFreq ExtSensorsType TrackWCKey"""),
    ("what nodes do around a job isn't the controller's here", """TaskPluginParam TaskProlog TaskEpilog SrunProlog
        SrunEpilog PrologFlags PrologSlurmctld EpilogSlurmctld EpilogMsgTime PrologEpilogTimeout PropagatePrioProcess
        PropagateResourceLimits PropagateResourceLimitsExcept UsePAM X11Parameters JobFileAppend JobContainerType
        LaunchType InteractiveStepOptions CliFilterPlugins MpiParams GetEnvTimeout BatchStartTimeout KillOnBadExit
        UnkillableStepProgram UnkillableStepTimeout ResvProlog ResvEpilog RebootProgram HealthCheckInterval
        HealthCheckNodeState HealthCheckProgram CpuFreqDef CpuFreqGovernors GpuFreqDef CoreSpecPlugin PrEpPlugins
        PrEpParameters SlurmdParameters SwitchParameters AllowSpecResourcesUsage CompleteWait VSizeFactor"""),
    ("it can't be asked here, or has no counterpart that decides anything", """FederationParameters ScronParameters
        ReconfigFlags GroupUpdateForce GroupUpdateTime PriorityCalcPeriod PriorityParameters MaxStepCount
        SchedulerTimeSlice DisableRootJobs"""),
    ("Slurm itself has no such key any more", """FastSchedule SchedulerPort SchedulerAuth SchedulerRootFilter
        SallocDefaultCommand CacheGroups CheckpointType JobCheckpointDir JobCredentialPrivateKey
        JobCredentialPublicCertificate MemLimitEnforce UseSpecResources TopologyParam TrackWckey"""),
)

# Settings whose rule doesn't hold here, with what stands for it.
CHANGED = {
    "EnforcePartLimits": "a job beyond its partition's limits waits, with the limit as its reason; it isn't refused",
    "GresTypes": "no generic resources are given out: give such nodes a feature, or a partition of their own",
    "Licenses": "no licenses are counted: GrpJobs of a QOS is nearest",
    "MaxMemPerCPU": "no such limit: the nodes' RealMemory bounds a job",
    "MaxMemPerNode": "no such limit: the nodes' RealMemory bounds a job",
    "MaxTasksPerNode": "no such limit: the nodes' CPUs bound a job",
    "MaxNodeCount": "1,024 nodes at most",
    "MaxJobId": "67,043,328 is the greatest number of a job",
    "OverTimeLimit": "a job ends at its limit",
    "PreemptExemptTime": "a job may be requeued for another as soon as it runs",
    "PriorityUsageResetPeriod": "usage counts from the start of the server",
    "PriorityFlags": "Fair Tree, with ages that begin when a job may start",
    "PriorityFavorSmall": "a larger job has the larger term of size",
    "PriorityWeightTRES": "PriorityWeightJobSize, which counts processors",
    "PriorityWeightAssoc": "associations have no priority: PriorityWeightQOS with a QOS of a priority is nearest",
    "PrioritySiteFactorPlugin": "no factor of a site's own; --nice and a QOS are nearest",
    "PrioritySiteFactorParameters": "no factor of a site's own; --nice and a QOS are nearest",
    "FairShareDampeningFactor": "Fair Tree, which has none",
    "PrivateData": "everybody sees all jobs",
    "JobSubmitPlugins": "submissions are taken as they are: DefaultTime, DefMemPerCPU and AllowAccounts are nearest",
    "DependencyParameters": "a dependency that can't come any more stays pending, with that reason",
    "NodeFeaturesPlugins": "features stay as the file says",
    "BurstBufferType": "no burst buffers",
    "RequeueExit": "a job that failed isn't requeued",
    "RequeueExitHold": "a job that failed isn't requeued",
    "ResvOverRun": "jobs keep out of a reservation's time",
    "TopologyPlugin": "nodes are chosen by weight and by their order in the file: let neighbours stand together",
    "MCSPlugin": "users share nodes: OverSubscribe=EXCLUSIVE keeps jobs apart",
    "MCSParameters": "users share nodes: OverSubscribe=EXCLUSIVE keeps jobs apart",
    "PowerPlugin": "nodes stay on", "PowerParameters": "nodes stay on", "SuspendProgram": "nodes stay on",
    "SuspendRate": "nodes stay on", "SuspendTime": "nodes stay on", "SuspendTimeout": "nodes stay on",
    "SuspendExcNodes": "nodes stay on", "SuspendExcParts": "nodes stay on", "ResumeProgram": "nodes stay on",
    "ResumeFailProgram": "nodes stay on", "ResumeRate": "nodes stay on", "ResumeTimeout": "nodes stay on",
    "DefCpuPerGPU": "no generic resources are given out", "DefMemPerGPU": "no generic resources are given out",
    "JobDefaults": "no generic resources are given out",
}

# Values with which a rule is as it is here.
AS_HERE = {
    "PreemptExemptTime": "0", "PriorityUsageResetPeriod": "NONE", "PriorityFavorSmall": "NO", "PrivateData": "NONE",
    "TopologyPlugin": "topology/none", "MCSPlugin": "mcs/none", "BurstBufferType": "burst_buffer/none",
    "EnforcePartLimits": "NO", "OverTimeLimit": "0", "PriorityWeightTRES": "", "PriorityWeightAssoc": "0",
    "SuspendTime": "INFINITE", "FairShareDampeningFactor": "1",
}

NODE_CHANGED = {
    "Gres": "no generic resources are given out: a feature or a partition keeps such nodes apart",
    "TRESBillingWeights": "processors are counted, and nothing else",
}
NODE_DROPPED = ("BcastAddr", "CpuBind", "Extra", "InstanceId", "InstanceType", "RestrictedCoresPerGPU", "Parameters",
                "Topology")

PARTITION_CHANGED = {
    "DefCpuPerGPU": "no generic resources are given out", "DefMemPerGPU": "no generic resources are given out",
    "JobDefaults": "no generic resources are given out",
    "ExclusiveUser": "OverSubscribe=EXCLUSIVE is nearest: it keeps jobs apart, also of one user",
    "LLN": "nodes are chosen by weight and by their order",
    "MaxCPUsPerNode": "no such limit: a partition of its own over fewer nodes is nearest",
    "MaxCPUsPerSocket": "no such limit",
    "MaxMemPerCPU": "no such limit: the nodes' RealMemory bounds a job",
    "MaxMemPerNode": "no such limit: the nodes' RealMemory bounds a job",
    "OverTimeLimit": "a job ends at its limit",
    "PreemptMode": "PreemptMode of the whole cluster counts; PriorityTier says who is planned first",
    "QOS": "a partition has no limits of a QOS: AllowQos with that QOS is nearest",
    "SelectTypeParameters": "each processor and megabyte is given out by itself, in all partitions",
    "SuspendTime": "nodes stay on", "SuspendTimeout": "nodes stay on", "ResumeTimeout": "nodes stay on",
    "PowerDownOnIdle": "nodes stay on",
    "TRESBillingWeights": "processors are counted, and nothing else",
    "Alternate": "a partition that is down takes jobs, which wait",
}
PARTITION_DROPPED = ("CpuBind", "DisableRootJobs", "Topology")

# What keeps people out of a partition in Slurm and can't be said here: somebody has to decide.
PARTITION_FAULTS = {
    "AllowGroups": "groups aren't known: AllowAccounts stands for it; as it is, all may use the partition",
    "DenyGroups": "groups aren't known: AllowAccounts stands for it; as it is, all may use the partition",
    "AllowUsers": "AllowAccounts, with an account of these users, stands for it; as it is, all may use the partition",
    "DenyUsers": "AllowAccounts, with an account of the others, stands for it; as it is, all may use the partition",
    "AllocNodes": "from where a job is handed in isn't known; as it is, the partition may be used from everywhere",
    "RootOnly": "AllowAccounts, with an account of these users, stands for it; as it is, all may use the partition",
    "ReqResv": "jobs without a reservation are taken too; as it is, nothing asks for one",
}


def by_lower(names):
    """Keys by their letters in lower case."""
    return {name.lower(): name for name in names}


SETTINGS = by_lower(list(NUMBERS) + list(OTHERS_READ) + PASSED)
NODES = by_lower(NODE_READ + NODE_PASSED)
PARTITIONS = by_lower(PARTITION_READ + PARTITION_PASSED)
DROPPED = {key.lower(): why for why, keys in DROPPED_GROUPS for key in keys.split()}

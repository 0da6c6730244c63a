# shellcheck shell=sh disable=SC2154
# What the commands beside this file share: how they call a server. Each of them says where it lies (`here`), defines
# `help`, and ends with `call NAME "$@"`.
#
# The user is the one of the shell (`id -un`); SLURMCTLD_PORT names the server's port (6817), SLURM_PROGRAM the program.

# Says something on errors, behind the command's name.
say() {
    printf '%s: %s\n' "$name" "$1" >&2
}

# The program: the one that SLURM_PROGRAM names, else the installed one, one beside the commands, or the one of this checkout.
find_program() {
    for program in ${SLURM_PROGRAM:+"$SLURM_PROGRAM"} "$here/../libexec/slurm/slurm" "$here/slurm" "$here/../crates/slurm/out/slurm"; do
        [ -f "$program" ] && [ -x "$program" ] && return
        [ -z "${SLURM_PROGRAM:-}" ] || break
    done
    say "the program isn't at ${SLURM_PROGRAM:-its place}: name it in SLURM_PROGRAM, install it (tools/install), or build it (rt run in crates/slurm)"
    return 1
}

# What was installed, or what this checkout is at.
version() {
    if [ -r "$here/../libexec/slurm/version" ]; then
        cat "$here/../libexec/slurm/version"
    else
        git -C "$here" log -1 --format='slurm %h of %cs, from a checkout' 2>/dev/null || echo 'slurm, from a checkout'
    fi
}

# Whether --help is among the words. Behind the first word of sbatch it may be an option's value, or the script's.
asks_help() {
    for word in "$@"; do
        [ "$word" = --help ] && return
        [ "$name" = sbatch ] && return 1
    done
    return 1
}

# Whether a call can be made at all: the user has a name that a request can bear, and the port is one.
can_call() {
    case $user in
    '' | *[!A-Za-z0-9_.-]*)
        say "your user name, '$user', has other characters than letters, digits, '_', '-' and '.': no server takes it"
        return 1
        ;;
    esac
    case $port in
    '' | *[!0-9]* | ??????*)
        say "SLURMCTLD_PORT is '$port': it has to be a port, from 1 to 65535"
        return 1
        ;;
    esac
}

# What a status means that says nothing of the request itself, and what to do.
explain() {
    look="Look with squeue whether it was worked before you repeat the request."
    case $1 in
    2) say "no server takes these words: they hold a byte that can't be printed, or are longer than 8,192 bytes together; or SLURMCTLD_PORT ($port) is no port." ;;
    5) if [ "$name" = sbatch ]; then
        say "the script can't be read, or the connection to the server broke (port $port). Is the script there and readable? $look"
    else
        say "the connection to the server broke before its reply was here (port $port). $look"
    fi ;;
    7) say "what came from port $port is no whole reply: the server ended while it answered, or another program has that port. $look" ;;
    8) say "this machine has no memory left for the call. $look" ;;
    9) if [ "$name" = scontrol ]; then
        say "the configuration is longer than 65,536 bytes, and wasn't sent. Name many nodes by one line, as n[1-64]."
    else
        say "the script is longer than 65,536 bytes, and wasn't sent. Put its work into a file that a short script starts."
    fi ;;
    10) say "no server takes calls on port $port of this machine. Start one (slurm slurmctld --serve ..), or name its port in SLURMCTLD_PORT." ;;
    esac
}

# Calls the server with the words behind a command's name, and ends with its status.
call() {
    name=$1
    shift
    case ${1:-} in
    --version | -V) version && exit ;;
    esac
    asks_help "$@" && help && exit
    user=$(id -un)
    port=${SLURMCTLD_PORT:-6817}
    can_call || exit 2
    find_program || exit 127
    "$program" "$name" "--ctld=$user@$port" "$@"
    status=$?
    explain "$status"
    exit "$status"
}

# Completion for bash of the commands that call a server: . examples/slurm.bash, or as tools/install puts it.
# The options are those of the tables in crates/sbatch_reader/src/table.rt and crates/command_words/src/queries.rt and cancel.rt, the
# keys those of crates/scontrol_words/src/keys.rt. Jobs, partitions and nodes are asked of the server at hand.

# Options that want a value stand with an equals sign.
_slurm_sbatch='--account= -A --partition= -p --qos= -q --reservation= --job-name= -J --ntasks= -n --cpus-per-task= -c
--ntasks-per-node= --nodes= -N --mem= --mem-per-cpu= --exclusive --time= -t --begin= -b --nice --nice= --hold -H --parsable --requeue
--no-requeue --constraint= -C --nodelist= -w --exclude= -x --array= -a --dependency= -d --wrap= --output= -o --error= -e
--input= -i --mail-type= --mail-user= --chdir= -D --export= --comment= --open-mode= --signal= --verbose -v --quiet -Q'
_slurm_squeue='--noheader -h --start --me --user= -u --jobs= -j --partition= -p --states= -t --format= -o'
_slurm_sinfo='--noheader -h --partition= -p'
_slurm_sprio='--noheader -h --user= -u --jobs= -j'
_slurm_scancel='--user= -u'
_slurm_states='PD R CG CD CA F TO NF all'

# What the server tells, a word a line; nothing where there is none.
_slurm_jobs() { squeue -h -o %i 2>/dev/null; }
_slurm_partitions() { sinfo -h 2>/dev/null | sed 's/[ *].*//' | sort -u; }
_slurm_nodes() { scontrol show node 2>/dev/null | sed -n 's/^NodeName=\([^ ]*\).*/\1/p'; }
_slurm_reservations() { scontrol show reservation 2>/dev/null | sed -n 's/^ReservationName=\([^ ]*\).*/\1/p'; }

# The words of the line up to the one at hand, a key and its value as one, since bash cuts at each equals sign.
_slurm_words() {
    local at word last=''
    words=()
    for ((at = 0; at <= COMP_CWORD; at++)); do
        word=${COMP_WORDS[at]}
        if [[ $at -gt 1 && ( $word == '=' || $last == '=' ) ]]; then words[-1]+=$word; else words+=("$word"); fi
        last=$word
    done
}

# Of these words those that begin as the one at hand; bash has what stands before its equals sign already.
_slurm_offer() {
    mapfile -t COMPREPLY < <(compgen -W "$1" -- "${words[-1]}")
    if [[ ${words[-1]} == *=* && $COMP_WORDBREAKS == *=* ]]; then
        COMPREPLY=("${COMPREPLY[@]#"${words[-1]%%=*}="}")
    fi
    [[ ${#COMPREPLY[@]} == 1 && ${COMPREPLY[0]} == *= ]] && compopt -o nospace
    return 0
}

# The same, each word behind a key.
_slurm_offer_behind() {
    local word list=''
    for word in $2; do list+=" $1$word"; done
    _slurm_offer "$list"
}

# The values of a command's option that are known.
_slurm_values() {
    case "$1 $2" in
        *' --partition' | *' -p') _slurm_partitions ;;
        *' --jobs' | *' -j') _slurm_jobs ;;
        'squeue --states' | 'squeue -t') echo "$_slurm_states" ;;
        *' --user' | *' -u') compgen -u ;;
        'sbatch --nodelist' | 'sbatch -w' | 'sbatch --exclude' | 'sbatch -x') _slurm_nodes ;;
        'sbatch --reservation') _slurm_reservations ;;
    esac
}

# Whether a short option of a command wants a value: the long one before it does.
_slurm_wants_value() {
    local options=_slurm_$1 last='' word
    for word in ${!options}; do
        [[ $word == "$2" ]] && { [[ $last == *= && $2 == -? ]]; return; }
        last=$word
    done
    return 1
}

# The keys and values of scontrol update, create and delete, by the second word and the third.
_slurm_keys() {
    case "$1 ${2%%=*} ${words[-1]}" in
        *' State='*) _slurm_offer_behind State= 'UP DOWN DRAIN INACTIVE RESUME' ;;
        *' JobId='*) _slurm_offer_behind JobId= "$(_slurm_jobs)" ;;
        *' NodeName='*) _slurm_offer_behind NodeName= "$(_slurm_nodes)" ;;
        *' PartitionName='*) _slurm_offer_behind PartitionName= "$(_slurm_partitions)" ;;
        'delete '*' ReservationName='*) _slurm_offer_behind ReservationName= "$(_slurm_reservations)" ;;
        'update JobId '*) _slurm_offer 'TimeLimit= Nice=' ;;
        'update NodeName '*) _slurm_offer 'State= Reason=' ;;
        'update PartitionName '*) _slurm_offer 'State=' ;;
        'update '*) _slurm_offer 'JobId= NodeName= PartitionName=' ;;
        'create ReservationName '*) _slurm_offer 'StartTime= Duration= EndTime= Nodes= Users= Accounts=' ;;
        *) _slurm_offer 'ReservationName=' ;;
    esac
}

# The words of scontrol.
_slurm_scontrol() {
    if [[ ${#words[@]} == 2 ]]; then
        _slurm_offer 'show hold uhold release requeue update create delete reconfigure shutdown --help --version'
        return
    fi
    case "${words[1]} ${words[2]}" in
        'show job') _slurm_offer "$(_slurm_jobs)" ;;
        'show node') _slurm_offer "$(_slurm_nodes)" ;;
        'show partition') _slurm_offer "$(_slurm_partitions)" ;;
        'show reservation') _slurm_offer "$(_slurm_reservations)" ;;
        show\ *) _slurm_offer 'job node partition reservation' ;;
        hold\ * | uhold\ * | release\ * | requeue\ *) _slurm_offer "$(_slurm_jobs)" ;;
        update\ * | create\ * | delete\ *) _slurm_keys "${words[1]}" "${words[2]}" ;;
    esac
}

# One of these commands: what the word at hand may be.
_slurm() {
    local name=${1##*/} words word before options=_slurm_${1##*/}
    COMPREPLY=()
    _slurm_words
    word=${words[-1]}
    before=${words[-2]}
    if [[ $name == scontrol ]]; then
        _slurm_scontrol
    elif [[ $word == --*=* ]]; then
        _slurm_offer_behind "${word%%=*}=" "$(_slurm_values "$name" "${word%%=*}")"
    elif _slurm_wants_value "$name" "$before"; then
        _slurm_offer "$(_slurm_values "$name" "$before")"
    elif [[ $word == -* ]]; then
        _slurm_offer "${!options} --help --version"
    elif [[ $name == scancel ]]; then
        _slurm_offer "$(_slurm_jobs)"
    elif [[ $name == sbatch ]]; then
        compopt -o default
    fi
}

complete -F _slurm sbatch squeue scancel scontrol sinfo sprio

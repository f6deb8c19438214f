# A Slurm cluster of this machine alone, with all its files in the current folder: start_cluster, and stop_cluster whatever
# has happened. The daemons are those of Debian's packages munge and slurm-wlm, run by the current user and no service.
daemons=

start_cluster() {
    host=$(hostname -s)
    user=$(id -un)
    port=$((20000 + $$ % 5000 * 2))
    here_is=$(pwd)/cluster
    mkdir -p "$here_is/state" "$here_is/spool"
    (umask 077 && head -c 1024 /dev/urandom > cluster/key)
    # sbatch --wait asks every MinJobAge/2 seconds.
    cat > cluster/slurm.conf <<CONF
ClusterName=quayrudder
SlurmctldHost=$host(127.0.0.1)
SlurmctldPort=$port
SlurmdPort=$((port + 1))
SlurmUser=$user
SlurmdUser=$user
AuthType=auth/munge
AuthInfo=socket=$here_is/munge.socket
StateSaveLocation=$here_is/state
SlurmdSpoolDir=$here_is/spool
SlurmctldPidFile=$here_is/slurmctld.pid
SlurmdPidFile=$here_is/slurmd.pid
SlurmctldLogFile=$here_is/slurmctld.log
SlurmdLogFile=$here_is/slurmd.log
CommunicationParameters=NoInAddrAny,NoCtldInAddrAny
ProctrackType=proctrack/linuxproc
TaskPlugin=task/none
JobAcctGatherType=jobacct_gather/none
AccountingStorageType=accounting_storage/none
SwitchType=switch/none
MpiDefault=none
SelectType=select/cons_tres
SelectTypeParameters=CR_CPU
MinJobAge=4
ReturnToService=2
NodeName=$host NodeAddr=127.0.0.1 CPUs=2
PartitionName=all Nodes=ALL Default=YES State=UP
CONF
    export SLURM_CONF="$here_is/slurm.conf"
    daemon munged --foreground --force --num-threads=2 --key-file="$here_is/key" --socket="$here_is/munge.socket" \
        --pid-file="$here_is/munged.pid" --log-file="$here_is/munged.log" --seed-file="$here_is/munged.seed"
    must_answer munge --socket="$here_is/munge.socket" --no-input
    daemon slurmctld -D
    must_answer scontrol ping
    daemon slurmd -D
    must_answer node_is_idle
    echo "Slurm $(sinfo --version | cut -d' ' -f2): $(sinfo --noheader --format='%D node, %c CPUs, %T')"
}

daemon() {
    PATH=$PATH:/usr/sbin "$@" > "cluster/$1.out" 2>&1 &
    daemons="$! $daemons"
}

node_is_idle() {
    [ "$(sinfo --noheader --format=%T)" = idle ]
}

# within SECONDS WORD...: does this come true?
within() {
    end=$(($(date +%s) + $1))
    shift
    until "$@" > /dev/null 2>&1; do
        [ "$(date +%s)" -lt "$end" ] || return 1
        sleep 0.2
    done
}

must_answer() {
    within 20 "$@" && return
    tail -n 5 cluster/*.out cluster/*.log >&2
    fail "$1 does not answer"
}

no_job_is_left() {
    [ -z "$(squeue --noheader)" ]
}

# Jobs first, then the daemons in the order opposite to that in which they were started.
stop_cluster() {
    case $daemons in *' '*' '*' '*)
        scancel --user="$(id -un)" 2> /dev/null || true
        within 10 no_job_is_left || true
        ;;
    esac
    for process in $daemons; do
        kill "$process" 2> /dev/null || continue
        wait "$process" 2> /dev/null || true
    done
    daemons=
}

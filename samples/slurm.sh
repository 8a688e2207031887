# A Slurm of this machine's own, with nodes that are all this machine, for scripts that source this behind cases.sh and
# answers.sh. Each node has processes and mounts of its own, so that it can be lost as a machine is. It works in $slurm, is ended
# by `end_slurm`, and needs root.

slurm=$room/slurm
declare -A daemons

# configure NODE..: the configuration. Nodes trust one another, as all of them are this machine and this user; each builds one
# application at a time. A node that doesn't answer is given up soon, and what it had to do is done elsewhere.
configure() {
    local node host
    host=$(hostname -s)
    mkdir -p "$slurm/state"
    export SLURM_CONF=$slurm/slurm.conf
    cat > "$SLURM_CONF" <<CONF
ClusterName=samples
SlurmctldHost=$host(127.0.0.1)
SlurmctldPort=$(free_port)
SlurmUser=root
SlurmdUser=root
AuthType=auth/none
CredType=cred/none
MpiDefault=none
SwitchType=switch/none
ProctrackType=proctrack/linuxproc
TaskPlugin=task/none
JobAcctGatherType=jobacct_gather/none
AccountingStorageType=accounting_storage/none
SelectType=select/cons_tres
SelectTypeParameters=CR_CPU
SchedulerParameters=sched_interval=1,batch_sched_delay=0
ReturnToService=2
SlurmdTimeout=20
KillWait=2
MinJobAge=3600
StateSaveLocation=$slurm/state
SlurmdSpoolDir=$slurm/%n
SlurmctldPidFile=$slurm/slurmctld.pid
SlurmdPidFile=$slurm/%n.pid
SlurmctldLogFile=$slurm/slurmctld.log
SlurmdLogFile=$slurm/%n.log
SlurmdParameters=config_overrides
CONF
    for node; do
        mkdir -p "$slurm/$node"
        echo "NodeName=$node NodeHostname=$host NodeAddr=127.0.0.1 Port=$(free_port) CPUs=1" >> "$SLURM_CONF"
    done
    echo "PartitionName=builds Nodes=$(IFS=,; echo "$*") Default=YES MaxTime=INFINITE State=UP" >> "$SLURM_CONF"
}

# begin NODE: starts a node. What skopeo remembers of registries is the node's own, as on another machine.
begin() {
    local own=$slurm/$1.containers words='mount --bind "$2" /var/lib/containers && slurmd -D -N "$1" & wait'
    mkdir -p "$own" /var/lib/containers
    unshare --mount --pid --mount-proc --fork --kill-child bash -c "$words" node "$1" "$own" > "$slurm/$1.said" 2>&1 &
    daemons[$1]=$!
}
# within NODE COMMAND..: runs a command that sees the mounts of a node.
within() { nsenter --mount --target "${daemons[$1]}" "${@:2}"; }
# runs_on NODE PATTERN: whether a process of this command line runs on a node.
runs_on() { pgrep --ns "$(pgrep -P "${daemons[$1]}")" --nslist pid -f -- "$2" > "$slurm/found"; }
# lose NODE: ends a node with all its processes at once, so that nothing tells the controller.
lose() {
    kill -KILL "${daemons[$1]}"
    { wait "${daemons[$1]}" || true; } 2> /dev/null
    unset "daemons[$1]"
}
# restarts JOB: how many jobs of an array Slurm began again.
restarts() { scontrol show job "$1" -o | grep -c -w 'Restarts=1' || true; }
# is_idle: whether Slurm has nothing to do.
is_idle() { [ -z "$(squeue -h)" ]; }
# idle: waits until that is so.
idle() { until is_idle; do sleep 1; done; }

is_ready() { [ "$(sinfo -h -N -o '%T' 2> /dev/null | grep -c -E '^(idle|mixed|allocated)$')" = "$1" ]; }

# start_slurm NODE..: starts it all, and says whether it runs.
start_slurm() {
    local node
    configure "$@"
    slurmctld -D > "$slurm/slurmctld.said" 2>&1 &
    daemons[slurmctld]=$!
    for node; do begin "$node"; done
    for _ in $(seq 60); do
        if is_ready $#; then return; fi
        sleep 1
    done
    tail -n 5 "$slurm"/*.log "$slurm"/*.said
    return 1
}
# end_slurm PROCESS..: ends it all, and further processes of the script.
end_slurm() {
    kill -KILL "${daemons[@]}" "$@" 2> /dev/null || true
    { wait || true; } 2> /dev/null
}

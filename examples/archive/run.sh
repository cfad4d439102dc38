#!/bin/bash
# Runs the nightly job by GNU parallel and by Slurm over a small archive, while the first worker of each shard is killed
# at a random moment, and compares both exports with that of one whole run. Prints a line `ok NAME` or `FAILED NAME` for
# each, and ends with status 1 if one failed. The program dwcheck-elf is $DWCHECK_ELF, or that in build/.
set -u
here=$(dirname "$(realpath "$0")")
top=$(realpath "$here/../..")
program=$(realpath "${DWCHECK_ELF:-$top/build/dwcheck-elf}")
. "$top/tools/each_test.sh"
folder=$(mktemp -d)
started=()
stop() { # Only what this script has started.
    [ ${#started[@]} -eq 0 ] || kill "${started[@]}" 2> /dev/null
    wait
    rm -rf "$folder"
}
trap stop EXIT

# Programs and a package for the archive.
mkdir -p "$folder/archive" "$folder/bin" "$folder/tree/usr/lib" "$folder/tree/DEBIAN"
cp /bin/bash /bin/ls /bin/tar /usr/bin/gdb /usr/bin/as "$folder/archive"
cp "$(gcc -print-file-name=libc.so.6)" "$(gcc -print-file-name=libstdc++.so.6)" "$folder/tree/usr/lib"
printf 'Package: %s\nVersion: 1\nArchitecture: amd64\nMaintainer: a <a@b>\nDescription: a\n' user > "$folder/tree/DEBIAN/control"
dpkg-deb --root-owner-group -Zzstd -b "$folder/tree" "$folder/archive/user_1_amd64.deb" > /dev/null

# A program that is killed where it would first lint a shard.
cat > "$folder/bin/dwcheck-elf" << END
#!/bin/bash
[ "\$1" = lint ] && mkdir "\$KILLED/\$(basename "\$5")" 2> /dev/null || exec "$program" "\$@"
"$program" "\$@" &
sleep "0.\$((RANDOM % 40 + 10))"
kill -KILL \$!
wait \$!
END
chmod +x "$folder/bin/dwcheck-elf"

killed_workers() { # How many were killed.
    find "$1" -mindepth 1 | wc -l
}

by() { # ENGINE: runs the nightly job, and compares its export.
    mkdir "$folder/killed-$1"
    KILLED="$folder/killed-$1" PATH="$folder/bin:$PATH" timeout 900 "$here/$1.sh" 4 "$folder/archive" "$folder/$1" || return
    [ "$(killed_workers "$folder/killed-$1")" -eq 4 ] && cmp "$folder/whole.jsonl" "$folder/$1/night.jsonl"
}

all_run() { # Whether none of what was started has ended.
    local process
    for process in "${started[@]}"; do
        kill -0 "$process" 2> /dev/null || return
    done
}

slurm_here() { # Starts slurmctld and slurmd of this machine alone, with no key.
    local name port
    name=$(hostname -s) port=$((20000 + RANDOM % 10000))
    mkdir "$folder/state" "$folder/spool"
    cat > "$folder/slurm.conf" << END
ClusterName=here
SlurmctldHost=$name(127.0.0.1)
SlurmUser=$(id -un)
SlurmdUser=$(id -un)
AuthType=auth/none
CredType=cred/none
MpiDefault=none
ProctrackType=proctrack/linuxproc
TaskPlugin=task/none
SelectType=select/cons_tres
SelectTypeParameters=CR_CPU
ReturnToService=2
SchedulerParameters=sched_interval=1,batch_sched_delay=0
SlurmctldPort=$port
SlurmdPort=$((port + 1))
StateSaveLocation=$folder/state
SlurmdSpoolDir=$folder/spool
SlurmctldPidFile=$folder/slurmctld.pid
SlurmdPidFile=$folder/slurmd.pid
NodeName=$name NodeAddr=127.0.0.1 CPUs=4 State=UNKNOWN
PartitionName=all Nodes=ALL Default=YES MaxTime=INFINITE State=UP
END
    export SLURM_CONF=$folder/slurm.conf
    /usr/sbin/slurmctld -D > "$folder/slurmctld.log" 2>&1 &
    started+=($!)
    /usr/sbin/slurmd -D > "$folder/slurmd.log" 2>&1 &
    started+=($!)
    for _ in $(seq 600); do
        sinfo --noheader --format %t 2> /dev/null | grep -q idle && return
        all_run || break
        sleep 0.5
    done
    tail -n 20 "$folder/slurmctld.log" "$folder/slurmd.log"
    return 1
}

by_slurm() {
    slurm_here && by slurm
}

"$program" lint --store "$folder/whole.store" "$folder/archive" > /dev/null 2>&1
"$program" store export "$folder/whole.store" -o "$folder/whole.jsonl"
test_of "the archive by GNU parallel" by parallel
test_of "the archive by Slurm" by_slurm
exit $status

#!/usr/bin/env python3
"""Sets up Slurm on this one machine, of Debian's packages, and plays a tournament as an array of jobs.

    tournament_slurm.py [PLAN.toml]

It needs the packages slurmctld, slurmd, slurm-client and munge, and to be root. The daemons run in the foreground of this
program with files, keys and ports of their own, so no Slurm that is set up already is touched, and they end with it.
"""

import os
import secrets
import signal
import socket
import subprocess
import sys
import tempfile
import time
from pathlib import Path

from tournament_trying import TOOL, is_whole, may_run, plan_given

NEEDED = ("munged", "slurmctld", "slurmd", "sbatch", "squeue", "sinfo")
PATIENCE = 300.0  # seconds in which another match has to end


def settings(folder: Path, host: str, processors: int, ports: tuple[int, int]) -> str:
    """The file slurm.conf of a machine that is all of a cluster.

    >>> print(settings(Path("/f"), "here", 4, (7, 8)).splitlines()[-1])
    PartitionName=all Nodes=ALL Default=YES MaxTime=INFINITE State=UP OverSubscribe=NO
    """
    return f"""ClusterName=tournament
SlurmctldHost={host}(127.0.0.1)
SlurmUser=root
SlurmctldPort={ports[0]}
SlurmdPort={ports[1]}
AuthType=auth/munge
AuthInfo=socket={folder}/munge.socket
CredType=cred/munge
StateSaveLocation={folder}/state
SlurmdSpoolDir={folder}/spool
SlurmctldPidFile={folder}/slurmctld.pid
SlurmdPidFile={folder}/slurmd.pid
SlurmctldLogFile={folder}/slurmctld.log
SlurmdLogFile={folder}/slurmd.log
ProctrackType=proctrack/linuxproc
TaskPlugin=task/none
JobAcctGatherType=jobacct_gather/none
SelectType=select/cons_tres
SelectTypeParameters=CR_Core
SchedulerParameters=batch_sched_delay=0,sched_min_interval=0
MpiDefault=none
ReturnToService=2
NodeName={host} NodeAddr=127.0.0.1 CPUs={processors} State=UNKNOWN
PartitionName=all Nodes=ALL Default=YES MaxTime=INFINITE State=UP OverSubscribe=NO
"""


def free_ports() -> tuple[int, int]:
    with socket.socket() as one, socket.socket() as other:
        one.bind(("127.0.0.1", 0))
        other.bind(("127.0.0.1", 0))
        return one.getsockname()[1], other.getsockname()[1]


def begin(folder: Path) -> list[subprocess.Popen]:
    """Starts the daemons."""
    host = socket.gethostname().split(".")[0]
    processors = os.cpu_count() or 1
    for name in ("state", "spool"):
        (folder / name).mkdir()
    (folder / "slurm.conf").write_text(settings(folder, host, processors, free_ports()))
    (folder / "munge.key").write_bytes(secrets.token_bytes(128))
    (folder / "munge.key").chmod(0o400)
    munge = [f"--key-file={folder}/munge.key", f"--socket={folder}/munge.socket", f"--pid-file={folder}/munge.pid"]
    munge += [f"--log-file={folder}/munge.log", f"--seed-file={folder}/munge.seed", "--force", "--foreground"]
    words = ["-D", "-f", f"{folder}/slurm.conf"]
    commands = (["munged", *munge], ["slurmctld", *words], ["slurmd", *words])
    started = []
    for command in commands:
        said = (folder / f"{command[0]}.txt").open("wb")
        started.append(subprocess.Popen(command, stdout=said, stderr=said, stdin=subprocess.DEVNULL))
        time.sleep(2)
    return started


def said(*words: str) -> str:
    return subprocess.run(words, capture_output=True, text=True).stdout


def play(folder: Path, plan: str) -> str:
    """Plays a plan as an array of jobs, and returns its table."""
    tournament = str(folder / "tournament")
    subprocess.run([*TOOL, "plan", plan, tournament], check=True)
    count = Path(tournament, "jobs.txt").read_text().count("\n")
    line = f'eval "$(sed -n ${{SLURM_ARRAY_TASK_ID}}p {tournament}/jobs.txt)"'
    words = ["sbatch", f"--array=1-{count}", "--ntasks=1", f"--output={folder}/job-%a.txt", f"--wrap={line}"]
    print(" ".join(words[:2]), "..:", said(*words).strip(), flush=True)
    done, until = -1, 0.0
    while said("squeue", "--noheader").strip():
        now = len(list(Path(tournament, "matches").glob("*.json")))
        if now != done:
            done, until = now, time.monotonic() + PATIENCE
        elif time.monotonic() > until:
            break
        time.sleep(1)
    return said(*TOOL, "table", tournament)


def end_jobs() -> None:
    """Ends the jobs that are left, if matches don't end."""
    said("scancel", "--partition=all")
    until = time.monotonic() + 30
    while said("squeue", "--noheader").strip() and time.monotonic() < until:
        time.sleep(1)


def main() -> int:
    if not may_run(NEEDED):
        return 1
    plan = plan_given()
    folder = Path(tempfile.mkdtemp())
    folder.chmod(0o755)
    os.environ["SLURM_CONF"] = str(folder / "slurm.conf")
    started = begin(folder)
    try:
        print(said("sinfo"), end="")
        table = play(folder, plan)
    finally:
        end_jobs()
        for process in reversed(started):
            process.terminate()
            process.wait()
    print(table, f"the files are in {folder}", sep="")
    return 0 if is_whole(table) else 1


if __name__ == "__main__":
    # so that what was started ends if this is asked to stop
    signal.signal(signal.SIGTERM, lambda number, _: sys.exit(128 + number))
    sys.exit(main())

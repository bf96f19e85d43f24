#!/usr/bin/env python3
"""Plays a tournament by GNU parallel over ssh on two machines that share no folder, and merges what they have.

    tournament_machines.py [PLAN.toml]

The machines are network namespaces of this one, each with an ssh server, an address and a copy of the tournament's folder
of its own, at the same path. It needs the packages parallel, openssh-server and iproute2, and to be root.
"""

import shutil
import signal
import subprocess
import sys
import tempfile
import time
from pathlib import Path

from tournament_trying import TOOL, is_whole, may_run, plan_given

NEEDED = ("ip", "sshd", "ssh", "ssh-keygen", "parallel", "unshare")
MACHINES = (1, 2)


def address(machine: int, side: int) -> str:
    """
    >>> address(1, 2)
    '10.231.1.2'
    """
    return f"10.231.{machine}.{side}"


def do(*words: object) -> None:
    subprocess.run(list(map(str, words)), check=True, stdout=subprocess.DEVNULL)


def keys(folder: Path) -> None:
    """The keys of the servers and of who logs in, and the settings of both."""
    for name in ("host", "user"):
        do("ssh-keygen", "-q", "-t", "ed25519", "-N", "", "-f", folder / name)
    shutil.copy(folder / "user.pub", folder / "authorized")
    server = f"HostKey {folder}/host\nAuthorizedKeysFile {folder}/authorized\nStrictModes no\nUsePAM no\n"
    (folder / "sshd_config").write_text(server + "PermitRootLogin yes\nPidFile none\n")
    user = f"Host *\nIdentityFile {folder}/user\nStrictHostKeyChecking no\nUserKnownHostsFile /dev/null\nLogLevel ERROR\n"
    (folder / "ssh_config").write_text(user)


def begin(machine: int, folder: Path, tournament: Path) -> subprocess.Popen:
    """A namespace with its own copy of the tournament's folder, and its ssh server."""
    name, link = f"tournament{machine}", f"tour{machine}"
    shutil.copytree(tournament, folder / f"machine{machine}")
    do("ip", "netns", "add", name)
    do("ip", "link", "add", link, "type", "veth", "peer", "name", "eth0", "netns", name)
    do("ip", "address", "add", f"{address(machine, 1)}/24", "dev", link)
    do("ip", "link", "set", link, "up")
    inside = ["ip", "netns", "exec", name]
    do(*inside, "ip", "address", "add", f"{address(machine, 2)}/24", "dev", "eth0")
    for device in ("lo", "eth0"):
        do(*inside, "ip", "link", "set", device, "up")
    server = f"{shutil.which('sshd')} -D -e -f {folder}/sshd_config -o ListenAddress={address(machine, 2)}"
    script = f"mount --bind {folder}/machine{machine} {tournament} && exec {server}"
    with (folder / f"sshd{machine}.txt").open("wb") as said:
        return subprocess.Popen([*inside, "unshare", "--mount", "sh", "-c", script], stdout=said, stderr=said)


def play(folder: Path, tournament: Path) -> str:
    """Plays all lines of jobs.txt over both machines, merges, and returns the table."""
    hosts = ",".join(f"2/{address(machine, 2)}" for machine in MACHINES)
    words = ["parallel", "--ssh", f"ssh -F {folder}/ssh_config", "--sshlogin", hosts]
    jobs = (tournament / "jobs.txt").read_text()
    done = subprocess.run(words, input=jobs, capture_output=True, text=True)
    print(f"{done.stdout.count('match ')} matches over {hosts}{done.stderr}")
    copies = [str(folder / f"machine{machine}") for machine in MACHINES]
    for copy in copies:
        print(f"{Path(copy).name}: {len(list(Path(copy, 'matches').glob('*.json')))} results")
    merged = subprocess.run([*TOOL, "merge", str(tournament), *copies], check=True, capture_output=True, text=True)
    print(merged.stdout, end="")
    return subprocess.run([*TOOL, "table", str(tournament), "--check"], check=True, capture_output=True, text=True).stdout


def main() -> int:
    if not may_run(NEEDED):
        return 1
    plan = plan_given()
    folder = Path(tempfile.mkdtemp())
    Path("/run/sshd").mkdir(exist_ok=True)
    subprocess.run([*TOOL, "plan", plan, str(folder / "tournament")], check=True)
    servers = []
    try:
        keys(folder)
        for machine in MACHINES:
            servers.append(begin(machine, folder, folder / "tournament"))
        time.sleep(2)
        table = play(folder, folder / "tournament")
    finally:
        for server in servers:
            server.terminate()
            server.wait()
        for machine in MACHINES:
            subprocess.run(["ip", "netns", "delete", f"tournament{machine}"], stderr=subprocess.DEVNULL)
    print(table, f"the files are in {folder}", sep="")
    return 0 if is_whole(table) else 1


if __name__ == "__main__":
    # so that what was started ends if this is asked to stop
    signal.signal(signal.SIGTERM, lambda number, _: sys.exit(128 + number))
    sys.exit(main())

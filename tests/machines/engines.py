"""The part of the long tests that tries engines: programs, scripts, workers and machines are killed in the middle."""

from __future__ import annotations

import contextlib
import functools
import os
import shutil
import signal
import subprocess
import sys
import time
from collections.abc import Callable, Iterator
from typing import Any

import pytest
import runs
from tests.machines.checking import CQLPGN, ENVIRONMENT, HALF, HERE, SMALL
from tests.machines.checking import equal, expect, in_pieces, leaves, one_run, program, put, table, tell

Kill = Callable[[list[str]], None]
Start = Callable[..., "subprocess.Popen[bytes]"]

ASKED = 'cql() check sort min "ply" ply'
HALF_THEN = [HALF % CQLPGN]
KILLED = {
    "a program": "kill -9 $$",
    "a script": "kill -9 $PPID; exit 1",
    "a worker": "kill -9 $(ps -o ppid= -p $PPID); exit 1",
}
# it tells where it is and waits for the end of its machine
WAITS = [
    '{ ip netns identify $$; echo "$SLURMD_NODENAME"; ps -o ppid= -p $PPID; } > "$0.new" 2> /dev/null',
    'mv "$0.new" "$0.waits"; sleep 60; exit 1',
]


class Engine:
    """an engine that is tried over a small archive"""

    def __init__(self, name: str, archive: str, command: str) -> None:
        self.name, self.command = name, command
        with open(archive, "rb") as file:
            self.archive = put(file.read(SMALL), "small.pgn")

    def run(self, what: str, cqlpgn: str = CQLPGN, kill: Kill | None = None, least: int = SMALL // 24) -> None:
        """one run by the engine; `kill` ends a machine, when a program waits on it. Answers the seconds and the pieces."""
        shutil.rmtree("run", ignore_errors=True)
        words = [os.path.join(HERE, "run-over"), "--in", "run", "--bytes", str(least), "--engine", self.command, ASKED, self.archive]
        env = {**ENVIRONMENT, "CQLPGN": cqlpgn}
        start, half = time.monotonic(), set[int]()
        with open("many.out", "wb") as out, open("many.err", "wb") as err:
            with subprocess.Popen(words, stdin=subprocess.DEVNULL, stdout=out, stderr=err, env=env) as process:
                while process.poll() is None:
                    for number in range(1, 30):
                        if os.path.exists("run/table") and runs.is_done("run", number) and not runs.is_whole("run", number):
                            half.add(number)
                    if kill and os.path.exists(cqlpgn + ".waits"):
                        kill(runs.read(cqlpgn + ".waits").decode().splitlines())
                        kill = None
                    if time.monotonic() - start > 300:
                        process.kill()
                    time.sleep(0.05)
        seconds, pieces = time.monotonic() - start, len(runs.read("run/table").splitlines())
        equal("%s: %s" % (self.name, what), self.one, (process.returncode,))
        expect("%s: never half a piece: %s" % (self.name, what), not half, half)
        expect("%s: a machine was ended: %s" % (self.name, what), kill is None)
        expect("%s: the program was there: %s" % (self.name, what), cqlpgn == CQLPGN or os.path.isdir(cqlpgn + ".used"))
        leaves("%s, %s" % (self.name, what), "run")
        tell("%s: %d pieces in %.1f s: %s" % (self.name, pieces, seconds, what))

    def try_all(self, kill: Kill | None = None) -> None:
        self.one = one_run(ASKED, self.archive)
        self.run("no failure")
        for what, line in KILLED.items():
            self.run("%s is killed" % what, program("kills", *HALF_THEN, line))
        if kill:
            with contextlib.suppress(FileNotFoundError):
                os.remove("waits.waits")
            self.run("a machine is ended", program("waits", *HALF_THEN, *WAITS), kill)
        self.run("small pieces", least=SMALL // 240)


@contextlib.contextmanager
def daemons() -> Iterator[Start]:
    """commands that stay, and are ended in the end"""
    started: list[subprocess.Popen[bytes]] = []

    def start(*words: str, **more: Any) -> subprocess.Popen[bytes]:
        with open("daemons.log", "ab") as log:
            started.append(subprocess.Popen(words, stdin=subprocess.DEVNULL, stdout=log, stderr=log, **more))
        return started[-1]

    try:
        yield start
    finally:
        for process in reversed(started):
            process.terminate()
            try:
                process.wait(10)
            except subprocess.TimeoutExpired:
                process.kill()
                process.wait()


def until(what: str, holds: Callable[[], object], seconds: float = 60) -> None:
    end = time.monotonic() + seconds
    while not holds():
        if time.monotonic() > end:
            raise RuntimeError("%s: not within %d s\n%s" % (what, seconds, runs.read("daemons.log").decode()[-2000:]))
        time.sleep(0.2)


def succeeds(words: list[str]) -> bool:
    return subprocess.run(words, capture_output=True, check=False).returncode == 0


def try_parallel(archive: str) -> None:
    Engine("parallel", archive, "with-parallel --jobs 4").try_all()


def ip(*words: str) -> None:
    subprocess.run(["ip", *words], check=True)


def end_within(space: str) -> None:
    """ends all processes of a network namespace"""
    found = subprocess.run(["ip", "netns", "pids", space], capture_output=True, check=False).stdout.split()
    for number in found:
        with contextlib.suppress(ProcessLookupError):
            os.kill(int(number), signal.SIGKILL)


SSHD = """HostKey %s/host
AuthorizedKeysFile %s/authorized
PermitRootLogin prohibit-password
PasswordAuthentication no
UsePAM no
StrictModes no
MaxStartups 100
MaxSessions 50
PidFile none
"""

SSH = """IdentityFile %s/user
StrictHostKeyChecking no
UserKnownHostsFile /dev/null
LogLevel ERROR
ConnectTimeout 3
ServerAliveInterval 2
ServerAliveCountMax 2
"""


@contextlib.contextmanager
def machines(count: int) -> Iterator[str]:
    """so many network namespaces on one bridge, each with a server for ssh; answers how one is reached"""
    spaces = ["many%d" % k for k in range(count + 1)]
    try:
        for space in spaces:
            ip("netns", "add", space)
            ip("-n", space, "link", "set", "lo", "up")
        ip("-n", "many0", "link", "add", "bridge", "type", "bridge")
        ip("-n", "many0", "addr", "add", "10.66.0.254/24", "dev", "bridge")
        ip("-n", "many0", "link", "set", "bridge", "up")
        for name in ("host", "user"):
            for file in (name, name + ".pub"):
                if os.path.exists(file):
                    os.remove(file)
            subprocess.run(["ssh-keygen", "-q", "-t", "ed25519", "-N", "", "-f", name], check=True)
        shutil.copy("user.pub", "authorized")
        room = os.getcwd()
        put((SSHD % (room, room)).encode(), "sshd_config")
        put((SSH % room).encode(), "ssh_config")
        os.makedirs("/run/sshd", exist_ok=True)
        with daemons() as start:
            for k, space in enumerate(spaces[1:], 1):
                ip("link", "add", "port%d" % k, "netns", "many0", "type", "veth", "peer", "name", "eth0", "netns", space)
                ip("-n", "many0", "link", "set", "port%d" % k, "master", "bridge", "up")
                ip("-n", space, "addr", "add", "10.66.0.%d/24" % k, "dev", "eth0")
                ip("-n", space, "link", "set", "eth0", "up")
                start("ip", "netns", "exec", space, "/usr/sbin/sshd", "-D", "-f", room + "/sshd_config")
                reached = ["ip", "netns", "exec", "many0", "ssh", "-F", room + "/ssh_config", "root@10.66.0.%d" % k, "true"]
                until("sshd in %s" % space, functools.partial(succeeds, reached))
            yield "ip netns exec many0 %s/with-parallel --ssh 'ssh -F %s/ssh_config' -S " % (HERE, room)
    finally:
        for space in spaces:
            end_within(space)
            subprocess.run(["ip", "netns", "del", space], capture_output=True, check=False)


def try_ssh(archive: str) -> None:
    if os.geteuid():
        pytest.skip("without root: ssh")

    def end_machine(lines: list[str]) -> None:
        ip("-n", lines[0], "link", "set", "eth0", "down")
        end_within(lines[0])

    def hosts(count: int) -> str:
        return ",".join("1/root@10.66.0.%d" % k for k in range(1, count + 1))

    with machines(4) as reach:
        Engine("ssh", archive, reach + hosts(4)).try_all(end_machine)
    with machines(4) as reach:
        found = table(archive, os.path.getsize(archive) // 16 + 1, "table16")[0]
        seconds: dict[int, str] = {}
        one = {workers: one_run("cql() mate", archive, "--workers", workers) for workers in ("1", "4")}
        for count in (1, 2, 4):
            many = in_pieces("cql() mate", archive, "--table", "table16", "--engine", reach + hosts(count))
            equal("ssh: the whole archive on %d machines" % count, one["4"], many)
            seconds[count] = "%.1f s by %d" % (many[1], count)
        words = "ssh: %d pieces on machines with one piece at a time: %s; one run %.1f s by one worker, %.1f s by four"
        tell(words % (len(found), ", ".join(seconds.values()), one["1"][1], one["4"][1]))


SLURM = """ClusterName=many
SlurmctldHost=%(host)s
SlurmctldPort=26817
SlurmUser=root
SlurmdUser=root
AuthType=auth/munge
AuthInfo=socket=%(room)s/munge.socket,cred_expire=5
StateSaveLocation=%(room)s/state
SlurmdSpoolDir=%(room)s/spool.%%n
SlurmctldPidFile=%(room)s/slurmctld.pid
SlurmdPidFile=%(room)s/slurmd.%%n.pid
SlurmctldLogFile=%(room)s/slurmctld.log
SlurmdLogFile=%(room)s/slurmd.%%n.log
ProctrackType=proctrack/linuxproc
TaskPlugin=task/none
SelectType=select/cons_tres
SelectTypeParameters=CR_Core
SwitchType=switch/none
MpiDefault=none
JobCompType=jobcomp/none
AccountingStorageType=accounting_storage/none
JobAcctGatherType=jobacct_gather/none
ReturnToService=2
SlurmdTimeout=20
SchedulerParameters=sched_interval=2
NodeName=n1 NodeHostname=%(host)s NodeAddr=127.0.0.1 Port=26818 CPUs=2 State=UNKNOWN
NodeName=n2 NodeHostname=%(host)s NodeAddr=127.0.0.1 Port=26819 CPUs=2 State=UNKNOWN
PartitionName=all Nodes=n1,n2 Default=YES MaxTime=INFINITE State=UP
"""


@contextlib.contextmanager
def slurm_nodes() -> Iterator[dict[str, subprocess.Popen[bytes]]]:
    """two nodes of Slurm on this machine, each with processes of its own, which end with its first one; answers these"""
    room = os.path.join(os.getcwd(), "slurm")
    os.makedirs(room + "/state")
    put((SLURM % {"host": os.uname().nodename, "room": room}).encode(), room + "/slurm.conf")
    os.chmod(put(os.urandom(1024), room + "/key"), 0o400)
    os.environ["SLURM_CONF"] = ENVIRONMENT["SLURM_CONF"] = room + "/slurm.conf"
    with daemons() as start:
        files = ["--%s-file=%s/munge.%s" % (name, room, name) for name in ("pid", "log", "seed")]
        start("munged", "--force", "--foreground", "--key-file=" + room + "/key", "--socket=" + room + "/munge.socket", *files)
        until("munged", lambda: os.path.exists(room + "/munge.socket"))
        start("slurmctld", "-D")
        own = ["unshare", "--pid", "--fork", "--kill-child", "--mount-proc"]
        nodes = {name: start(*own, "slurmd", "-D", "-N", name) for name in ("n1", "n2")}
        idle = ["sinfo", "--noheader", "--format=%D %t"]
        until("two idle nodes", lambda: subprocess.run(idle, capture_output=True, check=False).stdout == b"2 idle\n")
        yield nodes


def try_slurm(archive: str) -> None:
    if os.geteuid():
        pytest.skip("without root: slurm")
    with slurm_nodes() as nodes:
        Engine("slurm", archive, "with-slurm").try_all(lambda lines: nodes[lines[1].strip()].kill())


def try_dask(archive: str) -> None:
    pythons = [name for name in (sys.executable, "/usr/bin/python3") if succeeds([name, "-c", "import distributed"])]
    if not pythons:
        pytest.skip("no Python has distributed: dask")
    address = "tcp://127.0.0.1:28786"
    with daemons() as start:
        start("dask-scheduler", "--host", "127.0.0.1", "--port", "28786", "--no-dashboard")
        for _ in range(3):
            one = ["--nthreads", "1", "--nworkers", "1", "--host", "127.0.0.1", "--no-dashboard"]
            start("dask-worker", address, *one, "--local-directory", os.getcwd())

        def end_worker(lines: list[str]) -> None:
            os.kill(int(lines[2]), signal.SIGKILL)

        Engine("dask", archive, "%s %s/with-dask %s" % (pythons[0], HERE, address)).try_all(end_worker)

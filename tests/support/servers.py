"""An ssh server on this machine, whose logins use a separate folder, and a Slurm cluster of one node, this machine."""
import os
import pathlib
import socket
import subprocess
from collections.abc import Iterator
from contextlib import ExitStack
from typing import NamedTuple

import pytest
from support.needs import missing, tool
from support.tools import stop, wait_until, write_script

OPTIONS = "-o StrictHostKeyChecking=no -o UserKnownHostsFile=/dev/null -o LogLevel=ERROR"


class Server(NamedTuple):
    """The line by which GNU parallel makes two runs at a time there, and the folder of the logins."""
    line: str
    home: pathlib.Path


@pytest.fixture(scope="session")
def ssh_server(tmp_path_factory: pytest.TempPathFactory) -> Iterator[Server]:
    """The server, which is ended with the session."""
    sshd = tool("sshd")
    for command in ("ssh", "ssh-keygen", "rsync"):
        tool(command)
    if os.geteuid() != 0:
        missing("only root starts a server of ssh")
    folder = tmp_path_factory.mktemp("ssh")
    home, port = folder / "home", free_port()
    home.mkdir()
    for key in ("host", "user"):
        subprocess.run(["ssh-keygen", "-q", "-t", "ed25519", "-N", "", "-f", str(folder / key)], check=True)
    login = write_script(folder / "login", f"#!/bin/sh\ncd {home} && export HOME={home} && "
                                           "exec sh -c \"$SSH_ORIGINAL_COMMAND\"\n")
    (folder / "sshd").write_text(f"Port {port}\nListenAddress 127.0.0.1\nHostKey {folder}/host\nStrictModes no\n"
                                 f"AuthorizedKeysFile {folder}/user.pub\nPidFile none\nUsePAM no\n"
                                 f"ForceCommand {login}\n")
    os.makedirs("/run/sshd", exist_ok=True)
    server = subprocess.Popen([*bound_to_this(), sshd, "-D", "-f", str(folder / "sshd")], stderr=subprocess.DEVNULL)
    try:
        wait_until(lambda: answers(port), "the server of ssh answers")
        yield Server(f"2/ssh -p {port} -i {folder}/user {OPTIONS} 127.0.0.1\n", home)
    finally:
        stop(server)


def bound_to_this() -> list[str]:
    """The command that starts a server which ends with this process, also if this process is killed."""
    return [tool("setpriv"), "--pdeathsig", "TERM", "--"]


def free_port() -> int:
    with socket.socket() as end:
        end.bind(("127.0.0.1", 0))
        return int(end.getsockname()[1])


def answers(port: int) -> bool:
    with socket.socket() as end:
        return end.connect_ex(("127.0.0.1", port)) == 0


# Slurm

# The cluster has four processors, also where the machine has fewer, so that the tasks of a small array run in parallel.
CONF = """ClusterName=test
SlurmctldHost={host}(127.0.0.1)
SlurmctldPort={controller}
SlurmdPort={node}
AuthInfo=socket={folder}/munge.socket
SlurmUser=root
StateSaveLocation={folder}/state
SlurmdSpoolDir={folder}/spool
SlurmctldPidFile={folder}/slurmctld.pid
SlurmdPidFile={folder}/slurmd.pid
ProctrackType=proctrack/linuxproc
TaskPlugin=task/none
SelectType=select/cons_tres
SelectTypeParameters=CR_CPU
SchedulerParameters=batch_sched_delay=0,sched_min_interval=0
KillWait=1
NodeName={host} NodeAddr=127.0.0.1 CPUs=4 State=UNKNOWN
PartitionName=all Nodes=ALL Default=YES MaxTime=INFINITE State=UP
SlurmdParameters=config_overrides
"""


class Cluster(NamedTuple):
    """The environment in which Slurm's commands find the cluster."""
    env: dict[str, str]

    def tells(self, *words: str) -> str:
        """What a command of Slurm prints."""
        return subprocess.run(words, env=self.env, capture_output=True, text=True, timeout=60).stdout.strip()


@pytest.fixture(scope="session")
def slurm(tmp_path_factory: pytest.TempPathFactory) -> Iterator[Cluster]:
    """The cluster, whose jobs and servers are ended with the session."""
    for command in ("munged", "slurmctld", "slurmd"):
        tool(command)
    if os.geteuid() != 0:
        missing("only root starts a cluster")
    folder = tmp_path_factory.mktemp("slurm")
    folder.chmod(0o755)
    for name in ("state", "spool"):
        (folder / name).mkdir()
    (folder / "key").write_bytes(os.urandom(1024))
    (folder / "key").chmod(0o400)
    (folder / "slurm.conf").write_text(CONF.format(host=socket.gethostname().split(".")[0], folder=folder,
                                                   controller=free_port(), node=free_port()))
    cluster = Cluster(dict(os.environ, SLURM_CONF=str(folder / "slurm.conf")))
    with ExitStack() as started:
        for words in servers(folder):
            process = subprocess.Popen([*bound_to_this(), *words], env=cluster.env, stdin=subprocess.DEVNULL,
                                       stdout=subprocess.DEVNULL, stderr=subprocess.DEVNULL)
            started.callback(stop, process)
            if words[0] == "munged":
                wait_until((folder / "munge.socket").exists, "munged answers")
        wait_until(lambda: cluster.tells("sinfo", "-h", "-o", "%T") == "idle", "the node is idle")
        yield cluster
        cluster.tells("scancel", "--full", "--user=root")
        wait_until(lambda: cluster.tells("squeue", "-h") == "", "no job goes on")


def servers(folder: pathlib.Path) -> Iterator[list[str]]:
    files = [f"--{name}={folder}/munge{ending}" for name, ending in
             (("socket", ".socket"), ("pid-file", "d.pid"), ("log-file", "d.log"), ("seed-file", "d.seed"))]
    yield ["munged", "--foreground", "--force", f"--key-file={folder}/key", *files]
    for name in ("slurmctld", "slurmd"):
        yield [name, "-D", "-f", str(folder / "slurm.conf")]

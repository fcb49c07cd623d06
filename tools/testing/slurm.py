"""A cluster of Slurm of this one machine, for tests: its daemons run from a folder of their own, and are ended by their numbers."""

import os
import secrets
import shutil
import signal
import socket
import subprocess
import time
from pathlib import Path

DAEMONS = ("munged", "slurmctld", "slurmd")
PLACES = os.environ.get("PATH", "") + ":/usr/sbin:/sbin"
FOUND = {name: shutil.which(name, path=PLACES) for name in (*DAEMONS, "sbatch", "sinfo")}
IS_THERE = all(FOUND.values()) and os.geteuid() == 0  # slurmd starts jobs for others
WAITED = 60  # seconds at most until the node is idle


def free_port():
    with socket.socket() as found:
        found.bind(("127.0.0.1", 0))
        return found.getsockname()[1]


def config(top, name):
    return f"""ClusterName=one
SlurmctldHost={name}(127.0.0.1)
SlurmUser=root
SlurmdUser=root
AuthType=auth/munge
AuthInfo=socket={top}/munge.socket
CredType=cred/munge
SlurmctldPort={free_port()}
SlurmdPort={free_port()}
StateSaveLocation={top}/state
SlurmdSpoolDir={top}/spool
SlurmctldPidFile={top}/slurmctld.pid
SlurmdPidFile={top}/slurmd.pid
SlurmctldLogFile={top}/slurmctld.log
SlurmdLogFile={top}/slurmd.log
ProctrackType=proctrack/linuxproc
TaskPlugin=task/none
SelectType=select/cons_tres
SelectTypeParameters=CR_Core
JobAcctGatherType=jobacct_gather/none
AccountingStorageType=accounting_storage/none
ReturnToService=2
SchedulerParameters=sched_interval=1,batch_sched_delay=0
NodeName={name} NodeAddr=127.0.0.1 CPUs={os.cpu_count()} State=UNKNOWN
PartitionName=all Nodes={name} Default=YES MaxTime=INFINITE State=UP
"""


class Cluster:
    """Starts the daemons, and ends them. `environment` is that of those who use it."""

    def __init__(self, folder):
        self.top = Path(folder)
        for name in ("state", "spool"):
            (self.top / name).mkdir()
        (self.top / "munge.key").write_bytes(secrets.token_bytes(1024))
        (self.top / "munge.key").chmod(0o600)
        (self.top / "slurm.conf").write_text(config(self.top, socket.gethostname().split(".")[0]))
        self.environment = os.environ | {"SLURM_CONF": str(self.top / "slurm.conf"), "PATH": PLACES}
        self.running = []

    def start(self):
        """Returns whether the cluster has come up."""
        files = [f"--{name}-file={self.top}/munge.{end}" for name, end in (("key", "key"), ("pid", "pid"), ("log", "log"), ("seed", "seed"))]
        for words in (["munged", "--foreground", "--force", f"--socket={self.top}/munge.socket", *files], ["slurmctld", "-D"], ["slurmd", "-D"]):
            quiet = {"stdin": subprocess.DEVNULL, "stdout": subprocess.DEVNULL, "stderr": subprocess.DEVNULL}
            self.running.append(subprocess.Popen([FOUND[words[0]], *words[1:]], env=self.environment, **quiet))
            while words[0] == "munged" and not (self.top / "munge.socket").exists() and self.running[0].poll() is None:
                time.sleep(0.05)
        until = time.monotonic() + WAITED
        while time.monotonic() < until and all(one.poll() is None for one in self.running):
            said = subprocess.run([FOUND["sinfo"], "--noheader", "--format=%T"], env=self.environment, capture_output=True, text=True)
            if said.stdout.strip() == "idle":
                return True
            time.sleep(0.2)
        return False

    def end(self):
        for one in reversed(self.running):
            if one.poll() is None:
                one.send_signal(signal.SIGTERM)
            one.wait()

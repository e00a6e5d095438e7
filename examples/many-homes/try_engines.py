#!/usr/bin/env python3
"""Has the same homes played by each engine in turn, kills some of what is at work, and prints what came of it as a table.

    python3 examples/many-homes/try_engines.py PROGRAM [--homes N] [--one-in K] [--room FOLDER] [--engine NAME ..]

By default 1000 homes, one call of the program in 50 killed, and every engine: `loop` (a shell's, one home after the other, none
killed), `parallel`, `ssh` and `slurm`. It wants what Debian calls parallel, openssh-server, rsync, slurm-wlm and munge, and to be
root. All that it starts, an sshd for each of two machines and a Slurm of one node, all of them this machine, listens on 127.0.0.1,
keeps its files in the room (a folder of its own by default), and is ended with it.

- `parallel`, two jobs at a time: when a third of the records are there parallel itself is killed, and called again.
- `ssh`, one job at a time on each of two machines: when a third are there one machine is killed, for good; then it is called
  again.
- `slurm`, two tasks at a time of an array of 100: when a third are there the node is killed, with all that is at work on it.
  It comes back when Slurm has missed it.

Engine by engine the records are gathered (gather.py). Their sum has to be the same each time, or it ends with 1.
"""
import argparse
import collections
import ctypes
import glob
import os
import re
import shutil
import signal
import socket
import subprocess
import sys
import tempfile
import time

HERE = os.path.dirname(os.path.abspath(__file__))
TOP = os.path.join(HERE, "..", "..")
SHARES = 100
SPOILED = 100  # each hundredth script is refused (make_homes.py)
SUBREAPER = 36  # prctl: whoever loses its parent below us becomes our child, so that all that was started can be found
COLUMNS = ["Engine", "At a time", "Clock, s", "Calls of the program", "of them killed", "Stopped besides", "Records that agree",
           "refused", "Sum"]
SSHD = """Port {port}
ListenAddress 127.0.0.1
HostKey {room}/host_key
AuthorizedKeysFile {room}/user_key.pub
StrictModes no
PermitRootLogin yes
UsePAM no
PidFile none
SetEnv HOME={room}/{name}
ForceCommand cd {room}/{name} && eval "$SSH_ORIGINAL_COMMAND"
"""
SSH = """Host one
  Port 2222
Host two
  Port 2223
Host *
  HostName 127.0.0.1
  IdentityFile {room}/user_key
  UserKnownHostsFile /dev/null
  StrictHostKeyChecking no
  LogLevel ERROR
  ControlMaster auto
  ControlPath {room}/%n.socket
  ControlPersist 5
"""
SLURM = """ClusterName=homes
SlurmctldHost={host}(127.0.0.1)
SlurmctldPort=16817
SlurmdPort=16818
SlurmUser=root
AuthType=auth/munge
AuthInfo=socket={room}/munge/socket,cred_expire=5
StateSaveLocation={room}/state
SlurmdSpoolDir={room}/spool
SlurmctldPidFile={room}/slurmctld.pid
SlurmdPidFile={room}/slurmd.pid
ProctrackType=proctrack/linuxproc
TaskPlugin=task/none
MpiDefault=none
SelectType=select/cons_tres
SelectTypeParameters=CR_CPU
SlurmdTimeout=15
ReturnToService=2
RequeueExit=3,4,5,137
NodeName={host} NodeAddr=127.0.0.1 CPUs=2
PartitionName=homes Nodes=ALL Default=YES MaxTime=INFINITE
"""


# -- Processes, all of them below this one

def parents():
    found = {}
    for stat in glob.glob("/proc/[0-9]*/stat"):
        try:
            with open(stat, encoding="utf-8", errors="replace") as file:
                found[int(stat.split("/")[2])] = int(file.read().rpartition(")")[2].split()[1])
        except OSError:
            pass
    return found


def below(process):
    """The process and all that descend from it."""
    children = collections.defaultdict(list)
    for child, parent in parents().items():
        children[parent].append(child)
    found = [process]
    for it in found:
        found += children[it]
    return found


def kill_all(processes):
    for it in processes:
        try:
            os.kill(it, signal.SIGKILL)
        except ProcessLookupError:
            pass


def start(room, name, *words, **more):
    with open(os.path.join(room, f"{name}.log"), "ab") as log:
        return subprocess.Popen(words, stdout=log, stderr=log, stdin=subprocess.DEVNULL, cwd=TOP, **more)


def when_a_third_is_there(folder, homes, work):
    """Waits until a third of the records are there, or the work has ended."""
    while work.poll() is None and len(glob.glob(f"{folder}/*.record")) < homes // 3:
        time.sleep(0.05)


def write(path, text):
    with open(path, "w", encoding="utf-8") as file:
        file.write(text)
    return path


# -- The engines: each plays the homes of a folder with a program, and says what it stopped

def by_loop(room, program, folder, homes):
    start(room, "loop", "sh", f"{HERE}/play_share.sh", program, folder, "0", "1").wait()
    return "1", "nothing"


def by_parallel(room, program, folder, homes):
    call = ["sh", f"{HERE}/with_parallel.sh", program, folder]
    first = start(room, "parallel", *call)
    when_a_third_is_there(folder, homes, first)
    kill_all(below(first.pid))
    first.wait()
    start(room, "parallel", *call).wait()
    return "2", "parallel itself, called again"


def by_ssh(room, program, folder, homes):
    for key in ["host_key", "user_key"]:
        subprocess.run(["ssh-keygen", "-q", "-t", "ed25519", "-N", "", "-f", f"{room}/{key}"], check=True)
    os.makedirs("/run/sshd", exist_ok=True)
    machines = []
    for name, port in [("one", 2222), ("two", 2223)]:
        os.mkdir(f"{room}/{name}")
        settings = write(f"{room}/sshd_{name}", SSHD.format(room=room, name=name, port=port))
        machines.append(start(room, name, "/usr/sbin/sshd", "-D", "-e", "-f", settings))
    settings = write(f"{room}/ssh_config", SSH.format(room=room))
    given = dict(os.environ, PARALLEL_SSH=f"ssh -F {settings}")
    time.sleep(1)
    call = ["sh", f"{HERE}/with_parallel.sh", program, folder, "1/one,1/two"]
    work = start(room, "ssh", *call, env=given)
    when_a_third_is_there(folder, homes, work)
    kill_all(below(machines[1].pid))
    work.wait()
    lost = homes - homes // SPOILED - len(glob.glob(f"{folder}/*.record"))
    start(room, "ssh", *call, env=given).wait()
    kill_all(below(machines[0].pid))
    return "1 on each of 2", f"one of the machines, for good; records lost on their way back: {lost}"


def by_slurm(room, program, folder, homes):
    for name in ["munge", "state", "spool"]:
        os.mkdir(f"{room}/{name}")
    with open(f"{room}/munge/key", "wb", opener=lambda path, flags: os.open(path, flags, 0o600)) as key:
        key.write(os.urandom(128))
    given = dict(os.environ, SLURM_CONF=write(f"{room}/slurm.conf", SLURM.format(room=room, host=socket.gethostname())))
    munged = start(room, "munged", "/usr/sbin/munged", "--foreground", "--force", *(
        f"--{name}={room}/munge/{file}" for name, file in
        [("key-file", "key"), ("socket", "socket"), ("pid-file", "pid"), ("log-file", "log"), ("seed-file", "seed")]))
    time.sleep(1)
    control = start(room, "slurmctld", "/usr/sbin/slurmctld", "-D", env=given)
    time.sleep(2)
    node = start(room, "slurmd", "/usr/sbin/slurmd", "-D", env=given)
    time.sleep(2)
    stay = {os.getpid(), munged.pid, control.pid}
    work = start(room, "sbatch", "sbatch", "--wait", f"--array=0-{SHARES - 1}", "--output=/dev/null", f"--error={room}/slurm.err",
                 "--open-mode=append", f"{HERE}/with_slurm.sh", program, folder, env=given)
    when_a_third_is_there(folder, homes, work)
    stay |= set(below(work.pid)) | set(below(control.pid)) | set(below(munged.pid))
    kill_all(set(below(os.getpid())) - stay)
    node.wait()
    while work.poll() is None and b"down" not in subprocess.run(["sinfo", "-h", "-o", "%T"], env=given, stdout=-1).stdout:
        time.sleep(1)
    start(room, "slurmd", "/usr/sbin/slurmd", "-D", env=given)
    work.wait()
    shown = subprocess.run(["scontrol", "show", "job"], env=given, stdout=subprocess.PIPE).stdout.decode()
    again = sum(map(int, re.findall(r"Restarts=(\d+)", shown)))
    kill_all(set(below(os.getpid())) - {os.getpid()})
    return "2", f"the node; {again} tasks were played again"


ENGINES = {"loop": by_loop, "parallel": by_parallel, "ssh": by_ssh, "slurm": by_slurm}


# -- One after the other

def tried(engine, given, room):
    """The cells of an engine's row."""
    room = os.path.join(room, engine)
    os.mkdir(room)
    folder, calls = os.path.join(room, "homes"), os.path.join(room, "calls")
    subprocess.run([sys.executable, f"{HERE}/make_homes.py", folder, "--homes", str(given.homes)], check=True)
    program = given.program
    if engine != "loop":
        program = write(f"{room}/program", f'#!/bin/sh\nexec {HERE}/now_and_then_killed.sh {given.program} {calls} {given.one_in} "$@"\n')
        os.chmod(program, 0o755)
    begun = time.monotonic()
    at_once, stopped = ENGINES[engine](room, program, folder, given.homes)
    spent = time.monotonic() - begun
    told = collections.Counter()
    if engine != "loop":
        with open(calls, encoding="utf-8") as file:
            told.update(file.read().split())
    gathered = subprocess.run([sys.executable, f"{HERE}/gather.py", given.program, folder], stdout=subprocess.PIPE)
    lines = gathered.stdout.decode().splitlines()
    write(f"{room}/gathered", gathered.stdout.decode())
    ends = dict(reversed(it.split()) for it in lines[-3].split(", "))
    return [engine, at_once, f"{spent:.0f}", str(told["called"] or given.homes), str(told["killed"]), stopped, ends["agree"],
            ends["refused"], lines[-1].split()[1]], gathered.returncode


def main():
    reader = argparse.ArgumentParser(description=__doc__, formatter_class=argparse.RawDescriptionHelpFormatter)
    reader.add_argument("program", type=os.path.realpath, metavar="PROGRAM")
    reader.add_argument("--homes", type=int, default=1000, metavar="N")
    reader.add_argument("--one-in", type=int, default=50, metavar="K")
    reader.add_argument("--room", type=os.path.realpath, metavar="FOLDER")
    reader.add_argument("--engine", dest="engines", action="append", choices=ENGINES, metavar="NAME")
    given = reader.parse_args()
    ctypes.CDLL(None).prctl(SUBREAPER, 1)
    room, bad, sums = given.room or tempfile.mkdtemp(prefix="many-homes-"), 0, set()
    os.makedirs(room, exist_ok=True)
    print("load", *(f"{load:.1f}" for load in os.getloadavg()), flush=True)
    print("|", " | ".join(COLUMNS), "|")
    print("|", " | ".join("---" for _ in COLUMNS), "|", flush=True)
    for engine in given.engines or ENGINES:
        cells, status = tried(engine, given, room)
        bad |= status
        sums.add(cells[-1])
        print("|", " | ".join(cells), "|", flush=True)
    if not given.room:
        shutil.rmtree(room, ignore_errors=True)
    sys.exit(bad or len(sums) > 1)


if __name__ == "__main__":
    main()

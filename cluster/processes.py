"""The processes of a cluster: a register, three storage nodes and a server, each in a folder of its own."""

import os
import random
import socket
import subprocess
import sys
import time

TOP = os.path.dirname(os.path.dirname(os.path.abspath(__file__)))
NODES = ["node1", "node2", "node3"]
# In the order in which they start. They stop in the other one.
NAMES = ["register", *NODES, "server"]
# The lock table of the server.
ROWS, SLOTS = 2, 1024
# So many seconds may a process take to listen, or to end.
PATIENCE = 30


class Failure(Exception):
    """What went wrong, for whoever called."""


def called(main):
    """Runs the script, and ends it with a line where something went wrong."""
    name = near(sys.argv[0])
    try:
        main()
    except BrokenPipeError:
        os._exit(1)
    except Failure as failure:
        sys.exit(f"{name}: {failure}")
    except OSError as error:
        sys.exit(f"{name}: {error.filename or 'the system'}: {error.strerror}")


def near(path):
    """The path from here on, where it goes down, or else from the top."""
    path = os.path.relpath(path)
    return os.path.abspath(path) if path.startswith("..") else path


def only_word():
    """The folder that the script is given."""
    if len(sys.argv) != 2 or sys.argv[1].startswith("-"):
        raise Failure("give it one word, the folder of the cluster")
    return near(sys.argv[1])


def program():
    """The program: that of `WALTZ`, or else the proved one."""
    path = os.path.abspath(os.environ.get("WALTZ") or f"{TOP}/crates/waltz/out/waltz")
    if not os.access(path, os.X_OK):
        raise Failure(f"there is no program {near(path)}: run .ci/run first, which proves and builds it")
    return path


def run(*words, given=""):
    """Runs the program on this input, and gives its status, or none where it takes too long, and what it printed."""
    how = {"input": given, "capture_output": True, "text": True, "timeout": PATIENCE}
    try:
        ran = subprocess.run([program(), *map(str, words)], **how)
    except subprocess.TimeoutExpired:
        return None, ""
    return ran.returncode, ran.stdout


def until(holds):
    """Waits until this holds, and says whether it came in time."""
    end = time.monotonic() + PATIENCE
    while not holds():
        if time.monotonic() > end:
            return False
        time.sleep(0.01)
    return True


def free_ports(count):
    """So many different ports that nobody uses, below those that the system gives to whoever connects."""
    held = []
    for _ in range(10000):
        taken = socket.socket()
        try:
            taken.bind(("127.0.0.1", random.randrange(20000, 32768)))
            held.append(taken)
        except OSError:
            taken.close()
        if len(held) == count:
            break
    ports = [it.getsockname()[1] for it in held]
    for it in held:
        it.close()
    if len(ports) < count:
        raise Failure("there are no free ports from 20000 to 32767")
    return ports


class Cluster:
    """A cluster in a folder, with a port for each process."""

    def __init__(self, folder, ports=None):
        self.folder = folder
        self.ports = ports or dict(zip(NAMES, free_ports(len(NAMES))))

    def words(self, name):
        """The words of a command line for the process of this name."""
        if name == "register":
            return ["register", str(self.ports[name])]
        if name == "server":
            numbers = [self.ports[name], self.ports["register"], ROWS, SLOTS]
            return ["server", *map(str, numbers + [self.ports[it] for it in NODES])]
        return ["storage", str(self.ports[name])]

    def start(self, name, **how):
        """Starts a process in its folder."""
        os.makedirs(f"{self.folder}/{name}", exist_ok=True)
        how = {"cwd": f"{self.folder}/{name}", "stdin": subprocess.DEVNULL, **how}
        return subprocess.Popen([program(), *self.words(name)], **how)

    def running(self, name):
        """The number of the process that cluster/up started, where it still runs."""
        try:
            with open(f"{self.folder}/{name}/pid") as it:
                number = int(it.read())
        except (OSError, ValueError):
            return None
        how = {"capture_output": True, "text": True}
        line = subprocess.run(["ps", "-o", "stat=,args=", "-p", str(number)], **how).stdout.split()
        words = self.words(name)
        return number if line[-len(words) :] == words and line[0][0] != "Z" else None

    def printed(self, name):
        """What the process that cluster/up started has printed."""
        with open(f"{self.folder}/{name}/printed") as it:
            return it.read()


def kept(folder):
    """The cluster of a folder whose ports were chosen."""
    path = f"{folder}/ports"
    try:
        with open(path) as it:
            ports = {name: int(port) for name, port in map(str.split, it)}
    except ValueError:
        ports = {}
    if list(ports) != NAMES:
        raise Failure(f"{path} must have the lines {', '.join(NAMES)} with a port each: mend it, or delete it")
    return Cluster(folder, ports)

"""What the scripts of this folder start on loopback: a `serve`, a cluster, the load program."""
import os
import queue
import re
import signal
import socket
import subprocess
import sys
import tempfile
import threading
import time

from relay import Relay

TOP = os.path.dirname(os.path.dirname(os.path.abspath(__file__)))
PROVED = f"{TOP}/crates/vbroker/out/vbroker"
TRIAL = f"{TOP}/crates/vbroker/out/trial/vbroker"
LATE = "nothing in time"
# The proved program, or the trial one of ./serve if there is none.
PROGRAM = PROVED if os.path.exists(PROVED) or not os.path.exists(TRIAL) else TRIAL


class Server:
    """A `serve` with nodes on free ports. The first of them are members, and node 1 is primary. It
    is killed when its block ends."""

    def __init__(self, program, nodes, members):
        with tempfile.NamedTemporaryFile("w", suffix=".toml") as table:
            table.write(f"members = {list(range(1, members + 1))}\nprimary = 1\n")
            for number in range(1, nodes + 1):
                table.write(f'[[node]]\nid = {number}\nlisten = "127.0.0.1:0"\n')
            table.flush()
            self.process = subprocess.Popen([program, "serve", "--config", table.name],
                stdin=subprocess.PIPE, stdout=subprocess.PIPE, stderr=subprocess.PIPE, text=True,
                bufsize=1)
            lines = [self.process.stderr.readline() for _ in range(nodes)]
        found = [re.search(r":(\d+)\n", it) for it in lines]
        if not all(found):
            sys.exit(f"serve printed: {''.join(lines)}")
        self.ports = [int(it[1]) for it in found]
        threading.Thread(target=self.process.stderr.read, daemon=True).start()

    def order(self, line, answers=1):
        """Gives an order, and returns the lines that answer it."""
        self.process.stdin.write(line + "\n")
        self.process.stdin.flush()
        return [self.process.stdout.readline().strip() for _ in range(answers)]

    def takes(self):
        """Returns its resident memory in MiB, its threads and its open files."""
        with open(f"/proc/{self.process.pid}/status", encoding="utf-8") as it:
            fields = dict(line.split(":", 1) for line in it)
        return (int(fields["VmRSS"].split()[0]) / 1024, int(fields["Threads"]),
            len(os.listdir(f"/proc/{self.process.pid}/fd")))

    def __enter__(self):
        return self

    def __exit__(self, *_):
        self.process.kill()
        self.process.wait()


class Cluster:
    """A master and the nodes of three rows, in a folder. All that they send one another goes
    through relays, by who dials and whom, and so do clients, unless it is said that nothing is
    relayed. It ends with its block."""

    def __init__(self, program, folder, is_relayed=True):
        self.program, self.folder, self.processes = program, folder, {}
        self.numbers, self.ballot, self.rows, self.wait = {}, 1, (1, 2, 3), 60
        ports = free_ports(7)
        self.listens = ports[1:4]
        self.links = dict(zip((*self.rows, "master"), ports[4:] + ports[:1]))
        self.relays = {(one, other): Relay(self.links[other])
            for one in self.rows for other in self.links
            if is_relayed and (other == "master" or other < one)}
        self.doors = [Relay(it) for it in self.listens if is_relayed]
        self.clients = [it.port for it in self.doors] or self.listens
        assert self.run("key", "key", f"{folder}/key").wait() == 0
        self.start_master()
        for row in self.rows:
            self.start(row)
        self.assign(self.rows, 1)

    def table(self, reader):
        """Writes the table as this row, or the master, has to read it. Returns the file."""
        seen = {it: self.relays[reader, it].port if (reader, it) in self.relays else port
            for it, port in self.links.items()}
        with open(f"{self.folder}/{reader}.toml", "w", encoding="utf-8") as it:
            it.write(f'key = "{self.folder}/key"\nmaster = "127.0.0.1:{seen["master"]}"\n'
                f'state = "{self.folder}/state"\norders = "{self.folder}/orders"\n')
            for row, port in zip(self.rows, self.listens):
                it.write(f'[[node]]\nlisten = "127.0.0.1:{port}"\nlink = "127.0.0.1:{seen[row]}"\n')
        return it.name

    def run(self, name, *words):
        """Starts the program, which writes what it says into a file of this name."""
        with open(f"{self.folder}/{name}.said", "a", encoding="utf-8") as said:
            # (it has to meet a full disk as an error, so a signal that is ignored stays so)
            self.processes[name] = subprocess.Popen([self.program, *words], stdin=subprocess.PIPE,
                stdout=subprocess.DEVNULL, stderr=said, restore_signals=False)
        return self.processes[name]

    def start_master(self):
        self.run("master", "master", "--config", self.table("master"))
        self.wait_for("active ballot")

    def start(self, row):
        """Starts the node of a row, and waits until the master knows its number."""
        known = max([0, *self.numbers.values()])
        self.run(row, "node", "--config", self.table(row), "--row", str(row))
        self.numbers[row] = known + 1
        self.wait_for(rf"node {known + 1} (?!.*silent)")

    def order(self, line):
        """Gives an order on the socket of the master, and returns the answer."""
        try:
            with socket.socket(socket.AF_UNIX) as stream:
                stream.connect(f"{self.folder}/orders")
                stream.sendall(f"{line}\n".encode())
                return stream.makefile().read()
        except OSError:
            return ""

    def wait_for(self, pattern, line="status"):
        """Repeats an order until its answer has this in it."""
        end, answer = time.monotonic() + self.wait, ""
        while time.monotonic() < end:
            answer = self.order(line)
            if re.search(pattern, answer):
                return
            time.sleep(0.05)
        raise AssertionError(f"no {pattern!r} came, but {answer!r}")

    def assign(self, rows, primary):
        """Makes the nodes of these rows the members, and waits until they serve."""
        members = sorted(self.numbers[it] for it in rows)
        self.ballot += 1
        words = f"assign {','.join(map(str, members))} {self.numbers[primary]}"
        self.wait_for(rf"^ballot {self.ballot}$", words)
        self.wait_for(rf"active ballot {self.ballot} ")
        self.wait_for(rf"node {self.numbers[primary]} ballot {self.ballot} primary")

    def kill(self, name):
        self.processes[name].kill()
        self.processes[name].wait()

    def __enter__(self):
        return self

    def __exit__(self, *_):
        for process in self.processes.values():
            process.send_signal(signal.SIGCONT)
            process.kill()


class Lines:
    """The lines that a process prints, which are taken as they come; each is shown to `hear`."""

    def __init__(self, output, hear=lambda line: None):
        self.came, self.hear = queue.Queue(), hear
        threading.Thread(target=self.take_all, args=[output], daemon=True).start()

    def take_all(self, output):
        for line in output:
            self.hear(line.rstrip("\n"))
            self.came.put(line.rstrip("\n"))
        self.came.put(None)

    def get(self, seconds):
        """Returns the next line, None at the end, or that none came."""
        try:
            return self.came.get(timeout=seconds)
        except queue.Empty:
            return LATE


def program_of(words):
    """Takes the program to start from a script's words: the proved one, with `--trial` the trial
    one, which is built first if there is none of these sources, or a file."""
    named = words.pop(0) if words and (words[0] == "--trial" or os.path.isfile(words[0])) else PROVED
    if named == "--trial":
        build = 'top=$1; . "$top/tools/program"; is_of_these_sources "$trial" || build_trial'
        subprocess.run(["bash", "-euo", "pipefail", "-c", build, "tools", TOP], check=True)
        named = TRIAL
    if not os.access(named, os.X_OK):
        sys.exit(f"no program {named}: `rt ci` or `./serve` builds one")
    return os.path.abspath(named)


def free_ports(count):
    """Returns ports at which nobody listens now."""
    found = [socket.create_server(("127.0.0.1", 0)) for _ in range(count)]
    ports = [it.getsockname()[1] for it in found]
    for it in found:
        it.close()
    return ports


def built_load(folder):
    """Builds the load program tools/load.rs in a folder, and returns its path."""
    subprocess.run(["rustc", "--edition", "2021", "-O", "-o", f"{folder}/load",
        f"{TOP}/tools/load.rs"], check=True)
    return f"{folder}/load"

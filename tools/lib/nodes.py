"""Nodes of the program `bepd` on this machine, and what tools/runs/node_runs and tools/runs/peer_runs share besides."""
import hashlib
import os
import random
import re
import shutil
import socket
import subprocess
import sys
import tempfile
import threading
import time

from bep import HELLO, Messages, config, field, rep
from program import bepd

ROOT = os.path.dirname(os.path.dirname(os.path.dirname(os.path.realpath(__file__))))
PROGRAM = bepd()
work = tempfile.mkdtemp(prefix="node-runs-")
passed, failed = 0, 0
counting = threading.Lock()
# The ports that were given out. (Parts of a run may go side by side.)
ports_given, giving = set(), threading.Lock()
# How long a run waits for what is to come, in seconds.
PATIENCE = int(os.environ.get("PATIENCE", 60))
# How many seconds an answer or an end may take that comes at once where the machine does nothing else.
SOON = 8
# The identities of the node whose peers are played, and of the first of these.
ME, PEER = bytes([9]) * 32, bytes([1]) * 32


class Differs(Exception):
    """What was found is not what was wanted."""


def same(found, wanted):
    if found != wanted:
        raise Differs(f"{found!r}, not {wanted!r}")


def free_port():
    """A port that was not given out before and where nobody listens, below those that the system gives to who connects: so a node finds it free, also when it begins
    anew. (None is listened at, not even for a moment: a program that is begun just then would have the socket too.)"""
    while True:
        port = random.SystemRandom().randrange(10_000, 32_768)
        with giving:
            if port in ports_given:
                continue
            ports_given.add(port)
        with socket.socket() as probe:
            if probe.connect_ex(("127.0.0.1", port)):
                return port


def identity(number):
    return f"{number:02x}" * 32


def called(number, name=None):
    """How a device is told that has given its name: that, and the front of its identity."""
    return f"{name or f'node {number}'} ({identity(number)[:8]})"


def by_identity(event, number=1, name="a"):
    """The event, with the whole identity of a device that gave this name, as played peers do."""
    return event.replace(called(number, name), identity(number))


def journal_of(number, state):
    """A journal behind a state with these bytes, in which nothing stands yet."""
    return b"bepd journal 1\n" + bytes([number]) * 32 + hashlib.sha256(state).digest()


class Node:
    """The program, over folders of its own. A peer is (number, "dial" or "listen", port, ids of folders)."""

    # further lines of each folder (without looks a folder is scanned just when a run says so)
    keys = 'look = "off"\n'

    def __init__(self, me, peers, folders=("f",), text=None, state=None, journal=None, starts=True, **settings):
        self.path = tempfile.mkdtemp(dir=work)
        self.me, self.settings = me, settings
        self.configure(peers, folders, text)
        if state is not None:
            with open(f"{self.path}/state", "wb") as out:
                out.write(state)
        if journal is not None:
            with open(f"{self.path}/state.journal", "wb") as out:
                out.write(journal)
        if starts:
            self.start()

    def configure(self, peers, folders=("f",), text=None):
        self.folders = folders
        for it in folders:
            os.makedirs(f"{self.path}/{it}", exist_ok=True)
        if text is None:
            text = f'device = "{identity(self.me)}"\nname = "node {self.me}"\nstate = "{self.path}/state"\n'
            for it in folders:
                text += f'[[folder]]\nid = "{it}"\npath = "{self.path}/{it}"\n{self.keys}'
            for number, how, port, *ids in peers:
                text += f'[[peer]]\ndevice = "{identity(number)}"\n{how} = "127.0.0.1:{port}"\nfolders = {list(ids or folders)!r}\n'.replace("'", '"')
        with open(f"{self.path}/config", "w") as out:
            out.write(text)

    def start(self, *words, stdout=subprocess.PIPE, tells=False):
        self.tells = tells
        words = words if tells else ("--quiet", *words)
        words = ("--verbose", *words) if tells == "verbose" else words
        # (a file, so that a node never waits for its lines to be read)
        with open(f"{self.path}.errors", "wb") as errors:
            self.ran = subprocess.Popen([PROGRAM, "run", "--config", f"{self.path}/config", *words], stdin=subprocess.PIPE, stdout=stdout,
                                        stderr=errors, env={**os.environ, **self.settings})

    def state(self):
        with open(f"{self.path}/state", "rb") as it:
            return it.read()

    def journal(self):
        with open(f"{self.path}/state.journal", "rb") as it:
            return it.read()

    def __enter__(self):
        return self

    def __exit__(self, *_):
        if self.ran.returncode is None:
            self.quit()

    def quit(self):
        """Ends it; returns how long that took, in seconds."""
        began = time.monotonic()
        self.ran.stdin.write(b"quit\n")
        self.ran.stdin.flush()
        status, self.told = self.end()
        if status or self.told and not self.tells:
            raise Differs(f"status {status} {self.told}")
        return time.monotonic() - began

    def end(self):
        """Its status, and its lines on standard error."""
        self.ran.stdin.close()
        try:
            self.ran.wait(PATIENCE)
        except subprocess.TimeoutExpired:
            self.ran.kill()
            self.ran.wait()
            raise Differs(f"node {self.me} does not end; it told {self.errors()[-9:]}") from None
        if self.ran.stdout:
            self.ran.stdout.close()
        return self.ran.returncode, self.errors()

    def errors(self):
        """Its lines on standard error until now."""
        with open(f"{self.path}.errors", encoding="utf-8") as it:
            return it.read().splitlines()

    def file(self, name):
        return f"{self.path}/{self.folders[0]}/{name}"

    def put(self, name, data):
        os.makedirs(os.path.dirname(self.file(name)), exist_ok=True)
        with open(self.file(name), "wb") as out:
            out.write(data)

    def mark(self):
        """Gives its folder the marker by which one of which something is recorded is known: an empty file in it says that the names belong there."""
        os.mkdir(self.file(".stfolder"))
        open(self.file(".stfolder/bepd.lock"), "w", encoding="utf-8").close()

    def ask(self, command):
        """The lines that answer a command, without `end`."""
        self.ran.stdin.write(command.encode() + b"\n")
        self.ran.stdin.flush()
        lines = []
        while True:
            line = self.ran.stdout.readline().decode()
            if not line:
                raise Differs("the program ended")
            lines.append(line.rstrip("\n"))
            if lines[-1] == "end":
                return lines[:-1]
            if command.split(" ")[0] not in ("need", "skipped", "best", "local", "conflicts", "folders", "peers") or lines[-1].startswith("error"):
                return lines

    def until(self, command, wanted, seconds=PATIENCE):
        end = time.monotonic() + seconds
        while True:
            found = self.ask(command)
            if found == wanted:
                return
            if time.monotonic() > end:
                raise Differs(f"{command}: {found!r}, not {wanted!r}")
            time.sleep(0.02)

    def tree(self, folder=None):
        found, path = {}, f"{self.path}/{folder or self.folders[0]}"
        for at, names, files in os.walk(path):
            # (the marker has the lock of a run)
            if at == path and ".stfolder" in names:
                names.remove(".stfolder")
            for it in names:
                found[os.path.relpath(f"{at}/{it}", path)] = None
            for it in files:
                # (one that is put in place or removed just now is looked for again)
                try:
                    with open(f"{at}/{it}", "rb") as file:
                        found[os.path.relpath(f"{at}/{it}", path)] = file.read()
                except (FileNotFoundError, IsADirectoryError, NotADirectoryError):
                    pass
        return found

    def memory(self):
        """The most memory that it had, in bytes."""
        with open(f"/proc/{self.ran.pid}/status") as it:
            return next(int(line.split()[1]) * 1024 for line in it if line.startswith("VmHWM"))


class Played(Node):
    """A node of which a peer is played, or more of them."""

    def __init__(self, *folders, peers=1, put=None, told=False, starts=True, more="", **settings):
        """Of each folder the configuration has these lines more."""
        self.ports = [free_port() for _ in range(peers)]
        folders = folders or ("f",)
        super().__init__(9, [(it, "listen", port) for it, port in enumerate(self.ports, 1)], folders, starts=False, **settings)
        if more:
            with open(f"{self.path}/config") as it:
                text = re.sub("(?m)^(path = .*\n)", rf"\1{more}", it.read())
            self.configure((), folders, text)
        self.socks = []
        for name, data in (put or {}).items():
            self.put(name, data)
        if starts:
            self.start(tells=told)
            # (the scan at the start is over)
            holds_all(self, len(put or ()))

    def __exit__(self, *_):
        for it in self.socks:
            it.close()
        super().__exit__()

    def peer(self, number=1):
        """A new connection of a peer, once none is up."""
        self.is_down(number)
        return self.connected(number)

    def connected(self, number=1):
        sock = socket.create_connection(("127.0.0.1", self.ports[number - 1]))
        sock.settimeout(PATIENCE)
        sock.setsockopt(socket.IPPROTO_TCP, socket.TCP_NODELAY, 1)
        self.socks.append(sock)
        return sock

    def greeted(self, number=1, **told):
        """The same, with what a connection begins with."""
        messages = Messages(self.peer(number))
        messages.sock.sendall(greeting(number, **told))
        return messages

    def is_down(self, number=1, seconds=PATIENCE):
        end = time.monotonic() + seconds
        while self.ask("peers")[number - 1] != f"peer {identity(number)} down":
            if time.monotonic() > end:
                raise Differs(f"{self.ask('peers')}")
            time.sleep(0.005)

    def bests(self, folder="f"):
        return [it.removeprefix("best ") for it in self.ask(f"best {folder}")]


def holds_all(node, count):
    end = time.monotonic() + PATIENCE
    while len(node.ask(f"local {node.folders[0]}")) < count:
        if time.monotonic() > end:
            raise Differs(f"{node.ask(f'local {node.folders[0]}')}")
        time.sleep(0.01)


def becomes(found, wanted, seconds=PATIENCE):
    """Waits until this is found."""
    end = time.monotonic() + seconds
    while found() != wanted:
        if time.monotonic() > end:
            raise Differs(f"{found()!r}, not {wanted!r}")
        time.sleep(0.01)


def greeting(number=1, folder="f", index_id=5, mine=(0, 0)):
    """What the connection of a peer begins with, who says what it has of the node's index: its number and the greatest sequence."""
    return HELLO + config((folder, (bytes([number]) * 32, index_id, 0), (ME, *mine)))


def leave(sock):
    """Says that nothing comes any more, and waits until the node hangs up."""
    sock.shutdown(socket.SHUT_WR)
    hung_up(sock)


def hung_up(sock):
    """Takes what comes until the node hangs up."""
    try:
        while sock.recv(1 << 16):
            pass
    except ConnectionError:
        pass
    sock.close()


def pair(starts=True):
    port = free_port()
    return Node(1, [(2, "listen", port)], starts=starts), Node(2, [(1, "dial", port)], starts=starts)


def become_alike(*nodes, folder="f"):
    end = time.monotonic() + PATIENCE
    while True:
        locals_ = [it.ask(f"local {folder}") for it in nodes]
        if all(it == locals_[0] for it in locals_):
            trees = [it.tree(folder) for it in nodes]
            if all(it == trees[0] for it in trees):
                return trees[0]
        if time.monotonic() > end:
            raise Differs(f"{locals_}")
        time.sleep(0.02)


def shown(node, folder="f"):
    """The local records without their versions."""
    return [re.sub(r"^local (\S+ \S+) \S+ ", r"\1 ", it) for it in node.ask(f"local {folder}")]


def holds(node, wanted, seconds=PATIENCE):
    end = time.monotonic() + seconds
    while shown(node) != wanted:
        if time.monotonic() > end:
            raise Differs(f"{shown(node)}, not {wanted}")
        time.sleep(0.02)


def event_of(line):
    """A line that a node told, without the time."""
    found = re.fullmatch(r"\d{4}-\d\d-\d\dT\d\d:\d\d:\d\dZ (.*)", line)
    return found and found[1]


# What is told, without a time, of a configuration that has no peer.
ALONE = "no [[peer]] is in the configuration: its folders are kept alike with nobody"


def events(node):
    """What a node told until it ended, without the times, and without that it has no peer."""
    found = [event_of(it) for it in node.told if it != ALONE]
    if None in found:
        raise Differs(f"{node.told}")
    return found


def tells(node, pattern, seconds=PATIENCE):
    """Waits until a node that runs has told a line like this."""
    end = time.monotonic() + seconds
    while not any(re.fullmatch(pattern, event_of(it) or "") for it in node.errors()):
        if time.monotonic() > end:
            raise Differs(f"no {pattern!r} in {node.errors()}")
        time.sleep(0.02)


def written(version, *kept):
    """A state file of the folder "f" with index 7, without records, of which these peers' indexes are kept."""
    folder = field(1, "f") + field(2, 7) + b"".join(rep(5, field(1, device) + field(2, index_id)) for device, index_id in kept)
    return f"bepd state {version}\n".encode() + rep(1, folder)


def built(name):
    """The library of a file of C beside these scripts; None without a compiler."""
    made = f"{work}/{name}.so"
    compiler = os.environ.get("CC") or shutil.which("cc")
    if not compiler:
        return None
    if not os.path.exists(made):
        subprocess.run([compiler, "-O1", "-shared", "-fPIC", "-o", made, f"{ROOT}/tools/lib/{name}.c", "-ldl"], check=True)
    return made


def run(name, what, *given):
    global passed, failed
    words = sys.argv[1:]
    if words and not any(it in name for it in words):
        return
    try:
        what(*given)
        with counting:
            passed += 1
            print(f"ok      {name}", flush=True)
    except (Differs, OSError, EOFError, ValueError, IndexError, KeyError) as error:
        # (what a node's end may hide)
        first = error
        while first.__context__:
            first = first.__context__
        after = f", after {type(first).__name__} {first}" if first is not error else ""
        with counting:
            failed += 1
            print(f"DIFFERS {name}: {type(error).__name__} {error}{after}", flush=True)


def main(runs):
    """Does the runs, and ends the program."""
    try:
        runs()
        print(f"{passed} passed, {failed} failed")
        sys.exit(1 if failed else 0)
    finally:
        shutil.rmtree(work, ignore_errors=True)

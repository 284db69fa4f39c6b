"""Nodes of which the disk is looked at, and a peer of theirs that has files: what tools/runs/disk_runs and tools/runs/trouble_runs share."""
import contextlib
import itertools
import mmap
import os
import queue
import re
import socket
import stat
import subprocess
import tempfile
import threading
import time

from bep import Messages, field, file_of, first, info, response, told_files, update
from nodes import PATIENCE, PROGRAM, Differs, Played, becomes, built, event_of, greeting, work
from program import copied

NOBODY = 65534
# A moment that lies far ahead, so that what has it is preferred.
LATE = field(5, 250_000_000_000)
TEMPORARY = re.compile(r"\.syncthing\..+\.tmp")
COUNTERS = itertools.count(1)


def directory(name, *counters):
    return info(name, *counters) + field(2, 1)


def gone(name, *counters):
    return info(name, *counters, deleted=1)


class Disk(Played):
    """A node whose commands alone have it scan. Before it starts the folder has these files, and `before` is done."""

    def __init__(self, put=None, before=None, peers=1, troubled=False, nobody=False, more="", **settings):
        super().__init__(peers=peers, put=put, starts=False, more=more, **settings)
        self.players, self.nobody, self.outside = [], nobody, f"{self.path}/outside"
        os.mkdir(self.outside)
        with open(f"{self.outside}/x", "wb") as out:
            out.write(b"outside")
        if troubled:
            self.troubles = tempfile.mkdtemp(dir=work)
            with open(f"{self.troubles}/numbers", "w+b") as file:
                file.write(bytes(32))
                file.flush()
                self.numbers = memoryview(mmap.mmap(file.fileno(), 32)).cast("Q")
            self.settings |= {"LD_PRELOAD": ":".join(filter(None, (built("trouble_calls"), self.settings.get("LD_PRELOAD")))), "TROUBLES": self.troubles, "UNDER": f"{self.path}/f"}
        if before:
            before(self)
        # (once the scan at the start is over, it has left this out)
        os.symlink("nowhere", self.file("~"))
        self.start(tells="verbose")
        becomes(lambda: "skipped ~: a symbolic link" in self.ask("skipped f"), True)
        os.remove(self.file("~"))
        self.ask("scan f")

    def start(self, *words, **more):
        if not self.nobody or os.geteuid():
            super().start(*words, **more)
            return
        # (what is above all that a run makes may be passed through, and the program stand where others can't come)
        os.chmod(work, 0o711)
        copied(PROGRAM, f"{self.path}/bepd")
        for at, _, files in os.walk(self.path):
            for it in at, *(f"{at}/{it}" for it in files):
                os.chown(it, NOBODY, NOBODY, follow_symlinks=False)
        self.tells = True
        with open(f"{self.path}.errors", "wb") as errors:
            self.ran = subprocess.Popen([f"{self.path}/bepd", "run", "--config", f"{self.path}/config"], stdin=subprocess.PIPE, stdout=subprocess.PIPE, stderr=errors,
                                        user=NOBODY, group=NOBODY, extra_groups=[], env={**os.environ, **self.settings})

    def __exit__(self, kind, *_):
        for it in self.players:
            it.is_over = True
        if kind is None:
            super().__exit__()
        else:
            # (what went wrong is said, and not what comes of it)
            self.ran.kill()
            self.end()

    def ask(self, command):
        try:
            return super().ask(command)
        except (Differs, BrokenPipeError):
            raise Differs(f"the node ended, with status {self.ran.wait(PATIENCE)}; it told {self.errors()[-5:]}") from None

    # ---- what it has

    def version(self, name):
        """The counters of its record of a name. (A file that a pull has just put in place is recorded next.)"""
        end = time.monotonic() + PATIENCE
        while True:
            for line in self.ask("local f"):
                _, _, _, version, its = line.split(" ", 4)
                if its == name:
                    return [(int(it[:16], 16), int(it[17:])) for it in version.split(",")]
            if time.monotonic() > end:
                raise Differs(f"no record of {name}")
            time.sleep(0.02)

    def above(self, name):
        """Counters of a version that is newer than its record of a name."""
        return (1, next(COUNTERS)), *self.version(name)

    def tree(self, folder=None):
        """Its directories, and the files with their texts, but for temporary ones and what is neither."""
        found, path = {}, f"{self.path}/{folder or 'f'}"
        for at, names, files in os.walk(path):
            names[:] = [it for it in names if it != ".stfolder" and not os.path.islink(f"{at}/{it}")]
            found |= {os.path.relpath(f"{at}/{it}", path): None for it in names}
            for it in files:
                # (one that is put in place or removed just now is looked for again)
                with contextlib.suppress(FileNotFoundError, NotADirectoryError):
                    if stat.S_ISREG(os.lstat(f"{at}/{it}").st_mode) and not TEMPORARY.fullmatch(it):
                        with open(f"{at}/{it}", "rb") as file:
                            found[os.path.relpath(f"{at}/{it}", path)] = file.read()
        return found

    def texts(self):
        return {name: data for name, data in self.tree().items() if data is not None}

    def outside_is_as_ever(self):
        with open(f"{self.outside}/x", "rb") as it:
            if (os.listdir(self.outside), it.read()) != (["x"], b"outside"):
                raise Differs(f"outside: {os.listdir(self.outside)}")

    def temporary(self):
        """The temporary files in the folder."""
        return [it for at, names, files in os.walk(f"{self.path}/f") for it in names + files if TEMPORARY.fullmatch(it)]

    def failures(self, name):
        """What was told of pulls of a name that failed, without the advice."""
        found = [re.match(r"failed f (.*): (\d+ \w+)", event_of(it) or "") for it in self.errors()]
        return [it[2] for it in found if it and it[1] == name]

    def fails(self, name, why):
        """Waits until it tells that a pull of a name failed, and why."""
        end = time.monotonic() + PATIENCE
        while why not in self.failures(name):
            if time.monotonic() > end:
                raise Differs(f"{name}: {self.failures(name)}, and not {why}")
            time.sleep(0.02)

    # ---- what is wrong with its disk

    def trouble(self, *lines):
        """From now on just this is wrong."""
        with open(f"{self.troubles}/new", "w") as out:
            out.write("".join(f"{it}\n" for it in lines))
        os.rename(f"{self.troubles}/new", f"{self.troubles}/lines")

    def calls(self):
        """The calls since the last time."""
        path = f"{self.troubles}/calls"
        try:
            os.rename(path, f"{path}.taken")
        except FileNotFoundError:
            return []
        with open(f"{path}.taken") as it:
            return it.read().splitlines()

    def latch(self, line):
        """The next such call waits; see `waits`."""
        if self.is_waiting():
            os.remove(f"{self.troubles}/here")
        with open(f"{self.troubles}/latch", "w"):
            pass
        if isinstance(line, int):
            self.numbers[3], self.numbers[2] = 0, line
        else:
            self.trouble(f"{line} wait")

    def is_waiting(self):
        return os.path.exists(f"{self.troubles}/here")

    def waits(self, what, *lines):
        """Waits until the call waits, does this, and lets it go on. From then on these lines say what is wrong."""
        becomes(self.is_waiting, True)
        try:
            what()
        finally:
            self.numbers[2] = 0
            self.trouble(*lines)
            os.remove(f"{self.troubles}/latch")


class Peer(threading.Thread):
    """A peer of a node: it has files, and answers each Request for one of these, but for those that it holds back. Where its connection ends, it comes back, and announces all
    once more."""

    def __init__(self, node, number=1):
        super().__init__(daemon=True)
        self.node, self.number, self.files, self.asked, self.held, self.waiting = node, number, {}, [], set(), []
        self.responses, self.records, self.announced, self.is_over = queue.Queue(), {}, [], False
        # What it answers in place of the bytes of a file.
        self.wrong = {}
        self.sending = threading.Lock()
        node.players.append(self)
        self.connect(node.peer(number))
        self.start()

    def connect(self, sock):
        sock.settimeout(None)
        self.messages = Messages(sock)
        sock.sendall(greeting(self.number) + b"".join(self.announced))

    def run(self):
        while not self.is_over:
            with contextlib.suppress(EOFError, OSError, ValueError):
                while True:
                    self.hear(*self.messages.next())
            with contextlib.suppress(OSError), self.sending:
                self.messages.sock.close()
                self.waiting = []
                time.sleep(0.05)
                if not self.is_over:
                    self.connect(self.node.connected(self.number))

    def hear(self, kind, found):
        if kind == "Response":
            self.responses.put((first(found, 2, b""), first(found, 3)))
        elif kind in ("Index", "IndexUpdate"):
            self.records |= {it[0]: it for it in told_files(found)}
        elif kind == "Request":
            name = first(found, 3, b"").decode()
            self.asked.append((name, first(found, 4)))
            with self.sending:
                if name in self.held:
                    self.waiting.append(found)
                else:
                    self.answer(found)

    def answer(self, found):
        name, offset, size = first(found, 3, b"").decode(), first(found, 4), first(found, 5)
        data = self.files.get(name)
        data, code = self.wrong.get(name) or ((data[offset:offset + size], 0) if data is not None else (b"", 2))
        self.messages.sock.sendall(response(first(found, 1), data, code))

    def announce(self, *infos):
        with self.sending:
            self.announced.append(update("f", *infos))
            with contextlib.suppress(OSError):
                self.messages.sock.sendall(self.announced[-1])

    def file(self, name, data, *counters, **more):
        """The record of a file, which it has from now on, and which is preferred."""
        self.files[name] = data
        return file_of(name, data, *(counters or ((1, next(COUNTERS)),)), **more) + LATE

    def let_go(self, *names):
        """What was held back is answered."""
        with self.sending:
            self.held -= set(names)
            for it in self.waiting:
                self.answer(it)
            self.waiting = []

    def holds(self, name):
        """Waits until the node waits for this file."""
        becomes(lambda: any(first(it, 3, b"").decode() == name for it in self.waiting), True)

    def ask(self, request):
        """What answers a Request: bytes and a code."""
        with self.sending:
            self.messages.sock.sendall(request)
        return self.responses.get(timeout=PATIENCE)


# ---- what is neither a file nor a directory

def made_socket(path):
    """(a socket's path may be as long as some hundred bytes alone)"""
    here = os.open(os.path.dirname(path), os.O_RDONLY | os.O_DIRECTORY)
    try:
        with socket.socket(socket.AF_UNIX) as it:
            it.bind(f"/proc/self/fd/{here}/{os.path.basename(path)}")
    finally:
        os.close(here)


def made_device(path):
    os.mknod(path, stat.S_IFCHR | 0o666, os.makedev(1, 3))


def kinds():
    """How each is made; a device only where that may be done."""
    found = {"link": lambda path: os.symlink("../outside/x", path), "dirlink": lambda path: os.symlink("../outside", path), "pipe": os.mkfifo, "socket": made_socket}
    path = tempfile.mkdtemp(dir=work)
    try:
        made_device(f"{path}/device")
        found["device"] = made_device
    except OSError:
        pass
    return found


def is_kind(kind, path):
    mode = os.lstat(path).st_mode
    return {"link": stat.S_ISLNK, "dirlink": stat.S_ISLNK, "pipe": stat.S_ISFIFO, "socket": stat.S_ISSOCK, "device": stat.S_ISCHR}[kind](mode)

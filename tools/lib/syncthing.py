"""A real Syncthing, a node of `bepd`, and the line between them by `stunnel`, on this machine. Everything is on loopback addresses; nobody else is spoken to."""
import atexit
import base64
import contextlib
import hashlib
import json
import os
import re
import shutil
import signal
import ssl
import subprocess
import sys
import tempfile
import threading
import time
import urllib.error
import urllib.parse
import urllib.request
import xml.etree.ElementTree as xml

from nodes import PATIENCE, PROGRAM, Differs, Node, event_of, free_port, same, work

# The programs, and the packages of Debian that have them.
PROGRAMS = {"syncthing": "syncthing", "stunnel4": "stunnel4", "openssl": "openssl"}
# Syncthing speaks with nobody but the devices that it is given, and never takes another version of itself.
OPTIONS = {
    "globalAnnounceEnabled": "false", "localAnnounceEnabled": "false", "relaysEnabled": "false", "natEnabled": "false", "stunKeepaliveStartS": "0",
    "urAccepted": "-1", "crashReportingEnabled": "false", "startBrowser": "false", "autoUpgradeIntervalH": "0", "reconnectionIntervalS": "1",
    "setLowPriority": "false", "progressUpdateIntervalS": "1",
}
# The processes that were begun, and whether no more of them may begin.
begun, beginning, is_over = [], threading.Lock(), False


def missing():
    """What must be installed, or an empty text."""
    packages = [package for program, package in PROGRAMS.items() if not shutil.which(program)]
    return f"it needs {' and '.join(packages)}: apt-get install {' '.join(packages)} (of Debian 12 it was tried)" if packages else ""


def versions():
    """Which Syncthing, and which stunnel."""
    theirs = subprocess.run(["syncthing", "--version"], capture_output=True, text=True).stdout.split()[1]
    tunnel = subprocess.run(["stunnel4", "-version"], capture_output=True, text=True)
    found = re.search(r"stunnel (\d+[.]\d+)", tunnel.stderr + tunnel.stdout)
    return f"Syncthing {theirs}, stunnel {found[1]}"


def begin(words, **settings):
    """Begins a process that ends with the run. None begins once that was done."""
    with beginning:
        if is_over:
            raise Differs("the run ended")
        begun.append(subprocess.Popen(words, stdin=subprocess.DEVNULL, start_new_session=True, **settings))
        return begun[-1]


def kill(process):
    """Kills a process that was begun, and what that began (a Syncthing is two processes)."""
    if process.returncode is None:
        process.kill()
        with contextlib.suppress(ProcessLookupError):
            os.killpg(process.pid, signal.SIGKILL)
        process.wait()


def end_all():
    """Ends what was begun and still runs."""
    global is_over
    with beginning:
        is_over = True
        for it in begun:
            kill(it)


atexit.register(end_all)


def until(found, what, seconds=None, pause=0.1):
    """Waits until this is found (what isn't false), and returns it. `what` says what was waited for: a text, or a function that makes one."""
    end = time.monotonic() + (seconds or PATIENCE)
    while True:
        it = found()
        if it:
            return it
        if time.monotonic() > end:
            raise Differs(what() if callable(what) else what)
        time.sleep(pause)


def certificate(folder, name="syncthing"):
    """Makes a device's certificate and its key in a folder, as docs/USING.md has it. Syncthing takes no other name."""
    subprocess.run(["openssl", "req", "-x509", "-newkey", "ec", "-pkeyopt", "ec_paramgen_curve:P-384", "-nodes", "-days", "7300", "-subj", f"/CN={name}",
                    "-keyout", f"{folder}/key.pem", "-out", f"{folder}/cert.pem"], check=True, capture_output=True)


def identity_of(file):
    """The identity of who has a certificate: the SHA-256 of its DER form, in hexadecimal digits."""
    with open(file, encoding="ascii") as it:
        return hashlib.sha256(ssl.PEM_cert_to_DER_cert(it.read())).hexdigest()


def letters_of(identity):
    """The same in base32, as Syncthing has it but for the check characters: it takes both."""
    return base64.b32encode(bytes.fromhex(identity)).decode().rstrip("=")


def short_of(identity):
    """The seven letters by which Syncthing shows a device in a version, and in the name of a conflict copy."""
    return letters_of(identity)[:7]


def read_text(path):
    with open(path, encoding="utf-8") as it:
        return it.read()


def changed(text, old, new):
    """The text with this in place of that, which it has once."""
    if text.count(old) != 1:
        raise Differs(f"{old!r} is {text.count(old)} times in {text!r}")
    return text.replace(old, new)


class Side:
    """A device with folders below its `path`. What both kinds of it can do."""

    def at(self, folder, name=""):
        return f"{self.path}/{folder}/{name}"

    def put(self, folder, name, data, when=None, mode=None):
        """Writes a file, as an editor that keeps it in its place, with the time of its last change, in seconds, where one is given."""
        os.makedirs(os.path.dirname(self.at(folder, name)), exist_ok=True)
        with open(self.at(folder, name), "wb") as out:
            out.write(data)
        if when is not None:
            os.utime(self.at(folder, name), (when, when))
        if mode is not None:
            os.chmod(self.at(folder, name), mode)

    def remove(self, folder, name):
        it = self.at(folder, name)
        shutil.rmtree(it) if os.path.isdir(it) and not os.path.islink(it) else os.remove(it)

    def rename(self, folder, name, to):
        os.makedirs(os.path.dirname(self.at(folder, to)), exist_ok=True)
        os.rename(self.at(folder, name), self.at(folder, to))

    def mode(self, folder, name):
        return f"{os.stat(self.at(folder, name)).st_mode & 0o7777:o}"

    def is_own(self, name):
        """Whether the program keeps a file of this name for itself, so that it counts as none of the folder."""
        return name == ".stignore"

    def listed(self, folder):
        """The names in a folder, each with its path, and whether it is a directory."""
        top = f"{self.path}/{folder}"
        for at, names, files in os.walk(top):
            if at == top:
                names[:] = [it for it in names if it not in (".stfolder", ".stversions")]
            for it in [*names, *files]:
                if not self.is_own(it):
                    yield os.path.relpath(f"{at}/{it}", top), f"{at}/{it}", it in names

    def tree(self, folder):
        """The names in a folder: bytes of a file, None of a directory, `-> TARGET` of a link."""
        found = {}
        for name, path, is_directory in self.listed(folder):
            # (one that is put in place or removed just now is looked for again)
            with contextlib.suppress(FileNotFoundError, IsADirectoryError, NotADirectoryError):
                if os.path.islink(path):
                    found[name] = "-> " + os.readlink(path)
                elif is_directory:
                    found[name] = None
                else:
                    with open(path, "rb") as file:
                        found[name] = file.read()
        return found

    def sizes(self, folder):
        """The same names, with the size of each file."""
        found = {}
        for name, path, is_directory in self.listed(folder):
            with contextlib.suppress(FileNotFoundError, NotADirectoryError):
                found[name] = None if is_directory else os.lstat(path).st_size
        return found


class Ours(Side, Node):
    """The program `bepd`, with a certificate, over folders of its own. Its configuration is the one that `bepd new --syncthing` writes for its first line with a Syncthing (see
    `Line`), with what a user adds to that: further folders and peers, and keys."""

    kind = "bepd"

    def __init__(self, name="bepd", folders=("f",), keys="", named="syncthing"):
        """Of each folder the configuration has these lines more; `named` is the name in the certificate."""
        self.name, self.keys, self.lines, self.peers, self.asking = name, keys or 'look = "off"\n', [], [], threading.RLock()
        Node.__init__(self, name, [], folders, text="", starts=False)
        # its configuration, its certificate and its state are in a directory whose name is not as usual
        self.home = f"{self.path}/its \"own\" 'files', 100 %"
        os.makedirs(self.home)
        certificate(self.home, named)
        self.identity = identity_of(f"{self.home}/cert.pem")
        # what stands in the configuration in place of its identity, and of its peer's, where that is something else
        self.written = self.written_of_peer = None
        self.ran = None

    def know(self, identity, how, port):
        """A peer more, without stunnel: by `dial` or `listen`, at a port of this machine."""
        self.peers.append((identity, how, port))

    def text(self):
        """Its configuration."""
        if not self.lines:
            raise Differs(f"{self.name} has no line")
        text = read_text(f"{self.lines[0].path}/config.toml")
        text = changed(text, 'name = "bepd"', f'name = "{self.name}"')
        path = f'path = "{self.path}/{self.folders[0]}"\n'
        text = changed(text, path, path + self.keys)
        folders = f"folders = {json.dumps(list(self.folders))}"
        text = changed(text, f'folders = ["{self.folders[0]}"]', folders)
        (first, own), (second, peer) = zip(self.lines[0].shown, (self.written, self.written_of_peer))
        text = changed(changed(text, first, "FIRST"), second, "SECOND").replace("FIRST", own or first).replace("SECOND", peer or second)
        for it in self.folders[1:]:
            text += f'[[folder]]\nid = "{it}"\npath = "{self.path}/{it}"\n{self.keys}'
        for line in self.lines[1:]:
            # (of the configuration of a further line the peer is taken)
            text += "[[peer]]\n" + changed(read_text(f"{line.path}/config.toml").split("\n[[peer]]\n")[1], f'folders = ["{self.folders[0]}"]', folders)
        for identity, how, port in self.peers:
            text += f'[[peer]]\ndevice = "{identity}"\n{how} = "127.0.0.1:{port}"\n{folders}\n'
        return text

    def start(self):
        self.configure([], self.folders, self.text())
        with beginning:
            if is_over:
                raise Differs("the run ended")
            Node.start(self, tells=True)
            begun.append(self.ran)
        self.ask("peers")

    def ask(self, command):
        with self.asking:
            return Node.ask(self, command)

    def scan(self, folder):
        said = self.ask(f"scan {folder}")
        if not said[0].startswith("scan "):
            raise Differs(f"bepd: {said}")

    def needs(self, folder):
        return sorted(it.removeprefix("need ") for it in self.ask(f"need {folder}"))

    def versions(self, folder):
        """Of each name that it has the counters of its version, by the short form of the device."""
        found = {}
        for it in self.ask(f"local {folder}"):
            _, kind, _, counters, name = it.split(" ", 4)
            if kind != "gone":
                found[name] = sorted((letters_of(short + "0" * 48)[:7], int(value)) for short, value in (one.split(":") for one in counters.split(",")))
        return found

    def told(self, pattern):
        """The lines that it told which are like this."""
        return [it for it in map(event_of, self.errors()) if it and re.fullmatch(pattern, it)]

    def says(self, pattern, seconds=None):
        return until(lambda: self.told(pattern), lambda: f"no {pattern!r} in {self.errors()[-9:]}", seconds)

    def is_connected(self, identity):
        return f"peer {identity} up" in self.ask("peers")

    def is_complete(self, folder, identity):
        return not self.needs(folder)

    def stop(self):
        self.quit()

    def kill(self):
        self.ran.send_signal(signal.SIGKILL)
        self.ran.wait()
        self.ran.stdin.close()
        self.ran.stdout.close()

    def last_words(self):
        return f"bepd told {[shortened(event_of(it) or it) for it in self.errors()[-5:]]}"

    def is_running(self):
        return self.ran is not None and self.ran.returncode is None

    told_at_end = ()

    def quit(self):
        self.ran.stdin.write(b"quit\n")
        self.ran.stdin.flush()
        status, self.told_at_end = self.end()
        same(status, 0)


class Theirs(Side):
    """A Syncthing with a home of its own, which watches nothing and scans as it is told."""

    kind = "Syncthing"

    def __init__(self, name="syncthing", folders=("f",), options=None, **keys):
        """Of each folder the configuration has these keys more; `options` are further ones of Syncthing."""
        self.name, self.folders, self.keys, self.known = name, folders, keys, []
        self.path = tempfile.mkdtemp(dir=work)
        self.home = f"{self.path}/.home"
        self.port, self.gui = free_port(), free_port()
        self.environment = {**os.environ, "HOME": self.path, "STNOUPGRADE": "1", "STNODEFAULTFOLDER": "1"}
        subprocess.run(["syncthing", "generate", "--home", self.home, "--no-default-folder", "--skip-port-probing"], check=True, capture_output=True,
                       env=self.environment)
        document = xml.parse(f"{self.home}/config.xml")
        top = document.getroot()
        for key, value in {**OPTIONS, "listenAddress": f"tcp://127.0.0.1:{self.port}", **(options or {})}.items():
            top.find(f"options/{key}").text = value
        top.find("gui/address").text = f"127.0.0.1:{self.gui}"
        self.key = top.find("gui/apikey").text
        document.write(f"{self.home}/config.xml")
        self.identity = identity_of(f"{self.home}/cert.pem")
        self.id = subprocess.run(["syncthing", "--device-id", "--home", self.home], capture_output=True, text=True, env=self.environment).stdout.strip()
        self.ran = None

    def is_own(self, name):
        # (what it began to receive and gave up stays for a day)
        return name == ".stignore" or re.fullmatch(r"(\.syncthing\.|~syncthing~).*\.tmp", name)

    # ---- the process

    def start(self):
        for it in self.folders:
            os.makedirs(f"{self.path}/{it}", exist_ok=True)
        with open(f"{self.path}.told", "ab") as out:
            self.ran = begin(["syncthing", "serve", "--home", self.home, "--no-browser", "--no-restart", "--no-upgrade"], stdout=out, stderr=out, env=self.environment)
        until(self.answers, lambda: f"Syncthing does not answer; it told {self.errors()[-5:]}")

    def answers(self):
        if self.ran.poll() is not None:
            raise Differs(f"Syncthing ended; it told {self.errors()[-5:]}")
        try:
            return self.rest("GET", "system/ping")
        except OSError:
            return None

    def stop(self):
        with contextlib.suppress(OSError):
            self.rest("POST", "system/shutdown")
        try:
            self.ran.wait(PATIENCE)
        except subprocess.TimeoutExpired:
            self.kill()
            raise Differs("Syncthing does not end") from None

    def kill(self):
        kill(self.ran)

    def is_running(self):
        return self.ran is not None and self.ran.returncode is None

    def errors(self):
        with open(f"{self.path}.told", encoding="utf-8", errors="replace") as it:
            return it.read().splitlines()

    def says(self, pattern, seconds=None):
        return until(lambda: [it for it in self.errors() if re.search(pattern, it)], lambda: f"no {pattern!r} in {self.errors()[-9:]}", seconds)

    def last_words(self):
        return f"Syncthing told {[shortened(it) for it in self.errors()[-4:]]}"

    # ---- its interface

    def rest(self, how, what, body=None, seconds=PATIENCE, **words):
        """The answer to a request at /rest: what its JSON says, None where it has none."""
        query = "?" + urllib.parse.urlencode(words) if words else ""
        asked = urllib.request.Request(f"http://127.0.0.1:{self.gui}/rest/{what}{query}", method=how, headers={"X-API-Key": self.key},
                                       data=None if body is None else json.dumps(body).encode())
        try:
            with urllib.request.urlopen(asked, timeout=seconds) as it:
                said = it.read()
        except urllib.error.HTTPError as error:
            raise Differs(f"Syncthing, {how} {what}: {error.code} {error.read()[:200]!r}") from None
        try:
            return json.loads(said)
        except ValueError:
            return None

    def know(self, side, *addresses, **keys):
        """A device that it is connected with, with compression off."""
        self.rest("POST", "config/devices", {"deviceID": letters_of(side.identity), "name": side.name, "compression": "never",
                                             "addresses": list(addresses) or ["dynamic"], **keys})

    def share(self, folder, *sides, **keys):
        """A folder, which it has with these devices."""
        os.makedirs(f"{self.path}/{folder}", exist_ok=True)
        self.rest("POST", "config/folders", {"id": folder, "label": folder, "path": f"{self.path}/{folder}", "rescanIntervalS": 0, "fsWatcherEnabled": False,
                                             "minDiskFree": {"value": 0, "unit": "%"}, "devices": [{"deviceID": letters_of(it.identity)} for it in sides],
                                             **self.keys, **keys})

    def set_device(self, side, **keys):
        self.rest("PATCH", f"config/devices/{self.id_of(side)}", keys)

    def set_folder(self, folder, **keys):
        self.rest("PATCH", f"config/folders/{folder}", keys)

    def id_of(self, side):
        return self.rest("GET", "svc/deviceid", id=letters_of(side.identity))["id"]

    def scan(self, folder):
        """Scans; where it is at something else just then, that ends first."""
        self.rest("POST", "db/scan", seconds=5 * PATIENCE, folder=folder)

    def needs(self, folder):
        found = self.rest("GET", "db/need", folder=folder, perpage=10_000)
        return sorted(it["name"] for part in ("progress", "queued", "rest") for it in found[part] or [])

    def status(self, folder):
        return self.rest("GET", "db/status", folder=folder)

    def versions(self, folder):
        found = {}
        for name in self.tree(folder):
            it = self.rest("GET", "db/file", folder=folder, file=name)["local"]
            found[name] = sorted((short, int(value)) for short, value in (one.split(":") for one in it["version"] or []))
        return found

    def is_connected(self, identity):
        found = self.rest("GET", "system/connections")["connections"]
        return any(it["connected"] and key.replace("-", "")[:7] == short_of(identity) for key, it in found.items())

    def is_complete(self, folder, identity):
        """Whether it is at 100 %, and takes the other device to be."""
        status = self.status(folder)
        if status["state"] != "idle" or status["errors"] or status["needTotalItems"]:
            return False
        return self.completion(folder) == 100 and self.completion(folder, identity) == 100

    def completion(self, folder, identity=None):
        device = {"device": letters_of(identity)} if identity else {}
        return self.rest("GET", "db/completion", folder=folder, **device)["completion"]

    def problems(self, folder):
        """What it says of names that it can't have: its `Failed Items`."""
        return {it["path"]: it["error"] for it in self.rest("GET", "folder/errors", folder=folder)["errors"] or []}


class Line:
    """stunnel at a node of `bepd`, as `bepd new --syncthing` sets it up and as docs/USING.md has it: TLS with the peer's certificate pinned, and a Unix socket between the
    two. It can be cut."""

    def __init__(self, ours, theirs, dials=True):
        self.ours, self.theirs, self.dials = ours, theirs, dials
        # (the first one is in the directory of the node, and each other one in its own)
        self.path = f"{ours.home}/{len(ours.lines)}" if ours.lines else ours.home
        os.makedirs(self.path, exist_ok=True)
        if ours.lines:
            for it in "cert.pem", "key.pem":
                shutil.copy(f"{ours.home}/{it}", self.path)
        ours.lines.append(self)
        shutil.copy(f"{theirs.home}/cert.pem", f"{self.path}/peer.pem")
        self.tls = theirs.port if dials else free_port()
        self.socket = f"{self.path}/{'stunnel' if dials else 'bepd'}.socket"
        way = "--dial" if dials else "--listen", f"127.0.0.1:{self.tls}"
        folder = "--folder", f"{ours.folders[0]}={ours.path}/{ours.folders[0]}"
        made = subprocess.run([PROGRAM, "new", self.path, "--syncthing", *way, *folder], capture_output=True, text=True, timeout=PATIENCE)
        said = made.stdout.splitlines()
        same((made.returncode, made.stderr, [it.split(" ")[:2] for it in said[:2]]), (0, "", [["device", ours.identity], ["peer", theirs.identity]]))
        # how both are shown
        self.shown = [it.split(" ")[2] for it in said[:2]]
        same(self.shown[1], theirs.id)
        self.unit = read_text(f"{self.path}/bepd-stunnel.service")
        self.ran = None

    def start(self):
        """Runs it, as its unit does."""
        commands = {key: words_of(value) for key, value in re.findall(r"(?m)^(ExecStartPre|ExecStart)=-?(.*)$", self.unit)}
        if "ExecStartPre" in commands:
            subprocess.run(commands["ExecStartPre"], stdin=subprocess.DEVNULL, capture_output=True)
        with open(f"{self.path}/told", "ab") as out:
            self.ran = begin(commands["ExecStart"], cwd="/", stdout=out, stderr=out, umask=0o077)
        until(self.listens, lambda: f"stunnel does not listen; it told {self.errors()[-5:]}")

    def listens(self):
        """Whether it listens, without a connection to it."""
        if self.ran.poll() is not None:
            raise Differs(f"stunnel ended; it told {self.errors()[-5:]}")
        if not self.dials:
            with open("/proc/net/tcp") as table:
                return any(f" 0100007F:{self.tls:04X} 00000000:0000 0A " in it for it in table)
        # (in the fourth column of a socket that listens is __SO_ACCEPTCON)
        with open("/proc/net/unix") as table:
            return any(it.rstrip("\n").endswith(f" {self.socket}") and it.split()[3] == "00010000" for it in table)

    def errors(self):
        with open(f"{self.path}/told", encoding="utf-8", errors="replace") as it:
            return it.read().splitlines()

    def cut(self):
        """Ends it as a user or its unit does, at once; where it does not end it is killed."""
        self.ran.send_signal(signal.SIGTERM)
        with contextlib.suppress(subprocess.TimeoutExpired):
            self.ran.wait(5)
        kill(self.ran)

    def kill(self):
        """What it has no time for is not done: its socket stays."""
        kill(self.ran)


def words_of(command):
    """The words of an Exec line of a unit: quotes, what is escaped in them, and `%%` and `$$`."""
    words = [re.sub(r"\\(.)", r"\1", it[1:-1]) if it.startswith('"') else it for it in re.findall(r'"(?:[^"\\]|\\.)*"|[^ "]+', command)]
    return [it.replace("%%", "%").replace("$$", "$") for it in words]


class Pair:
    """Two devices that share folders: one of ours (`here`) and a Syncthing (`there`), or, for comparison, two Syncthings.

    with Pair(..) as it:    both run, and are connected"""

    # whether `here` is a Syncthing too
    two = False

    def __init__(self, *folders, dials=True, before=None, connects=True, keys="", here_keys=None, knows=None, shares=None, named="syncthing", **there_keys):
        """`before` is called with the pair before anything runs. `keys` are lines of our configuration, `knows` keys of the device at Syncthing, and others those of its folders. Of these it
        shares all, or those of `shares`."""
        self.folders = folders or ("f",)
        self.shares = self.folders if shares is None else shares
        there = Theirs("there", self.folders, **there_keys)
        if self.two:
            self.here, self.line = Theirs("here", self.folders, **(here_keys or {})), None
        else:
            self.here = Ours("here", self.folders, keys, named)
            self.line = Line(self.here, there, dials)
        self.there, self.before, self.connects, self.knows = there, before, connects, knows or {}

    def __enter__(self):
        try:
            self.begin()
        except BaseException:
            self.__exit__(*sys.exc_info())
            raise
        return self

    def begin(self):
        if self.before:
            for side in self.here, self.there:
                for it in self.folders:
                    os.makedirs(f"{side.path}/{it}", exist_ok=True)
            self.before(self)
        self.there.start()
        address = () if self.two or self.line.dials else (f"tcp://127.0.0.1:{self.line.tls}",)
        self.there.know(self.here, *address, **self.knows)
        for it in self.shares:
            self.there.share(it, self.here, self.there)
        if self.two:
            self.here.start()
            self.here.know(self.there, f"tcp://127.0.0.1:{self.there.port}")
            for it in self.folders:
                self.here.share(it, self.here, self.there)
        elif self.connects:
            self.line.start()
            self.here.start()
        else:
            self.here.start()
        if self.connects:
            self.meet()

    def __exit__(self, kind, error, _):
        said = "; ".join(it.last_words() for it in (self.here, self.there) if it.ran) if kind and issubclass(kind, (Differs, OSError, EOFError, ValueError)) else ""
        for it in self.here, self.there:
            if it.is_running():
                it.kill()
        if self.line and self.line.ran:
            self.line.cut()
        for it in self.here, self.there:
            shutil.rmtree(it.path, ignore_errors=True)
        if said:
            error.args = (f"{error} [{said}]",)

    def meet(self):
        """Waits until they are connected."""
        until(lambda: self.here.is_connected(self.there.identity) and self.there.is_connected(self.here.identity), "they do not connect")

    def part(self):
        """Cuts the line, and waits until both noticed."""
        if self.two:
            self.there.set_device(self.here, paused=True)
        else:
            self.line.cut()
        until(lambda: not self.here.is_connected(self.there.identity) and not self.there.is_connected(self.here.identity), "they do not part")

    def join(self):
        if self.two:
            self.there.set_device(self.here, paused=False)
        else:
            self.line.start()
        self.meet()

    @contextlib.contextmanager
    def apart(self):
        """What is done meanwhile is recorded by both, and told when they meet again."""
        self.part()
        yield
        self.scan()
        self.join()

    def ways(self):
        """Both directions: from whom, to whom."""
        return (self.here, self.there), (self.there, self.here)

    def scan(self, *folders):
        for it in folders or self.folders:
            self.here.scan(it)
            self.there.scan(it)

    def alike(self, wanted=None, folder=None, scans=True, versions=True, seconds=None):
        """Waits until both are at 100 %, and the trees are the same, byte by byte, and what is wanted (a tree, or what says so of one). Then the versions of all names are the same,
        too, so that nothing is to come. Returns the tree."""
        folder = folder or self.folders[0]
        if scans:
            self.scan(folder)
        seen = {}

        def found():
            seen["here needs"], seen["there needs"] = self.here.needs(folder), self.there.needs(folder)
            if not (self.here.is_complete(folder, self.there.identity) and self.there.is_complete(folder, self.here.identity)):
                return False
            if self.here.sizes(folder) != self.there.sizes(folder):
                return False
            here, there = self.here.tree(folder), self.there.tree(folder)
            if here != there or callable(wanted) and not wanted(here) or wanted is not None and not callable(wanted) and here != wanted:
                return False
            if not versions:
                return True
            seen["versions here"], seen["versions there"] = self.here.versions(folder), self.there.versions(folder)
            return seen["versions here"] == seen["versions there"]

        until(found, lambda: self.differences(folder, wanted, seen), seconds)
        return self.here.tree(folder)

    def differences(self, folder, wanted, seen):
        here, there = self.here.tree(folder), self.there.tree(folder)
        told = [f"not alike: here {brief(here)}, there {brief(there)}"]
        if here == there and not callable(wanted) and wanted is not None and here != wanted:
            told = [f"both have {brief(here)}, not {brief(wanted)}"]
        elif here == there:
            told = [f"both have {brief(here)}"]
        status = self.there.status(folder)
        told += [f"{key} {str(value)[:300]}" for key, value in seen.items() if value]
        told.append(f"Syncthing is {status['state']} at {self.there.completion(folder):.0f} %, takes the other to be at {self.there.completion(folder, self.here.identity):.0f} %")
        if self.there.problems(folder):
            told.append(f"it says {self.there.problems(folder)}")
        return "; ".join(told)


def shortened(line):
    """A line that a program told, without its time, and with the identities and addresses in it left out."""
    line = re.sub(r"^.*?(INFO|WARNING): ", "", line)
    return re.sub(r"127\.0\.0\.1:\d+\S*", "ADDRESS", re.sub(r"[0-9a-f]{64}|([A-Z2-7]{7}-){7}[A-Z2-7]{7}", "ID", re.sub(rf"{re.escape(work)}\S*", "PATH", line)))


def brief(tree):
    """A tree in few words."""
    rows = [name + ("/" if it is None else f" {it}" if isinstance(it, str) else f"={it[:24]!r}" if len(it) <= 24 else f" ({len(it)})") for name, it in sorted(tree.items())]
    return "{" + ", ".join(rows[:12]) + (f", .. {len(rows)}" if len(rows) > 12 else "") + "}"

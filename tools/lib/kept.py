"""What passed CI, kept for this machine: for a toolchain whose `rt ci` keeps nothing itself.

The store is ${XDG_CACHE_HOME:-~/.cache}/faldyghun; it may be removed at any time. Whoever can write to it is trusted.
"""
import fcntl
import gzip
import hashlib
import io
import json
import os
import sys
import tarfile
import tempfile
import time

STORE = os.path.join(os.environ.get("XDG_CACHE_HOME") or os.path.expanduser("~/.cache"), "faldyghun")
MOST_BYTES = 10_000_000_000


def tell(text):
    print(f"ci: {text}", file=sys.stderr, flush=True)


def sum_of(*parts):
    found = hashlib.sha256()
    for it in parts:
        data = it if isinstance(it, bytes) else it.encode(errors="surrogateescape")
        found.update(b"%d:" % len(data) + data)
    return found.hexdigest()


def read(file):
    with open(file, "rb") as it:
        return it.read()


def sum_of_folder(top):
    """Returns a sum of the paths and contents of all files below the folder."""
    found = []
    for at, folders, files in os.walk(top):
        folders.sort()
        for name in sorted(files):
            found += [os.path.relpath(f"{at}/{name}", top), read(f"{at}/{name}")]
    return sum_of(*found)


def packed(folder):
    """Returns a folder as the bytes of an archive."""
    made = io.BytesIO()
    with tarfile.open(fileobj=made, mode="w") as it:
        it.add(folder, arcname=".")
    return gzip.compress(made.getvalue(), compresslevel=1)


def unpack(data, folder):
    os.makedirs(folder)
    with tarfile.open(fileobj=io.BytesIO(gzip.decompress(data)), mode="r") as it:
        it.extractall(folder)


def put(file, data):
    """Writes a file whole or not at all."""
    os.makedirs(os.path.dirname(file), exist_ok=True)
    with tempfile.NamedTemporaryFile(dir=os.path.dirname(file), suffix=".part", delete=False) as it:
        try:
            it.write(data)
            it.flush()
            os.fsync(it.fileno())
            os.replace(it.name, file)
        except BaseException:
            os.remove(it.name)
            raise


class Store:
    """What passed: a small file for each step of a crate, by the crate's key, and what was built, by its sum. A file that is
    damaged is as one that is not there."""

    def __init__(self, takes):
        self.takes, self.is_there = takes, True

    def load(self, key, step):
        """Returns what was kept of the step, with the bytes of what it built under `data`, or None."""
        file = f"{STORE}/passed/{key}.{step}"
        if not self.takes:
            return None
        try:
            text, total, _ = read(file).decode().split("\n")
            found = json.loads(text)
            if total != sum_of(text) or found["key"] != key or found["step"] != step:
                return None
            os.utime(file)
            found["data"] = {name: self.load_built(it) for name, it in found["built"].items()}
            return None if None in found["data"].values() else found
        except (OSError, ValueError, KeyError, TypeError, AttributeError):
            return None

    def load_built(self, number):
        """Returns what was built, by its sum, or None where it is damaged or gone."""
        file = f"{STORE}/built/{number}"
        try:
            data = read(file)
            os.utime(file)
        except OSError:
            return None
        return data if sum_of(data) == number else None

    def save(self, key, step, data, **entry):
        """Keeps a step that has passed, with what it built."""
        if not self.is_there:
            return
        built = {name: sum_of(it) for name, it in data.items()}
        try:
            for name, it in data.items():
                put(f"{STORE}/built/{built[name]}", it)
            text = json.dumps({**entry, "key": key, "step": step, "built": built, "when": time.strftime("%F %T")}, sort_keys=True)
            put(f"{STORE}/passed/{key}.{step}", f"{text}\n{sum_of(text)}\n".encode())
        except OSError as error:
            self.is_there = False
            tell(f"the store cannot be written, so this run keeps no more: {error}")

    def trim(self):
        """Removes the files that were not used for longest, until the others fit."""
        found, held = [], 0
        for folder in ("passed", "built"):
            for it in os.scandir(f"{STORE}/{folder}") if os.path.isdir(f"{STORE}/{folder}") else []:
                try:
                    found.append((it.stat().st_mtime, it.path, it.stat().st_size + 500))
                except OSError:
                    pass
        for when, path, size in sorted(found, reverse=True):
            held += size
            if held > MOST_BYTES or path.endswith(".part") and when < time.time() - 86400:
                try:
                    os.remove(path)
                except OSError:
                    pass

    def turn(self):
        """Waits until no other run of CI is judging, and returns what keeps others out until this run ends."""
        try:
            os.makedirs(STORE, exist_ok=True)
            held = open(f"{STORE}/lock", "w")
            try:
                fcntl.flock(held, fcntl.LOCK_EX | fcntl.LOCK_NB)
            except BlockingIOError:
                tell("another run of CI is judging: this one waits, and takes what that one passes")
                fcntl.flock(held, fcntl.LOCK_EX)
            return held
        except OSError as error:
            self.is_there = False
            tell(f"the store cannot be written, so this run keeps nothing: {error}")
            return None

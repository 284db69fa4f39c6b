"""A disk that can lose what has not reached it: built from the files of a directory, and from what tools/lib/crash_calls.c noted of the calls that changed them.

A file's bytes have reached the disk as of its last sync, a directory's names as of its own. What came after may be lost: wholly, or by a choice of a seed. Then of each
write after the last sync each 512 bytes are there or not, and the file is as long as after any of these calls; of each directory the first of its calls are there, so and
so many. A rename from one directory to another is there in both or in none, and in the order of the calls of both. So a sync of one of them also keeps what came before
in the other one. (Stricter than most file systems: a new file whose bytes are synced has no name yet, and neither has a new directory that is.)"""
import os
import random
import re
import shutil
import stat

SECTOR = 512


class Wrong(Exception):
    """The calls don't fit what is on the disk, or are none that are known here."""


class Entry:
    """A file or a directory. Of a directory `kept` and `now` are its names with their nodes, of a file its bytes."""

    def __init__(self, is_directory, mode, time, data=b""):
        self.is_directory, self.mode = is_directory, mode
        self.kept, self.now = ({}, {}) if is_directory else (bytearray(data), bytearray(data))
        self.kept_time = self.time = time
        self.waiting = []


class Change:
    """A call on names: (directory, name, node or None) for each that it changes."""

    def __init__(self, number, *parts):
        self.number, self.parts = number, parts

    def directories(self):
        return list({id(it): it for it, _, _ in self.parts}.values())

    def apply(self, names_of):
        for directory, name, node in self.parts:
            if node is None:
                names_of(directory).pop(name, None)
            else:
                names_of(directory)[name] = node


class Data:
    """A write, a new length or a new time of a file. `length` is how long it is after the call."""

    def __init__(self, kind, offset, data, time):
        self.kind, self.offset, self.data, self.length, self.time = kind, offset, data, 0, time

    def apply(self, found):
        if self.kind == "cut":
            change_length(found, self.offset)
        elif self.kind == "write":
            lay(found, self.offset, self.data)

    def apply_some(self, found, choice):
        """What reached the disk of it without a sync."""
        if self.kind == "cut" and choice.random() < 0.5:
            change_length(found, self.offset)
        for offset, data in sectors(self.offset, self.data) if self.kind == "write" else ():
            if choice.random() < 0.5:
                lay(found, offset, data)


def change_length(found, length):
    del found[length:]
    found.extend(bytes(length - len(found)))


def lay(found, offset, data):
    found.extend(bytes(max(0, offset - len(found))))
    found[offset:offset + len(data)] = data


def sectors(offset, data):
    """A write in parts that are there or not."""
    while data:
        size = SECTOR - offset % SECTOR
        yield offset, data[:size]
        offset, data = offset + size, data[size:]


def is_socket(path):
    return stat.S_ISSOCK(os.lstat(path).st_mode)


class Disk:
    def __init__(self, top):
        """What is on the disk now, all of which has reached it."""
        self.top, self.by_number, self.nodes, self.count = os.path.realpath(top), {}, [], 0
        self.root = self.read(self.top)

    def read(self, path):
        facts = os.lstat(path)
        if facts.st_ino in self.by_number:
            # (another name of a file)
            return self.by_number[facts.st_ino]
        if stat.S_ISDIR(facts.st_mode):
            node = Entry(True, facts.st_mode & 0o7777, facts.st_mtime_ns)
            for name in os.listdir(path):
                # (the socket of a killed run has no bytes, and the next run puts its own in its place)
                if not is_socket(f"{path}/{name}"):
                    node.kept[name] = node.now[name] = self.read(f"{path}/{name}")
        else:
            with open(path, "rb") as it:
                node = Entry(False, facts.st_mode & 0o7777, facts.st_mtime_ns, it.read())
        return self.known(facts.st_ino, node)

    def known(self, number, node):
        # (a number may be that of another file later)
        self.by_number[number] = node
        self.nodes.append(node)
        return node

    # ---- what was called

    def place(self, path):
        """The directory of a path, and its last component."""
        if not path.startswith(f"{self.top}/"):
            raise Wrong(path)
        *above, name = path[len(self.top) + 1:].split("/")
        at = self.root
        for it in above:
            at = at.now.get(it)
            if at is None or not at.is_directory:
                raise Wrong(path)
        return at, name

    def change(self, *parts):
        it = Change(self.count, *parts)
        it.apply(lambda directory: directory.now)
        for directory in it.directories():
            directory.waiting.append(it)

    def write(self, node, kind, offset, data, time):
        it = Data(kind, offset, data, time)
        it.apply(node.now)
        it.length = len(node.now)
        node.time = time
        node.waiting.append(it)

    def keep(self, node):
        """All of a file or directory has reached the disk."""
        if not node.is_directory:
            for it in node.waiting:
                it.apply(node.kept)
                node.kept_time = it.time
            node.waiting = []
            return
        self.keep_changes(self.up_to(node, node.waiting[-1]) if node.waiting else {})

    def up_to(self, directory, last):
        """The calls of a directory up to one, and with each that is of another directory too what came before it there."""
        found, left = {}, [(directory, last)]
        while left:
            at, end = left.pop()
            for it in at.waiting:
                if it.number > end.number:
                    break
                if it.number not in found:
                    found[it.number] = it
                    left += [(other, it) for other in it.directories() if other is not at]
        return found

    def keep_changes(self, found):
        for number in sorted(found):
            found[number].apply(lambda directory: directory.kept)
            for directory in found[number].directories():
                directory.waiting.remove(found[number])

    def play(self, line):
        """A line of tools/lib/crash_calls.c."""
        words = [re.sub("%([0-9a-f]{2})", lambda it: chr(int(it[1], 16)), it) for it in line.split(" ")]
        time, kind, words = int(words[1]), words[2], words[3:]
        self.count += 1
        if kind == "other":
            raise Wrong(line)
        if kind not in ("killed", "failed"):
            try:
                self.play_call(kind, int(words[0]), time, words[1:])
            except (KeyError, AttributeError):
                raise Wrong(line) from None

    def play_call(self, kind, number, time, words):
        if kind in ("create", "make"):
            directory, name = self.place(words[1])
            self.change((directory, name, self.known(number, Entry(kind == "make", int(words[0], 8), time))))
            return
        node = self.by_number[number]
        if kind in ("write", "cut", "times"):
            data = bytes.fromhex(words[1]) if kind == "write" and words[1] != "-" else b""
            self.write(node, kind, int(words[0]), data, int(words[0]) if kind == "times" else time)
        elif kind == "sync":
            self.keep(node)
        elif kind == "lost":
            # (a file's bytes count as written for the system, so that no later sync waits for them)
            node.waiting = node.waiting if node.is_directory else []
        elif kind == "mode":
            node.mode = int(words[0], 8)
        else:
            self.play_names(kind, node, *map(self.place, words))

    def play_names(self, kind, node, of, to=None):
        directory, name = of
        if directory.now.get(name) is not node:
            raise Wrong(f"{kind} {name}")
        if kind == "link":
            self.change((*to, node))
        elif kind != "rename":
            self.change((directory, name, None))
        # (where both are names of one file nothing changes)
        elif to[0].now.get(to[1]) is not node:
            self.change((directory, name, None), (*to, node))

    # ---- what is there after a power cut

    def kept_changes(self, choice):
        """Of the calls on names that waited those that are kept."""
        if choice is None:
            return []
        ends = {id(it): choice.randint(0, len(it.waiting)) for it in self.nodes if it.is_directory}
        there = lambda it: all(it in at.waiting[:ends[id(at)]] for at in it.directories())
        while True:
            torn = [(at, it) for at in self.nodes if at.is_directory for it in at.waiting[:ends[id(at)]] if not there(it)]
            if not torn:
                break
            at, it = torn[0]
            ends[id(at)] = at.waiting.index(it)
        found = {it.number: it for at in self.nodes if at.is_directory for it in at.waiting[:ends[id(at)]]}
        return [found[it] for it in sorted(found)]

    def bytes_after(self, node, choice):
        """The bytes and the time of a file."""
        found, time = bytearray(node.kept), node.kept_time
        if choice is None or not node.waiting:
            return bytes(found), time
        for it in node.waiting:
            it.apply_some(found, choice)
        lengths = [it.length for it in node.waiting if it.kind == "write"]
        if lengths and choice.random() < 0.5:
            change_length(found, choice.choice([len(node.kept), *lengths]))
        return bytes(found), choice.choice([time, *(it.time for it in node.waiting)])

    def after_cut(self, choice=None):
        """What is there after a power cut, by path: (mode, time, bytes or None). All that had not reached the disk is lost, or what a choice says."""
        names = {id(it): dict(it.kept) for it in self.nodes if it.is_directory}
        for it in self.kept_changes(choice):
            it.apply(lambda directory: names[id(directory)])
        data = lambda node: self.bytes_after(node, choice)
        return self.paths(self.root, lambda node: names[id(node)], data, "")

    def as_it_is(self):
        """What is there without one."""
        return self.paths(self.root, lambda node: node.now, lambda node: (bytes(node.now), node.time), "")

    def paths(self, directory, names_of, data_of, above):
        found = {}
        for name, node in sorted(names_of(directory).items()):
            if node.is_directory:
                found[above + name] = node.mode, node.time, None
                found.update(self.paths(node, names_of, data_of, f"{above}{name}/"))
            else:
                data, time = data_of(node)
                found[above + name] = node.mode, time, data
        return found

    def put(self, image):
        """Makes the directory what an image says. Two names of one file become two files."""
        for it in os.scandir(self.top):
            shutil.rmtree(it.path) if it.is_dir(follow_symlinks=False) else os.remove(it.path)
        for path, (mode, time, data) in image.items():
            if data is None:
                os.mkdir(f"{self.top}/{path}", 0o700)
        for path, (mode, time, data) in image.items():
            if data is not None:
                with open(f"{self.top}/{path}", "wb") as out:
                    out.write(data)
        for path, (mode, time, data) in reversed(image.items()):
            os.utime(f"{self.top}/{path}", ns=(time, time))
            os.chmod(f"{self.top}/{path}", mode)


def found_at(top):
    """The files and directories below a directory, by path, with their bytes."""
    found = {}
    for at, names, files in os.walk(top):
        for it in names:
            found[os.path.relpath(f"{at}/{it}", top)] = None
        for it in files:
            if is_socket(f"{at}/{it}"):
                continue
            with open(f"{at}/{it}", "rb") as file:
                found[os.path.relpath(f"{at}/{it}", top)] = file.read()
    return found


def texts_of(image):
    return {path: data for path, (_, _, data) in image.items()}


# ---- a test of it: some calls, what is there when all that had not reached the disk is lost, and what may be there else

OLD = {"a": b"old", "d": None, "d/b": b"b"}
BOTH = b"x" * SECTOR + b"y" * SECTOR
CASES = {
    "a write that is not synced": (["write 1 0 6e6577 a"], OLD, [OLD, {**OLD, "a": b"new"}]),
    "a write that is synced": (["write 1 0 6e6577 a", "sync 1 a"], {**OLD, "a": b"new"}, [{**OLD, "a": b"new"}]),
    "a write that was lost": (["write 1 0 6e6577 a", "lost 1 a", "write 1 3 21 a", "sync 1 a"], {**OLD, "a": b"old!"}, [{**OLD, "a": b"old!"}]),
    "a write of two sectors": ([f"write 1 0 {BOTH.hex()} a"], OLD, [{**OLD, "a": it} for it in (
        b"old", BOTH, BOTH[:SECTOR], b"old" + bytes(SECTOR - 3) + BOTH[SECTOR:], b"old" + bytes(2 * SECTOR - 3), BOTH[:SECTOR] + bytes(SECTOR), b"xxx")]),
    "a file that becomes shorter": (["cut 1 1 a"], OLD, [OLD, {**OLD, "a": b"o"}]),
    "a new file of which only the bytes are synced": (["create 9 644 c", "write 9 0 63 c", "sync 9 c"], OLD, [OLD, {**OLD, "c": b"c"}]),
    "a new file of which only the name is synced": (["create 9 644 c", "write 9 0 63 c", "sync 0 ."], {**OLD, "c": b""}, [{**OLD, "c": it} for it in (b"", b"c", b"\0")]),
    "a new file in the place of another": (
        ["create 9 644 t", "write 9 0 6e6577 t", "sync 9 t", "rename 9 t a"], OLD, [OLD, {**OLD, "t": b"new"}, {**OLD, "a": b"new"}]),
    "the same, and synced": (["create 9 644 t", "write 9 0 6e6577 t", "sync 9 t", "rename 9 t a", "sync 0 ."], {**OLD, "a": b"new"}, [{**OLD, "a": b"new"}]),
    "the same without a sync of the bytes": (["create 9 644 t", "write 9 0 6e6577 t", "rename 9 t a", "sync 0 ."], {**OLD, "a": b""}, [{**OLD, "a": it} for it in (b"", b"new", b"\0\0\0")]),
    "a removal": (["unlink 1 a"], OLD, [OLD, {it: OLD[it] for it in ("d", "d/b")}]),
    "a removal that is synced": (["unlink 1 a", "sync 0 ."], {it: OLD[it] for it in ("d", "d/b")}, [{it: OLD[it] for it in ("d", "d/b")}]),
    "removals of two directories": (["unlink 3 d/b", "remove 2 d"], OLD, [OLD, {"a": b"old", "d": None}, {"a": b"old"}]),
    "a second name": (["link 1 a c", "unlink 1 a"], OLD, [OLD, {**OLD, "c": b"old"}, {"c": b"old", "d": None, "d/b": b"b"}]),
    "a rename to another directory": (["rename 1 a d/a"], OLD, [OLD, {"d": None, "d/a": b"old", "d/b": b"b"}]),
    "the same, of which one is synced": (["rename 1 a d/a", "sync 2 d"], {"d": None, "d/a": b"old", "d/b": b"b"}, [{"d": None, "d/a": b"old", "d/b": b"b"}]),
    "the same after another call": (["create 9 644 c", "rename 1 a d/a", "unlink 9 c", "sync 2 d"], {"c": b"", "d": None, "d/a": b"old", "d/b": b"b"},
                                    [{"d": None, "d/a": b"old", "d/b": b"b"}, {"c": b"", "d": None, "d/a": b"old", "d/b": b"b"}]),
    "a new directory": (["make 8 755 e", "create 9 644 e/c", "sync 8 e"], OLD, [OLD, {**OLD, "e": None, "e/c": b""}]),
    "calls that were not made": (["failed unlink 2 a", "killed write a"], OLD, [OLD]),
}


def check(name, top):
    """Has the model play a case in an empty directory. Returns what differs."""
    lines, lost, may = CASES[name]
    os.mkdir(f"{top}/d")
    for path in ("a", "d/b"):
        with open(f"{top}/{path}", "wb") as out:
            out.write(OLD[path])
    disk = Disk(top)
    numbers = {"0": disk.root, "1": disk.root.now["a"], "2": disk.root.now["d"], "3": disk.root.now["d"].now["b"]}
    disk.by_number = {int(it): node for it, node in numbers.items()}
    for line in lines:
        kind, *words = line.split(" ")
        paths = slice(3 if kind == "write" else 2 if kind in ("create", "make", "cut", "failed") else 1, None)
        words[paths] = [f"{disk.top}/{it}" for it in words[paths]]
        disk.play(" ".join(["1", "1000000000", kind, *words]))
    found = {}
    for seed in range(400):
        image = disk.after_cut(random.Random(seed))
        found[repr(sorted(texts_of(image).items()))] = image
    wanted = {repr(sorted(it.items())) for it in may}
    disk.put(disk.after_cut())
    faults = [] if found_at(top) == lost else [f"{found_at(top)}, not {lost}"]
    return faults + [f"{it} is there, and may not be" for it in sorted(set(found) - wanted)] + [f"{it} is never there" for it in sorted(wanted - set(found))]

"""What tools/runs/wire_runs and tools/runs/record_runs share: how rows are counted, records in the state of a node, and bytes of messages in hex digits."""
import shutil
import subprocess

from bep import field, fields, rep
from nodes import PATIENCE, PEER, PROGRAM, Differs, Played, journal_of, work

# A negative number, or the greatest; the varint of 2^63; a digest.
MINUS, TOP, HASH = "ff" * 9 + "01", "80" * 9 + "01", b"ABCDEFGHIJKLMNOPQRSTUVWXYZ234567".hex()
# The field of the block size that a record has whose message has none, and of the version {1:1}.
BLOCK_SIZE, VERSION = "68808008", "4a060a0408011001"

passed = failed = 0


def tell(name, found, wanted):
    """Counts a run, and says where it differs."""
    global passed, failed
    if found == wanted:
        passed += 1
    else:
        failed += 1
        print(f"DIFFERS {name}: {found!r}, not {wanted!r}", flush=True)


def main(groups):
    """Makes the runs of each group, and returns the status."""
    try:
        for group in groups:
            before = passed, failed
            try:
                group()
            except (Differs, OSError, EOFError, ValueError, IndexError, KeyError) as error:
                tell(group.__name__, f"{type(error).__name__} {error}", "no error")
            print(f"{'ok     ' if failed == before[1] else 'FAILED '} {group.__name__.replace('_', ' ')}: {passed - before[0]} runs as they should be", flush=True)
    finally:
        shutil.rmtree(work, ignore_errors=True)
    print(f"{passed} passed, {failed} failed")
    return 1 if failed else 0


def listed(stream, folder="f"):
    """What `best` comes to: its status, and its lines."""
    ran = subprocess.run([PROGRAM, "best", folder], input=stream, capture_output=True, timeout=PATIENCE)
    return ran.returncode, (ran.stdout + ran.stderr).decode().splitlines()


def block(front, digest="1a20" + HASH):
    """A block of a FileInfo, with what stands before its digest."""
    return rep(16, bytes.fromhex(front + digest)).hex()


def named(rows, column=1):
    """A FileInfo of each row, under a name that is its place."""
    return [field(1, f"{at:02}") + bytes.fromhex(row[column]) for at, row in enumerate(rows)]


def recorded(*entries, last=0, kept=(), **how):
    """A node, which is still to start, with these records (device, FileInfo) in its folder "f" with index 7, and these indexes of peers."""
    told = field(1, "f") + field(2, 7) + field(3, last) + b"".join(rep(4, field(1, device) + rep(2, info)) for device, info in entries)
    state = b"bepd state 2\n" + rep(1, told + b"".join(rep(5, field(1, device) + field(2, number)) for device, number in kept))
    return Played(starts=False, state=state, journal=journal_of(9, state), **how)


def folder_of(node):
    """The fields of the folder in the state that a node has written."""
    (found,) = fields(node.state()[13:])[1]
    return fields(found)


def written_of(node):
    """The records of the first peer in it, by name."""
    found = [fields(it) for it in folder_of(node)[4]]
    return {fields(it[2][0])[1][0].decode(): it[2][0] for it in found if it[1] == [PEER]}

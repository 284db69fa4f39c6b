"""The program `bepd` that a script runs: the one that PROGRAM names, else the one that is of the text as it is now, built or released."""
import os
import subprocess
import sys

ROOT = os.path.dirname(os.path.dirname(os.path.dirname(os.path.realpath(__file__))))


def bepd():
    """Returns its path. Where there is none the script ends, and says how to come by one."""
    if os.environ.get("PROGRAM"):
        return os.environ["PROGRAM"]
    found = subprocess.run([f"{ROOT}/tools/release", "--program"], stdin=subprocess.DEVNULL, stdout=subprocess.PIPE, text=True)
    if found.returncode:
        sys.exit(f"{sys.argv[0]}: neither crates/bepd/out/bepd nor release/bepd is of this text: ./bepd builds it, or tools/test does")
    return found.stdout.strip()


def copied(program, to):
    """Copies a program to a path, for a user who may not enter its folder. Another process does: a file that this one has open for writing would stay so in a program that another
    thread begins just then, and can't be begun for as long."""
    subprocess.run(["cp", program, to], check=True)
    return to

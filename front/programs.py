"""The proved programs: built where they are not, and asked. Everything that `press` answers is said by them."""
import os
import pathlib
import re
import subprocess
import sys
import time

from front.told import Misuse, shown

ROOT = pathlib.Path(__file__).resolve().parents[1]
# Other programs that speak the same languages may stand in, to hold one against the other.
ELSEWHERE = os.environ.get("PRESS_PROGRAMS")
LOG = ROOT / "target/press.log"
# The prover names a crate, and then gives its verdict on it.
CRATE = re.compile(r"crate (\w+): ")
PROVED = "logic=proved "


def place_of(name):
    """Where rt leaves a program that is built."""
    return ROOT / "crates" / name / "out" / name


def newest_source():
    """When a source was last changed; what rt made of them lies beside them, in out/."""
    found = [(ROOT / "crates.txt").stat().st_mtime]
    for folder, below, names in os.walk(ROOT / "crates"):
        below[:] = [name for name in below if name != "out"]
        found += [os.stat(os.path.join(folder, name)).st_mtime for name in names]
    return max(found)


def is_built(path):
    return path.exists() and path.stat().st_mtime > newest_source()


def say(words):
    print(words, file=sys.stderr, flush=True)


def build(name):
    """Proves and builds a program: a line for each crate that is proved, and all that the prover says in the log."""
    say(f"proving and building {name}: minutes, from nothing; the prover's notes: {LOG.relative_to(ROOT)}")
    LOG.parent.mkdir(exist_ok=True)
    path, crate = place_of(name), name
    began = since = time.monotonic()
    try:
        # it runs the program too, which ends at once without input
        with LOG.open("wb") as log, subprocess.Popen(["rt", "run"], cwd=ROOT / "crates" / name, stdin=subprocess.DEVNULL, stdout=subprocess.PIPE, stderr=subprocess.STDOUT) as run:
            for line in run.stdout:
                log.write(line)
                told = line.decode(errors="replace")
                found = CRATE.match(told)
                crate = found[1] if found else crate
                if told.startswith(PROVED):
                    say(f"proved {crate} ({time.monotonic() - since:.0f} s)")
                    since = time.monotonic()
    except FileNotFoundError:
        raise Misuse(f"{path.relative_to(ROOT)} is not built, and rt, which proves and builds it, is not on the path") from None
    if run.returncode or not path.exists():
        raise Misuse(f"{name} is not proved: see {LOG}")
    say(f"built {name} ({time.monotonic() - began:.0f} s)")
    os.utime(path)


def program(name):
    if ELSEWHERE:
        return pathlib.Path(ELSEWHERE) / name
    path = place_of(name)
    if not is_built(path):
        build(name)
    return path


def listing(data):
    done = subprocess.run([program("listing")], input=data, stdout=subprocess.PIPE)
    if done.returncode or not done.stdout:
        raise Misuse(f"listing ended with status {done.returncode} and no answer")
    return done.stdout.decode()


class Console:
    """The bench console, asked line by line."""

    def __init__(self):
        self.rig = subprocess.Popen([program("rig")], stdin=subprocess.PIPE, stdout=subprocess.PIPE)

    def __enter__(self):
        return self

    def __exit__(self, *_):
        self.rig.stdin.close()
        self.rig.stdout.close()
        self.rig.wait()

    def ask(self, line):
        """One line in, one line out."""
        try:
            self.rig.stdin.write(line.encode() + b"\n")
            self.rig.stdin.flush()
        except BrokenPipeError:
            raise Misuse("the console has ended") from None
        answer = self.rig.stdout.readline().decode().rstrip("\n")
        if answer in ("", "bad line"):
            raise Misuse(f"the console does not take {shown(line)}: see docs/CONSOLE.md")
        return answer

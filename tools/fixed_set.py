"""What the tools beside this file share: where the second program is, and what the fixed set is made of."""

import subprocess
from pathlib import Path

ROOT = Path(__file__).resolve().parent.parent
FIXED = ROOT / "fixed"
SECOND = ROOT / "second" / "target" / "release"
SCRIPTS = SECOND / "second-scripts"


def build():
    """Builds the second program and the generator of its scripts."""
    command = ["cargo", "build", "--release", "--offline", "--quiet"]
    subprocess.run(command, cwd=ROOT / "second", check=True)


def seeds():
    """(where, line, arguments) for each script; a range of seeds is many scripts of one line."""
    for line in (FIXED / "SEEDS").read_text().splitlines():
        if not line or line.startswith("#"):
            continue
        where, kind, seed, *rest = line.split()
        first, _, last = seed.partition("-")
        for number in range(int(first), int(last or first) + 1):
            yield where, " ".join([kind, seed, *rest]), [kind, str(number), *rest]


def language(arguments):
    """What the arguments of second-scripts make: a sheet for `bench` or a script for `replay`."""
    return "bench" if arguments[0] == "sheet" else "replay"


def generate(arguments):
    """The generator under way; what it makes comes from its standard output."""
    return subprocess.Popen([SCRIPTS, *arguments], stdout=subprocess.PIPE)

"""The two programs, how each is built, and the stored items. Shared by compare and bench."""

import os
import subprocess
import sys

HERE = os.path.dirname(os.path.abspath(__file__))
ROOT = os.path.dirname(HERE)

# ---- The proved program ------------------------------------------------------------------------
# The command that builds it in its crate's folder and runs it once, on no input, and the executable
# that this makes. It takes an item on standard input. REPLAY=/path/to/executable in the environment
# takes its place.
# It ends with one of these statuses where it has replayed the item, as docs/ITEMS.md says.
STATUSES = (0, 1, 2)
REPLAY_BUILD = ["rt", "run"]
REPLAY_CRATE = os.path.join(ROOT, "crates", "replay")
REPLAY_EXECUTABLE = os.path.join(REPLAY_CRATE, "out", "replay")
# ------------------------------------------------------------------------------------------------

PEER_BUILD = ["cargo", "build", "--release", "--offline", "--quiet"]
PEER_OUTPUT = os.path.join(HERE, "target", "release")
PEER_EXECUTABLE = os.path.join(PEER_OUTPUT, "peer")
MAKE_ITEMS = os.path.join(PEER_OUTPUT, "make_items")
# Answers of the new format, and items that only it can tell.
NEW_ITEMS = os.path.join(HERE, "tests", "items")


def flags(new):
    """What the peer's programs take for the new format."""
    return ["--new"] if new else []


def run_build(command, folder, result):
    environment = {key: value for key, value in os.environ.items() if key != "CARGO_TARGET_DIR"}
    try:
        status = subprocess.run(
            command, cwd=folder, env=environment, stdin=subprocess.DEVNULL, stdout=subprocess.DEVNULL
        ).returncode
    except FileNotFoundError:
        sys.exit(f"'{command[0]}' is not installed, so {result} can't be built")
    if status != 0 or not os.path.exists(result):
        sys.exit(f"'{' '.join(command)}' did not build {result}")


def replay_executable():
    """The proved program, built where it is lacking."""
    given = os.environ.get("REPLAY")
    if given:
        if not os.access(given, os.X_OK):
            sys.exit(f"REPLAY={given} is no executable")
        return os.path.abspath(given)
    if not os.path.exists(REPLAY_EXECUTABLE):
        run_build(REPLAY_BUILD, REPLAY_CRATE, REPLAY_EXECUTABLE)
    return REPLAY_EXECUTABLE


def build():
    """Builds what is lacking; answers the proved program and the peer."""
    run_build(PEER_BUILD, HERE, PEER_EXECUTABLE)
    return replay_executable(), PEER_EXECUTABLE


SHOWS = [b"show"], [b"show", b"#"]


def without_pages(text):
    """The text with a comment in place of each line `show`, which the peer does not answer."""
    lines = text.split(b"\n")
    return b"\n".join(b"# show" if line.split()[:2] in SHOWS else line for line in lines)


def make_items(seed, size, new=False):
    """A text of random items and its numbers of items, calls and ticks."""
    command = [MAKE_ITEMS] + flags(new) + [str(seed), str(size)]
    made = subprocess.run(command, capture_output=True, check=True)
    return made.stdout, [int(number) for number in made.stderr.split()]


def stored_items(new=False):
    """The paths of the repository's items: the examples, captures, and those of the stored run."""
    found = []
    for folder, folders, files in os.walk(ROOT):
        folders[:] = [name for name in folders if name not in ("target", "out") and not name.startswith(".")]
        found += [os.path.join(folder, name) for name in files if name.endswith(".item")]
    found = [path for path in found if new or os.path.dirname(path) != NEW_ITEMS]
    return sorted(path for path in found if os.path.exists(path))


def stored_answers(path, new=False):
    """Where the stored answers to an item are."""
    folder, name = os.path.split(path)
    of_new = os.path.join(NEW_ITEMS, name[: -len(".item")] + ".expected")
    if new and os.path.exists(of_new):
        return of_new
    return os.path.join(folder, "stdout") if name == "stdin" else path[: -len(".item")] + ".expected"

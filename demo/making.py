"""Makes by the repository's own tool, rt, what is not there yet, and tells how far it is.

In the folder of a crate `rt run` makes its program and runs it, and `rt lib` makes its library; what they make stays in
the crate's folder out. First they make the libraries below it, each behind those that it depends on, as crates.txt lists
them, where they are not there or have changed. Of each crate that is proved meanwhile they print a line that begins with
`crate NAME: `, then one that begins with `logic=`, which says whether it is proved.
"""

import os
import re
import subprocess
import time

from planner import Failure

SHOWN = 2000  # characters of what a failed rt said last
CHECKED = re.compile(r"crate (\w+): ")
PROVED = "logic=proved "


def made_in(root, crate, name):
    """Where rt leaves what it makes of a crate."""
    return os.path.join(root, "crates", crate, "out", name)


def listed(root):
    """The crates of a repository, each with those of them that it depends on, in the order listed."""
    crates = {}
    with open(os.path.join(root, "crates.txt"), encoding="utf-8") as lines:
        for line in lines:
            name, colon, needed = line.partition("#")[0].partition(":")
            if colon:
                crates[name.split()[0]] = needed.split()
    return {name: [crate for crate in needed if crate in crates] for name, needed in crates.items()}


class Progress:
    """The crates that rt may still have to prove, up to the one wanted."""

    def __init__(self, crates, wanted, made):
        self.crates, self.order, self.at = crates, [], None
        self.climb(wanted)
        self.left = [name for name in self.order if name == wanted or not made(name)]
        self.since = time.monotonic()

    def climb(self, name):
        """A crate, behind all that it depends on."""
        for needed in self.crates[name]:
            self.climb(needed)
        if name not in self.order:
            self.order.append(name)

    def take(self, line):
        """What a line that rt printed says of a crate proved just now."""
        checked = CHECKED.match(line)
        if checked:
            self.at = checked[1]
        if not line.startswith(PROVED) or self.at not in self.order:
            return None
        name, behind, now = self.at, self.order.index(self.at), time.monotonic()
        if name not in self.left:
            # it has changed since it was made, so those behind it may be made anew too
            self.left = self.order
        self.left = [each for each in self.left if self.order.index(each) > behind]
        took, self.since, self.at = now - self.since, now, None
        return f"{name} proved ({took:.0f} s); {self.rest()}"

    def rest(self):
        """How many are left, and which is next."""
        return f"{len(self.left)} left, now {self.left[0]}" if self.left else "none left"


def make(root, path, command, crate, say):
    """What `rt COMMAND` makes at a path, in the folder of a crate."""
    if os.path.exists(path):
        return
    folder = os.path.join(root, "crates", crate)
    say(f"making {os.path.relpath(path, root)} (rt {command} in crates/{crate}: the first time it proves all code below, "
        "which may take half an hour)")
    progress = Progress(listed(root), crate, lambda name: os.path.exists(made_in(root, name, "rlib/stamp")))
    say(f"  crates to prove: {progress.rest()}")
    try:
        rt = subprocess.Popen(["rt", command], cwd=folder, stdin=subprocess.DEVNULL, stdout=subprocess.PIPE,
                              stderr=subprocess.STDOUT, encoding="utf-8", errors="replace")
    except OSError as error:
        raise Failure(f"rt cannot be run: {error}") from error
    said = ""
    with rt:
        try:
            for line in rt.stdout:
                said = (said + line)[-SHOWN:]
                told = progress.take(line)
                if told:
                    say(f"  {told}")
        except BaseException:
            rt.terminate()
            raise
    if rt.returncode != 0 or not os.path.exists(path):
        raise Failure(f"rt {command} in crates/{crate} made no {path}:\n{said.strip()}")

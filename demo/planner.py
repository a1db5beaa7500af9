"""An answer-set planner for tasks: gringo grounds, clasp looks for plans of one step more each time.

Both run with a time limit, one thread, a fixed seed and a limit on memory, so that a task has the same plan every time.
"""

import itertools
import json
import os
import resource
import subprocess
import sys
import tempfile
import time

import translate

MEMORY = 4 << 30


class Failure(Exception):
    """What went wrong, for the reader."""


class Late(Exception):
    """A time limit that passed."""


class Clock:
    """Time that a planner may take, and a line on the terminal that shows it at work."""

    def __init__(self, limit):
        self.start, self.limit, self.shown = time.monotonic(), limit, 0.0

    def passed(self):
        return time.monotonic() - self.start

    def show(self, doing):
        if self.passed() > self.limit:
            raise Late
        if sys.stderr.isatty() and self.passed() - self.shown > 0.2:
            self.shown = self.passed()
            print(f"\r  {doing}, {self.passed():.0f} s ", end="", file=sys.stderr, flush=True)

    def clear(self):
        if sys.stderr.isatty():
            print("\r" + " " * 78 + "\r", end="", file=sys.stderr, flush=True)


def limit_memory():
    resource.setrlimit(resource.RLIMIT_AS, (MEMORY, MEMORY))


def work(command, source, output, clock, doing, through=None):
    """Runs a planner's command from one file to another, through a filter if there is one, while the clock allows it;
    its time."""
    begun = time.monotonic()
    with open(source, "rb") as given, open(output, "wb") as taken, tempfile.TemporaryFile() as errors:
        child = subprocess.Popen(command, stdin=given, stdout=subprocess.PIPE if through else taken, stderr=errors,
                                 preexec_fn=limit_memory)
        children = [child]
        if through:
            children.append(subprocess.Popen(through, stdin=child.stdout, stdout=taken))
            child.stdout.close()
        try:
            while child.poll() is None:
                clock.show(doing)
                time.sleep(0.005)
        finally:
            if child.poll() is None:
                child.kill()
            for each in children:
                each.wait()
            clock.clear()
        errors.seek(0)
        told = errors.read().decode(errors="replace").strip()
    if "bad_alloc" in told:
        raise Failure(f"{command[0]} needs more than {MEMORY >> 30} GB of memory")
    # clasp's status tells what it found, 10, 20 or 30; everything else is an error
    if child.returncode not in (0, 10, 20, 30):
        raise Failure(f"{command[0]} ended with status {child.returncode}: {told}")
    return time.monotonic() - begun


class Planner:
    """gringo and clasp on one task, and what they took."""

    def __init__(self, task, folder, limit):
        self.task, self.folder, self.clock = task, folder, Clock(limit)
        self.steps, self.all_steps = 0, False
        self.grounding, self.solving, self.plan = None, None, None

    def file(self, name, text=None):
        path = os.path.join(self.folder, name)
        if text is not None:
            with open(path, "w", encoding="ascii") as stream:
                stream.write(text)
        return path

    def ground(self):
        """Writes out every step that can be reached, as a planner does before it plans, and counts them."""
        program, counted = self.file("reach.lp", translate.reachable(self.task)), self.file("counted")
        counting = ["awk", "/^s/ { steps++ } /^lacking/ { print } END { print steps + 0 }"]
        try:
            took = work(["gringo", "-Wnone", "--text"], program, counted, self.clock, "grounding", counting)
        finally:
            with open(counted, encoding="ascii") as lines:
                *lacking, steps = lines.read().split() or ["0"]
                self.steps = int(steps)
        self.grounding, self.solving, self.all_steps = took, 0.0, True
        if lacking:
            atom = self.task.goal[int(lacking[0][len("lacking("):-len(").")])]
            numbers = ",".join(map(str, atom.arguments))
            raise Failure(f"no steps can ever lead to the goal atom {atom.predicate}:{numbers}")

    def search(self, report):
        """Looks for a plan of no step, then of one, two, three .. steps."""
        program = self.file("plan.lp", translate.planning(self.task))
        ground, answer = self.file("ground"), self.file("answer")
        for horizon in itertools.count():
            self.grounding += work(["gringo", "-Wnone", "-c", f"horizon={horizon}"], program, ground, self.clock,
                                   f"writing out {horizon} steps")
            self.solving += work(["clasp", "--outf=2", "--seed=1"], ground, answer, self.clock,
                                 f"looking for a plan of {horizon} steps")
            with open(answer, encoding="utf-8") as stream:
                found = json.load(stream)
            if found["Result"] == "SATISFIABLE":
                self.plan = translate.plan(found["Call"][0]["Witnesses"][0].get("Value", []))
                return
            report(horizon)

    def work(self, report=lambda horizon: None):
        self.ground()
        self.search(report)

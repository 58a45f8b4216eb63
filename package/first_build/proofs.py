"""The queue of proofs: which crate is proved when, by how many processes, and in which tree."""

import os
import re
import subprocess
import sys
import time
from dataclasses import dataclass
from pathlib import Path

import ending
from crates import all_below, longest_ways
from machine import count_processors, free_memory
from trees import lock_crate, make_tree, remove_folder, take_work, when_built

# The memory that the first process of a crate takes at most, and each further one, in bytes.
FIRST_PROCESS, NEXT_PROCESS = 3_000_000_000, 1_300_000_000
# The part of the memory free at the beginning that is planned with.
PLANNED = 0.85
# The time that a crate takes by several processes, in ratio to that by one: for half of it one of them is left.
BY_SEVERAL = 0.6
# A crate gives way to others by a step of `nice` for so many seconds that nothing waits for it, and by so many at most.
SECONDS_A_STEP, MOST_STEPS = 25, 19
# The part of a crate's time that has passed when `rt` says that all of its functions are checked, about.
WHEN_CHECKED = 0.8
# The seconds between two looks at what has ended.
PAUSE = 0.1

SO_FAR = re.compile(r"(?m)^so far: (\d+) of (\d+) functions checked")


class Failed(Exception):
    """A crate that `rt` does not prove: its name, how `rt` ended, and what it said."""


def memory_for(jobs):
    """Returns the memory to plan with for so many processes of a crate."""
    return FIRST_PROCESS + (jobs - 1) * NEXT_PROCESS


@dataclass
class Running:
    """A command of `rt` at work on a crate: in which tree, with which log, and the memory that is planned for it."""

    name: str
    tree: Path
    process: subprocess.Popen
    log: Path
    memory: int
    began: float
    read: int = 0

    def said(self):
        """Returns all that it has said so far."""
        return self.log.read_text(encoding="utf-8", errors="replace")

    def new_lines(self):
        """Returns the whole lines that it has said since the last call."""
        with open(self.log, "rb") as file:
            file.seek(self.read)
            lines, newline, _ = file.read().rpartition(b"\n")
        self.read += len(lines + newline)
        return lines.decode(errors="replace").splitlines()

    def seconds_done(self, seconds):
        """Returns about how many of the crate's processor seconds are behind it, by what it says and by the clock."""
        found = SO_FAR.findall(self.said())
        checked = int(found[-1][0]) / max(int(found[-1][1]), 1) if found else 0
        return WHEN_CHECKED * min(max(checked * seconds, time.monotonic() - self.began), seconds)

    def pass_on(self):
        """Says on standard error what `rt` waits for."""
        for line in self.new_lines():
            if line.startswith("rt: ") and "waiting " in line:
                print(f"obim_query: {line[4:]}", file=sys.stderr, flush=True)


class Queue:
    """The proofs of a program's crates, in the repository's own tree and in others below a folder."""

    def __init__(self, top, crates, program, folder):
        self.top, self.crates, self.program, self.folder = top, crates, program, folder
        self.ways = longest_ways(crates)
        self.processors = count_processors()
        self.memory = int(PLANNED * free_memory())
        self.waiting = [name for name in crates if name != program]
        self.proved, self.running, self.was_built = set(), [], {}

    def prove(self, progress):
        """Proves all but the program, and tells what of it was not proved before."""
        while self.waiting or self.running:
            self.begin_crates()
            ended = self.wait()
            self.end(ended)
            if when_built(self.top / "crates" / ended.name) != self.was_built[ended.name]:
                progress.tell(ended.name, self)
            else:
                progress.leave_out(ended.name)

    def build(self):
        """Proves and builds the program, and runs it once on the job of its folder, for no one to see."""
        self.start(self.program, self.top, ["run", "--jobs", str(self.jobs_that_fit(self.processors))], 0)
        self.end(self.wait())

    def begin_crates(self):
        """Begins the crates that can be proved now, as long as there is room, the longest way first."""
        ready = [name for name in self.waiting if self.proved.issuperset(self.crates[name].below)]
        for name in sorted(ready, key=self.ways.get, reverse=True):
            wanted, steps = self.plan(name, not self.running and len(ready) == 1)
            jobs = self.jobs_that_fit(wanted)
            if not jobs or len(self.running) >= self.processors:
                return
            self.waiting.remove(name)
            self.was_built[name] = when_built(self.top / "crates" / name)
            tree = self.top
            if any(each.tree == self.top for each in self.running):
                tree = self.folder / name
                make_tree(self.top, tree, [*all_below(self.crates, name), name])
            self.start(name, tree, ["lib", "--jobs", str(jobs)], steps)

    def plan(self, name, is_alone):
        """Returns by how many processes a crate is to be proved, and how many steps of `nice` behind others.

        The crate that the end waits for has a process for each processor. One that nothing waits for if a single
        process proves it has one, which leaves memory and processors to others.
        """
        slack = BY_SEVERAL * (self.longest_way_left() - self.ways[name])
        slack_of_one = slack - (1 - BY_SEVERAL) * self.crates[name].seconds
        if slack <= 0 or is_alone:
            return self.processors, 0
        jobs, slack = (1, slack_of_one) if slack_of_one >= 0 else ((self.processors + 1) // 2, slack)
        return jobs, min(int(slack / SECONDS_A_STEP), MOST_STEPS)

    def longest_way_left(self):
        """Returns the processor seconds to the program's end on the longest way that is left."""
        begun = self.seconds_begun()
        return max(self.ways[name] - begun.get(name, 0) for name in self.crates if name not in self.proved)

    def seconds_begun(self):
        """Returns about how many processor seconds are behind each crate that runs."""
        return {each.name: each.seconds_done(self.crates[each.name].seconds) for each in self.running}

    def jobs_that_fit(self, wanted):
        """Returns how many processes of a further crate memory has room for, at least one if no crate runs."""
        planned = sum(each.memory for each in self.running)
        room = min(self.memory - planned, free_memory())
        fitting = [jobs for jobs in range(1, wanted + 1) if memory_for(jobs) <= room]
        return max(fitting, default=0 if self.running else 1)

    def start(self, name, tree, words, steps):
        """Starts `rt` in the folder of a crate, so many steps of `nice` behind others."""
        folder, log = tree / "crates" / name, self.folder / f"{name}.log"
        runs = words[0] == "run"
        command = ["nice", "-n", str(steps), "rt", *words]
        with open(log, "wb") as said, open(folder / "stdin" if runs else "/dev/null", "rb") as given:
            out = subprocess.DEVNULL if runs else said
            process = subprocess.Popen(command, cwd=folder, stdin=given, stdout=out, stderr=said)
        self.running.append(Running(name, tree, process, log, memory_for(int(words[-1])), time.monotonic()))

    def wait(self):
        """Waits until one of those that run has ended, and returns it."""
        while True:
            for each in self.running:
                has_ended = each.process.poll() is not None
                each.pass_on()
                if has_ended:
                    return each
            self.pause()

    def pause(self):
        """Lets a little time pass, unless the build is to end."""
        ending.check()
        time.sleep(PAUSE)

    def end(self, ended):
        """Takes what a command that has ended leaves."""
        ending.check()
        status, said = ended.process.returncode, ended.said()
        fits = ended.tree == self.top or self.take(ended, status == 0)
        self.running.remove(ended)
        if status or not fits:
            why = f"rt ended with status {status}" if status else "a source file changed while it was proved"
            raise Failed(ended.name, why, said)
        self.proved.add(ended.name)

    def take(self, ended, is_proved):
        """Takes what was proved in a tree of its own into the repository's, and removes the tree."""
        crate, fits = self.top / "crates" / ended.name, True
        if not is_proved or when_built(ended.tree / "crates" / ended.name) != self.was_built[ended.name]:
            held = lock_crate(crate)
            if held is None:
                print(f"obim_query: waiting for another rt to finish in {crate}", file=sys.stderr, flush=True)
            while held is None:
                self.pause()
                held = lock_crate(crate)
            fits = take_work(self.top, ended.tree, ended.name, is_proved)
            os.close(held)
        remove_folder(ended.tree)
        return fits

    def stop(self):
        """Ends what runs, which ends all that it started itself, and keeps the work that was done."""
        for each in self.running:
            each.process.terminate()
        for each in self.running:
            each.process.wait()
            held = None if each.tree == self.top else lock_crate(self.top / "crates" / each.name)
            if held is not None:
                take_work(self.top, each.tree, each.name, False)
                os.close(held)
        self.running = []

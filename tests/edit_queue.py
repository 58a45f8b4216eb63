"""The edits that are to be tried, in rounds, several at the same time, each once the libraries below its crate are there."""

import shutil
import tempfile
import time
from concurrent.futures import FIRST_COMPLETED, ThreadPoolExecutor, wait
from functools import partial
from pathlib import Path

from prover import below, has_library, libraries_of
from rounds import MASKED, VOID, check, check_whole, judged, judged_whole, link, rounds_of

# Most edits of a round. Checks of the upper crates take more memory for each.
MOST, MOST_OF_LARGE = 12, 8
LARGE = ("least_costs", "job_answer", "session_answer", "command_line", "obim_query")
# The memory that has to be free for one more check, beside what those that run may still take.
BYTES = 5 << 30


def tell(line):
    print(line, flush=True)


class CrateEdits:
    """The edits of a crate that are to be tried. The first round leaves what the others begin with."""

    def __init__(self, root, name, functions, edits):
        self.root, self.name, self.functions, self.edits = root, name, functions, edits
        self.rounds, self.others = rounds_of(functions, edits, MOST_OF_LARGE if name in LARGE else MOST)
        self.is_begun, self.kept = False, None

    def is_empty(self):
        return not self.rounds and not self.others

    def next(self):
        """What is to be done next, as a call that gives verdicts, or None if that has to wait for the first round."""
        if self.rounds and (not self.is_begun or self.kept):
            self.is_begun = True
            return partial(self.try_round, self.rounds.pop(0))
        if self.others:
            return partial(self.try_whole, self.others.pop(0))
        return None

    def try_round(self, chosen):
        """The verdicts on a round. If nothing is known of an edit, it is tried alone."""
        kept = Path(tempfile.mkdtemp(prefix="try-edits-kept-"))
        if self.kept:
            shutil.copytree(self.kept, kept, copy_function=link, dirs_exist_ok=True)
        said = check(self.root, self.name, self.functions, chosen, kept)
        tell(f"{self.name}: {len(chosen)} edits in one check: {said.seconds:.0f} processor seconds, {said.megabytes} MB")
        verdicts = judged(said, chosen)
        for edit, (kind, _) in list(verdicts.items()) if len(chosen) > 1 else ():
            if kind in (MASKED, VOID):
                said = check(self.root, self.name, self.functions, {edit: chosen[edit]}, kept)
                tell(f"{self.name}: {edit.name} alone, as it was {kind}: {said.seconds:.0f} processor seconds")
                verdicts |= judged(said, {edit: chosen[edit]})
        if self.kept:
            shutil.rmtree(kept, ignore_errors=True)
        else:
            self.kept = kept
        return verdicts

    def try_whole(self, edit):
        """The verdict on an edit in no function's body, by a check of the whole crate."""
        said = check_whole(self.root, self.name, edit)
        tell(f"{self.name}: {edit.name}, in no body: {said.seconds:.0f} processor seconds, {said.megabytes} MB")
        return {edit: judged_whole(said)}

    def end(self):
        """Removes what the rounds left."""
        if self.kept:
            shutil.rmtree(self.kept, ignore_errors=True)


class Libraries:
    """The libraries below crates: built before, or by an `rt ci` that runs meanwhile and writes a log."""

    def __init__(self, root, log):
        self.root, self.log, self.named = root, log, libraries_of(root)

    def are_there(self, crate):
        """Tells if all that this crate stands on is built."""
        return all(self.is_built(name) for name in below(self.named, crate))

    def is_built(self, crate):
        lines = self.lines()
        was_told = f"rt: {crate} proved" in lines or any(line.startswith(f"rt: {crate} is kept:") for line in lines)
        return has_library(self.root, crate) and (self.log is None or was_told)

    def lines(self):
        return self.log.read_text(encoding="utf-8", errors="replace").splitlines() if self.log else []

    def is_over(self):
        """Tells if nothing more will be built."""
        return self.log is None or any(" passed, " in line for line in self.lines()[-1:])


def has_memory():
    """Tells if there is memory for one more check."""
    lines = Path("/proc/meminfo").read_text(encoding="utf-8").splitlines()
    return any(line.startswith("MemAvailable:") and int(line.split()[1]) << 10 > BYTES for line in lines)


def next_task(crates, libraries):
    """A crate that is ready and what is to be done of it: first that of the crate with most edits left."""
    left = [crate for crate in crates if not crate.is_empty()]
    for crate in sorted(left, key=lambda crate: -sum(map(len, crate.rounds)) - len(crate.others)):
        if libraries.are_there(crate.name):
            task = crate.next()
            if task:
                return crate, task
    return None


def try_all(crates, libraries, jobs, report):
    """Tries all edits of these crates and reports each. Returns the crates whose libraries were never there."""
    running = {}
    with ThreadPoolExecutor(jobs) as pool:
        while running or any(not crate.is_empty() for crate in crates):
            was_over = libraries.is_over()
            # Beside proofs half of the processors have to do.
            most = jobs if was_over else max(1, jobs // 2)
            while len(running) < most and (not running or has_memory()):
                found = next_task(crates, libraries)
                if not found:
                    break
                crate, task = found
                running[pool.submit(task)] = crate
            if not running and was_over:
                break
            done = wait(running, timeout=2, return_when=FIRST_COMPLETED).done if running else time.sleep(2)
            for ended in done or ():
                report(running.pop(ended), ended.result())
    for crate in crates:
        crate.end()
    return [crate for crate in crates if not crate.is_empty()]

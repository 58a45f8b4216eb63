"""Rounds of edits: several wrong bodies of a crate in one check, and what the prover says of each.

A round is a copy of the crate with an edit in each of several functions, and one check of these functions alone. Each other
function has a hole for its proof, so it is taken by its contract: `rt ci` proves it in the same landing.

- An edit is refused only if its own function has an error or an open goal. That it calls a function that is refused says
  nothing.
- An error in a function without an edit makes a round void: nothing is known of its edits.
- If a proof file only names what the edit took away, the proof is refused, and not the body.
"""

import os
import re
import resource
import shutil
import subprocess
import tempfile
from dataclasses import dataclass
from pathlib import Path

from prover import kit, words_of
from edits import applied

PARTS = ("src", "specs", "proofs")
REFUSED, BY_NAME, MASKED, NOT_REFUSED, VOID = "refused", "refused by a name alone", "masked", "not refused", "void"
# An error or an open goal, with its file and line.
TOLD = re.compile(r"(?:note: )?(?:\./)?((?:proofs|src|specs)/\S+?):(\d+):\d+: (error: )?(.*)")
OPEN = "it is not proved that"
# What is said of a proof file that names what an edit took away.
NAME_IS_GONE = re.compile(
    r"has no field|is not in scope|has no [`‹]|was not admitted|that depend on .* were not checked|is no name"
)
# A text that isn't read: the front end stops, or the prover can't read a source or a definition.
UNREAD = re.compile(r"\berror\[[\w-]+\]")


@dataclass(frozen=True)
class Said:
    """What a check said: by function the verdict, its status, its lines, and what it took."""

    verdicts: dict
    status: int
    text: str
    seconds: float
    megabytes: int

    def is_judged(self):
        """Tells if the functions were checked at all."""
        return self.status == 1 and re.search(r"^only=", self.text, re.MULTILINE) is not None


def rounds_of(functions, edits, most):
    """Rounds of at most so many edits, each by its functions. And the edits that stand in no function's body."""
    rounds, others = [], []
    for edit in edits:
        own = {functions.around(file, old) for _, file, old, _ in edit.pairs}
        if None in own or any(function.is_nameless for function in own):
            others.append(edit)
            continue
        taken = lambda one: {function for others in one.values() for function in others} & own
        fit = next((one for one in rounds if len(one) < most and not taken(one)), None)
        if fit is None:
            rounds.append(fit := {})
        fit[edit] = own
    return rounds, others


def put_holes(room, crate, functions, edited):
    """Gives each function without an edit a proof that is a hole. Of a cycle the proof is of all its functions at once."""
    for function in functions.all:
        if function in edited or function.cycle or function.is_nameless or function.name == "main":
            continue
        folder = room / "proofs" / Path(*function.name.split("::"))
        folder.mkdir(parents=True, exist_ok=True)
        for answers in ("Answers.antt", "Invariants.antt"):
            (folder / answers).unlink(missing_ok=True)
        path, last = function.name.replace("::", "."), function.name.split("::")[-1]
        (folder / "Proof.antt").write_text(
            f"use Rattle.{crate}.proofs.{path}.Statement.{{statement}}\n\n"
            f"pub {last}_spec : {{M : Type 1}} → statement M\n{last}_spec = ?\n",
            encoding="utf-8",
        )


def called(room, words):
    """Runs the prover in this folder, behind what else the machine does."""
    with (room / "said").open("w+", encoding="utf-8", errors="replace") as log:
        command = ["nice", "-n", "10", f"{kit()}/bin/rattle", "check", *words]
        running = subprocess.Popen(command, cwd=room, stdin=subprocess.DEVNULL, stdout=log, stderr=subprocess.STDOUT)
        _, status, used = os.wait4(running.pid, 0)
        running.returncode = os.waitstatus_to_exitcode(status)
        log.seek(0)
        text = log.read()
    return running.returncode, text, used.ru_utime + used.ru_stime, used.ru_maxrss >> 10


def laid_out(room, folder, edits):
    """Puts a copy of the crate in this folder into the room, with these edits."""
    for part in PARTS:
        if (folder / part).is_dir():
            shutil.copytree(folder / part, room / part)
    for file, text in applied(folder, edits).items():
        (room / file).write_text(text, encoding="utf-8")


def check(root, crate, functions, chosen, kept):
    """Checks a round in a copy: the edits of `chosen`, by edit its functions. `kept` has what all rounds of a crate share."""
    edited = {function for own in chosen.values() for function in own}
    with tempfile.TemporaryDirectory(prefix="try-edits-") as name:
        room = Path(name)
        laid_out(room, root / "crates" / crate, chosen)
        put_holes(room, crate, functions, edited)
        words = [*words_of(root, crate), "--incremental", str(kept), "--allow-holes"]
        for function in sorted(function.name for function in edited):
            words += ["--only", function]
        status, text, seconds, megabytes = called(room, words)
    verdicts = dict(re.findall(rf"^fn {crate}::(\S+): (.*)$", text, re.MULTILINE))
    return Said(verdicts, status, text, seconds, megabytes)


def is_of(function, file, line, text):
    """Tells if an error in this place is the function's own, by its file of proofs or its lines."""
    *module, last = function.name.split("::")
    if file == function.file:
        return line in function.lines
    if function.cycle and file.startswith("/".join(["proofs", *function.module, f"+{function.cycle}", ""])):
        return text.startswith(f"`{last}-")
    folders = ("/".join(["proofs", *module, last, ""]), "/".join(["proofs", *module, "fn", last, ""]))
    return file.startswith(folders)


def errors_of(said, edited):
    """By function with an edit its own errors and open goals. And those that are of none of them."""
    own, strange = {function: [] for function in edited}, []
    for line in said.text.splitlines():
        found = TOLD.match(line)
        if not found or not (found[3] or OPEN in found[4]):
            continue
        fit = [function for function in edited if is_of(function, found[1], int(found[2]), found[4])]
        (own[fit[0]] if fit else strange).append(line)
    return own, strange


def judged(said, chosen):
    """By edit its verdict, and the line that shows it."""
    if not said.is_judged():
        lines = [line for line in said.text.splitlines() if UNREAD.search(line)] or said.text.splitlines()[-3:]
        return {edit: (VOID, " ".join(lines[:2])[:300]) for edit in chosen}
    own, strange = errors_of(said, {function for functions in chosen.values() for function in functions})
    if strange:
        return {edit: (VOID, f"an error in a function without an edit: {strange[0][:240]}") for edit in chosen}
    return {edit: verdict_of(said, functions, own) for edit, functions in chosen.items()}


def verdict_of(said, functions, own):
    """The verdict on an edit of these functions, from their own errors."""
    errors = [error for function in functions for error in own[function]]
    bodies = [error for error in errors if not NAME_IS_GONE.search(error)]
    lines = [said.verdicts.get(function.name, "no verdict") for function in functions]
    is_refused = any(line.startswith(("not proved", "no proof")) for line in lines)
    if bodies and is_refused:
        return REFUSED, bodies[0]
    if errors and is_refused:
        return BY_NAME, errors[0]
    return (MASKED if is_refused else NOT_REFUSED), lines[0]


def check_whole(root, crate, edit):
    """Checks a whole copy of the crate with an edit that is in no function's body, over what a check kept here, if any."""
    with tempfile.TemporaryDirectory(prefix="try-edits-") as name:
        room = Path(name)
        laid_out(room, root / "crates" / crate, [edit])
        kept = root / "crates" / crate / "out/incremental"
        if kept.is_dir():
            shutil.copytree(kept, room / "kept", copy_function=link)
        words = [*words_of(root, crate), "--incremental", str(room / "kept")]
        return Said({}, *called(room, words))


def judged_whole(said):
    """The verdict on an edit in no function's body, from a check of the whole crate."""
    found = [TOLD.match(line) for line in said.text.splitlines()]
    errors = [told[0] for told in found if told and (told[3] or OPEN in told[4])]
    bodies = [error for error in errors if not NAME_IS_GONE.search(error)]
    if said.status != 1 or "logic=not-proved" not in said.text:
        return (NOT_REFUSED if said.status == 0 else VOID), " ".join(said.text.splitlines()[-2:])[:300]
    return (REFUSED, bodies[0]) if bodies else (BY_NAME, (errors or ["no error"])[0])


def link(source, target):
    """Makes a copy without its bytes, if the file system has links: a check replaces files and changes none."""
    try:
        os.link(source, target)
    except OSError:
        shutil.copy2(source, target)

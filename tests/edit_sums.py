"""Sums of what the verdict on an edit stands on, and the table of the edits that were refused.

An edited function is checked by its own text and proof, by the signatures, contracts, types, definitions and lemmas of its
crate and those below, and by the toolchain: not by the bodies of other functions. If a verdict stands on the same sum, it is
the same. `tests/edits_refused.tsv` has the sums on which each edit was refused.
"""

import hashlib
from pathlib import Path

from prover import below, libraries_of, version
from functions import Functions

TABLE = Path("tests/edits_refused.tsv")
# Files of the proof of one function, in its folder.
OF_FUNCTION = ("Answers.antt", "Invariants.antt", "Proof.antt")


def add(digest, name, text):
    """Adds a named text to a sum."""
    digest.update(f"{name}\0{len(text)}\0{text}\0".encode())


def proofs_of(root, crate):
    """The files of proofs of a crate: lemmas, and those of one function, each by its path in the crate."""
    folder = root / "crates" / crate
    paths = sorted(path for path in folder.glob("proofs/**/*.antt"))
    texts = {str(path.relative_to(folder)): path.read_text(encoding="utf-8") for path in paths}
    own = {name: text for name, text in texts.items() if Path(name).name in OF_FUNCTION}
    return {name: text for name, text in texts.items() if name not in own}, own


class Sums:
    """Sums over the crates of a tree, each of which is read once."""

    def __init__(self, root):
        self.root, self.libraries, self.known = root, libraries_of(root), {}

    def functions(self, crate):
        """The functions of a crate, its proofs of functions, and a digest of what others can know of it."""
        if crate not in self.known:
            functions = Functions(self.root / "crates" / crate)
            lemmas, own = proofs_of(self.root, crate)
            digest = hashlib.sha256(version().encode())
            for file in functions.texts:
                add(digest, file, functions.without_bodies(file))
            folder = self.root / "crates" / crate
            for path in sorted(folder.glob("specs/**/*.antt")):
                add(digest, path.relative_to(folder), path.read_text(encoding="utf-8"))
            for name, text in lemmas.items():
                add(digest, name, text)
            self.known[crate] = functions, own, digest.hexdigest()
        return self.known[crate]

    def of(self, crate, edit):
        """The sum of what the verdict on an edit stands on."""
        functions, own, digest = self.functions(crate)
        whole = hashlib.sha256(digest.encode())
        for name in below(self.libraries, crate):
            add(whole, name, self.functions(name)[2])
        add(whole, edit.name, edit.data().decode())
        edited = [functions.around(file, old) for _, file, old, _ in edit.pairs]
        reached, ends = self.reached(functions, edited)
        for function in reached:
            add(whole, function.name, functions.texts[function.file][function.head : function.end])
        for name, text in own.items():
            if ends is None or name.startswith(ends):
                add(whole, name, text)
        return whole.hexdigest()[:32]

    @staticmethod
    def reached(functions, edited):
        """The functions whose text counts, and how the files of their proofs begin. An edit in no body counts all."""
        if None in edited:
            return functions.all, None
        cycles = {(one.module, one.cycle) for one in edited if one.cycle}
        own = [one for one in functions.all if one in edited or (one.module, one.cycle) in cycles]
        ends = [f"proofs/{one.name.replace('::', '/')}/" for one in own]
        ends += ["/".join(["proofs", *module, f"+{cycle}", ""]) for module, cycle in cycles]
        return own, tuple(ends)


def refused_before():
    """By edit, as CRATE/NAME, the sum on which it was refused."""
    lines = TABLE.read_text(encoding="utf-8").splitlines() if TABLE.exists() else []
    return dict(line.split("\t") for line in lines if not line.startswith("#"))


def write_refused(sums):
    """Writes the table anew: by edit the sum on which it was refused."""
    head = "# EDIT\tsum of what its refusal stands on; written by tests/try_edits\n"
    TABLE.write_text(head + "".join(f"{edit}\t{sums[edit]}\n" for edit in sorted(sums)), encoding="utf-8")

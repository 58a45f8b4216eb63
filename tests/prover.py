"""The crates of crates.txt, what each stands on, and the words by which the prover checks one over the libraries below it."""

import subprocess
from functools import cache
from pathlib import Path


@cache
def kit():
    """The folder of the toolchain."""
    said = subprocess.run(["rt", "doc"], check=True, capture_output=True, text=True)
    return Path(said.stdout.strip()).parent


@cache
def version():
    """The line that names the toolchain."""
    return subprocess.run(["rt", "version"], check=True, capture_output=True, text=True).stdout.strip()


def libraries_of(root):
    """By crate, lowest first, the libraries that its line of crates.txt names."""
    libraries = {}
    for line in (root / "crates.txt").read_text(encoding="utf-8").splitlines():
        head, colon, named = line.partition("#")[0].partition(":")
        if colon:
            libraries[head.split()[0]] = named.split()
    return libraries


def below(libraries, crate):
    """The crates of the repository that this one stands on, lowest first."""
    reached = {crate}
    for name in reversed(libraries):
        if name in reached:
            reached.update(libraries[name])
    return [name for name in libraries if name in reached and name != crate]


def has_library(root, crate):
    """Tells if the crate was proved as a library in this tree."""
    return (root / f"crates/{crate}/out/rlib/{crate}.rlib/format").exists()


def words_of(root, crate):
    """The words of a check of this crate over the libraries below it, as `rt check` has them."""
    libraries, rlibs = libraries_of(root), kit() / "rlibs"
    main = (root / f"crates/{crate}/src/main.rt").exists()
    words = ["--crate-name", crate, "src/main.rt" if main else "src/lib.rt"]
    for name in ["std", *(name for name in libraries[crate] if name not in libraries)]:
        words += ["--extern", f"{name}={rlibs}/{name}.rlib"]
    words += ["-L", f"dependency={rlibs}"]
    for name in libraries[crate]:
        if name in libraries:
            words += ["--extern", f"{name}={root}/crates/{name}/out/rlib/{name}.rlib"]
    for name in below(libraries, crate):
        words += ["-L", f"dependency={root}/crates/{name}/out/rlib"]
    words += ["--antt-project", f"{kit()}/rattle/logic/antt-project.json", "--logic-built", f"{kit()}/logic_built"]
    return [*words, "--jobs", "1", "--links", f"{crate}="]

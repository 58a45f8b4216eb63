"""Trees of a crate and those below it, in which it can be proved while others are proved in the repository's own.

`rt` lets one command at a time into the folder of a crate and of those below it. A tree has links to the files, where
the system has them: `rt` replaces what it has made and changes none. It knows a built library by a sum of all that it
is made of, and so accepts what was made in a tree.
"""

import fcntl
import os
import shutil
import time

# How often a folder is removed again in which a process that was told to end still made files, ten times a second.
MOST_REMOVALS = 100


def link_file(one, other):
    """Links a file, or copies it where there are no links."""
    try:
        os.link(one, other)
    except OSError:
        shutil.copy2(one, other)


def copy_work(one, other):
    """Links a proved file that a check has kept, and copies others, which a check may change."""
    if one.endswith(".oantt"):
        link_file(one, other)
    else:
        shutil.copy2(one, other)


def copy_folder(one, other, copy, *ignored):
    """Copies a folder, if it is there, but not the files and folders of these names."""
    if one.is_dir():
        shutil.copytree(one, other, symlinks=True, copy_function=copy, ignore=shutil.ignore_patterns(*ignored))


def remove_folder(folder):
    """Removes a folder with all that is in it."""
    for _ in range(MOST_REMOVALS):
        shutil.rmtree(folder, ignore_errors=True)
        if not folder.exists():
            return
        time.sleep(0.1)


def make_tree(top, tree, names):
    """Makes a tree of these crates, with the libraries that are built and what checks of the last one have kept."""
    (tree / "crates").mkdir(parents=True)
    if (top / "HANDLES").is_file():
        shutil.copy2(top / "HANDLES", tree)
    lines = (top / "crates.txt").read_text(encoding="utf-8").splitlines(keepends=True)
    lines = [line for line in lines if line.partition(":")[0].partition(" ")[0] in names]
    (tree / "crates.txt").write_text("".join(lines), encoding="utf-8")
    for name in names:
        one, other = top / "crates" / name, tree / "crates" / name
        copy_folder(one, other, link_file, "out")
        copy_folder(one / "out/rlib", other / "out/rlib", link_file)
    copy_folder(one / "out/incremental", other / "out/incremental", copy_work)


def when_built(crate):
    """Returns when `rt` noted that the library of a crate's folder is built, or None."""
    try:
        return (crate / "out/rlib/stamp").stat().st_mtime_ns
    except OSError:
        return None


def is_same_library(one, other):
    """Returns whether two folders of a crate have the same library, by the file with the sums of its others."""
    of_both = [folder / "out/rlib" / f"{folder.name}.rlib" / "format" for folder in (one, other)]
    return all(file.is_file() for file in of_both) and of_both[0].read_bytes() == of_both[1].read_bytes()


def lock_crate(crate):
    """Returns what keeps `rt` out of a crate's folder until it is closed, or None if `rt` works there."""
    held = os.open(crate, os.O_RDONLY)
    try:
        fcntl.flock(held, fcntl.LOCK_EX | fcntl.LOCK_NB)
    except BlockingIOError:
        os.close(held)
        return None
    except OSError:
        # Some file systems have no locks.
        pass
    return held


def take_folder(one, other):
    """Puts a folder, if it is there, in the place of another."""
    if one.is_dir():
        remove_folder(other)
        other.parent.mkdir(exist_ok=True)
        one.rename(other)


def take_work(top, tree, name, is_proved):
    """Takes what a check in a tree has kept, and the library if it is proved, into a folder that is locked.

    Returns false if the library was built over others than this tree now has, since it fits those alone: a source file
    has changed meanwhile.
    """
    one, other = tree / "crates" / name, top / "crates" / name
    others = [crate for crate in (tree / "crates").iterdir() if crate != one]
    fits = all(is_same_library(crate, top / "crates" / crate.name) for crate in others)
    take_folder(one / "out/incremental", other / "out/incremental")
    if is_proved and fits:
        take_folder(one / "out/rlib", other / "out/rlib")
    return fits

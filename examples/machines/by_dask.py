#!/usr/bin/env python3
"""Makes the missing parts of a folder by Dask: by_dask.py FOLDER [SCHEDULER]

SCHEDULER is the address of one that runs, as tcp://host:8786; without it workers are started on this machine. The
machines have FOLDER, the graph, the program and this folder under the same paths. Called again it makes only what is
missing. A part whose options or text the program refuses is tried once.

AT_ONCE: how many parts this machine makes at the same time if workers are started on it, 1 if it isn't given.
"""
import os
import subprocess
import sys

HERE = os.path.dirname(os.path.realpath(__file__))


def missing(folder):
    """The numbers of the parts that are not there."""
    found = subprocess.run([HERE + "/missing", folder], stdout=subprocess.PIPE, text=True)
    if found.returncode > 1:
        sys.exit(found.returncode)
    return [int(number) for number in found.stdout.split()]


def make(script, folder, number):
    """Runs `part` in a worker. Where it fails another worker tries again, but with status 1 and 2 it always would."""
    made = subprocess.run([script, folder, str(number)])
    if made.returncode > 2 or made.returncode < 0:
        made.check_returncode()
    return number, made.returncode == 0


def main():
    if sys.argv[1:2] == ["--help"]:
        print(__doc__, end="")
        return
    if len(sys.argv) not in (2, 3):
        sys.exit("usage: by_dask.py FOLDER [SCHEDULER]")
    try:
        from distributed import Client, LocalCluster, as_completed
    except ImportError:
        sys.exit("by_dask.py: this Python has no distributed (python3-distributed)")
    folder = os.path.realpath(sys.argv[1])
    numbers = missing(folder)
    if not numbers:
        return
    if len(sys.argv) == 3:
        client = Client(sys.argv[2])
    else:
        client = Client(LocalCluster(n_workers=int(os.environ.get("AT_ONCE", "1")), threads_per_worker=1,
                                     host="127.0.0.1", dashboard_address=None))
    with client:
        tasks = [client.submit(make, HERE + "/part", folder, number, retries=2, pure=False) for number in numbers]
        for task in as_completed(tasks):
            if task.status != "finished":
                print(f"by_dask.py: {task.exception()}", file=sys.stderr)
            elif not task.result()[1]:
                print(f"by_dask.py: no other try would make part {task.result()[0]}", file=sys.stderr)
    left = missing(folder)
    if left:
        sys.exit(f"by_dask.py: {len(left)} parts are missing; call it again")


if __name__ == "__main__":
    main()

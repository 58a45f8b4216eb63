#!/bin/sh
# Runs one of the scripts for long answers and many machines: hollowbowl-machines SCRIPT [ARGUMENT..]
# They stand together in share/hollowbowl/machines, since they call one another.
folder=$(readlink -f "$(dirname "$(readlink -f "$0")")/../share/hollowbowl/machines")
# usage: what can be called.
usage() {
    cat <<END_OF_USAGE
usage: hollowbowl-machines SCRIPT [ARGUMENT..], where SCRIPT is one of
    section GRAPH <LINES
    parts GRAPH LIST EACH FOLDER [OPTION..]
    part FOLDER NUMBER
    missing FOLDER
    by_parallel FOLDER [HOSTS]
    by_slurm FOLDER [SBATCH OPTION..]
    by_dask.py FOLDER [SCHEDULER]
    renew GRAPH LIST ANSWER [OPTION..]
hollowbowl-machines SCRIPT --help says what it does, refuses and reads of the environment.
The scripts are in $folder
END_OF_USAGE
}
case ${1:-} in
    -h | --help)
        usage
        exit
        ;;
    section | parts | part | missing | by_parallel | by_slurm | by_dask.py | renew) ;;
    *)
        usage >&2
        exit 2
        ;;
esac
script=$folder/$1
shift
# Python is needed for this one alone, so it is no command by itself.
case $script in *.py) exec python3 "$script" "$@" ;; esac
exec "$script" "$@"

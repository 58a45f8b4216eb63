# shellcheck shell=bash
# What the scripts of this folder share, which source it. It makes a folder $work that goes when the script
# ends, with the folder $work/bin on the path.
here=$(cd "$(dirname "$(readlink -f "${BASH_SOURCE[0]}")")" && pwd)
work=$(mktemp -d)
trap 'rm -rf "$work"' EXIT
mkdir "$work/bin"
PATH=$work/bin:$PATH

# As the launcher does, for both programs: see there.
tunables=glibc.malloc.hugetlb=1:glibc.malloc.arena_max=8
tunables+=:glibc.malloc.mmap_threshold=33554432:glibc.malloc.trim_threshold=4294967296
export GLIBC_TUNABLES=${GLIBC_TUNABLES:-$tunables}

# plain FILE NAME ARGUMENT..: builds a program in plain Rust.
plain() {
    command -v rustc >/dev/null || { echo "bench: there is no rustc, which builds the programs in plain Rust" >&2; exit 1; }
    rustc -O --edition 2024 -A dead_code -o "$work/bin/$2" "${@:3}" "$here/$1"
}

# job_tools: puts the generator of jobs, the baseline and the program on the path: the program of $PROGRAM
# where that is set, else that of this tree, which is built first.
job_tools() {
    plain generate.rs generate
    plain baseline.rs baseline
    [[ -n ${PROGRAM:-} ]] || "$here/../obim_query" --help >/dev/null
    cp "${PROGRAM:-$here/../crates/obim_query/out/obim_query}" "$work/bin/obim_query"
}

# proved NAME CRATE..: proves and builds the program in the folder NAME, over copies of these crates, lowest
# first, and puts it on the path. What checks in this tree kept in out/ is not proved again.
proved() {
    local name=$1 crate crates=$work/tree/crates
    mkdir -p "$crates"
    git init -q "$work/tree"
    cp "$here/../HANDLES" "$work/tree/"
    for crate in "${@:2}"; do
        cp -a "$here/../crates/$crate" "$crates/"
        grep "^$crate:" "$here/../crates.txt" >>"$work/tree/crates.txt"
    done
    cp -a "$here/$name" "$crates/"
    # Here its files end in .txt, since rt takes a .rt or .antt file only in a crate that crates.txt names.
    find "$crates/$name" -name '*.txt' -exec sh -c 'mv "$1" "${1%.txt}"' _ {} \;
    echo "$name: ${*:2} anyhow" >>"$work/tree/crates.txt"
    echo "proving and building, which takes up to ten minutes" >&2
    (cd "$crates/$name" && rt run >"$work/log" 2>&1) || { cat "$work/log" >&2; exit 1; }
    cp "$crates/$name/out/$name" "$work/bin/"
}

# microseconds JOB COMMAND ARGUMENT..: how long one run of the command takes.
microseconds() {
    local job=$1 before after
    shift
    before=$(date +%s%N)
    "$@" <"$job" >/dev/null
    after=$(date +%s%N)
    echo $(((after - before) / 1000))
}

# agree JOB COMMAND..: stops the script where a command fails, or answers other bytes than the first one. A
# command is one string.
agree() {
    local job=$1 command
    shift
    # shellcheck disable=SC2086
    $1 <"$job" >"$work/first"
    for command; do
        $command <"$job" >"$work/other"
        cmp "$work/first" "$work/other"
    done
}

# race JOB COMMAND..: runs the commands in turn, $rounds times, and leaves the best time of each, in
# microseconds, in best[COMMAND], and the middle one in middle[COMMAND].
declare -A best middle
race() {
    local job=$1 command sorted
    local -A times=()
    shift
    # shellcheck disable=SC2154
    for _ in $(seq "$rounds"); do
        for command; do
            # shellcheck disable=SC2086
            times[$command]+="$(microseconds "$job" $command) "
        done
    done
    best=() middle=()
    for command; do
        # shellcheck disable=SC2086
        mapfile -t sorted < <(printf '%s\n' ${times[$command]} | sort -n)
        # shellcheck disable=SC2034
        best[$command]=${sorted[0]} middle[$command]=${sorted[rounds / 2]}
    done
}

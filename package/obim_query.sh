#!/bin/sh
# Runs the installed program. It asks the C library for large pages, which save looking up where a page is, and to keep
# pages from one source to the next; a caller's own setting stays.
program=$(dirname "$(readlink -f "$0")")/../libexec/hollowbowl/obim_query
tunables=glibc.malloc.hugetlb=1:glibc.malloc.arena_max=8
tunables=$tunables:glibc.malloc.mmap_threshold=33554432:glibc.malloc.trim_threshold=4294967296
GLIBC_TUNABLES=${GLIBC_TUNABLES:-$tunables}
export GLIBC_TUNABLES
exec "$program" "$@"

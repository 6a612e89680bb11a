#!/bin/sh
# Counts the instructions that the program takes, by valgrind's callgrind, over five workloads: a bank, sums over many rows,
# rows that come and go, rows whose keys and values are texts, and what `hy gen` makes with 64 sessions. It needs valgrind
# and python3, and a program that is built. Counts are of the process alone: they are the same whatever else the machine does.
#
# usage: sh bench/count.sh [PROGRAM [WORKLOAD..]]      workloads: bank scan churn texts gen
set -e
cd "$(dirname "$0")/.."
program="${1:-crates/hy_main/out/hy_main}"
[ "$#" -eq 0 ] || shift
[ "$#" -gt 0 ] || set -- bank scan churn texts gen
work="$(mktemp -d)"
trap 'rm -rf "$work"' EXIT
for workload in "$@"; do
    words="$(python3 bench/count.py words "$workload")"
    python3 bench/count.py script "$workload" >"$work/script"
    # shellcheck disable=SC2086  # the words of a command
    valgrind --tool=callgrind --callgrind-out-file="$work/profile" --log-file="$work/said" "$program" $words \
        <"$work/script" >"$work/text" || {
        cat "$work/said" >&2
        exit 1
    }
    python3 bench/count.py tell "$workload" "$work/profile" "$work/script" "$work/text"
done

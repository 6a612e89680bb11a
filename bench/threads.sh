#!/bin/sh
# Times sessions on threads alone, without what is read before and told behind: the same work by 1, 2, 4 and 8 sessions, each
# with and without threads. It builds hy_timed, where no program is named, and needs python3; where strace is, it counts how
# often threads slept, woke others and yielded. On a machine that does other work too, more turns tell more.
#
# usage: sh bench/threads.sh [PROGRAM [TURNS [WORK..]]]      works: scan own bank
set -e
cd "$(dirname "$0")/.."
program=crates/hy_timed/out/hy_timed
if [ "$#" -gt 0 ]; then
    program="$1"
    shift
elif [ ! -x "$program" ]; then
    (cd crates/hy_timed && rt run -- 1 gen --seed 1 --sessions 1 --transactions 1 </dev/null >/dev/null)
fi
python3 bench/threads.py "$program" "$@"

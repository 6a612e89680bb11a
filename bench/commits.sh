#!/bin/sh
# Times commits that are made sure in a file: by 1, 4, 8, 20 and 64 sessions, on threads and by the schedule, beside SQLite in the
# same folder. It needs python3, and a program that is built; where a C compiler is, it tells of the commits between the first sync
# and the last one alone. The folder has to be on the disk that is meant, since one in memory syncs nothing; where none is named
# it is the repository.
#
# usage: sh bench/commits.sh [PROGRAM [FOLDER [TURNS [SESSIONS..]]]]
set -e
cd "$(dirname "$0")/.."
program="${1:-crates/hy_main/out/hy_main}"
[ "$#" -eq 0 ] || shift
folder="${1:-.}"
[ "$#" -eq 0 ] || shift
python3 bench/commits.py "$program" "$folder" "$@"

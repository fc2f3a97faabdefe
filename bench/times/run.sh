#!/usr/bin/env bash
# run.sh ROUNDS: the least processor time of so many runs of the built program on each feeder of examples/, with the program's start, as
# the first table of docs/PERFORMANCE.md; and what ./feeder takes before the program starts.
set -eu
here=$(cd "$(dirname "$0")" && pwd)
exec python3 "$here/times.py" "$("$here/../../tools/built" feeder)" "$("$here/../../tools/built" feeder_picture)" "$@"

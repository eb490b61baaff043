#!/bin/sh
# run.sh NAME: runs the port's program NAME, which `rt ci` or `rt run` built, with this script's standard input and output.
set -eu
program=$(cd "$(dirname "$0")/.." && pwd -P)/crates/$1/out/$1
[ -x "$program" ] || { printf 'run.sh: %s is not built: run rt ci, or rt run in crates/%s\n' "$1" "$1" >&2; exit 1; }
exec "$program"

#!/bin/sh
# link.sh OUT NAME..: writes OUT/libNAME.a, the exported functions of the Rattle crate NAME, for a program of this machine to link.
#
# They stand in a crate of their own, NAME_c, a static library over NAME: `rt lib` proves it and the crates below it, over
# what checks kept of them, and compiles it. The toolchain compiles for x86-64 alone.
set -eu

die() { printf 'link.sh: %s\n' "$*" >&2; exit 1; }

[ $# -ge 2 ] || die "usage: link.sh OUT NAME.."
mkdir -p "$1"
out=$(cd "$1" && pwd -P)
shift
root=$(cd "$(dirname "$0")/.." && pwd -P)
command -v rt >/dev/null || die "the Rattle toolchain's rt is not on the PATH"

for name; do
    crate=$root/crates/${name}_c
    [ -d "$crate" ] || die "there is no crate ${name}_c"
    (cd "$crate" && rt lib) >"$out/$name.log" 2>&1 || { cat "$out/$name.log" >&2; die "rt lib failed in crates/${name}_c"; }
    cp "$crate/out/lib${name}_c.a" "$out/lib$name.a"
done

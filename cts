#!/bin/sh
# Runs the clock tree synthesiser, or under the name cts-draw the program that draws a tree, and under cts-after the one that
# tells the instance after edits. Where its program is missing, a source is newer or another kit has built it, tools/build proves
# and builds it first; where that fails, the status is 125. All words and streams are the program's own, but for --help or
# --version alone, and --unproved before others.
self=$0 main=cts_main
while
    case ${self##*/} in
    cts-draw) main=cts_draw_main ;;
    cts-after) main=cts_after_main ;;
    esac
    [ -L "$self" ]
do
    to=$(readlink "$self") || exit 125
    case $to in
    /*) self=$to ;;
    *) self=$(dirname "$self")/$to ;;
    esac
done
top=$(CDPATH='' cd "$(dirname "$self")" && pwd -P) || exit 125
case $#:${1-} in
1:--help | 1:--version) exec "$top/tools/about" "$main" "$1" ;;
*:--unproved) shift && exec "$top/tools/unproved" "$main" "$@" ;;
esac
program=$top/crates/$main/out/$main stamp=$top/crates/$main/out/built
# The kit names itself in a file beside its bin; without a kit the program that is there will do.
kit=$(readlink -f "$(command -v rt)") kit=${kit%/bin/rt}/KIT-ID
[ -x "$program" ] && [ -e "$stamp" ] && { [ ! -r "$kit" ] || grep -qxF "kit $(cat "$kit")" "$stamp"; } && [ -z "$(find "$top/crates.txt" "$top/HANDLES" "$top/crates" \( -name out -o -name must-fail \) -prune -o -type f ! -name README.md -newer "$stamp" -print -quit)" ] ||
    "$top/tools/build" "$main" || exit 125
# The lists of a run are long, so the C library may ask for them in large pages: the system then has fewer to make.
GLIBC_TUNABLES=${GLIBC_TUNABLES-glibc.malloc.hugetlb=1}
export GLIBC_TUNABLES
exec "$program" "$@"

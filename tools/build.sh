#!/usr/bin/env bash
# Proves programs and static libraries, builds them, and puts them where README, docs/ and the tests take them from:
# a program as target/bin/NAME, a static library as target/staticlib/libNAME.a, but that of `aria_c` as libaria.a.
#
#   tools/build.sh              all of them
#   tools/build.sh NAME..       these, by their names in crates.txt
#   tools/build.sh --from-ci    all programs, as the `rt ci` that has just passed here proved and built them
#
# What it has built, it does not build again before a file of the crates changes, or the toolchain.
# What was proved, rt keeps in crates/*/out; a program is run once, on no input, as `rt run` does.
set -euo pipefail
cd "$(dirname "${BASH_SOURCE[0]}")/.."

# Of all that a proof may read.
sum_of_sources() {
    {
        rt version
        sha256sum crates.txt
        find crates -type f \( -name '*.rt' -o -name '*.antt' \) -not -path 'crates/*/out/*' -print0 | LC_ALL=C sort -z | xargs -0 sha256sum
    } | sha256sum
}

programs() {
    local root
    for root in crates/*/src/main.rt; do
        basename "${root%/src/main.rt}"
    done
}

static_libraries() {
    sed -n 's/^\([a-z0-9_]*\) staticlib\b.*:.*/\1/p' crates.txt
}

# rt's words go to standard error, and so do those of a program; its output is not shown.
build() {
    local name=$1 made from mode
    if [ -e "crates/$name/src/main.rt" ]; then
        made=target/bin/$name from=crates/$name/out/$name mode=755
    elif grep -q "^$name staticlib\b" crates.txt; then
        made=target/staticlib/lib${name%_c}.a from=crates/$name/out/lib$name.a mode=644
    else
        echo "crates.txt has no program and no static library $name" >&2
        return 1
    fi
    if [ -e "$made" ] && [ "$(cat "target/built/$name" 2>/dev/null)" = "$sum" ]; then
        return
    fi
    rm -f "target/built/$name"
    if $from_ci; then
        echo "$made: as rt ci built it"
    elif [ "$made" = "target/bin/$name" ]; then
        (cd "crates/$name" && rt run </dev/null >/dev/null)
    else
        # without it rt's code needs SSE4.2, and a static library does not look
        (cd "crates/$name" && rt lib --cpu x86-64 </dev/null >&2)
    fi
    mkdir -p target/built "$(dirname "$made")"
    install -m "$mode" "$from" "$made"
    echo "$sum" >"target/built/$name"
}

from_ci=false
if [ "${1-}" = --from-ci ]; then
    from_ci=true
    shift
    [ $# -eq 0 ] || { echo "usage: tools/build.sh [--from-ci | NAME..]" >&2; exit 2; }
    mapfile -t names < <(programs)
elif [ $# -gt 0 ]; then
    names=("$@")
else
    mapfile -t names < <(programs; static_libraries)
fi
sum=$(sum_of_sources)
for name in "${names[@]}"; do
    build "$name"
done

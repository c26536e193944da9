#!/bin/sh
# Keeps release/, the programs that the gate built: see --help.
usage="tools/release.sh                  takes the programs that lie in crates/*/out into release/, if they are noted as built
                                  from the sources as they stand, and writes release/SUMS
tools/release.sh --check          whether release/ holds these programs byte for byte; status 1 where it doesn't
tools/release.sh --current        whether release/SUMS has the sums of the sources as they stand; status 1 where it hasn't
tools/release.sh --which PROGRAM  prints the file that ./PROGRAM runs; status 1 where it would be built first
tools/release.sh --find PROGRAM   prints that file, and builds it first where it has to be
tools/release.sh --built PROGRAM  whether the program in crates/PROGRAM/out is noted as built from the sources
tools/release.sh --note PROGRAM   notes that it is, as after a gate or a build

release/SUMS has the kit that the programs were proved and built by, and a row for each program: its name, the sum of its
sources (tools/programs.sh says of what), and its own."

here=$(cd "$(dirname "$0")/.." && pwd) || exit 1
# shellcheck source=tools/programs.sh
. "$here/tools/programs.sh"
sums=$here/release/SUMS
refresh="tools/release.sh, and .ci/run again, which takes minutes, since rt keeps what passed"

# Prints the kit's identity.
kit() {
    echo "kit $(rt version 2>/dev/null | head -n 1)"
}

# Whether the program $1 that lies in its crate's folder is noted as built from the sources.
is_built() {
    has_line "$here/crates/$1/out/$1.sources" "$(row_of "$1" "$(sum_of_sources "$1")" "$here/crates/$1/out/$1")"
}

# Notes that it is.
note() {
    if [ ! -x "$here/crates/$1/out/$1" ]; then
        echo "release: there is no crates/$1/out/$1" >&2
        return 1
    fi
    row_of "$1" "$(sum_of_sources "$1")" "$here/crates/$1/out/$1" >"$here/crates/$1/out/$1.sources"
}

# Takes what was built.
take() {
    for name in groute grbound; do
        is_built "$name" && continue
        echo "release: crates/$name/out/$name isn't noted as built from the sources: .ci/run or ./$name builds it" >&2
        return 1
    done
    mkdir -p "$here/release" || return 1
    kit >"$sums.new" || return 1
    for name in groute grbound; do
        cp "$here/crates/$name/out/$name" "$here/release/$name.new" &&
            chmod 755 "$here/release/$name.new" &&
            mv -f "$here/release/$name.new" "$here/release/$name" &&
            row_of "$name" "$(sum_of_sources "$name")" "$here/release/$name" >>"$sums.new" || return 1
    done
    mv -f "$sums.new" "$sums"
}

# Whether SUMS has the sources' sums; where not, it is told.
is_current() {
    for name in groute grbound; do
        is_release_of "$name" "$(sum_of_sources "$name")" && continue
        echo "release: release/SUMS hasn't the sum of $name's sources: once they are built, $refresh" >&2
        return 1
    done
}

# Whether the released program $1 is the file that SUMS names, and by this kit the one that was built.
is_same() {
    if ! has_line "$sums" "$(row_of "$1" "$(sum_of_sources "$1")" "$here/release/$1")"; then
        echo "release: release/$1 isn't the file that release/SUMS names: $refresh" >&2
    elif ! is_built "$1"; then
        echo "release: crates/$1/out/$1 isn't noted as built from the sources" >&2
    elif has_line "$sums" "$(kit)" && ! cmp "$here/crates/$1/out/$1" "$here/release/$1" >&2; then
        echo "release: release/$1 isn't the program that was built: $refresh" >&2
    elif [ ! -x "$here/release/$1" ]; then
        echo "release: release/$1 has no run bit" >&2
    else
        return 0
    fi
    return 1
}

# Whether release/ is what was built. Another kit's bytes may differ: then the released program has to pass the stored
# runs.
check() {
    is_current && is_same groute && is_same grbound || return 1
    if has_line "$sums" "$(kit)"; then
        echo "release: release/ holds the programs that were built here, byte for byte"
        return 0
    fi
    echo "release: built by another kit ($(head -n 1 "$sums")) than is here: sums and stored runs are compared, not bytes"
    python3 "$here/reference/rows.py" "$here/release/groute"
}

case ${1-} in
'') take ;;
--check) check ;;
--current) is_current ;;
--which) look_for "$2" "$(sum_of_sources "$2")" && echo "$program" ;;
--find) find_program "$2" && echo "$program" ;;
--built) is_built "$2" ;;
--note) note "$2" ;;
*) echo "$usage" ;;
esac

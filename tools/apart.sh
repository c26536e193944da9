#!/bin/sh
# Lays out a crate apart: see --help.
usage="tools/apart.sh CRATE FOLDER [BUILT]

Lays out a copy of a crate, and by hard links all crates that it stands on, in a new folder, as a repository of its own:
there a function is proved in seconds (cd FOLDER/crates/CRATE && rt check --only NAME) while others prove the same crates
elsewhere. The libraries of the crates below are those of BUILT, a clone in which a gate or rt lib proved them, else of
this one; a crate whose sources differ there, or that isn't proved there, gets none and is proved again. Drafts only: what
counts is the gate."

case ${1--} in
-*)
    echo "$usage"
    exit 0
    ;;
esac
here=$(cd "$(dirname "$0")/.." && pwd) || exit 1
# shellcheck source=tools/programs.sh
. "$here/tools/programs.sh"
crate=$1
built=${3:-$here}
set -e
mkdir "$2" "$2/crates"
folder=$(cd "$2" && pwd)
crate_lines "$crate" >"$folder/crates.txt"
[ -s "$folder/crates.txt" ] || {
    echo "apart: crates.txt has no crate $crate" >&2
    exit 1
}
cp "$here/HANDLES" "$folder"

# Lays out the crate $1 by links; its library too, if it is proved in the other clone from the same sources.
link_crate() {
    mkdir "$folder/crates/$1"
    for part in src specs proofs; do
        [ ! -d "$here/crates/$1/$part" ] || cp -al "$here/crates/$1/$part" "$folder/crates/$1/$part"
    done
    for part in src specs proofs; do
        [ -d "$here/crates/$1/$part" ] || continue
        diff -rq "$here/crates/$1/$part" "$built/crates/$1/$part" >/dev/null || return 1
    done
    [ -d "$built/crates/$1/out/rlib" ] || return 1
    mkdir "$folder/crates/$1/out"
    cp -al "$built/crates/$1/out/rlib" "$folder/crates/$1/out/rlib"
    # A gate leaves no stamp beside a library; it says what the library was made from.
    rm -f "$folder/crates/$1/out/rlib/stamp"
}

linked=
# The crates below stand before it in no order; a library serves only over those that it was built over.
for name in $(crate_folders "$crate" | sed 's|crates/||'); do
    if [ "$name" = "$crate" ]; then
        mkdir "$folder/crates/$name"
        for part in src specs proofs stdin stdout must-fail; do
            [ ! -e "$here/crates/$name/$part" ] || cp -r "$here/crates/$name/$part" "$folder/crates/$name/$part"
        done
    elif link_crate "$name"; then
        linked="$linked $name"
    else
        echo "apart: $name isn't proved in $built from these sources" >&2
    fi
done
# shellcheck disable=SC2086
python3 - "$(dirname "$(rt doc)")/bin" "$folder" $linked <<'END'
import sys

sys.path.insert(0, sys.argv[1])
import rtlib

for name in sys.argv[3:]:
    folder = f"{sys.argv[2]}/crates/{name}"
    with open(f"{folder}/out/rlib/stamp", "w", encoding="utf-8") as file:
        file.write(rtlib.Crate(folder, sys.argv[2], {}).stamp())
END

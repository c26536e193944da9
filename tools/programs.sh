# shellcheck shell=sh
# Functions on the two programs, for ./groute, ./grbound and scripts of this folder, which source it with `here` set to
# the repository's path: what a program was made from, and which file is it.
#
# A program's row, in release/SUMS and in the note beside a program that was built here, is its name, the sum of its
# sources and its own sum.

# Prints the lines of crates.txt of the crates that the program $1 stands on, and its own.
crate_lines() {
    awk -v program="$1" '
        function visit(name, uses, count, at) {
            if (!(name in lower) || name in found) return
            found[name]
            count = split(lower[name], uses, " ")
            for (at = 1; at <= count; at++) visit(uses[at])
        }
        { text = $0; sub(/#.*/, "", text) }
        text ~ /[^ \t]/ {
            name = text; sub(/^[ \t]+/, "", name); sub(/[ \t:].*/, "", name)
            if (text ~ /:/) sub(/^[^:]*:/, "", text); else text = ""
            names[NR] = name; lines[NR] = $0; lower[name] = text
        }
        END {
            visit(program)
            for (at = 1; at <= NR; at++) if (names[at] in found) print lines[at]
        }' "$here/crates.txt"
}

# Prints the folders of these crates, one a line.
crate_folders() {
    crate_lines "$1" | sed 's|[ :#].*||; s|^|crates/|'
}

# Prints the sum of what a proof of the program $1 reads: lines of crates.txt, HANDLES, and each .rt and .antt of the
# crates that it stands on, by the order of their paths in bytes.
sum_of_sources() {
    (
        cd "$here" || exit 1
        crate_lines "$1"
        sha256sum HANDLES || exit 1
        # No crate's name has a blank.
        # shellcheck disable=SC2046
        find $(crate_folders "$1") -name out -prune -o \
            \( -path '*/src/*' -o -path '*/specs/*' -o -path '*/proofs/*' \) \
            \( -name '*.rt' -o -name '*.antt' \) -print0 |
            LC_ALL=C sort -z | xargs -0 sha256sum
    ) 2>/dev/null | sha256sum | cut -d ' ' -f 1
}

# Prints the sum of a file.
sum_of_file() {
    sha256sum <"$1" 2>/dev/null | cut -d ' ' -f 1
}

# Prints the row that the program $1 has, whose sources have the sum $2, if $3 is its file.
row_of() {
    echo "$1 $2 $(sum_of_file "$3")"
}

# Whether the file $1 has this line.
has_line() {
    [ -r "$1" ] && grep -qxF "$2" "$1"
}

# Whether SUMS says that the released program $1 is made from sources of the sum $2.
is_release_of() {
    [ -r "$here/release/SUMS" ] && grep -q "^$1 $2 " "$here/release/SUMS"
}

# Sets `program` to the file of the program $1 whose sources have the sum $2: the one that was built here from them, else
# the released one. A released one that isn't the file that SUMS names is told, and not taken.
look_for() {
    program=crates/$1/out/$1
    if [ -x "$here/$program" ] &&
        has_line "$here/$program.sources" "$(row_of "$1" "$2" "$here/$program")"; then
        return 0
    fi
    program=release/$1
    is_release_of "$1" "$2" || return 1
    if ! has_line "$here/release/SUMS" "$(row_of "$1" "$2" "$here/$program")"; then
        echo "$1: $program isn't the file that release/SUMS names, and isn't run" >&2
        return 1
    fi
    if [ ! -x "$here/$program" ]; then
        echo "$1: $program has lost its run bit (chmod +x $program), and isn't run" >&2
        return 1
    fi
}

# Whether the file $2 of the program $1 runs on this machine: without words it ends with status 2. Where it doesn't, it is
# told what it wants.
runs_here() {
    status=0
    "$here/$2" >/dev/null 2>&1 || status=$?
    [ "$status" -ne 2 ] || return 0
    echo "$1: $2 doesn't run here (status $status): it wants Linux on a processor of x86-64-v2 and glibc 2.34 or later;" \
        "this is $(uname -sm), $(getconf GNU_LIBC_VERSION 2>/dev/null || echo 'another C library')" >&2
    return 1
}

# Proves and builds the program $1.
build_program() {
    if ! command -v rt >/dev/null; then
        echo "$1: no program is there that was made from these sources, and rt isn't on PATH: to build one, which is to" \
            "prove it, takes Rattle's toolchain" >&2
        return 1
    fi
    echo "$1: no program is there that was made from these sources: it is proved and built first, which takes some 40" \
        "minutes on four processors (build.log says how far it is)" >&2
    python3 "$here/tools/build.py" "$1"
}

# Sets `program` to the file of the program $1 that is to be run, which is built where none is there.
find_program() {
    if ! look_for "$1" "$(sum_of_sources "$1")"; then
        build_program "$1" || return 1
        program=crates/$1/out/$1
    fi
    runs_here "$1" "$program"
}

# shellcheck shell=sh
# Finds the program `name` of the repository at `here`, and runs it with the words given: ./groute and ./grbound source
# this. Words that tools/start.sh answers need no program. In this order: a program that was built here from the sources
# as they stand; the released program, if it is made from them; else it is proved and built first.
#
# Which one it was is noted in .seen, with all that it hangs on. The sums are taken again only where a file or folder of
# these changed since; where nothing can be noted, at each call.
seen=.seen/$name

# Whether nothing changed since `program` was seen to be the one to run, with what it hangs on: `watched`, paths without
# blanks, below which the file `listed` names each file and folder. To look at these takes half as long as to search for
# them, but only newer versions of find can, and they stumble over one that is gone.
is_unchanged() {
    [ -x "$here/$program" ] || return 1
    # shellcheck disable=SC2086
    [ -z "$(cd "$here" && {
        find -files0-from "$listed" -maxdepth 0 -cnewer "$seen" -print -quit 2>/dev/null ||
            find $watched -cnewer "$seen" -print -quit -o -name out -prune 2>&1
    })" ]
}

# Finds the program, and notes it with what it hangs on.
find_and_note() {
    # shellcheck source=tools/programs.sh
    . "$here/tools/programs.sh"
    mark=$seen.$$
    { mkdir -p "$here/.seen" && : >"$here/$mark"; } 2>/dev/null || mark=
    if ! find_program "$name"; then
        rm -f "$here/${mark:-.seen/none}"
        exit 125
    fi
    [ -z "$mark" ] || (cd "$here" && note_seen) 2>/dev/null
}

# Notes the program that was found. The note has the time of `mark`, from before the sums were taken.
note_seen() {
    watched="crates.txt HANDLES"
    for path in "$program" "$program.sources" release release/SUMS; do
        [ ! -e "$path" ] || watched="$watched $path"
    done
    watched="$watched $(crate_folders "$name" | tr '\n' ' ')"
    listed=$mark.listed
    # shellcheck disable=SC2086
    find $watched -name out -prune -print0 -o -print0 >"$listed"
    printf '%s\n' "$program" "$listed" "$watched" >"$mark.new" && touch -r "$mark" "$mark.new" && mv -f "$mark.new" "$seen"
    rm -f "$mark"
    # Other calls may be at the same just now; what they no longer want is a minute old.
    find .seen -name "$name.*" ! -path "$listed" -cmin +1 -exec rm -f {} +
}

tools=$here/tools
# shellcheck source=tools/start.sh
. "$tools/start.sh"
answer "$@"
program=
watched=
[ ! -r "$here/$seen" ] || { read -r program && read -r listed && read -r watched; } <"$here/$seen"
if [ -z "$watched" ] || ! is_unchanged; then
    find_and_note
fi
run_program "$here/$program" "$@"

#!/bin/sh
# Runs the proved program of this name.
path=$(readlink -f "$0")
name=${path##*/}
here=${path%/*}/..
tools=$here/share/groute
# shellcheck source=tools/start.sh
. "$tools/start.sh"
answer "$@"
run_program "$here/lib/groute/$name" "$@"

#!/bin/sh
# Installs the proved program: see --help.
usage="tools/install.sh FOLDER

Puts the programs that ./groute and ./grbound run with their tools, man pages, completion and documents into FOLDER/bin,
lib/groute, share/groute, share/man, share/doc/groute and so on. PROVED_WITH among the documents has the revision, the
kit that they were proved and built by, and the sums of their sources and of themselves. It wants git, gzip and python3."

case ${1:--} in
-*)
    echo "$usage"
    exit 0
    ;;
esac
here=$(cd "$(dirname "$0")/.." && pwd) || exit 1
mkdir -p "$1" && root=$(cd "$1" && pwd) || exit 1
cd "$here" || exit 1
set -e

program=$(tools/release.sh --find groute)
bounds=$(tools/release.sh --find grbound)
share=$root/share
doc=$share/doc/groute

# What the programs were proved and built with.
proved_with() {
    echo "revision $(git describe --always --dirty --abbrev=40)"
    case $program in
    release/*) cat release/SUMS ;;
    *)
        echo "kit $(rt version)"
        cat crates/groute/out/groute.sources crates/grbound/out/grbound.sources
        ;;
    esac
}

# Tools that are commands of their own; others are what these are made of.
tools="adjust carry congestion def_to_ispd differ flow guides hotspots insert liberty netlist report required slowest spef to_solution where"

put_tools() {
    mkdir -p "$share/groute" "$share/man/man1"
    git ls-files -z tools/groute | tar -c --null -T - | tar -x --strip-components=1 -C "$share/groute"
    install -m 644 tools/start.sh tools/answers.sh "$share/groute"
    for tool in $tools in_words; do
        # Debian's own python finds Debian's numpy and matplotlib, whatever stands first on PATH.
        sed '1s|^#!/usr/bin/env python3$|#!/usr/bin/python3|' "tools/$tool.py" >"$share/groute/$tool.py"
        chmod 755 "$share/groute/$tool.py"
    done
    for tool in $tools; do
        name=groute-$(echo "$tool" | tr _ -)
        ln -sf "../share/groute/$tool.py" "$root/bin/$name"
        python3 tools/dev/man_page.py "$tool" | gzip -9n >"$share/man/man1/$name.1.gz"
    done
}

install -D -m 755 "$program" "$root/lib/groute/groute"
install -D -m 755 "$bounds" "$root/lib/groute/grbound"
for name in groute grbound; do
    install -D -m 755 packaging/launch.sh "$root/bin/$name"
done
put_tools
for page in groute grbound; do
    gzip -9nc "man/$page.1" >"$share/man/man1/$page.1.gz"
done
install -D -m 644 completion/groute.bash "$share/bash-completion/completions/groute"
install -D -m 644 completion/_groute "$share/zsh/vendor-completions/_groute"
mkdir -p "$doc"
git ls-files -z README.md LICENSE CHANGELOG.md VERSION docs examples | tar -c --null -T - | tar -x -C "$doc"
install -m 644 packaging/copyright "$doc/copyright"
proved_with >"$doc/PROVED_WITH"

#!/bin/sh
# Tests tools/pack.sh: see --help.
usage="tools/test_pack.sh

Packs the programs into an empty folder, unpacks the archive, installs the Debian package with dpkg in a scratch root,
and routes README's chip with each, with nothing of the toolchain on PATH; make install puts the same files; the
programs are those of release/, where they aren't built here; lintian, where it is there, finds no error. The last line
is 'packed program: passed'."

case ${1-} in
-*)
    echo "$usage"
    exit 0
    ;;
esac
here=$(cd "$(dirname "$0")/.." && pwd) || exit 1
work=$(mktemp -d) || exit 1
trap 'rm -rf "$work"' EXIT
set -e
"$here/tools/pack.sh" "$work" >/dev/null 2>"$work/pack.log" || {
    cat "$work/pack.log" >&2
    exit 1
}
cd "$work"
mkdir archive
tar -xf groute-*.tar.xz --strip-components=1 -C archive
# A root with a list of packages that are installed: those of this system, which the package depends on.
mkdir -p scratch/var/lib/dpkg/info scratch/var/lib/dpkg/updates scratch/var/lib/dpkg/triggers
cp /var/lib/dpkg/status scratch/var/lib/dpkg/status
dpkg --root="$work/scratch" --force-script-chrootless --log=/dev/null -i groute_*.deb >dpkg.log 2>&1 || {
    cat dpkg.log >&2
    exit 1
}
if command -v make >/dev/null; then
    make -s -C "$here" install DESTDIR="$work/made" PREFIX=/usr/local
    (cd archive && find . | sort) >archive.list
    (cd made/usr/local && find . | sort) | cmp - archive.list
else
    echo "make is not there: left out" >&2
fi
if command -v lintian >/dev/null; then
    lintian --allow-root --fail-on error groute_*.deb >lintian.log 2>&1 || {
        cat lintian.log >&2
        exit 1
    }
else
    echo "lintian is not there: left out" >&2
fi

# Runs words in an empty environment, where there is no rt.
alone() {
    env -i PATH="$bin:/usr/bin:/bin" "$@"
}
bin=
if alone sh -c 'command -v rt' >/dev/null; then
    echo "rt stands in /usr/bin or /bin, so that this test would show nothing" >&2
    exit 1
fi

# The program and its tools under the folder $1, as README shows them.
try() {
    bin=$work/$1/bin
    cd "$work/$1/share/doc/groute"
    alone groute route examples/small.ispd examples/small.library 3 >"$work/out" 2>"$work/err"
    cmp "$work/out" examples/small.solution
    [ "$(head -n 2 "$work/err")" = "routed 1
overflow 0" ]
    for name in groute grbound; do
        [ "$(alone "$name" --version)" = "$name $(cat "$here/VERSION")" ]
        alone "$name" --help | grep -q "$name .*DESIGN"
    done
    alone groute-where examples/small.ispd 2 >/dev/null
    grep -q '^kit rattle-kit' PROVED_WITH
    grep -q "^groute .* $(sha256sum <"$work/$1/lib/groute/groute" | cut -d ' ' -f 1)\$" PROVED_WITH
    grep -q "^grbound .* $(sha256sum <"$work/$1/lib/groute/grbound" | cut -d ' ' -f 1)\$" PROVED_WITH
    if "$here/tools/release.sh" --current 2>/dev/null && [ ! -e "$here/crates/groute/out/groute" ]; then
        cmp "$work/$1/lib/groute/groute" "$here/release/groute"
        cmp "$work/$1/lib/groute/grbound" "$here/release/grbound"
    fi
    # README's chip
    xz -dc examples/grom_osu035.ispd.xz >"$work/grom.ispd"
    alone groute route "$work/grom.ispd" examples/osu035.library 5 >"$work/grom.solution" 2>"$work/grom.report"
    [ "$(sed -n 2p "$work/grom.report")" = "overflow 0" ]
    alone groute-congestion "$work/grom.ispd" "$work/grom.solution" >"$work/grom.totals"
    head -n 5 "$work/grom.report" | cmp - "$work/grom.totals"
    # a placement of today, by all tools
    alone groute-flow examples/sky/adder.def --lef examples/sky/tech.lef --lef examples/sky/cells.lef \
        --liberty examples/sky/cells.lib --layers met1-met5 -o "$work/flow" 2>/dev/null >"$work/verdict"
    grep -q 'overflow 0' "$work/verdict"
    for page in "$work/$1"/share/man/man1/groute*.1.gz; do
        [ -z "$(alone LC_ALL=C.UTF-8 MANWIDTH=80 man --warnings -l "$page" 2>&1 >/dev/null)" ]
    done
    alone bash -c '. ../../bash-completion/completions/groute && complete -p groute' >/dev/null
}
try archive
try scratch/usr
# The package is where Debian's python looks, and nothing else of ours is.
cd "$work/scratch/usr"
[ "$(alone PYTHONPATH="$work/scratch/usr/lib/python3/dist-packages" python3 -B -c '
import groute, groute.texts.designs, groute.options
small = ["share/doc/groute/examples/small.ispd", "share/doc/groute/examples/small.library"]
print(groute.texts.designs.MOST_ROUTED, *groute.route(*small, 3).report.__dict__.values())')" = "1000 1 0 0 5 2" ]
[ "$(ls "$work/scratch/usr/lib/python3/dist-packages")" = groute ]
alone "$work/scratch/usr/bin/groute" >/dev/null 2>&1 || [ $? -eq 2 ]
echo "packed program: passed"

#!/bin/sh
# Installs initd, telinit, rclinks, rc and initview, each proved before it is built, with their pages, the completion of
# bash and fish, the scripts of contrib and the facility files.
#
#     ./install.sh [PREFIX]               under PREFIX; default: /opt/initd
#     ./install.sh --uninstall [PREFIX]   removes what was installed there
#
# A program that the gate (.ci/run, by tools/pages) or this script has built from these sources is installed without
# building it again; the checksum that was left beside it identifies it. Any other one is proved and built by `rt run`,
# which takes long the first time (docs/COST.md). Files of an earlier installation that this one does not have are
# removed. If DESTDIR is set, everything is put under DESTDIR but meant for PREFIX, as for a package.
set -eu

programs='initd telinit rclinks rc initview'
scripts='initd-entry initd-service initd-with initd-top initd-logs'

usage="usage: ./install.sh [--uninstall] [PREFIX]"
usage() {
    echo "$usage" >&2
    exit 1
}

if [ "${1-}" = --help ]; then
    echo "$usage"
    sed -n 's/^#     /  /p' "$0"
    exit
fi
uninstall=
if [ "${1-}" = --uninstall ]; then
    uninstall=1
    shift
fi
[ $# -le 1 ] || usage
prefix=${1-/opt/initd}
case $prefix in
-* | '') usage ;;
/*) ;;
*) prefix=$PWD/$prefix ;;
esac
root=${DESTDIR-}$prefix
list=share/initd/installed

if [ -n "$uninstall" ]; then
    [ -f "$root/$list" ] || {
        echo "install.sh: $root/$list does not exist; nothing is installed under $root" >&2
        exit 1
    }
    sort -r "$root/$list" | while read -r file; do
        rm -f "$root/$file"
    done
    rm -f "$root/$list"
    # Folders that are empty now.
    find "$root" -depth -type d -exec rmdir {} \; 2>/dev/null || true
    echo "install.sh: removed from $root"
    exit
fi

cd "$(dirname "$0")"

# Proving takes long, so PREFIX is first checked to be writable.
mkdir -p "$root/share/initd" && [ -w "$root/share/initd" ] || {
    echo "install.sh: $root: cannot write to it; use another PREFIX" >&2
    exit 1
}

# The program with this name is the one that was built from these sources.
is_built() {
    [ -x "crates/$1/out/$1" ] && [ -f "crates/$1/out/$1.sum" ] &&
        [ "$(cat "crates/$1/out/$1.sum")" = "$(tools/program-sum "$1")" ]
}

for program in $programs; do
    is_built "$program" && continue
    command -v rt >/dev/null || {
        echo "install.sh: crates/$program/out/$program is not built from these sources, and rt is not in PATH;" \
            "install the Rattle kit that README.md names" >&2
        exit 1
    }
    echo "install.sh: proving and building $program"
    rm -f "crates/$program/out/$program"
    (cd "crates/$program" && rt run -- --version)
    [ -x "crates/$program/out/$program" ] || {
        echo "install.sh: crates/$program/out/$program was not built" >&2
        exit 1
    }
    tools/program-sum "$program" >"crates/$program/out/$program.sum"
done

new=$root/$list.new
: >"$new"

# put MODE FILE PLACE: installs one file of the repository under the prefix. It is replaced in one step, so that a
# program that runs is not overwritten.
put() {
    mkdir -p "$root/${3%/*}"
    cp "$2" "$root/$3.new"
    chmod "$1" "$root/$3.new"
    mv "$root/$3.new" "$root/$3"
    echo "$3" >>"$new"
}

for program in $programs; do
    put 755 "crates/$program/out/$program" "bin/$program"
done
for script in $scripts; do
    put 755 "contrib/$script" "bin/$script"
done
put 644 contrib/initd-lib share/initd/initd-lib
for page in docs/man/*.[158]; do
    put 644 "$page" "share/man/man${page##*.}/${page##*/}"
done
put 644 contrib/completion/initd share/bash-completion/completions/initd
for name in telinit rclinks rc initview $scripts; do
    ln -sf initd "$root/share/bash-completion/completions/$name"
    echo "share/bash-completion/completions/$name" >>"$new"
done
put 644 contrib/completion/initd.fish share/fish/vendor_completions.d/initd.fish
for name in telinit rclinks rc initview $scripts; do
    ln -sf initd.fish "$root/share/fish/vendor_completions.d/$name.fish"
    echo "share/fish/vendor_completions.d/$name.fish" >>"$new"
done
for facility in contrib/facilities/*; do
    put 644 "$facility" "share/initd/facilities/${facility##*/}"
done
put 644 examples/timeline/timeline.svg share/doc/initd/timeline.svg
# Only links to other installed pages, to the picture, or within a page are kept.
for page in README.md SECURITY.md docs/OPERATING.md docs/SYSVINIT.md docs/DECISIONS.md; do
    shown=$root/share/initd/${page##*/}
    sed -E 's,\]\([./a-z]*(README|SECURITY|OPERATING|SYSVINIT|DECISIONS|timeline)\.(md|svg),](@\1.\2,g
        s,\[([^][]*)\]\([^@#)][^)]*\),\1,g
        s,\]\(@,](,g' "$page" >"$shown"
    put 644 "$shown" "share/doc/initd/${page##*/}"
    rm "$shown"
done
if [ -f "$root/$list" ]; then
    grep -vxF -f "$new" "$root/$list" | while read -r file; do
        rm -f "$root/$file"
    done
fi
mv "$new" "$root/$list"
echo "install.sh: installed under $root; PATH=\"$prefix/bin:\$PATH\", MANPATH=\"$prefix/share/man:\""

#!/bin/sh
# Makes a remote of the trees that are described here, and installs a small application from it, into the folder that
# FPK_INSTALLATION names, else `fpk-demo` in the home folder. FPK names the program. Without it that is the one of this
# repository, `crates/fpk/out/fpk`. Where it is absent or older than what it is made of, `rt ci` proves and builds it first.
set -eu
LC_ALL=C
demo=$(CDPATH='' cd -- "$(dirname -- "$0")" && pwd -P)
# (not in the repository: `rt ci` refuses links there, and an installation has some)
FPK_INSTALLATION=${FPK_INSTALLATION:-$HOME/fpk-demo}
case $FPK_INSTALLATION in
    /*) ;;
    *) FPK_INSTALLATION=$PWD/$FPK_INSTALLATION ;;
esac
case $FPK_INSTALLATION in
    *[!!-~]*)
        echo "start.sh: the URL of a remote has no blank: say FPK_INSTALLATION=FOLDER with another one than $FPK_INSTALLATION" >&2
        exit 1
        ;;
esac

# The program is there, and nothing that it is made of is newer.
is_built() {
    [ -x crates/fpk/out/fpk ] && [ -z "$(find crates.txt crates/*/src crates/*/specs crates/*/proofs -newer crates/fpk/out/fpk)" ]
}

# As root, `rt ci` runs the tests as nobody, who has to read what it makes under this umask.
build() {
    echo "start.sh: rt ci proves, tests and builds fpk first: an hour or more, or minutes where it has passed on this machine" >&2
    umask 022
    rt ci >&2
}

if [ -z "${FPK:-}" ]; then
    top=$(dirname "$demo")
    [ -e "$top/crates.txt" ] || { echo "start.sh: no program is built here: say FPK=PROGRAM" >&2 && exit 1; }
    (cd "$top" && { is_built || build; })
    FPK=$top/crates/fpk/out/fpk
fi
export FPK_INSTALLATION
"$FPK" export hub runtime/org.example.Platform/x86_64/1 <"$demo/platform.tree"
"$FPK" export hub app/org.example.Hello/x86_64/1 <"$demo/hello.tree"
"$FPK" list --remotes | grep -q '^hub ' || "$FPK" remote-add hub "file://$FPK_INSTALLATION/made/hub"
"$FPK" list | grep -q '^app/org.example.Hello/' || "$FPK" install hub app/org.example.Hello/x86_64/1
"$FPK" list

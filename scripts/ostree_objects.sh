#!/bin/sh
# Prints the metadata objects of a repository that the real `ostree` command made, as a test module: for each object its
# name and its bytes in hexadecimal digits. It needs Debian's package ostree. The same tree gives the same objects.
#
#     scripts/ostree_objects.sh >crates/ost_tests/src/made_objects.rt
set -eu
work=$(mktemp -d)
trap 'rm -rf "$work"' EXIT
repo=$work/repo
tree=$work/tree
mkdir -p "$tree/files/bin" "$tree/files/share/übung" "$tree/files/none"
printf 'hello\n' >"$tree/files/bin/hello"
chmod 0755 "$tree/files/bin/hello"
: >"$tree/files/share/empty"
printf 'data\n' >"$tree/files/share/übung/日本"
ln -s bin/hello "$tree/files/link"
printf '[Application]\nname=org.x.App\n' >"$tree/metadata"
find "$tree" -type d -exec chmod 0755 {} +
find "$tree" -type f ! -name hello -exec chmod 0644 {} +
ostree --repo="$repo" init --mode=bare-user-only
commit() {
    ostree --repo="$repo" commit --canonical-permissions --branch=app/org.x.App/x86_64/stable --timestamp="$1" \
        --subject="$2" --body="$3" --add-metadata-string=xa.note="$4" "$tree" >/dev/null
}
commit '@1000000000' 'The first' '' one
printf 'more\n' >"$tree/files/share/empty"
commit '@1700000000' 'Ünicode, and more' 'A body
of two lines' two

echo '//! Metadata objects of a repository that the `ostree` command made (`scripts/ostree_objects.sh`).'
echo
echo '/// Their names, and their bytes in hexadecimal digits.'
cd "$repo/objects"
list=$(find . -name '*.commit' -o -name '*.dirtree' -o -name '*.dirmeta' | LC_ALL=C sort)
printf 'pub const OBJECTS: [(&str, &str); %s] = [\n' "$(printf '%s\n' "$list" | wc -l)"
for path in $list; do
    printf '    (\n        "%s",\n' "$(printf '%s' "$path" | sed 's:^\./::; s:/::')"
    printf '        "%s",\n    ),\n' "$(od -An -v -tx1 "$path" | tr -d ' \n')"
done
echo '];'

#!/bin/bash
# Makes the package and the archive of a release: `package.sh PROGRAM FOLDER`, where PROGRAM is the proved crates/fpk/out/fpk.
#
# FOLDER gets fpk_VERSION_amd64.deb, fpk-VERSION-x86_64.tar.gz and SHA256SUMS. VERSION is what `PROGRAM --version` says, with the
# commit. The files' date is that of the commit, so the same commit and program make the same bytes. It needs dpkg-deb and
# binutils. Where this is no clone, COMMIT, SOURCE_DATE_EPOCH and MAINTAINER (`NAME <ADDRESS>`) have to be set.
set -euo pipefail
umask 022
export LC_ALL=C
program=$(realpath "$1") folder=$(realpath "$2")
cd "$(dirname "$0")/.."

stop() {
    echo "package.sh: $1" >&2
    exit 1
}

if [ -e .git ]; then
    [ -z "$(git status --porcelain --untracked-files=no)" ] || stop "there are changes that no commit has"
    COMMIT=$(git rev-parse HEAD) SOURCE_DATE_EPOCH=$(git log -1 --format=%ct)
    MAINTAINER=${MAINTAINER:-$(git log -1 --format='%an <%ae>')}
fi
export SOURCE_DATE_EPOCH="${SOURCE_DATE_EPOCH:?}"
release=$("$program" --version) release=${release#fpk }
grep -qx "## $release" CHANGELOG.md || stop "CHANGELOG.md has no section $release, which the program says that it is"
upstream=$release+g${COMMIT:0:10} version=$release+g${COMMIT:0:10}-1
work=$(mktemp -d)
trap 'rm -rf "$work"' EXIT
root=$work/root

# The packages that the program's shared libraries are in. An unknown library stops it.
needs() {
    local library glibc
    glibc=$(objdump -T "$1" | grep -oE 'GLIBC_[0-9.]+' | sed 's/GLIBC_//' | sort -uV | tail -1)
    for library in $(objdump -p "$1" | sed -n 's/^ *NEEDED *//p'); do
        case $library in
            libc.so.6 | libm.so.6 | libpthread.so.0 | libdl.so.2) echo "libc6 (>= $glibc)" ;;
            libgcc_s.so.1) echo "libgcc-s1 (>= 3.4)" ;;
            *) stop "no package is known that has $library" ;;
        esac
    done | sort -u | paste -sd, | sed 's/,/, /g'
}

put() { # put MODE FILE TO
    install -D -m "$1" "$2" "$root/$3"
}

put_packed() {
    install -d "$root/$(dirname "$2")"
    gzip -9n <"$1" >"$root/$2.gz"
    chmod 644 "$root/$2.gz"
}

put 755 "$program" usr/bin/fpk
strip --strip-unneeded "$root/usr/bin/fpk"
depends=$(needs "$root/usr/bin/fpk")
mkdir "$work/made"
python3 scripts/manual.py "$program" "$work/made"
put_packed "$work/made/fpk.1" usr/share/man/man1/fpk.1
put 644 "$work/made/fpk.bash" usr/share/bash-completion/completions/fpk
put 644 "$work/made/_fpk" usr/share/zsh/vendor-completions/_fpk
put 644 "$work/made/fpk.fish" usr/share/fish/vendor_completions.d/fpk.fish
for file in README.md SECURITY.md docs/GUIDE.md docs/MESSAGES.md docs/PROMISES.md; do
    put 644 "$file" "usr/share/doc/fpk/$(basename "$file")"
done
put 644 scripts/copyright usr/share/doc/fpk/copyright
put_packed CHANGELOG.md usr/share/doc/fpk/changelog
for file in demo/*.tree demo/*.sh demo/*.py; do
    mode=644
    [ ! -x "$file" ] || mode=755
    put $mode "$file" "usr/share/doc/fpk/examples/$(basename "$file")"
done

# The archive: the same files below one folder.
mkdir "$work/fpk-$upstream"
cp -a "$root/usr/." "$work/fpk-$upstream"
cp LICENSE-MIT LICENSE-APACHE "$work/fpk-$upstream"
tar -C "$work" --sort=name --mtime="@$SOURCE_DATE_EPOCH" --owner=0 --group=0 --numeric-owner --format=ustar \
    -cf - "fpk-$upstream" | gzip -9n >"$folder/fpk-$upstream-x86_64.tar.gz"

# The package.
{
    printf 'fpk (%s) unstable; urgency=medium\n\n  * fpk %s, built of the commit %s.\n\n' "$version" "$release" "$COMMIT"
    printf ' -- %s  %s\n' "$MAINTAINER" "$(date -u -R -d "@$SOURCE_DATE_EPOCH")"
} >"$work/changelog"
put_packed "$work/changelog" usr/share/doc/fpk/changelog.Debian
install -d "$root/DEBIAN"
(cd "$root" && find usr -type f -print0 | sort -z | xargs -0 md5sum >DEBIAN/md5sums)
cat >"$root/DEBIAN/control" <<CONTROL
Package: fpk
Version: $version
Architecture: amd64
Maintainer: $MAINTAINER
Installed-Size: $(find "$root/usr" -type f -printf '%s\n' | awk '{ sum += int(($1 + 1023) / 1024) } END { print sum }')
Depends: $depends
Suggests: bubblewrap, ostree, python3, xdg-dbus-proxy
Section: admin
Priority: optional
Description: installer of applications with the behaviour of Flatpak
 It installs, updates, rolls back and uninstalls applications and runtimes from
 folders that are OSTree repositories, prints what an application's sandbox is
 granted, and judges recordings of D-Bus. What it prints stays true over a power
 cut; this and more is proved. It checks no signatures and starts no sandbox.
CONTROL
find "$root" -exec touch --no-dereference --date="@$SOURCE_DATE_EPOCH" {} +
dpkg-deb --root-owner-group -Zgzip -z9 --build "$root" "$folder/fpk_${version}_amd64.deb" >&2
(cd "$folder" && sha256sum "fpk_${version}_amd64.deb" "fpk-$upstream-x86_64.tar.gz" | tee SHA256SUMS)

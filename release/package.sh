#!/usr/bin/env bash
# Makes a Debian package of the program, hb and what goes with them, in out/.
set -euo pipefail
cd "$(dirname "$0")/.."

if ! command -v dpkg-deb >/dev/null; then
    echo "package: dpkg-deb is not on the PATH" >&2
    exit 1
fi
version=$(<VERSION)
package=out/hbird_${version}_amd64.deb
room=$(mktemp -d)
trap 'rm -rf "$room"' EXIT
root=$room/root
umask 022
mkdir -p "$root/DEBIAN" out

ROOT=$root ZSH=share/zsh/vendor-completions release/install.sh /usr
gzip -9n "$root/usr/share/man/man1/hbird.1"
ln -sfn hbird.1.gz "$root/usr/share/man/man1/hb.1.gz"
rm "$root/usr/share/man/man1/hb.1"

cat >"$root/DEBIAN/control" <<CONTROL
Package: hbird
Version: $version
Architecture: amd64
Maintainer: the authors of hbird <hbird@example.invalid>
Installed-Size: $(du -sk "$root/usr" | cut -f 1)
Depends: libc6 (>= $(sed -n 's/^glibc //p' release/needs)), python3 (>= 3.9)
Section: interpreters
Priority: optional
Description: programs in which def and type are expressions that run
 hbird runs programs of a small object language. A method's body is type
 checked when the method is called, in the types that stand at that moment.
 hb shows where and why a program stopped.
CONTROL
dpkg-deb --root-owner-group --build "$root" "$package" >/dev/null
echo "$package"

#!/bin/sh
# Builds the Debian packages for amd64 and arm64 twice, each time from another clone of this commit, and compares their SHA-256. The second clone
# lies in a folder of another name, its files have other times and modes, and it is built later, with another umask, time zone, language and home.
# Its .git is not there. It takes a minute and 100 MB of disk, and isn't in the gate. Needs git, debhelper and dh-python.
#
#     checks/same_package.sh
#
# RADIO_NTPD names the program where it isn't the one of this folder.
set -u
cd "$(dirname "$0")/.." || exit 1
name=same_package
program=$(readlink -f "${RADIO_NTPD:-crates/radio_ntpd/out/radio_ntpd}")
[ -x "$program" ] || { echo "$name: there is no built program $program" >&2; exit 1; }
work=$(mktemp -d) || exit 1
trap 'rm -rf "$work"' EXIT
trap 'exit 1' INT TERM
bad=0

# The packages of the clone $1, into the folder $2.
packages() {
    for architecture in amd64 arm64; do
        RADIO_NTPD="$program" "$1/packaging/build_deb.sh" "$2" "$architecture" > "$work/built" || exit 1
    done
}

# A clone of this commit in the folder $1, also where another one comes meanwhile.
commit=$(git rev-parse HEAD) || exit 1
clone() {
    git clone --quiet --no-checkout . "$1" && git -C "$1" checkout --quiet --detach "$commit" || exit 1
}

mkdir -p "$work/first" "$work/second" "$work/elsewhere/deep/down" "$work/home"
clone "$work/one"
packages "$work/one" "$work/first"
rm -rf "$work/one"
other="$work/elsewhere/deep/down/of-another-name"
(umask 077 && clone "$other") || exit 1
rm -rf "$other/.git"
find "$other" -exec touch --no-dereference --date=2001-02-03 {} +
sleep 3
(
    umask 077
    export HOME="$work/home" TZ=Pacific/Auckland LC_ALL=C.UTF-8 LANG=C.UTF-8 USER=another LOGNAME=another
    packages "$other" "$work/second"
) || exit 1

for package in "$work"/first/*.deb; do
    file=$(basename "$package")
    built=$(sha256sum < "$package")
    if ! cmp -s "$package" "$work/second/$file"; then
        echo "$name: $file was built with other bytes the second time" >&2
        dpkg-deb --contents "$package" > "$work/contents"
        dpkg-deb --contents "$work/second/$file" | diff "$work/contents" - >&2
        bad=1
    else
        echo "$name: both clones give $file with the SHA-256 ${built%% *}"
    fi
done
[ "$(find "$work/first" "$work/second" -name '*.deb' | wc -l)" = 4 ] || { echo "$name: there are not four packages" >&2; bad=1; }
exit "$bad"

#!/bin/sh
# Builds the Debian package of a built program, the keeper, the feeders, the tools and the pages. Needs debhelper and dh-python.
#
#     packaging/build_deb.sh [FOLDER [ARCHITECTURE]]
#
# writes FOLDER/radio-ntpd_VERSION_ARCHITECTURE.deb (without FOLDER into the working folder) and prints its name. The program is that of this
# checkout; RADIO_NTPD names another one. ARCHITECTURE is amd64, or arm64: then the package has the same program with this host's C library, and
# runs it by QEMU. The same program, sources and C library give the same bytes, wherever they lie.
set -eu
folder=$(cd "${1:-.}" && pwd)
architecture=${2:-amd64}
cd "$(dirname "$0")/.."
for command in dpkg-buildpackage dh dh_python3; do
    command -v "$command" > /dev/null || { echo "build_deb: there is no $command: apt install debhelper dh-python" >&2; exit 1; }
done
program=${RADIO_NTPD:-crates/radio_ntpd/out/radio_ntpd}
work=$(mktemp -d)
trap 'rm -rf "$work"' EXIT
trap 'exit 1' INT TERM
# It refuses a program that isn't there, and without --program one that is older than its sources.
./radio_keeper install --root "$work/none" ${RADIO_NTPD:+--program "$RADIO_NTPD"} > "$work/log"

# debhelper wants the folder debian at the top, and writes into it and beside it.
sources="$work/radio-ntpd"
mkdir -p "$sources/bin"
cp -R --parents radio_keeper keeper feeders tools lab/model packaging docs README.md CHANGELOG.md CONTRIBUTING.md "$sources"
cp "$program" "$sources/bin/radio_ntpd"
mv "$sources/packaging/debian" "$sources/debian"
cd "$sources"
# Nothing is compiled, so no compiler is asked for.
dpkg-buildpackage --build=binary --no-sign --no-check-builddeps --host-arch "$architecture" > "$work/log" 2>&1 || { tail -n 20 "$work/log" >&2; exit 1; }
for package in "$work"/*.deb; do
    mv "$package" "$folder"
    echo "$folder/$(basename "$package")"
done

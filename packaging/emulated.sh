#!/bin/sh
# Makes the installed folder LIBRARY of an x86-64 program one for hosts with another processor: beside the program lie its loader and its
# libraries, as the building host has them, and a launcher is in its place that runs it by QEMU's user emulation. The file SUBSTVARS gets the sources
# of these libraries.
#
#     packaging/emulated.sh LIBRARY SUBSTVARS
set -eu
there="$1/x86_64"
mkdir "$there"
mv "$1/bin/radio_ntpd" "$there/radio_ntpd"
# `NAME => FILE (0x..)`, and for the loader `FILE (0x..)`.
files=$(ldd "$there/radio_ntpd" | sed -n 's/^.* => //; s/^[[:space:]]*\(\/.*\) (0x[0-9a-f]*)$/\1/p')
[ -n "$files" ] || { echo "emulated: ldd names no library of $there/radio_ntpd" >&2; exit 1; }
packages=
for file in $files; do
    install -D -m 644 "$(readlink -f "$file")" "$there$file"
    package=$(dpkg-query --search "$(readlink -f "$file")" "$file" 2> /dev/null | head -n 1)
    packages="$packages ${package%%:*}"
done
chmod 755 "$there"/lib64/ld-*
install -m 755 packaging/emulated_radio_ntpd "$1/bin/radio_ntpd"
# QEMU writes instructions into memory as it goes.
mkdir -p "$1/../systemd/system/radio_ntpd.service.d"
printf '[Service]\n# QEMU writes the instructions that it then runs.\nMemoryDenyWriteExecute=no\n' > "$1/../systemd/system/radio_ntpd.service.d/10-qemu.conf"
printf 'emulated:Built-Using=%s\n' "$(dpkg-query --show --showformat='${source:Package} (= ${source:Version}), ' $packages | sed 's/, $//')" >> "$2"

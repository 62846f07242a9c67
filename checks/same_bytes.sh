#!/bin/sh
# Compares the built program with the SHA-256 that README.md has of it. So a stranger can tell that what runs is what was proved.
#
#     checks/same_bytes.sh [--write]
#
# A change of a crate gives another program: then --write puts the SHA-256 of the one that was built into README.md. RADIO_NTPD names the program
# where it isn't the one of this folder, and PAGE the page where it isn't README.md.
set -u
cd "$(dirname "$0")/.." || exit 1
program=${RADIO_NTPD:-crates/radio_ntpd/out/radio_ntpd}
page=${PAGE:-README.md}
built=$(sha256sum < "$program") || exit 1
built=${built%% *}
# The page has one such number, in signs of code.
said=$(grep -oE '`[0-9a-f]{64}`' "$page" | tr -d '`')
if [ "$(echo "$said" | wc -w)" != 1 ]; then
    echo "same_bytes: $page has $(echo "$said" | wc -w) numbers in the form of a SHA-256, and the program's has to be the only one: \`$built\`" >&2
    exit 1
fi
if [ "$said" != "$built" ] && [ "${1:-}" = --write ]; then
    sed -i "s/$said/$built/" "$page"
elif [ "$said" != "$built" ]; then
    echo "same_bytes: $page says $said, and $program is $built" >&2
    echo "same_bytes: where a crate was changed, checks/same_bytes.sh --write puts that into $page" >&2
    exit 1
fi
echo "same_bytes: the program is $built, as $page says"

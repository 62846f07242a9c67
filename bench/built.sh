# The built program, the top of the repository, which is gone to, and a folder to work in that is gone at the end; the scripts of
# this folder begin with it. It builds nothing: run ./radio_ntpd once before. RADIO_NTPD names another program.
top=$(cd "$(dirname "$0")/.." && pwd)
program=$(realpath -m "${RADIO_NTPD:-$top/crates/radio_ntpd/out/radio_ntpd}")
[ -x "$program" ] || { echo "not built yet: run ./radio_ntpd first" >&2; exit 1; }
export RADIO_NTPD="$program"
cd "$top"
work=$(mktemp -d)
trap 'rm -rf "$work"' EXIT

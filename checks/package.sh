#!/bin/sh
# The Debian package's life, in a Debian of its own with systemd: built, judged by lintian, installed, checked, started, upgraded while a client asks
# fifty times a second, upgraded with settings at fault, removed, and purged. Each request has to be answered, and what was on the host before has to
# be there after: only logs and journals are left. It takes three minutes and 400 MB of disk, and isn't in the gate. checks/booted.sh says what it needs.
#
#     checks/package.sh
set -u
cd "$(dirname "$0")/.." || exit 1
name=package
. checks/booted.sh

make_package
make_debian
boot
# All files and their owners, without what changes by itself.
list() {
    (cd "$host" && find . -xdev \( -path ./run -o -path ./proc -o -path ./sys -o -path ./tmp -o -path ./var/log -o -path ./var/cache -o -path ./var/lib/dpkg -o -path ./var/lib/systemd \) -prune -o -printf '%p %u %g %m\n' | LC_ALL=C sort)
}
list > "$work/before"
cp "$host/etc/passwd" "$host/etc/group" "$work"

# What dpkg itself finds wrong in it, and what it installs.
install_package
grep -q 'radio_keeper check' "$work/installed" || wrong "the next step isn't said: $(tail -n 2 "$work/installed")"
[ -z "$(inside dpkg --verify radio-ntpd)" ] || wrong "what is installed isn't what was packed: $(inside dpkg --verify radio-ntpd)"
[ "$(inside radio_keeper --version)" = "radio_keeper $(sed -n 's/^VERSION = "\(.*\)"$/\1/p' keeper/__init__.py)" ] || wrong 'the keeper says another version'
cmp -s "$host/usr/lib/radio_ntpd/bin/radio_ntpd" "$program" || wrong 'the program is not the one that was built'
[ "$(inside radio_ntpd drill --seed 7 | tail -n 1)" = 'status 0' ] || wrong 'the program does no drill'
for file in keeper station; do
    [ "$(inside stat -c '%U %G %a' /etc/radio_ntpd/$file.toml)" = 'root radio_ntpd 640' ] || wrong "others can read $file.toml"
done
inside id -nG radio_ntpd | grep -qw dialout || wrong 'its user may not read serial ports'
printf '0 62000000 verdict 3976257660 0\n0 122000000 verdict 3976257720 0\n' > "$host/opt/journal"
inside /usr/lib/radio_ntpd/tools/plot_journal.py --day /opt/day.svg /opt/journal || wrong 'no picture of a day is drawn'
for page in man1/radio_keeper.1 man5/radio_ntpd.toml.5 man8/radio_ntpd.8; do
    gzip -t "$host/usr/share/man/$page.gz" || wrong "there is no page $page"
done
grep -rlE '^#!.*/env |[^/]\bpython3 -P' "$host/usr/lib/radio_ntpd" && wrong "python3 isn't Debian's there"
# Each link of a page to another page or picture leads to one that is installed.
for page in "$host"/usr/share/doc/radio-ntpd/*.md "$host"/usr/share/doc/radio-ntpd/docs/*.md; do
    for link in $(grep -oE '\]\([^)#:]+\.(md|svg|png)' "$page" | sed 's/^..//'); do
        [ -e "$(dirname "$page")/$link" ] || wrong "$(basename "$page") leads to $link, which is not installed"
    done
done

[ "$(inside systemctl is-enabled radio_ntpd)" = disabled ] || wrong 'it is enabled before its settings are the station'"'"'s'
[ "$(property ActiveState)" = inactive ] || wrong "it was started as it was installed: it is $(property ActiveState)"
use_soft_receiver
inside systemd-analyze verify --man=no radio_ntpd.service > "$work/verified" 2>&1
[ ! -s "$work/verified" ] || wrong "systemd-analyze says: $(cat "$work/verified")"
inside install -d -o radio_ntpd -g radio_ntpd /var/lib/radio_ntpd
inside radio_keeper check --seconds 10 > "$work/checked" 2>&1 || wrong "the check finds something: $(grep BAD "$work/checked")"
grep -q 'nothing to mend' "$work/checked" || wrong "the check says: $(tail -n 1 "$work/checked")"
inside rm -f /var/lib/radio_ntpd/heard
inside systemctl enable --now radio_ntpd > "$work/enabled" 2>&1 || fails "it can't be started: $(cat "$work/enabled")"
until_well 'at the start' 90
grep -q '^OK: time from DCF' "$work/status" || wrong "the status says: $(head -n 1 "$work/status")"
[ "$(inside stat -c %a /run/radio_ntpd/status.html)" = 644 ] || wrong 'the page cannot be read by others'

# The same package again, as a later version, while a client asks.
dpkg-deb --raw-extract "$deb" "$work/later" && rm "$deb"
sed -i 's/^Version: .*/&+later/' "$work/later/DEBIAN/control"
sed -i 's/^VERSION = ".*"$/VERSION = "later"/' "$work/later/usr/lib/radio_ntpd/keeper/__init__.py"
(cd "$work/later" && find . -type f ! -path './DEBIAN/*' -printf '%P\n' | LC_ALL=C sort | xargs md5sum > DEBIAN/md5sums)
dpkg-deb --root-owner-group --build "$work/later" "$host/opt/later.deb" > "$work/packed" || fails 'no later version is packed'
upgrade() {
    base=$(python3 -c 'import time; print(time.time() - time.monotonic())')
    in_network python3 -B -m lab.kept_client 123 "$3" 50 "$base" > "$work/met" &
    client=$!
    sleep 2
    inside dpkg --install "$2" > "$work/upgraded" 2>&1 || wrong "$1: it can't be upgraded: $(tail -n 3 "$work/upgraded")"
    wait "$client"
    met=$(python3 -c 'import json, sys
met = json.load(sys.stdin)
print(met["asked"] - met["answered"], met["asked"], met["wrong"], met["untimed"], met["error"], met["asked"] - met["timed"])' < "$work/met")
}
before=$(property MainPID)
bound=$(inside systemctl show --property=ActiveEnterTimestampMonotonic --value radio_ntpd.socket)
cp "$host/etc/radio_ntpd/keeper.toml" "$work/keeper.toml"
upgrade 'while it serves' /opt/later.deb 30
set -- $met
[ "$1" = 0 ] || wrong "of $2 requests $1 got no answer while it was upgraded: $(cat "$work/met")"
[ "$3" = 0 ] || wrong "$3 answers were farther off than they said: $(cat "$work/met")"
told="of $2 requests while it was upgraded each was answered, $6 of them without the time, for $4 s at most"
[ "$(property MainPID)" != "$before" ] || wrong 'an upgrade goes on with the old keeper'
[ "$(inside systemctl show --property=ActiveEnterTimestampMonotonic --value radio_ntpd.socket)" = "$bound" ] || wrong 'the socket was opened again'
[ "$(inside radio_keeper --version)" = 'radio_keeper later' ] || wrong 'the later version is not there'
cmp -s "$work/keeper.toml" "$host/etc/radio_ntpd/keeper.toml" || wrong 'an upgrade changes the settings'
[ "$(inside stat -c '%U %G %a' /etc/radio_ntpd/station.toml)" = 'root radio_ntpd 640' ] || wrong 'an upgrade lets others read the station file'
until_well 'after an upgrade' 30

# Settings at fault are no fault of the package, and a service that was stopped stays so.
echo 'nosuch = 1' > "$host/etc/radio_ntpd/keeper.toml"
inside dpkg --install /opt/radio-ntpd.deb > "$work/upgraded" 2>&1 || wrong "with settings at fault it can't be installed: $(tail -n 3 "$work/upgraded")"
[ "$(inside dpkg-query --show --showformat='${Status}' radio-ntpd)" = 'install ok installed' ] || wrong 'with settings at fault the package is not whole'
cp "$work/keeper.toml" "$host/etc/radio_ntpd/keeper.toml"
inside systemctl stop radio_ntpd.socket radio_ntpd
inside dpkg --install /opt/later.deb > "$work/upgraded" 2>&1 || wrong "stopped it can't be upgraded: $(tail -n 3 "$work/upgraded")"
[ "$(property ActiveState)" != active ] || wrong 'an upgrade starts what was stopped'
inside systemctl reset-failed radio_ntpd
inside systemctl start radio_ntpd
until_well 'started again' 30

# Removed: it is stopped whole; programs and pages are gone, settings and journals stand. Purged: logs and journals are left, and they are root's.
inside dpkg --remove radio-ntpd > "$work/removed" 2>&1 || wrong "it can't be removed: $(tail -n 3 "$work/removed")"
[ -z "$(inside pgrep -u radio_ntpd)" ] || wrong "a process is left: $(inside pgrep -a -u radio_ntpd)"
[ -z "$(in_network ss -Hlun 'sport = 123' 2> "$work/none")" ] || wrong 'port 123 is still open'
[ "$(tail -qn 1 "$host"/var/lib/radio_ntpd/journals/*.journal | sort -u)" = 'status 0' ] || wrong "journals end with $(tail -qn 1 "$host"/var/lib/radio_ntpd/journals/*.journal | sort | uniq -c)"
left=$(find "$host/usr" -name '*radio*ntpd*' -o -name 'radio_keeper*')
[ -z "$left" ] || wrong "after the removal there is $left"
[ -e "$host/etc/radio_ntpd/station.toml" ] || wrong 'settings went with the removal'
inside dpkg --purge radio-ntpd > "$work/purged" 2>&1 || wrong "it can't be purged: $(tail -n 3 "$work/purged")"
[ ! -s "$work/purged" ] || grep -i -e warn -e error "$work/purged" && wrong 'the purge is not without a word'
inside test ! -e /run/radio_ntpd || wrong 'the runtime folder is left'
rm -rf "$host/opt/lab" "$host/usr/local/bin/receiver" "$host"/opt/*.deb "$host/opt/journal" "$host/opt/day.svg"
list > "$work/after"
state='^> \./var/lib/radio_ntpd\(\| [^ ]*\|/\(logs\|journals\)\(/[^ ]*\)\{0,1\}\) root root '
left=$(diff "$work/before" "$work/after" | grep '^[<>]' | grep -v "$state")
[ -z "$left" ] || wrong "after the purge there is $left"
for kept in logs journals; do
    [ -n "$(ls "$host/var/lib/radio_ntpd/$kept")" ] || wrong "$kept went with the purge"
done
for file in passwd group; do
    cmp "$host/etc/$file" "$work/$file" || wrong "/etc/$file is another one: $(diff "$work/$file" "$host/etc/$file")"
done

[ "$bad" = 0 ] && echo "$name: installed, checked, served, upgraded, removed and purged; $told"
exit "$bad"

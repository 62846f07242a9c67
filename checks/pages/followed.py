"""How each command of the pages for users is followed in a bare Debian: what is run around it, and what it has to say. `follow.py` runs this
table from its first row to its last, and `test_followed.py` compares it with the pages.
"""

from typing import NamedTuple

README, EVENING, RECORDING = "README.md", "docs/FIRST_EVENING.md", "docs/RECORDING.md"
COMMANDS, OPERATING, CLIENTS = "docs/COMMANDS.md", "docs/OPERATING.md", "docs/CLIENTS.md"
KEEPER, CONTRIBUTING = "docs/KEEPER.md", "CONTRIBUTING.md"


class Row(NamedTuple):
    """Commands of a page, which follow each other there or belong together. In `script` @0, @1 .. stand for them, and `given` has what is put
    in place of a page's word. `shows`: texts that the page has, and their output too. `matches`: regular expressions for what the page
    describes. `status`: that of the script. `exact`: the output is what the page shows below the command, and no more. `built`: it needs the
    folder in which the program was built, and so isn't followed where the package is installed.
    """

    page: str
    commands: tuple[str, ...]
    script: str = "@0"
    given: tuple[tuple[str, str], ...] = ()
    shows: tuple[str, ...] = ()
    matches: tuple[str, ...] = ()
    status: int = 0
    exact: bool = False
    built: bool = False


class Left(NamedTuple):
    """Commands of a page that are not run here, and why."""

    page: str
    commands: tuple[str, ...]
    why: str


HOUR = "examples/dcf77-hour.log"
DRILL, DECODE = "./radio_ntpd drill --seed 7", f"./radio_ntpd decode --plan dcf --log {HOUR}"
SERVE = "./radio_ntpd serve --station examples/serve.toml --during 15"
EXCHANGE = "./radio_ntpd replay --station examples/station.toml --script examples/exchange.script"
LEAP = "./radio_ntpd replay --station examples/leap-second.toml --script examples/leap-second.script"
LOCALHOST = (("HOST", "127.0.0.1"),)
# A server on port 12300 (300C) has opened it, and read its logs.
SERVES = "until grep -q ':300C ' /proc/net/udp; do sleep 0.2; done; sleep 3"
# Waits until a status says that all is well, for two minutes at most. @0 is the command that says it.
WELL = "turns=0; until @0 > /root/status.out 2>&1 || [ $turns = 120 ]; do turns=$((turns + 1)); sleep 1; done; cat /root/status.out"
# The soft receiver has 12 minutes of history once this file is gone.
ANEW = "rm -f /root/radio_ntpd/heard /var/lib/radio_ntpd/heard"
# A keeper in the folder runs meanwhile.
BESIDE = f"{ANEW}; @RUN > run.out 2>&1 & keeper=$!; @THEN; kill -INT $keeper; wait $keeper && echo ended well; cat run.out"


def beside(run: str, then: str) -> str:
    """A script that runs a keeper in the folder, and something else meanwhile."""
    return BESIDE.replace("@RUN", run).replace("@THEN", then)


PACKAGE = "sudo apt install ./radio-ntpd_*.deb"
# What FIRST_EVENING has written in place of the folder's names where the package is installed.
PACKAGED = ((r"\./radio_ntpd\b", "/usr/sbin/radio_ntpd"), (r"\./radio_keeper\b", "radio_keeper"),
            (r"(?<![\w/.])(feeders|tools)/", r"/usr/lib/radio_ntpd/\1/"), ("/usr/local/lib/", "/usr/lib/"))
# What the pages have installed before: Debian's packages.
PACKAGES = (
    (EVENING, "sudo apt install gpiod python3"),
    (EVENING, "sudo apt install chrony"),
    (COMMANDS, "sudo apt install rdate"),
    (CONTRIBUTING, "apt-get install mypy pyflakes3"),
)
ROWS = (
    # By hand.
    Row(README, (DRILL,), exact=True),
    Row(COMMANDS, (DRILL,), matches=("status 0",)),
    Row(COMMANDS, ("./radio_ntpd --help",), matches=("radio_ntpd serve --station .*",), status=1),
    Row(COMMANDS, (DECODE,), matches=("0 67000606 lone 4004773200", r"0 \d+ verdict \d+ .*", "status 0")),
    Row(COMMANDS, (EXCHANGE,), shows=("page 5 1 3 7f000001",), matches=("reply 24.*", "status 0")),
    Row(COMMANDS, (
        "sed 's/^/pulse 0 /' examples/dcf77-hour.log > radio.script",
        "grep -e ask -e answer examples/exchange.script | sort -s -n -k 3,3 - radio.script > both.script",
    ), script="@0 && @1 && ./radio_ntpd replay --station examples/station.toml --script both.script", matches=(r"page \d+ 1 .*", "status 0")),
    Row(COMMANDS, (
        "./radio_ntpd migrate --station examples/station.toml --journal old.journal > new.journal", "grep '^j2 '", "head -n -2 new.journal",
    ), script=f"{EXCHANGE} | @1 > old.journal; @0; @2 | cmp - old.journal && tail -n 1 new.journal", matches=("status 0",)),
    Row(COMMANDS, (SERVE, "/usr/sbin/rdate -n -p -v -o 12300 127.0.0.1"), script=f"@0 & {SERVES}; @1 || exit; wait", shows=(
        "rdate: adjust local clock by -",
        "link 0 answered 1 dropped 0 again 0 kissed 0 unkept 0 end count",
        "page 30 1 1 44434600 17077896343877168251 602001203 66935009016 0 328 ed00e298000c8378 0 920", "status 0",
    ), matches=("Thu Jan  1 12:10:[0-9]{2} .*2026", r"j2 30 920 [0-2] 60200\d+ verdict 3976258200 0")),
    Row(CLIENTS, ("/usr/sbin/rdate -n -p -o 12300 HOST",), given=LOCALHOST, script=f"{SERVE} > served & {SERVES}; @0; wait",
        matches=("Thu Jan  1 12:10:[0-9]{2} .*2026",)),
    # A recording alone.
    Row(RECORDING, ("./radio_ntpd decode --plan dcf --log FILE",), given=(("FILE", HOUR),), matches=("status 0",)),
    Row(RECORDING, (f"{DECODE} > hour.journal", "tools/entry_times.py hour.journal"), script="@0 && @1 | head -n 1",
        shows=("2026-11-27 13:00:00.000  0 67000606 lone 4004773200",)),
    Row(RECORDING, ("tools/summary.sh hour.journal",), matches=("feed 0: 61 entries, .* 53 verdict, .*",)),
    Row(RECORDING, (
        "tools/plot_journal.py --reception reception.svg --offsets offsets.svg hour.journal",
        "tools/plot_journal.py --phase phase.svg examples/dcf77-hour.log",
    ), script="@0 && @1 && grep -c '<svg' reception.svg offsets.svg phase.svg", matches=(r"phase.svg:1", "offsets.svg:1", "reception.svg:1")),
    Row(RECORDING, ("feeders/steady.py < LOG",), given=(("LOG", HOUR),), script=f"@0 > steady.log && [ $(wc -l < steady.log) = $(wc -l < {HOUR}) ] && echo as long",
        matches=("as long",)),
    Row(RECORDING, (
        r"tr -d '\r' < FILE", r"""awk '{ printf "%.0f %.0f\n", $1 * 1000, $2 * 1000 }' FILE""",
        r"""awk '{ printf "%.0f %.0f\n", $1 * 1000000, $2 * 1000000 }' FILE""", r"""awk '{ printf "%.0f %.0f\n", $1 / 1000, $2 / 1000 }' FILE""",
        "sed 1d FILE | tr -s ',;\\t' ' '", r"""awk '{ printf "%.0f %.0f\n", $1, $2 - $1 }' FILE""",
        r"""awk 'NR == 1 { first = $1 } { printf "%.0f %.0f\n", $1 - first, $2 }' FILE""",
        r"""awk 'NR > 1 { width = $1 - end; printf "%.0f %.0f\n", end, (width < 2000000 ? width : 2000000) } { end = $1 + $2 }' FILE""",
        "feeders/edges_to_log.py < FILE", r"""awk '{ printf "%.0f %.0f\n", $1 * 60000000 / 60180000, $2 }' FILE""",
    ), script="python3 -B -m unittest checks.pages.test_recipes", matches=(r"Ran [0-9]+ tests in .*", "OK"), built=True),
    Row(OPERATING, (LEAP,), shows=("j2 1 0 1 0 notice 3692217600", "reply 640106ec", "j2 11 0 0 603000000 refused 3", "reply e40006ec",
                                   "reply 240106ec"), matches=("status 0",)),
    # The two files of the first evening, whose other steps checks/evening.sh follows.
    Row(EVENING, (
        r"""printf 'bound = 100\n\n[[radio]]\nplan = "dcf"\nlog = "dcf.log"\n\n[[link]]\nport = 12300\n' > station.toml""",
        r"""printf 'station = "station.toml"\n\n[[radio]]\ncommand = "feeders/edges_to_log.py stdbuf -oL gpiomon gpiochip0 17"\n"""
        r"""steady = true\n' > keeper.toml""",
    ), script="@0 && @1 && wc -l station.toml keeper.toml", matches=(" *8 station.toml", " *5 keeper.toml")),
    Row(OPERATING, ("./radio_ntpd replay --station station.toml --script /dev/null",), matches=("page 0 0 .*", "status 0")),
    Row(EVENING, ("date -u -d @$((N - 2208988800))",), script="N=4004773200; @0", matches=("Fri Nov 27 13:00:00 UTC 2026",)),
    Row(EVENING, ("sudo usermod -aG dialout $USER", "sudo groupadd --system gpio"),
        script="useradd op; (USER=op; @0) && id -nG op && (getent group gpio > group || @1) && getent group gpio",
        matches=(".*dialout.*", "gpio:.*")),
    Row(EVENING, ("./radio_keeper check",), script=f"{ANEW}; @0", shows=("nothing to mend",)),
    Row(EVENING, ("./radio_keeper run", "./radio_keeper watch"),
        script=beside("@0", "sleep 30; timeout --signal=INT 5 @1"), matches=(".*OK: time from DCF, stratum 1.*", "ended well")),
    Row(README, ("./radio_keeper check      # both files, the port, the sources, ten seconds of edges",
                 "./radio_keeper run        # serves until it is stopped", "./radio_keeper status     # what each radio, link and server is doing"),
        script=f"{ANEW}; @0 && {beside('@1', WELL.replace('@0', '@2'))}", matches=("nothing to mend", "OK: time from DCF.*", "ended well")),
    Row(OPERATING, ("./radio_keeper check", "./radio_keeper run", "./radio_keeper status"),
        script=f"{ANEW}; @0 && {beside('@1', WELL.replace('@0', '@2'))}", matches=("nothing to mend", "OK: time from DCF.*", "ended well")),
    Row(KEEPER, ("./radio_keeper run --config keeper.toml",), script=beside("@0", WELL.replace("@0", "./radio_keeper status")),
        matches=("OK: time from DCF.*", r".*run 1 has the time after \d+ .*", "ended well")),
    Row(CLIENTS, ("./radio_keeper status",), script=beside("./radio_keeper run", WELL), matches=("OK: time from DCF.*",)),
    # A client with a key.
    Row(CLIENTS, ("openssl rand -base64 15", "chmod 600"), script="@0; @1 station.toml && stat -c %a station.toml",
        matches=("[A-Za-z0-9+/]{20}", "600")),
    Row(CLIENTS, ("chronyc authdata",), script=rf"""
printf '\n[[key]]\nid = 1\nsecret = "8kSgu3Zn0W1Yp7qTfXb4"\n' >> examples/serve.toml
./radio_ntpd serve --station examples/serve.toml --during 12 > served & {SERVES}
echo '1 MD5 8kSgu3Zn0W1Yp7qTfXb4' > /etc/chrony/radio.keys
printf 'server 127.0.0.1 port 12300 iburst key 1\nkeyfile /etc/chrony/radio.keys\n' > /etc/chrony/radio.conf
/usr/sbin/chronyd -x -f /etc/chrony/radio.conf && sleep 6
@0; kill "$(cat /run/chrony/chronyd.pid)"; wait; cat served""", matches=(r"127\.0\.0\.1 +SK +1 .*", r"link 0 answered [1-9].*")),
    # The service.
    Row(EVENING, ("sudo ./radio_keeper install", "sudo ./radio_keeper install --do"),
        script="@0 && [ ! -e /usr/local/bin/radio_keeper ] && @1", matches=(".*/usr/local/sbin/radio_ntpd.*",), built=True),
    Row(EVENING, ("cd /", "sudo radio_keeper check"), script=r"""
cp station.toml keeper.toml /etc/radio_ntpd/ && cd /etc/radio_ntpd &&
sed -i 's/^port = 12300/port = 123/' station.toml &&
printf '\n[[key]]\nid = 1\nsecret = "8kSgu3Zn0W1Yp7qTfXb4"\n' >> station.toml &&
sed -i '1i state = "/var/lib/radio_ntpd"\nruntime = "/run/radio_ntpd"' keeper.toml &&
sed -i 's:"feeders/:"/usr/local/lib/radio_ntpd/feeders/:' keeper.toml &&
chmod 640 station.toml && chgrp radio_ntpd station.toml keeper.toml
@0 && @1""", matches=("nothing to mend",)),
    Row(EVENING, ("sudo systemctl enable --now radio_ntpd", "radio_keeper status"), script=f"cd /; {ANEW}; @0 && {WELL.replace('@0', '@1')}",
        matches=("OK: time from DCF.*",)),
    # ^C ends them: with the minutes of the log the first has enough, the second says how many are wanting.
    Row(EVENING, ("sudo radio_keeper calibrate --minutes 60", "sudo radio_keeper calibrate --minutes 120 --server 192.0.2.1"),
        script="cd /; ip address add 192.0.2.1/32 dev lo; timeout --signal=INT 30 @0; timeout --signal=INT 30 @1; true",
        matches=("set in the station file: delay = .*", r"compared with \d+ exchanges, .*", r"\d+ minutes were believed")),
    Row(OPERATING, ("./radio_keeper calibrate",), given=(("calibrate", "calibrate --minutes 8"),), script="./radio_keeper --help",
        matches=(".*calibrate.*",)),
    Row(EVENING, ("sudo systemctl reload radio_ntpd",), script="cd /; @0 && sleep 5 && journalctl -u radio_ntpd | tail -n 5",
        matches=(r".*run \d+ .*",)),
    Row(EVENING, ("journalctl -u radio_ntpd", "journalctl -u radio_ntpd"), matches=(r".*run \d+ has the time after.*",)),
    Row(EVENING, ("radio_keeper status", "radio_keeper status --nagios"), script="cd /; @0 && @1", matches=("OK: time from DCF.*",)),
    Row(EVENING, ("radio_keeper check",), script="cd /; @0", matches=("(well|note|BAD).*",)),
    Row(EVENING, ("chronyc tracking",), script="/usr/sbin/chronyd -x && sleep 2; @0; kill \"$(cat /run/chrony/chronyd.pid)\"",
        matches=("Reference ID .*", "System time .*")),
    Row(CLIENTS, ("ntpdig HOST",), given=LOCALHOST, matches=(r".*\+/-.* 127\.0\.0\.1 s1 .*",)),
    Row(CLIENTS, ("ntpdig -a 1 -k FILE HOST",), given=(*LOCALHOST, ("FILE", "/etc/chrony/radio.keys")), matches=(r".*\+/-.* 127\.0\.0\.1 s1 .*",)),
    Row(OPERATING, ("radio_keeper status",), script="cd /; @0", matches=("OK: time from DCF.*",)),
    Row(KEEPER, ("radio_keeper status",), script="cd /; @0", matches=("OK: time from DCF.*",)),
    Row(KEEPER, ("radio_keeper status --json",), script="cd /; @0 | python3 -c 'import json, sys; print(*json.load(sys.stdin))'",
        matches=("version written keeper_since .*",)),
    Row(KEEPER, ("man radio_keeper",), script="@0 | cat", matches=(".*NAME",)),
    Row(KEEPER, ("radio_keeper reload", "systemctl reload radio_ntpd"), script="cd /; @0 && @1 && echo both", matches=("both",)),
    Row(OPERATING, ("systemctl edit radio_ntpd",), script=r"""
printf '[Service]\nDeviceAllow=\nDeviceAllow=/dev/gpiochip0 rw\n' > /root/drop-in
SYSTEMD_EDITOR='cp /root/drop-in' script -qec '@0' /dev/null; systemctl show --property=DeviceAllow radio_ntpd""", matches=("DeviceAllow=/dev/gpiochip0 rw",)),
    # Addresses of the host.
    Row(CLIENTS, ("ip route get CLIENT", "ip route replace NET dev DEV src ADDRESS"),
        given=(("CLIENT", "198.51.100.1"), ("NET", "198.51.100.0/24"), ("DEV", "lo"), ("ADDRESS", "192.0.2.1")), script="@1 && @0",
        matches=(".*src 192.0.2.1.*",)),
    Row(CLIENTS, ("nft add rule ip nat prerouting ip daddr OTHER udp dport 123 dnat to ADDRESS",),
        given=(("OTHER", "192.0.2.2"), ("ADDRESS", "192.0.2.1")),
        script="nft add table ip nat && nft 'add chain ip nat prerouting { type nat hook prerouting priority dstnat; }' && @0 && nft list ruleset",
        matches=(".*ip daddr 192.0.2.2 udp dport 123 dnat to 192.0.2.1.*",)),
    # The end of the service, and the package in its place.
    Row(KEEPER, ("systemctl stop radio_ntpd.socket radio_ntpd",), script="@0 && systemctl is-active radio_ntpd.socket radio_ntpd",
        matches=("inactive",), status=3),
    Row(CLIENTS, ("setcap cap_net_bind_service=+ep crates/radio_ntpd/out/radio_ntpd",), script="""
sed 's/12300/123/' examples/serve.toml > low.toml; chmod 755 /root
setpriv --reuid=op --clear-groups ./radio_ntpd serve --station low.toml --during 1; @0
setpriv --reuid=op --clear-groups ./radio_ntpd serve --station low.toml --during 1 | tail -n 1""", shows=("status 2 open link 0",),
        matches=("status 0",), built=True),
    Row(KEEPER, ("systemctl mask sleep.target suspend.target hibernate.target",), script="@0; systemctl is-enabled sleep.target",
        matches=("masked",), status=1),
    Row(EVENING, ("sudo radio_keeper install --remove",), script="cd /; @0 && @0 --do && ls /usr/local/bin /usr/local/sbin",
        matches=(".*/usr/local/sbin/radio_ntpd.*",), built=True),
    Row(EVENING, (PACKAGE,), script="cd /opt/deb && @0 && /usr/sbin/radio_ntpd drill --seed 7 && radio_keeper --version",
        matches=("status 0", "radio_keeper .*")),
)
TOOLCHAIN = "needs the toolchain, which is no package of Debian"
OTHER_EVENING = "checks/evening.sh follows the ten steps"
LEFT = (
    Left(README, ("cd crates/radio_ntpd && rt try -- drill --seed 7", ".ci/run"), TOOLCHAIN),
    Left(CONTRIBUTING, ("rt version", "rt doc", "rt try --test", "rt check --only NAME", "rt check --allow-holes", "rt check --start NAME",
                        "rt check", "rt test", "rt tidy", "rt fmt", "rt must-fail NAME", "rt ci NAME"), TOOLCHAIN),
    Left(EVENING, ("packaging/build_deb.sh                # for arm64: packaging/build_deb.sh . arm64",),
         "is for the host that builds the program: this check runs it there"),
    Left(EVENING, ("timeout 10 gpiomon gpiochip0 17", "timeout 310 feeders/edges_to_log.py stdbuf -oL gpiomon gpiochip0 17 > first.log",
                   "./radio_ntpd decode --plan dcf --log first.log", "/usr/sbin/chronyd -Q -t 10 'server 127.0.0.1 port 12300 iburst'"),
         OTHER_EVENING),
    Left(EVENING, ("timeout 10 feeders/serial_edges.py /dev/serial/by-id/NAME", "feeders/serial_edges.py /dev/serial/by-id/NAME"),
         "needs a receiver on a serial port: checks.machine has one"),
    Left(EVENING, ("gpiomon --chip gpiochip0 17",), "is of Debian 13"),
    Left(CLIENTS, ('w32tm /config /manualpeerlist:"HOST,0x8" /syncfromflags:manual /update',), "is of Windows"),
    Left(KEEPER, ("tail -F", "tail -n 0 -F"), "lacks its file: it is an example of a source"),
    Left(KEEPER, ("radio_keeper install",), "is followed as FIRST_EVENING has it"),
)

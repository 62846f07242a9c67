#!/bin/sh
# How each feed of a journal was received: how many entries it has of each kind, of refused minutes
# by the rule that they broke, of declined answers by their reason; and how many of a hundred are
# verdicts or samples. The journal is of either version; other lines are passed over.
#
#     tools/summary.sh [JOURNAL...]
#
# Without a file, or with `-`, it reads the standard input. It exits with 1 where a file can't be
# read or no file has an entry, and with 2 for invalid arguments.
for file; do
    case "$file" in
    -h | --help) sed -n '2,/^[^#]/s/^# \{0,1\}//p' "$0"; exit 0 ;;
    -) ;;
    -*) echo "summary.sh: there is no option $file: summary.sh JOURNAL..." >&2; exit 2 ;;
    *) [ ! -d "$file" ] || { echo "summary.sh: $file is a folder" >&2; exit 1; }
       [ -r "$file" ] || { echo "summary.sh: $file can't be read, or isn't there" >&2; exit 1; } ;;
    esac
done
if [ $# = 0 ]; then
    [ ! -t 0 ] || { echo "summary.sh: say which journal: summary.sh JOURNAL..." >&2; exit 2; }
    set -- -
fi
# A name with a sign of equality would be a variable of awk's.
for file; do
    shift
    case "$file" in
    -) set -- "$@" /dev/stdin ;;
    /*) set -- "$@" "$file" ;;
    *) set -- "$@" "./$file" ;;
    esac
done
exec awk '
    NF == 2 && /^[0-9]+ [0-9]+\r?$/ { pulses++ }
    { from = $1 == "j2" ? 4 : 1; feed = $from; kind = $(from + 2) }
    feed !~ /^[0-9]+$/ || $(from + 1) !~ /^[0-9]+$/ { next }
    kind !~ /^(verdict|lone|differs|refused|sample|declined|notice)$/ { next }
    {
        if (feed + 0 > last) last = feed + 0
        what = kind
        if (kind == "refused") what = "refused by rule " $(from + 3)
        if (kind == "declined") what = "declined for reason " $(from + 3)
        if (!(what in order)) { order[what] = ++kinds; name[kinds] = what }
        count[feed, what]++
        all[feed]++
        if (kind == "verdict" || kind == "sample") good[feed]++
    }
    END {
        if (!kinds) {
            more = pulses ? ": this is a log, decode it first" : ""
            print "summary.sh: there is no entry" more > "/dev/stderr"
            exit 1
        }
        for (feed = 0; feed <= last; feed++) {
            if (!all[feed]) continue
            line = sprintf("feed %d: %d entries", feed, all[feed])
            for (i = 1; i <= kinds; i++) {
                number = count[feed, name[i]]
                if (number) line = line sprintf(", %d %s", number, name[i])
            }
            printf "%s; %.1f of a hundred give the time\n", line, 100 * good[feed] / all[feed]
        }
    }' "$@"

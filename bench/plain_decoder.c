/* A baseline for bench/decode.sh: decodes a DCF77 pulse log as a C programmer would who trusts its input, with a calendar of
 * its own. It reads 512 bytes at a time, keeps the marks of one minute, and tests what the program tests, but for the form of
 * lines. */
#include <fcntl.h>
#include <stdio.h>
#include <stdlib.h>
#include <string.h>
#include <unistd.h>

enum { ZERO, ONE, ODD };

struct mark { long at; int symbol; };

static struct mark marks[61];
static int count, is_open, started, spacing_broken, width_broken;
static long last;

static int bit(int place) { return place < count && marks[place].symbol == ONE; }

static int value(int place, const int *weights, int length) {
    int sum = 0;
    for (int i = 0; i < length; i++)
        if (bit(place + i)) sum += weights[i];
    return sum;
}

static const int weights[] = {1, 2, 4, 8, 10, 20, 40, 80};

static int is_odd(int first, int last) {
    int ones = 0;
    for (int place = first; place <= last; place++) ones += bit(place);
    return ones % 2;
}

/* Days from 1900-01-01 to a date, by days from 1 March of the year 0. */
static long day_number(int year, int month, int day) {
    int y = month <= 2 ? year - 1 : year, m = (month + 9) % 12;
    return 365L * y + y / 4 - y / 100 + y / 400 + (153 * m + 2) / 5 + day - 693902;
}

static int month_days(int year, int month) {
    static const int days[] = {31, 28, 31, 30, 31, 30, 31, 31, 30, 31, 30, 31};
    return days[month - 1] + (month == 2 && year % 4 == 0);
}

/* The second is the first of a month in UTC; all of them lie within one day of the date that the frame says. */
static int begins_month(long second, int year, int month) {
    return second == 86400 * day_number(year, month, 1)
        || second == 86400 * day_number(month == 12 ? year + 1 : year, month % 12 + 1, 1);
}

struct minute { long second, leap_at; };

/* The least number of a rule that is broken, or 0 and the minute. */
static int read_minute(struct minute *said) {
    if (spacing_broken) return 1;
    if (width_broken) return 2;
    if (count != 59 && count != 60) return 3;
    if (bit(0)) return 10;
    if (bit(17) == bit(18)) return 11;
    if (!bit(20)) return 12;
    if (is_odd(21, 28)) return 13;
    if (is_odd(29, 35)) return 14;
    if (is_odd(36, 58)) return 15;
    int minute = value(21, weights, 7), hour = value(29, weights, 6), day = value(36, weights, 6);
    int weekday = value(42, weights, 3), month = value(45, weights, 5), year = 2000 + value(50, weights, 8);
    if (value(21, weights, 4) > 9 || minute > 59) return 16;
    if (value(29, weights, 4) > 9 || hour > 23) return 17;
    if (value(36, weights, 4) > 9 || day < 1 || day > 31) return 18;
    if (weekday == 0) return 19;
    if (value(45, weights, 4) > 9 || month < 1 || month > 12) return 20;
    if (value(50, weights, 4) > 9 || value(54, weights, 4) > 9) return 21;
    if (day > month_days(year, month)) return 22;
    long days = day_number(year, month, day);
    if (weekday != days % 7 + 1) return 23;
    said->second = 86400 * days + 3600 * hour + 60 * minute - (bit(17) ? 7200 : 3600);
    if ((count == 60) != (bit(19) && begins_month(said->second, year, month)) || bit(59)) return 24;
    long midnight = (said->second + 86399) / 86400 * 86400;
    said->leap_at = bit(19) && begins_month(midnight, year, month) ? midnight : 0;
    return 0;
}

static struct minute before;
static long before_close;
static int before_valid;

static int is_near(long apart, long seconds) { return labs(apart - seconds * 1000000) <= 100000; }

static void judge(long close) {
    struct minute now;
    int rule = read_minute(&now);
    long apart = close - before_close;
    if (rule)
        printf("0 %ld refused %d\n", close, rule);
    else if (!before_valid)
        printf("0 %ld lone %ld\n", close, now.second);
    else if (now.second == before.second + 60 && (is_near(apart, 60) || (count == 60 && is_near(apart, 61))))
        printf("0 %ld verdict %ld %ld\n", close, now.second, now.leap_at == before.leap_at ? now.leap_at : 0);
    else
        printf("0 %ld differs %ld %ld %ld\n", close, before.second, now.second, apart);
    before_valid = !rule;
    before_close = close;
    if (!rule) before = now;
}

static void begin(long at, int symbol) {
    marks[0].at = at;
    marks[0].symbol = symbol;
    count = 1;
    spacing_broken = 0;
    width_broken = symbol == ODD;
}

static void pulse(long at, long width) {
    int symbol = width >= 40000 && width <= 149999 ? ZERO : width >= 150000 && width <= 260000 ? ONE : ODD;
    if (!started) {
        started = 1;
        begin(at, symbol);
    } else if (at >= last + 1900000 && at <= last + 2100000) {
        if (is_open) judge(at);
        is_open = 1;
        begin(at, symbol);
    } else {
        spacing_broken |= at < last + 900000 || at > last + 1100000;
        width_broken |= symbol == ODD;
        if (count < 61) {
            marks[count].at = at;
            marks[count++].symbol = symbol;
        }
    }
    last = at;
}

int main(int argc, char **argv) {
    static char piece[512];
    int decodes = argc > 1 && !strcmp(argv[1], "decode");
    int file = open(argv[2], O_RDONLY);
    long number = 0, at = 0, sum = 0;
    ssize_t length;
    while ((length = read(file, piece, sizeof piece)) > 0)
        for (ssize_t i = 0; i < length; i++) {
            char byte = piece[i];
            if (byte == ' ') {
                at = number;
                number = 0;
            } else if (byte == '\n') {
                if (decodes) pulse(at, number);
                else sum += at + number;
                number = 0;
            } else
                number = number * 10 + (byte - '0');
        }
    if (!decodes) printf("%ld\n", sum);
    else printf("status 0\n");
    return 0;
}

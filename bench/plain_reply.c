/* A baseline for bench/reply.sh: the same replies in plain C, from the same ten words. */
#include <stdint.h>
#include <stdio.h>
#include <stdlib.h>
#include <string.h>

static void put32(uint8_t *out, uint32_t n) { n = __builtin_bswap32(n); memcpy(out, &n, 4); }
static void put64(uint8_t *out, uint64_t n) { n = __builtin_bswap64(n); memcpy(out, &n, 8); }

/* A number of microseconds in units of 2^-32 s. */
static uint64_t span(uint64_t us) { return ((us / 1000000) << 32) + ((us % 1000000) << 32) / 1000000; }

/* What a rate comes to in that many microseconds, rounded down. */
static int64_t slew(int64_t rate, uint64_t us) {
    int64_t rest = rate * (int64_t)(us % 1000000);
    return rate * (int64_t)(us / 1000000) + rest / 1000000 - (rest % 1000000 < 0);
}

/* 15 parts per million of it, rounded up. */
static uint64_t phi(uint64_t us) { return us / 48828125 * (3 << 20) + (us % 48828125 * (3 << 20) + 48828124) / 48828125; }

/* Whether the words of a page that isn't synchronised say nothing more. */
static int is_blank(const uint64_t *w) {
    return w[1] == 0x494e4954 && w[5] == 0x00100000 && !(w[2] | w[4] | w[6] | w[7] | w[8] | w[9]);
}

/* Whether a second lies 1 to 86400 s after that of a span, whose high word has the carry of the sum. */
static int is_near(__int128 since, uint64_t leap_at) {
    int64_t second = (int64_t)(since >> 32);
    return second < (__int128)leap_at && leap_at <= (__int128)second + 86400;
}

__attribute__((noinline)) static int one_reply(const uint64_t *w, const uint8_t *in, size_t length, uint64_t at, uint8_t *out) {
    int64_t rate = (int64_t)w[9];
    if (rate < -2147483 || rate > 2147483 || w[8] >= 64 || w[3] >= 1ull << 50 || w[1] >> 41) return 0;
    if (!(w[1] >> 40) && !is_blank(w)) return 0;
    if (length < 48) return 0;
    int version = in[0] >> 3 & 7;
    if (version == 0 || version > 4 || (in[0] & 7) != 3) return 0;
    int good = w[1] >> 40 && at < w[4];
    int64_t grown = at > w[3] ? slew(rate, at - w[3]) : 0;
    uint64_t time = w[2] + span(at) + grown;
    int leap = good ? w[7] && is_near(((__int128)w[8] << 64) + w[2] + span(at) + grown, w[7]) : 3;
    out[0] = leap << 6 | version << 3 | 4;
    out[1] = good ? w[1] >> 32 : 0;
    out[2] = in[2];
    out[3] = (uint8_t)-20;
    uint64_t drift = at > w[3] ? phi(at - w[3]) : 0;
    uint64_t disp = ((w[5] & 0xffffffff) * 65536 + drift + 65535) / 65536;
    put32(out + 4, good ? w[5] >> 32 : 0);
    put32(out + 8, !good ? 0x00100000 : disp > 0xffffffff ? 0xffffffff : disp);
    put32(out + 12, good ? (uint32_t)w[1] : 0x494e4954);
    put64(out + 16, good ? w[6] : 0);
    memcpy(out + 24, in + 40, 8);
    put64(out + 32, time);
    put64(out + 40, time);
    return 1;
}

int main(int argc, char **argv) {
    uint64_t count = argc > 1 ? strtoull(argv[1], 0, 10) : 0, sum = 0;
    const uint64_t words[10] = {5, 0x010144434600, 17077896086183477248u, 302000000, 4364906902, 61542, 0xed00e13000000000, 0, 0, (uint64_t)-53687};
    uint8_t out[48] = {0};
    for (uint64_t i = 0; i < count; i++) {
        uint8_t in[48] = {0};
        in[0] = 0x23;
        in[47] = i % 256;
        uint64_t w[10];
        memcpy(w, words, sizeof w);
        w[5] = i % 60000;
        if (one_reply(w, in, 48, 303000000 + i % 1000000, out)) sum += out[47] + out[11];
    }
    printf("%llu\n", (unsigned long long)sum);
    return 0;
}

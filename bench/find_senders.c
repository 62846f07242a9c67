/* The first addresses that have one tag, and their places among the first groups of a table: how many, and of how many, by the
   hash of the kit's maps, whose seed is fixed. */
#include <stdint.h>
#include <stdio.h>
#include <stdlib.h>
static uint32_t hash(uint32_t ip) {
    unsigned __int128 product = (unsigned __int128)(0x243f6a8885a308d3u ^ (ip | (uint64_t)ip << 32)) * (0x9e3779b97f4a7c15u ^ 8);
    uint64_t folded = (uint64_t)product ^ (uint64_t)(product >> 64);
    return (uint32_t)(folded ^ folded >> 32);
}
int main(int argc, char **argv) {
    uint32_t groups = atoi(argv[1]), starts = atoi(argv[2]);
    long left = argc > 3 ? atol(argv[3]) : 0;
    for (uint64_t ip = 1; ip >> 32 == 0 && left > 0; ip++) {
        uint32_t word = (uint32_t)ip, h = hash(word);
        if (h >> 24 == 7 && (h & (groups - 1)) < starts) {
            fwrite(&word, 4, 1, stdout);
            left--;
        }
    }
}

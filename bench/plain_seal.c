/* A baseline for bench/seal.sh: MD5 of a key and a header by OpenSSL, once for a request and once for its reply. */
#include <openssl/md5.h>
#include <stdint.h>
#include <stdio.h>
#include <stdlib.h>
#include <string.h>
int main(int argc, char **argv) {
    uint64_t count = argc > 1 ? strtoull(argv[1], 0, 10) : 0, sum = 0;
    unsigned char message[56] = "longwave", digest[16];
    for (uint64_t i = 0; i < count; i++) {
        MD5(message, 56, digest);
        memcpy(message + 8, digest, 16);
        message[40] = i;
        MD5(message, 56, digest);
        sum += digest[15];
    }
    printf("%llu\n", (unsigned long long)sum);
}

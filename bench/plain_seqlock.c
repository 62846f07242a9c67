/* A sequence lock of ten words in plain C: one writer, which does a number of turns of nothing between two writings, and some readers
   that read a number of times each. Prints the nanoseconds a reading, how many tries of a hundred met a writing, and a number that keeps
   the loads from being left out. A reader tries until it succeeds. */
#include <pthread.h>
#include <stdatomic.h>
#include <stdint.h>
#include <stdio.h>
#include <stdlib.h>
#include <time.h>

static _Atomic uint64_t count;
static _Atomic uint64_t words[10];
static atomic_int done;
static uint64_t readings, turns;

struct tally {
    uint64_t sum, torn;
    double seconds;
};

static void write_once(uint64_t n)
{
    atomic_store(&count, 2 * n + 1);
    for (int i = 0; i < 10; i++)
        atomic_store(&words[i], n + i);
    atomic_store(&count, 2 * n + 2);
}

static uint64_t read_once(uint64_t *torn)
{
    for (;;) {
        uint64_t first = atomic_load(&count);
        uint64_t ten[10];
        if (first % 2 == 0) {
            for (int i = 0; i < 10; i++)
                ten[i] = atomic_load(&words[i]);
            if (atomic_load(&count) == first) {
                uint64_t sum = 0;
                for (int i = 0; i < 10; i++)
                    sum += ten[i];
                return sum;
            }
        }
        ++*torn;
    }
}

static void *writer(void *unused)
{
    (void)unused;
    for (uint64_t n = 0; !atomic_load(&done); n++) {
        write_once(n);
        for (volatile uint64_t i = 0; i < turns; i++)
            ;
    }
    return NULL;
}

static void *reader(void *given)
{
    struct tally *t = given;
    struct timespec from, to;
    clock_gettime(CLOCK_MONOTONIC, &from);
    for (uint64_t i = 0; i < readings; i++)
        t->sum += read_once(&t->torn);
    clock_gettime(CLOCK_MONOTONIC, &to);
    t->seconds = (to.tv_sec - from.tv_sec) + (to.tv_nsec - from.tv_nsec) / 1e9;
    return NULL;
}

int main(int argc, char **argv)
{
    int readers = argc > 1 ? atoi(argv[1]) : 1;
    readings = argc > 2 ? strtoull(argv[2], NULL, 10) : 1000000;
    turns = argc > 3 ? strtoull(argv[3], NULL, 10) : 0;
    pthread_t w, r[8];
    static struct tally t[8];
    pthread_create(&w, NULL, writer, NULL);
    for (int i = 0; i < readers; i++)
        pthread_create(&r[i], NULL, reader, &t[i]);
    double ns = 0;
    uint64_t torn = 0, sum = 0;
    for (int i = 0; i < readers; i++) {
        pthread_join(r[i], NULL);
        ns += t[i].seconds * 1e9 / readings / readers;
        torn += t[i].torn;
        sum += t[i].sum;
    }
    atomic_store(&done, 1);
    pthread_join(w, NULL);
    printf("%.0f %.2f %llu\n", ns, 100.0 * torn / (torn + readings * readers), (unsigned long long)(sum % 10));
    return 0;
}

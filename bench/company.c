/* A model of commits in company: threads that append, let others come, and sync a file for all that
 * has come (wal_log's commit). Between two commits each works for some microseconds, as a client of
 * the log does. It shows how many commits one sync makes durable.
 *
 * Build: gcc -O2 -pthread bench/company.c -o company
 * Usage: company THREADS COMMITS LOOKS STILL WORK FILE
 * LOOKS and STILL are `GATHERS` and `STILL` of crates/wal_log/src/flushing.rt (4 and 2), WORK is in
 * microseconds, and FILE lies on the disk that is measured. */
#define _GNU_SOURCE
#include <fcntl.h>
#include <pthread.h>
#include <sched.h>
#include <stdatomic.h>
#include <stdio.h>
#include <stdlib.h>
#include <time.h>
#include <unistd.h>

enum { MOST_THREADS = 64, PAGE = 8192, PAGES = 128, LOOKS_AT_FLUSHED = 64 };

static _Atomic unsigned long reserved, flushed, syncs;
static _Atomic int turn;
static int file, looks, still_wanted;
static long commits_each;
static double work;

static double now(void) {
    struct timespec time;
    clock_gettime(CLOCK_MONOTONIC, &time);
    return time.tv_sec + time.tv_nsec * 1e-9;
}

static void do_work(unsigned *seed) {
    double end = now() + work * 1e-6 * (0.5 + (rand_r(seed) % 1000) / 1000.0);
    while (now() < end)
        ;
}

/* Yields until nobody has reserved in so many yields in a row. */
static void gather(void) {
    unsigned long end = reserved;
    for (int look = 0, still = 0; look < looks; look++) {
        sched_yield();
        unsigned long seen = reserved;
        still = seen == end ? still + 1 : 0;
        if (still == still_wanted)
            return;
        end = seen;
    }
}

/* Writes and syncs, if nobody else does; tells whether the record is durable. */
static int try_flush(unsigned long upto) {
    static const char page[PAGE];
    unsigned long known = reserved;
    int nobody = 0;
    if (flushed >= upto)
        return 1;
    if (!atomic_compare_exchange_strong(&turn, &nobody, 1))
        return 0;
    if (flushed < upto) {
        if (pwrite(file, page, PAGE, known % PAGES * PAGE) != PAGE || fdatasync(file))
            abort();
        syncs++;
        flushed = known;
    }
    turn = 0;
    return 1;
}

static void *backend(void *number) {
    unsigned seed = (unsigned)(long)number;
    for (long commit = 0; commit < commits_each; commit++) {
        unsigned long known = 0;
        do_work(&seed);
        unsigned long upto = atomic_fetch_add(&reserved, 1) + 1;
        gather();
        while (!try_flush(upto)) {
            for (int look = 0; look < LOOKS_AT_FLUSHED && flushed == known; look++)
                sched_yield();
            known = flushed;
            if (known < upto)
                gather();
        }
    }
    return NULL;
}

int main(int count, char **words) {
    pthread_t threads[MOST_THREADS];
    static const char zeros[PAGES * PAGE];
    if (count != 7 || atoi(words[1]) < 1 || atoi(words[1]) > MOST_THREADS)
        return 2;
    long backends = atoi(words[1]);
    commits_each = atol(words[2]) / backends;
    looks = atoi(words[3]), still_wanted = atoi(words[4]), work = atof(words[5]);
    file = open(words[6], O_RDWR | O_CREAT, 0600);
    if (file < 0 || pwrite(file, zeros, sizeof zeros, 0) != sizeof zeros || fsync(file))
        return 1;
    double begin = now();
    for (long number = 0; number < backends; number++)
        pthread_create(&threads[number], NULL, backend, (void *)number);
    for (long number = 0; number < backends; number++)
        pthread_join(threads[number], NULL);
    double seconds = now() - begin, made = (double)commits_each * backends;
    printf("%.0f commits a second, %.2f a sync\n", made / seconds, made / syncs);
    return 0;
}

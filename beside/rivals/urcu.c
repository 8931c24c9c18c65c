/* The row read_pin_each by liburcu: all threads read a small value, and the first one replaces it.
 *
 * urcu THREADS TURNS ROUNDS prints what the Rust program beside it prints. */
#define _LGPL_SOURCE
#define URCU_API_MAP
#include <urcu/urcu-memb.h>
#include <pthread.h>
#include <stdatomic.h>
#include <stdint.h>
#include <stdio.h>
#include <stdlib.h>
#include <time.h>

/* After so many reads, the first thread replaces the value. */
#define READS 1024
#define MOST_THREADS 64

struct small {
    uint64_t words[4];
    struct rcu_head head;
};

static struct small *at;
static uint64_t threads, turns;
static _Atomic uint64_t ready, ended, longest;
static _Atomic uint64_t kept;

static struct small *small_of(uint64_t word) {
    struct small *made = malloc(sizeof *made);
    if (!made)
        abort();
    for (int index = 0; index < 4; index++)
        made->words[index] = word;
    return made;
}

static void free_small(struct rcu_head *head) {
    free(caa_container_of(head, struct small, head));
}

static uint64_t now(void) {
    struct timespec time;
    clock_gettime(CLOCK_MONOTONIC, &time);
    return time.tv_sec * 1000000000ull + time.tv_nsec;
}

static void arrive(_Atomic uint64_t *count) {
    atomic_fetch_add(count, 1);
    while (atomic_load(count) < threads)
        caa_cpu_relax();
}

static uint64_t reads(int is_first) {
    uint64_t sum = 0;
    for (uint64_t count = 0; count < turns / READS; count++) {
        for (int index = 0; index < READS; index++) {
            rcu_read_lock();
            const struct small *found = rcu_dereference(at);
            sum += found->words[0] + found->words[1] + found->words[2] + found->words[3];
            rcu_read_unlock();
        }
        if (is_first) {
            struct small *old = rcu_xchg_pointer(&at, small_of(count));
            call_rcu(&old->head, free_small);
        }
    }
    return sum;
}

static void *work(void *is_first) {
    rcu_register_thread();
    arrive(&ready);
    uint64_t start = now();
    atomic_fetch_add(&kept, reads(is_first != NULL));
    uint64_t took = now() - start, before = atomic_load(&longest);
    while (took > before && !atomic_compare_exchange_weak(&longest, &before, took)) {
    }
    arrive(&ended);
    rcu_unregister_thread();
    return NULL;
}

int main(int count, char **words) {
    if (count != 4) {
        fprintf(stderr, "usage: urcu THREADS TURNS ROUNDS\n");
        return 2;
    }
    threads = strtoull(words[1], NULL, 10);
    turns = strtoull(words[2], NULL, 10);
    if (threads < 1 || threads > MOST_THREADS || turns < READS) {
        fprintf(stderr, "from 1 to %d threads, and at least %d turns\n", MOST_THREADS, READS);
        return 2;
    }
    rcu_register_thread();
    at = small_of(1);
    uint64_t done = turns / READS * READS * threads;
    printf("%llu %llu", (unsigned long long)done, (unsigned long long)(turns * threads));
    for (uint64_t round = strtoull(words[3], NULL, 10); round > 0; round--) {
        pthread_t others[MOST_THREADS];
        ready = ended = longest = 0;
        for (uint64_t index = 1; index < threads; index++)
            if (pthread_create(&others[index], NULL, work, NULL))
                return 2;
        rcu_unregister_thread();
        work(&at);
        rcu_register_thread();
        for (uint64_t index = 1; index < threads; index++)
            pthread_join(others[index], NULL);
        printf(" %.2f", (double)longest / turns);
    }
    printf("\n");
    return 0;
}

/* S and X on one latch, one thread alone: ours, and pthread_rwlock. */
#define _POSIX_C_SOURCE 200809L
#include <stdio.h>
#include <time.h>

#include "bukhloem_wait.h"

enum { ROUNDS = 20000000 };

static double now(void) {
    struct timespec t;
    clock_gettime(CLOCK_MONOTONIC, &t);
    return (double)t.tv_sec + 1e-9 * (double)t.tv_nsec;
}

int main(void) {
    ib_space space = IB_SPACE_NONE;
    ib_session session = IB_SESSION_NONE;
    pthread_rwlock_t lock = PTHREAD_RWLOCK_INITIALIZER;
    uint32_t page = IB_LATCH_PAGE(5), bad = 0;
    if (ib_open(&space, 16, 8196, 1) || ib_connect(&space, &session)) return 2;
    for (int mode = 0; mode < 2; mode++) {
        double start = now();
        for (int i = 0; i < ROUNDS; i++) {
            bad |= (mode ? ib_try_x(&session, page, IB_LEVEL_TREE_NODE) : ib_try_s(&session, page, IB_LEVEL_TREE_NODE)).status;
            bad |= (mode ? ib_unlock_x(&session, page) : ib_unlock_s(&session, page)).status;
        }
        double ours = now() - start;
        start = now();
        for (int i = 0; i < ROUNDS; i++) {
            if (mode) pthread_rwlock_wrlock(&lock); else pthread_rwlock_rdlock(&lock);
            pthread_rwlock_unlock(&lock);
        }
        printf("%s and back: %.1f ns, pthread_rwlock %.1f ns\n", mode ? "X" : "S", ours / ROUNDS * 1e9, (now() - start) / ROUNDS * 1e9);
    }
    return bad || ib_disconnect(&space, &session) || ib_close(&space) || ib_free(&space);
}

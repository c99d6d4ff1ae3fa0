/* Eight threads take latches of one tree in S, SX and X, and a judge beside each latch looks whether what they were
 * told can be: an owner of X is alone, an owner of SX is alone but for readers. */
#include <stdatomic.h>
#include <stdio.h>
#include <stdlib.h>
#include <time.h>

#include "bukhloem_wait.h"

enum { THREADS = 8, PAGES = 16, LATCHES = PAGES + 2 };

static ib_parking parking;
static atomic_int readers[LATCHES], claims[LATCHES], owners[LATCHES];
static atomic_long illegal, grants;
static int seconds = 2;

static void judge(uint32_t latch, uint32_t mode, int step) {
    atomic_int *count = mode == IB_S ? readers : mode == IB_SX ? claims : owners;
    int before = atomic_fetch_add(&count[latch], step);
    int r = atomic_load(&readers[latch]), c = atomic_load(&claims[latch]), x = atomic_load(&owners[latch]);
    if (step > 0 && ((mode == IB_S && x) || (mode == IB_SX && (before || x)) || (mode == IB_X && (before || r || c))))
        atomic_fetch_add(&illegal, 1);
}

static void *run(void *handle) {
    ib_session *session = handle;
    unsigned seed = (unsigned)(size_t)session | 1u;
    time_t end = time(NULL) + seconds;
    while (time(NULL) < end) {
        for (int i = 0; i < 1000; i++) {
            seed = seed * 1664525u + 1013904223u;
            uint32_t latch = IB_LATCH_PAGE(1 + (seed >> 8) % 4), mode = (seed >> 20) % 8 == 0 ? IB_X : (seed >> 20) % 8 == 1 ? IB_SX : IB_S;
            if (ib_lock(&parking, session, latch, mode, IB_LEVEL_TREE_NODE) != IB_OK) { atomic_fetch_add(&illegal, 1); continue; }
            judge(latch, mode, 1);
            judge(latch, mode, -1);
            if (ib_unlock(&parking, session, latch, mode) != IB_OK) atomic_fetch_add(&illegal, 1);
            atomic_fetch_add(&grants, 1);
        }
    }
    return NULL;
}

int main(int count, char **words) {
    ib_space space = IB_SPACE_NONE;
    static ib_session sessions[THREADS];
    pthread_t threads[THREADS];
    if (count > 1) seconds = atoi(words[1]);
    ib_parking_init(&parking);
    if (ib_open(&space, PAGES, 8196, THREADS) != IB_OK) return 2;
    for (int i = 0; i < THREADS; i++) if (ib_connect(&space, &sessions[i]) != IB_OK) return 2;
    for (int i = 0; i < THREADS; i++) pthread_create(&threads[i], NULL, run, &sessions[i]);
    for (int i = 0; i < THREADS; i++) pthread_join(threads[i], NULL);
    for (int i = 0; i < THREADS; i++) if (ib_disconnect(&space, &sessions[i]) != IB_OK) return 2;
    if (ib_close(&space) != IB_OK || ib_free(&space) != IB_OK) return 2;
    ib_parking_destroy(&parking);
    printf("%ld grants, %ld illegal\n", atomic_load(&grants), atomic_load(&illegal));
    return atomic_load(&illegal) != 0;
}

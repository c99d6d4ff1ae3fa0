/* Latches that block, over bukhloem.h: a mutex and a condition for each of some stripes of latches. Whoever is refused
 * sleeps on its latch's condition while the generation that it recorded stands; whoever raised a generation wakes all.
 * No wake of these calls is lost: the sleeper looks at the generation under the mutex, and the waker takes the mutex after the
 * raise. The calls on the index raise generations too, and wake nobody: a sleeper looks again after a millisecond. */
#ifndef BUKHLOEM_WAIT_H
#define BUKHLOEM_WAIT_H

#include <pthread.h>
#include <sched.h>
#include <time.h>

#include "bukhloem.h"

#define IB_STRIPES 64

typedef struct ib_parking {
    struct { pthread_mutex_t mutex; pthread_cond_t wake; } at[IB_STRIPES];
} ib_parking;

static inline void ib_parking_init(ib_parking *p) {
    for (int i = 0; i < IB_STRIPES; i++) {
        pthread_mutex_init(&p->at[i].mutex, NULL);
        pthread_cond_init(&p->at[i].wake, NULL);
    }
}

static inline void ib_parking_destroy(ib_parking *p) {
    for (int i = 0; i < IB_STRIPES; i++) {
        pthread_cond_destroy(&p->at[i].wake);
        pthread_mutex_destroy(&p->at[i].mutex);
    }
}

/* Sleeps while the generation stands that the session recorded. IB_OK once it does not, or why the look was refused. */
static inline uint32_t ib_park(ib_parking *p, ib_session *s, uint32_t latch) {
    uint32_t status;
    pthread_mutex_lock(&p->at[latch % IB_STRIPES].mutex);
    while ((status = ib_look(s, latch).status) == IB_ASLEEP) {
        struct timespec until;
        timespec_get(&until, TIME_UTC);
        until.tv_nsec += 1000000;
        if (until.tv_nsec >= 1000000000) until.tv_sec++, until.tv_nsec -= 1000000000;
        pthread_cond_timedwait(&p->at[latch % IB_STRIPES].wake, &p->at[latch % IB_STRIPES].mutex, &until);
    }
    pthread_mutex_unlock(&p->at[latch % IB_STRIPES].mutex);
    return status;
}

/* Wakes who sleeps on a generation that a release raised. Its status is handed on. */
static inline uint32_t ib_wake(ib_parking *p, uint32_t latch, ib_released done) {
    if (done.status == IB_OK && done.raised != IB_RAISED_NOTHING) {
        pthread_mutex_lock(&p->at[latch % IB_STRIPES].mutex);
        pthread_cond_broadcast(&p->at[latch % IB_STRIPES].wake);
        pthread_mutex_unlock(&p->at[latch % IB_STRIPES].mutex);
    }
    return done.status;
}

/* A next writer waits until it owns X. */
static inline uint32_t ib_await_x(ib_parking *p, ib_session *s, uint32_t latch) {
    for (;;) {
        uint32_t status = ib_arm_next(s, latch).status;
        if (status != IB_OK) return status;
        status = ib_verify(s, latch).status;
        if (status != IB_NOT_READY) return status;
        status = ib_park(p, s, latch);
        if (status != IB_OK) return status;
        status = ib_ready_x(s, latch).status;
        if (status != IB_NOT_READY) return status;
    }
}

/* One round of a session that was refused: it records its wish, tries once more, and sleeps. IB_RACED to begin anew. */
static inline uint32_t ib_round(ib_parking *p, ib_session *s, uint32_t latch, uint32_t mode, uint32_t level) {
    uint32_t status = ib_arm(s, latch, mode, level).status;
    if (status != IB_OK) return status;
    status = ib_recheck(s, latch).status;
    if (status == IB_RACED) return ib_stand_down(s, latch) == IB_OK ? (uint32_t)IB_RACED : (uint32_t)IB_WRONG_PHASE;
    if (status != IB_BUSY) return status;
    status = ib_park(p, s, latch);
    return status == IB_OK ? (uint32_t)IB_RACED : status;
}

/* Takes S, SX or X, and waits until it is granted: IB_OK, or why it is not allowed. */
static inline uint32_t ib_lock(ib_parking *p, ib_session *s, uint32_t latch, uint32_t mode, uint32_t level) {
    for (int spins = 0;; spins++) {
        uint32_t status = mode == IB_S ? ib_try_s(s, latch, level).status
                        : mode == IB_SX ? ib_try_sx(s, latch, level).status
                                        : ib_reserve_x(s, latch, level).status;
        if (status == IB_BUSY && spins >= 30) status = ib_round(p, s, latch, mode, level);
        if (status == IB_NEXT) return ib_await_x(p, s, latch);
        if (status != IB_BUSY && status != IB_RACED) return status;
        if (spins % 8 == 7) sched_yield();
    }
}

static inline uint32_t ib_unlock(ib_parking *p, ib_session *s, uint32_t latch, uint32_t mode) {
    return ib_wake(p, latch, mode == IB_S ? ib_unlock_s(s, latch) : mode == IB_SX ? ib_unlock_sx(s, latch) : ib_unlock_x(s, latch));
}

#endif

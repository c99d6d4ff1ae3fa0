/* Eight threads look up, insert, delete and scan on one tree for some seconds. Each writes its commands and what it was told into
 * FOLDER/session.N, as bench/judge.py reads them; in the end the log goes to FOLDER/log, the words of the pages to FOLDER/pages,
 * and to FOLDER/map what the library makes of the log. judge_tree.py judges all of it. Words: FOLDER, and for how many seconds (2). */
#define _POSIX_C_SOURCE 200809L
#include <ctype.h>
#include <pthread.h>
#include <sched.h>
#include <stdio.h>
#include <stdlib.h>
#include <time.h>

#include "bukhloem.h"

enum { THREADS = 8, PAGES = 4096, LOG = 16777216, KEYS = 4000, A_SECOND = 6000, CHUNKS = 64, PAIRS = 2048 };

static const char *folder;
static int seconds = 2;

typedef struct { int number; ib_session session; long calls, refused; FILE *told; } worker;

static void tell(FILE *f, const ib_answered *a) {
    switch (a->reply) {
    case IB_FOUND: fprintf(f, "%llu", (unsigned long long)a->value); break;
    case IB_NOT_FOUND: fputs("none", f); break;
    case IB_INSERTED: fputs("inserted", f); break;
    case IB_DUPLICATE: fputs("duplicate", f); break;
    case IB_DELETED: fprintf(f, "deleted %llu", (unsigned long long)a->value); break;
    case IB_MISSING: fputs("missing", f); break;
    case IB_TOO_HIGH: fputs("too high", f); break;
    case IB_SPACE_FULL: fprintf(f, "space full free %u need %u", a->free, a->need); break;
    default: fprintf(f, "log full used %u cap %u", a->used, a->cap);
    }
    fprintf(f, " at %u\n", a->place);
}

/* A key as bench/keys.py spells it: as it is where it is letters, digits, `_` or `.`, and else its bytes in hexadecimal digits. */
static void name(FILE *f, uint64_t first, uint64_t second) {
    uint8_t key[IB_KEY_BYTES];
    size_t length = ib_key_bytes(first, second, key);
    int plain = length > 0;
    for (size_t i = 0; i < length; i++) plain &= isalnum(key[i]) || key[i] == '_' || key[i] == '.';
    if (plain) {
        fwrite(key, 1, length, f);
        return;
    }
    fputs("x:", f);
    for (size_t i = 0; i < length; i++) fprintf(f, "%02x", key[i]);
}

/* One lookup, insert, delete or scan, which is tried until each latch is had. */
static void one(worker *w, unsigned dice) {
    char key[16], high[16];
    int length = sprintf(key, "k%04u", dice % KEYS), kind = dice / KEYS % 16;
    ib_answered a;
    if (kind == 15) {
        uint64_t chunks[CHUNKS * IB_CHUNK_WORDS], pairs[PAIRS * IB_PAIR_WORDS];
        unsigned last = dice % KEYS + dice / KEYS / 16 % 60;
        ib_scanned s;
        int high_length = sprintf(high, "k%04u", last < KEYS ? last : KEYS - 1);
        while ((s = ib_scan_nowait(&w->session, (uint8_t *)key, length, (uint8_t *)high, high_length, chunks, CHUNKS, pairs, PAIRS)).status != IB_OK) {
            if (s.status != IB_BUSY && s.status != IB_RACED) exit(2);
            w->refused++;
            sched_yield();
        }
        fprintf(w->told, "scan %s %s -> %u pairs\n", key, high, s.pairs);
        for (uint32_t c = 0, p = 0; c < s.chunks; c++) {
            uint64_t *chunk = chunks + c * IB_CHUNK_WORDS;
            fputs("from ", w->told), name(w->told, chunk[0], chunk[1]);
            fputs(" to ", w->told), name(w->told, chunk[2], chunk[3]);
            fprintf(w->told, " at %llu\n", (unsigned long long)chunk[4]);
            for (uint64_t n = 0; n < chunk[5]; n++, p++) {
                fputs("pair ", w->told), name(w->told, pairs[p * IB_PAIR_WORDS], pairs[p * IB_PAIR_WORDS + 1]);
                fprintf(w->told, " %llu\n", (unsigned long long)pairs[p * IB_PAIR_WORDS + 2]);
            }
        }
        return;
    }
    for (;;) {
        a = kind < 9 ? ib_get_nowait(&w->session, (uint8_t *)key, length)
          : kind < 12 ? ib_insert_nowait(&w->session, (uint8_t *)key, length, dice)
                      : ib_delete_nowait(&w->session, (uint8_t *)key, length);
        if (a.status == IB_OK) break;
        if (a.status != IB_BUSY && a.status != IB_RACED) exit(2);
        w->refused++;
        sched_yield();
    }
    if (kind < 9) fprintf(w->told, "get %s -> ", key);
    else if (kind < 12) fprintf(w->told, "insert %s %u -> ", key, dice);
    else fprintf(w->told, "delete %s -> ", key);
    tell(w->told, &a);
}

static double now(void) {
    struct timespec t;
    clock_gettime(CLOCK_MONOTONIC, &t);
    return (double)t.tv_sec + 1e-9 * (double)t.tv_nsec;
}

/* So many calls a second at most, so that every one can be judged. */
static void *run(void *at) {
    worker *w = at;
    unsigned long long seed = 88172645463325252ull + (unsigned)w->number;
    double start = now();
    while (now() < start + seconds) {
        for (int i = 0; i < 100; i++, w->calls++) {
            seed ^= seed << 13, seed ^= seed >> 7, seed ^= seed << 17;
            one(w, (unsigned)(seed >> 20) & 0x7fffffff);
        }
        while (now() < start + seconds && w->calls > (now() - start) * A_SECOND) nanosleep(&(struct timespec){0, 1000000}, NULL);
    }
    return NULL;
}

static FILE *file(const char *what, int number) {
    char path[4096];
    snprintf(path, sizeof path, number ? "%s/%s.%d" : "%s/%s", folder, what, number);
    FILE *f = fopen(path, "w");
    if (!f) exit(2);
    return f;
}

static void put(FILE *f, const uint64_t *words, size_t count) {
    for (size_t i = 0; i < count; i++)
        for (int shift = 56; shift >= 0; shift -= 8) fputc((int)(words[i] >> shift & 255), f);
    fclose(f);
}

/* The words of the log as a log file, and those of the pages. Not 0 where the library's own test does not take the pages. */
static int write_words(ib_space *space) {
    uint32_t used = ib_log_words(space, 0, NULL, 0).used;
    uint64_t *log = malloc(sizeof *log * (used + 2u)), *pages = malloc(sizeof *pages * PAGES * IB_PAGE_WORDS);
    if (!log || !pages || ib_log_words(space, 0, log + 2, used).status != IB_OK) return 2;
    log[0] = IB_LOG_FORM, log[1] = PAGES;
    for (uint32_t page = 0; page < PAGES; page++)
        if (ib_page_words(space, page, pages + (size_t)page * IB_PAGE_WORDS, IB_PAGE_WORDS).status != IB_OK) return 2;
    put(file("log", 0), log, used + 2u), put(file("pages", 0), pages, (size_t)PAGES * IB_PAGE_WORDS);
    int bad = ib_check_tree(pages, (size_t)PAGES * IB_PAGE_WORDS) != IB_OK;
    free(log), free(pages);
    return bad;
}

/* The map that the library makes of the log file, a line for each pair. */
static int write_map(void) {
    char path[4096];
    snprintf(path, sizeof path, "%s/log", folder);
    FILE *in = fopen(path, "r"), *f = file("map", 0);
    if (!in || fseek(in, 0, SEEK_END)) return 2;
    size_t size = (size_t)ftell(in), room = KEYS * IB_PAIR_WORDS;
    uint8_t *bytes = malloc(size);
    uint64_t *pairs = malloc(sizeof *pairs * room);
    rewind(in);
    if (!bytes || !pairs || fread(bytes, 1, size, in) != size) return 2;
    ib_replayed r = ib_replay(bytes, size, pairs, room);
    for (uint32_t i = 0; r.status == IB_OK && i < r.pairs; i++) {
        name(f, pairs[i * IB_PAIR_WORDS], pairs[i * IB_PAIR_WORDS + 1]);
        fprintf(f, " %llu\n", (unsigned long long)pairs[i * IB_PAIR_WORDS + 2]);
    }
    fclose(in), fclose(f), free(bytes), free(pairs);
    return r.status != IB_OK;
}

int main(int count, char **words) {
    static worker workers[THREADS];
    ib_space space = IB_SPACE_NONE;
    pthread_t threads[THREADS];
    long calls = 0, refused = 0;
    if (count < 2) return 2;
    folder = words[1];
    if (count > 2) seconds = atoi(words[2]);
    if (ib_open(&space, PAGES, LOG, THREADS) != IB_OK) return 2;
    /* A new space gives its sessions from the greatest number down: so they stand in the log. */
    for (int i = 0; i < THREADS; i++) {
        workers[i].number = THREADS - i;
        workers[i].told = file("session", workers[i].number);
        if (ib_connect(&space, &workers[i].session) != IB_OK) return 2;
    }
    for (int i = 0; i < THREADS; i++) pthread_create(&threads[i], NULL, run, &workers[i]);
    for (int i = 0; i < THREADS; i++) pthread_join(threads[i], NULL);
    for (int i = 0; i < THREADS; i++) {
        if (ib_disconnect(&space, &workers[i].session) != IB_OK) return 2;
        fclose(workers[i].told);
        calls += workers[i].calls, refused += workers[i].refused;
    }
    if (ib_close(&space) != IB_OK || write_words(&space) || ib_free(&space) != IB_OK || write_map()) return 2;
    printf("%ld calls, and %ld that were refused a latch\n", calls, refused);
    return 0;
}

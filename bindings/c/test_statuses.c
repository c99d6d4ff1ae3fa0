/* Each call with wrong arguments of every kind: a status, and nothing is changed. */
#include <stdio.h>
#include <stdlib.h>
#include <string.h>

#include "bukhloem_wait.h"

static int tests, failures;

static void is(const char *what, uint32_t got, uint32_t wanted) {
    tests++;
    if (got != wanted) {
        failures++;
        printf("%s: %u where %u is wanted\n", what, got, wanted);
    }
}

#define PAGE IB_LATCH_PAGE(5)
#define NODE IB_LEVEL_TREE_NODE

static void opens(void) {
    ib_space s = IB_SPACE_NONE;
    is("open null", ib_open(NULL, 16, 8196, 1), IB_NULL);
    is("open 15 pages", ib_open(&s, 15, 8196, 1), IB_BAD_PAGES);
    is("open 4097 pages", ib_open(&s, 4097, 8196, 1), IB_BAD_PAGES);
    is("open 8195 words", ib_open(&s, 16, 8195, 1), IB_BAD_LOG);
    is("open 16777217 words", ib_open(&s, 16, 16777217, 1), IB_BAD_LOG);
    is("open no session", ib_open(&s, 16, 8196, 0), IB_BAD_SESSIONS);
    is("open 1025 sessions", ib_open(&s, 16, 8196, 1025), IB_BAD_SESSIONS);
    is("close empty", ib_close(&s), IB_NO_HANDLE);
    is("free empty", ib_free(&s), IB_NO_HANDLE);
    is("open", ib_open(&s, 16, 8196, 2), IB_OK);
    is("open again", ib_open(&s, 16, 8196, 2), IB_IN_USE);
    is("free open", ib_free(&s), IB_WRONG_STATE);
    is("close", ib_close(&s), IB_OK);
    is("close again", ib_close(&s), IB_WRONG_STATE);
    ib_session a = IB_SESSION_NONE;
    is("connect closed", ib_connect(&s, &a), IB_WRONG_STATE);
    is("free", ib_free(&s), IB_OK);
    is("free again", ib_free(&s), IB_NO_HANDLE);
}

/* A closed space's log, of which nothing was written: it has no words. */
static void log_words(void) {
    ib_space s = IB_SPACE_NONE;
    uint64_t words[2] = {7, 7};
    is("log of null", ib_log_words(NULL, 0, words, 1).status, IB_NULL);
    is("log to null", ib_log_words(&s, 0, NULL, 1).status, IB_NULL);
    is("log of empty", ib_log_words(&s, 0, words, 1).status, IB_NO_HANDLE);
    is("open", ib_open(&s, 16, 8196, 1), IB_OK);
    is("log of open", ib_log_words(&s, 0, words, 1).status, IB_WRONG_STATE);
    is("close", ib_close(&s), IB_OK);
    is("no words", ib_log_words(&s, 0, NULL, 0).status, IB_OK);
    is("so many", ib_log_words(&s, 0, words, 0).used, 0);
    is("one word", ib_log_words(&s, 0, words, 1).status, IB_BAD_RANGE);
    is("from 2^32-1", ib_log_words(&s, 4294967295u, words, 2).status, IB_BAD_RANGE);
    is("nothing copied", words[0] == 7 && words[1] == 7, 1);
    is("free", ib_free(&s), IB_OK);
}

static void connects(void) {
    ib_space s = IB_SPACE_NONE, t = IB_SPACE_NONE;
    ib_session a = IB_SESSION_NONE, b = IB_SESSION_NONE, c = IB_SESSION_NONE;
    is("connect null", ib_connect(NULL, &a), IB_NULL);
    is("connect empty", ib_connect(&s, &a), IB_NO_HANDLE);
    is("open", ib_open(&s, 16, 8196, 2), IB_OK);
    is("open other", ib_open(&t, 16, 8196, 2), IB_OK);
    is("connect to null", ib_connect(&s, NULL), IB_NULL);
    is("connect", ib_connect(&s, &a), IB_OK);
    is("connect in use", ib_connect(&s, &a), IB_IN_USE);
    is("connect second", ib_connect(&s, &b), IB_OK);
    is("connect third", ib_connect(&s, &c), IB_NO_SESSION_LEFT);
    is("close connected", ib_close(&s), IB_CONNECTED);
    is("disconnect null", ib_disconnect(NULL, &a), IB_NULL);
    is("disconnect empty", ib_disconnect(&s, &c), IB_NO_HANDLE);
    is("disconnect of another", ib_disconnect(&t, &a), IB_OTHER_SPACE);
    is("take", ib_try_s(&a, PAGE, NODE).status, IB_OK);
    is("disconnect a holder", ib_disconnect(&s, &a), IB_NOT_ALLOWED);
    is("give", ib_unlock_s(&a, PAGE).status, IB_OK);
    is("disconnect", ib_disconnect(&s, &a), IB_OK);
    is("disconnect again", ib_disconnect(&s, &a), IB_NO_HANDLE);
    is("connect after", ib_connect(&s, &c), IB_OK);
    is("disconnect c", ib_disconnect(&s, &c), IB_OK);
    is("disconnect b", ib_disconnect(&s, &b), IB_OK);
    is("close", ib_close(&s), IB_OK);
    is("free", ib_free(&s), IB_OK);
    is("close other", ib_close(&t), IB_OK);
    is("free other", ib_free(&t), IB_OK);
}

static void wishes(ib_session *a, ib_session *b) {
    ib_session none = IB_SESSION_NONE;
    is("try_s null", ib_try_s(NULL, PAGE, NODE).status, IB_NULL);
    is("try_s empty", ib_try_s(&none, PAGE, NODE).status, IB_NO_HANDLE);
    is("try_s latch", ib_try_s(a, 18, NODE).status, IB_BAD_LATCH);
    is("try_s latch 2^32-1", ib_try_s(a, 4294967295u, NODE).status, IB_BAD_LATCH);
    is("try_s level 0", ib_try_s(a, PAGE, 0).status, IB_BAD_LEVEL);
    is("try_s level 6", ib_try_s(a, PAGE, 6).status, IB_BAD_LEVEL);
    is("unlock_s not held", ib_unlock_s(a, PAGE).status, IB_NOT_HELD);
    is("unlock_sx not held", ib_unlock_sx(a, PAGE).status, IB_NOT_HELD);
    is("unlock_x not held", ib_unlock_x(a, PAGE).status, IB_NOT_HELD);
    is("unlock_x latch", ib_unlock_x(a, 18).status, IB_BAD_LATCH);
    is("ready_x", ib_ready_x(a, PAGE).status, IB_WRONG_PHASE);
    is("ready_x latch", ib_ready_x(a, 18).status, IB_BAD_LATCH);
    is("take S", ib_try_s(a, PAGE, NODE).status, IB_OK);
    is("take S twice", ib_try_s(a, PAGE, NODE).status, IB_NOT_ALLOWED);
    is("X beside S", ib_try_x(a, PAGE, NODE).status, IB_NOT_ALLOWED);
    is("level above", ib_try_s(a, IB_LATCH_INDEX, IB_LEVEL_INDEX_TREE).status, IB_NOT_ALLOWED);
    ib_tried busy = ib_try_x(b, PAGE, NODE);
    is("X beside another's S", busy.status, IB_BUSY);
    is("its word", (uint32_t)busy.found, 0x20000000 - 1);
    is("SX beside S", ib_try_sx(b, PAGE, NODE).status, IB_OK);
    is("try X beside own SX", ib_try_x(b, PAGE, NODE).status, IB_NOT_ALLOWED);
    is("reserve X beside own SX", ib_reserve_x(b, PAGE, NODE).status, IB_NEXT);
    is("next writer takes none", ib_try_s(b, IB_LATCH_PAGE(6), NODE).status, IB_NOT_ALLOWED);
    is("next writer gives none", ib_unlock_sx(b, PAGE).status, IB_WRONG_PHASE);
    is("not ready", ib_ready_x(b, PAGE).status, IB_NOT_READY);
    ib_released last = ib_unlock_s(a, PAGE);
    is("last reader", last.status, IB_OK);
    is("raises", last.raised, IB_RAISED_EX_GENERATION);
    is("to 1", (uint32_t)last.generation, 1);
    is("ready", ib_ready_x(b, PAGE).status, IB_OK);
    is("X again", ib_try_x(b, PAGE, NODE).status, IB_OK);
    is("X back", ib_unlock_x(b, PAGE).status, IB_OK);
    is("X back again", ib_unlock_x(b, PAGE).status, IB_OK);
    is("SX back", ib_unlock_sx(b, PAGE).status, IB_OK);
    is("nothing left", ib_unlock_x(b, PAGE).status, IB_NOT_HELD);
}

static void readers(ib_session *a, ib_session *b) {
    ib_session none = IB_SESSION_NONE;
    is("word null", ib_word(NULL, PAGE).status, IB_NULL);
    is("word empty", ib_word(&none, PAGE).status, IB_NO_HANDLE);
    is("word latch", ib_word(a, 18).status, IB_BAD_LATCH);
    is("word", ib_word(a, PAGE).status, IB_OK);
    is("of a free latch", (uint32_t)ib_word(a, PAGE).word, 0x20000000);
    is("held null", ib_held(NULL).status, IB_NULL);
    is("held empty", ib_held(&none).status, IB_NO_HANDLE);
    is("held", ib_held(a).status, IB_OK);
    is("nothing held", (uint32_t)ib_held(a).grants, 0);
    is("counts null", ib_counts(NULL, PAGE).status, IB_NULL);
    is("counts empty", ib_counts(&none, PAGE).status, IB_NO_HANDLE);
    is("counts latch", ib_counts(a, 18).status, IB_BAD_LATCH);
    is("phase null", ib_phase(NULL).status, IB_NULL);
    is("phase empty", ib_phase(&none).status, IB_NO_HANDLE);
    is("phase", ib_phase(a).phase, IB_PHASE_FREE);
    is("may_take null", ib_may_take(NULL, PAGE, IB_S, NODE), IB_NULL);
    is("may_take empty", ib_may_take(&none, PAGE, IB_S, NODE), IB_NO_HANDLE);
    is("may_take latch", ib_may_take(a, 18, IB_S, NODE), IB_BAD_LATCH);
    is("may_take mode", ib_may_take(a, PAGE, 3, NODE), IB_BAD_MODE);
    is("may_take level", ib_may_take(a, PAGE, IB_X, 0), IB_BAD_LEVEL);
    for (uint32_t mode = IB_S; mode <= IB_X; mode++) is("may_take", ib_may_take(a, PAGE, mode, NODE), IB_OK);
    is("take S", ib_try_s(a, PAGE, NODE).status, IB_OK);
    is("one held", (uint32_t)ib_held(a).grants, 1);
    is("one S", (uint32_t)ib_counts(a, PAGE).s, 1);
    is("S again", ib_may_take(a, PAGE, IB_S, NODE), IB_NOT_ALLOWED);
    is("X beside S", ib_may_take(a, PAGE, IB_X, NODE), IB_NOT_ALLOWED);
    is("level above", ib_may_take(a, IB_LATCH_INDEX, IB_S, IB_LEVEL_INDEX_TREE), IB_NOT_ALLOWED);
    is("one reader", (uint32_t)ib_word(b, PAGE).word, 0x20000000 - 1);
    is("reserve", ib_reserve_x(b, PAGE, NODE).status, IB_NEXT);
    is("next", ib_phase(b).phase, IB_PHASE_NEXT);
    is("of the page", ib_phase(b).latch, PAGE);
    is("one X", (uint32_t)ib_counts(b, PAGE).x, 1);
    is("no look", ib_word(b, PAGE).status, IB_WRONG_PHASE);
    is("S back", ib_unlock_s(a, PAGE).raised, IB_RAISED_EX_GENERATION);
    is("ready", ib_ready_x(b, PAGE).status, IB_OK);
    is("X more", ib_may_take(b, PAGE, IB_X, NODE), IB_OK);
    is("SX beside X", ib_try_sx(b, PAGE, NODE).status, IB_OK);
    is("one SX", (uint32_t)ib_counts(b, PAGE).sx, 1);
    is("X back", ib_unlock_x(b, PAGE).status, IB_OK);
    is("SX back", ib_unlock_sx(b, PAGE).status, IB_OK);
}

#ifndef IB_NO_WAITS
static void waits(ib_session *a, ib_session *b) {
    is("arm latch", ib_arm(a, 18, IB_S, NODE).status, IB_BAD_LATCH);
    is("arm mode", ib_arm(a, PAGE, 3, NODE).status, IB_BAD_MODE);
    is("arm level", ib_arm(a, PAGE, IB_S, 0).status, IB_BAD_LEVEL);
    is("recheck", ib_recheck(a, PAGE).status, IB_WRONG_PHASE);
    is("stand_down", ib_stand_down(a, PAGE), IB_WRONG_PHASE);
    is("look", ib_look(a, PAGE).status, IB_WRONG_PHASE);
    is("arm_next", ib_arm_next(a, PAGE).status, IB_WRONG_PHASE);
    is("verify", ib_verify(a, PAGE).status, IB_WRONG_PHASE);
    is("take X", ib_try_x(b, PAGE, NODE).status, IB_OK);
    is("arm", ib_arm(a, PAGE, IB_S, NODE).status, IB_OK);
    is("recheck busy", ib_recheck(a, PAGE).status, IB_BUSY);
    is("asleep", ib_look(a, PAGE).status, IB_ASLEEP);
    ib_released done = ib_unlock_x(b, PAGE);
    is("raised", done.raised, IB_RAISED_GENERATION);
    is("awake", ib_look(a, PAGE).status, IB_OK);
    is("free again", ib_try_s(a, PAGE, NODE).status, IB_OK);
    is("reserve", ib_reserve_x(b, PAGE, NODE).status, IB_NEXT);
    is("arm_next", ib_arm_next(b, PAGE).status, IB_OK);
    is("verify not", ib_verify(b, PAGE).status, IB_NOT_READY);
    is("next asleep", ib_look(b, PAGE).status, IB_ASLEEP);
    is("ex raised", ib_unlock_s(a, PAGE).raised, IB_RAISED_EX_GENERATION);
    is("next awake", ib_look(b, PAGE).status, IB_OK);
    is("next ready", ib_ready_x(b, PAGE).status, IB_OK);
    is("X back", ib_unlock_x(b, PAGE).status, IB_OK);
    is("arm more", ib_arm(a, PAGE, IB_X, NODE).status, IB_OK);
    is("stand down", ib_stand_down(a, PAGE), IB_OK);
}
#endif

static const uint8_t seven[] = "seven", long_key[] = "sixteen bytes ..";

static ib_answered get(ib_session *s, const char *key) { return ib_get_nowait(s, (const uint8_t *)key, strlen(key)); }
static ib_answered insert(ib_session *s, const char *key, uint64_t value) {
    return ib_insert_nowait(s, (const uint8_t *)key, strlen(key), value);
}
static ib_answered delete(ib_session *s, const char *key) { return ib_delete_nowait(s, (const uint8_t *)key, strlen(key)); }

/* The status and the reply of a call, and that nothing else is told of a refusal. */
static void answers(const char *what, ib_answered got, uint32_t status, uint32_t reply) {
    is(what, got.status, status);
    is(what, got.reply, reply);
    if (status >= 16) is(what, got.value || got.place || got.latch || got.expected || got.found || got.used || got.cap || got.free || got.need, 0);
}

static void wrong_calls(ib_session *a) {
    ib_session none = IB_SESSION_NONE;
    answers("get null", ib_get_nowait(NULL, seven, 5), IB_NULL, IB_NO_REPLY);
    answers("insert null", ib_insert_nowait(NULL, seven, 5, 7), IB_NULL, IB_NO_REPLY);
    answers("delete null", ib_delete_nowait(NULL, seven, 5), IB_NULL, IB_NO_REPLY);
    answers("get key null", ib_get_nowait(a, NULL, 1), IB_NULL, IB_NO_REPLY);
    answers("insert key null", ib_insert_nowait(a, NULL, 1, 7), IB_NULL, IB_NO_REPLY);
    answers("delete key null", ib_delete_nowait(a, NULL, 1), IB_NULL, IB_NO_REPLY);
    answers("get empty", get(&none, "seven"), IB_NO_HANDLE, IB_NO_REPLY);
    answers("insert empty", insert(&none, "seven", 7), IB_NO_HANDLE, IB_NO_REPLY);
    answers("delete empty", delete(&none, "seven"), IB_NO_HANDLE, IB_NO_REPLY);
    answers("get 16 bytes", ib_get_nowait(a, long_key, 16), IB_BAD_KEY, IB_NO_REPLY);
    answers("insert 16 bytes", ib_insert_nowait(a, long_key, 16, 7), IB_BAD_KEY, IB_NO_REPLY);
    answers("delete 16 bytes", ib_delete_nowait(a, long_key, 16), IB_BAD_KEY, IB_NO_REPLY);
}

/* A session that holds something, waits or is a next writer makes no call. */
static void busy_callers(ib_session *a, ib_session *b) {
    is("take S", ib_try_s(a, PAGE, NODE).status, IB_OK);
    answers("get beside S", get(a, "seven"), IB_NOT_ALLOWED, IB_NO_REPLY);
    answers("insert beside S", insert(a, "seven", 7), IB_NOT_ALLOWED, IB_NO_REPLY);
    answers("delete beside S", delete(a, "seven"), IB_NOT_ALLOWED, IB_NO_REPLY);
    is("reserve X", ib_reserve_x(b, PAGE, NODE).status, IB_NEXT);
    answers("get of a next writer", get(b, "seven"), IB_NOT_ALLOWED, IB_NO_REPLY);
    answers("insert of a next writer", insert(b, "seven", 7), IB_NOT_ALLOWED, IB_NO_REPLY);
    answers("delete of a next writer", delete(b, "seven"), IB_NOT_ALLOWED, IB_NO_REPLY);
    is("S back", ib_unlock_s(a, PAGE).status, IB_OK);
    is("ready", ib_ready_x(b, PAGE).status, IB_OK);
    is("arm", ib_arm(a, PAGE, IB_S, NODE).status, IB_OK);
    answers("get of a waiter", get(a, "seven"), IB_NOT_ALLOWED, IB_NO_REPLY);
    is("stand down", ib_stand_down(a, PAGE), IB_OK);
    is("X back", ib_unlock_x(b, PAGE).status, IB_OK);
}

static void replies(ib_session *a, ib_session *b) {
    answers("not found", get(a, "seven"), IB_OK, IB_NOT_FOUND);
    answers("missing", delete(a, "seven"), IB_OK, IB_MISSING);
    ib_answered first = insert(a, "seven", 70);
    answers("inserted", first, IB_OK, IB_INSERTED);
    is("at the first place", first.place, 0);
    is("no value", (uint32_t)first.value, 0);
    ib_answered found = get(b, "seven");
    answers("found", found, IB_OK, IB_FOUND);
    is("its value", (uint32_t)found.value, 70);
    is("behind the entry", found.place, 1);
    ib_answered again = insert(b, "seven", 71);
    answers("duplicate", again, IB_OK, IB_DUPLICATE);
    is("no entry", again.place, 1);
    answers("another key", get(b, "seveN"), IB_OK, IB_NOT_FOUND);
    answers("a front of it", get(b, "seve"), IB_OK, IB_NOT_FOUND);
    answers("empty key", ib_insert_nowait(b, NULL, 0, 1ull << 63), IB_OK, IB_INSERTED);
    is("its value", (uint32_t)(ib_get_nowait(a, NULL, 0).value >> 32), 1u << 31);
    answers("15 bytes", ib_insert_nowait(b, long_key, 15, 15), IB_OK, IB_INSERTED);
    is("its value", (uint32_t)ib_get_nowait(a, long_key, 15).value, 15);
    ib_answered gone = delete(b, "seven");
    answers("deleted", gone, IB_OK, IB_DELETED);
    is("what it had", (uint32_t)gone.value, 70);
    is("at the fourth place", gone.place, 3);
    answers("gone", get(a, "seven"), IB_OK, IB_NOT_FOUND);
    answers("missing again", delete(a, "seven"), IB_OK, IB_MISSING);
    answers("empty key back", ib_delete_nowait(a, NULL, 0), IB_OK, IB_DELETED);
    answers("15 bytes back", ib_delete_nowait(a, long_key, 15), IB_OK, IB_DELETED);
    is("nothing held", (uint32_t)ib_held(a).grants, 0);
    is("nor waited for", ib_phase(b).phase, IB_PHASE_FREE);
}

/* The latch of a refusal, and the word found. */
static void busy(const char *what, ib_answered got, uint32_t latch, uint32_t word) {
    answers(what, got, IB_BUSY, IB_NO_REPLY);
    is(what, got.latch, latch);
    is(what, (uint32_t)got.found, word);
    is(what, (uint32_t)got.expected, 0);
}

/* What another session holds refuses a call, which changes nothing. */
static void refusals(ib_session *a, ib_session *b) {
    uint32_t root = IB_LATCH_PAGE(1), free_word = 0x20000000;
    is("take X on the index", ib_try_x(b, IB_LATCH_INDEX, IB_LEVEL_INDEX_TREE).status, IB_OK);
    busy("get beside X on the index", get(a, "seven"), IB_LATCH_INDEX, 0);
    busy("insert beside X on the index", insert(a, "seven", 7), IB_LATCH_INDEX, 0);
    busy("delete beside X on the index", delete(a, "seven"), IB_LATCH_INDEX, 0);
    is("X back", ib_unlock_x(b, IB_LATCH_INDEX).status, IB_OK);
    is("take S on the root", ib_try_s(b, root, NODE).status, IB_OK);
    answers("get beside S on the root", get(a, "seven"), IB_OK, IB_NOT_FOUND);
    busy("insert beside S on the root", insert(a, "seven", 7), root, free_word - 1);
    busy("delete beside S on the root", delete(a, "seven"), root, free_word - 1);
    is("S back", ib_unlock_s(b, root).status, IB_OK);
    is("take X on the log", ib_try_x(b, IB_LATCH_LOG, IB_LEVEL_LOG).status, IB_OK);
    busy("insert beside X on the log", insert(a, "seven", 7), IB_LATCH_LOG, 0);
    answers("get beside X on the log", get(a, "seven"), IB_OK, IB_NOT_FOUND);
    is("X back", ib_unlock_x(b, IB_LATCH_LOG).status, IB_OK);
    is("nothing held", (uint32_t)ib_held(a).grants, 0);
    is("a word as before", (uint32_t)ib_word(a, root).word, free_word);
    answers("put in", insert(a, "seven", 7), IB_OK, IB_INSERTED);
    is("take X on the log", ib_try_x(b, IB_LATCH_LOG, IB_LEVEL_LOG).status, IB_OK);
    busy("delete beside X on the log", delete(a, "seven"), IB_LATCH_LOG, 0);
    is("X back", ib_unlock_x(b, IB_LATCH_LOG).status, IB_OK);
    answers("there still", get(a, "seven"), IB_OK, IB_FOUND);
    answers("taken out", delete(a, "seven"), IB_OK, IB_DELETED);
}

enum { CHUNKS = 16, PAIRS = 64 };

static const uint64_t untouched = 0x7777777777777777u;
static uint64_t chunks[CHUNKS * IB_CHUNK_WORDS], pairs[PAIRS * IB_PAIR_WORDS];

/* A scan of a room of which each word is the same before. */
static ib_scanned scan_from(ib_session *s, const void *low, size_t length, const char *high, size_t chunk_room, size_t pair_room) {
    for (size_t i = 0; i < CHUNKS * IB_CHUNK_WORDS; i++) chunks[i] = untouched;
    for (size_t i = 0; i < PAIRS * IB_PAIR_WORDS; i++) pairs[i] = untouched;
    return ib_scan_nowait(s, low, length, (const uint8_t *)high, strlen(high), chunks, chunk_room, pairs, pair_room);
}
static ib_scanned scan(ib_session *s, const char *low, const char *high, size_t chunk_room, size_t pair_room) {
    return scan_from(s, low, strlen(low), high, chunk_room, pair_room);
}

/* The status of a scan, how many chunks and pairs it wrote, and that each word behind them is as before. */
static void scans_to(const char *what, ib_scanned got, uint32_t status, uint32_t some, uint32_t many) {
    int same = 1;
    is(what, got.status, status);
    is(what, got.chunks, some);
    is(what, got.pairs, many);
    for (size_t i = some * IB_CHUNK_WORDS; i < CHUNKS * IB_CHUNK_WORDS; i++) same &= chunks[i] == untouched;
    for (size_t i = many * IB_PAIR_WORDS; i < PAIRS * IB_PAIR_WORDS; i++) same &= pairs[i] == untouched;
    is(what, (uint32_t)same, 1);
    if (status != IB_BUSY && status != IB_RACED) is(what, got.latch || got.expected || got.found, 0);
    if (status == IB_OK || (status >= 16 && status != IB_NO_ROOM)) is(what, got.next_first || got.next_second, 0);
    if (status != IB_OK) is(what, got.place, 0);
}

/* Whether these two words are a key's bytes. */
static void key_is(const char *what, uint64_t first, uint64_t second, const char *wanted) {
    uint8_t bytes[IB_KEY_BYTES];
    size_t length = ib_key_bytes(first, second, bytes);
    is(what, length == strlen(wanted) && !memcmp(bytes, wanted, length), 1);
}

static void wrong_scans(ib_session *a, ib_session *b) {
    ib_session none = IB_SESSION_NONE;
    const size_t no_end = (size_t)1 << 39;
    scans_to("scan null", scan(NULL, "a", "b", 1, 1), IB_NULL, 0, 0);
    is("scan low null", ib_scan_nowait(a, NULL, 1, seven, 5, chunks, 1, pairs, 1).status, IB_NULL);
    is("scan high null", ib_scan_nowait(a, seven, 5, NULL, 1, chunks, 1, pairs, 1).status, IB_NULL);
    is("scan chunks null", ib_scan_nowait(a, seven, 5, seven, 5, NULL, 1, pairs, 1).status, IB_NULL);
    is("scan pairs null", ib_scan_nowait(a, seven, 5, seven, 5, chunks, 1, NULL, 1).status, IB_NULL);
    scans_to("scan empty", scan(&none, "a", "b", 1, 1), IB_NO_HANDLE, 0, 0);
    scans_to("scan from 16 bytes", scan(a, (const char *)long_key, "b", 1, 1), IB_BAD_KEY, 0, 0);
    scans_to("scan to 16 bytes", scan(a, "b", (const char *)long_key, 1, 1), IB_BAD_KEY, 0, 0);
    is("take S", ib_try_s(a, PAGE, NODE).status, IB_OK);
    scans_to("scan beside S", scan(a, "a", "b", 1, 1), IB_NOT_ALLOWED, 0, 0);
    is("reserve X", ib_reserve_x(b, PAGE, NODE).status, IB_NEXT);
    scans_to("scan of a next writer", scan(b, "a", "b", 1, 1), IB_NOT_ALLOWED, 0, 0);
    is("S back", ib_unlock_s(a, PAGE).status, IB_OK);
    is("ready", ib_ready_x(b, PAGE).status, IB_OK);
    is("X back", ib_unlock_x(b, PAGE).status, IB_OK);
    /* Of rooms that are told too large no word is touched. */
    scans_to("scan of too many grants", scan(a, "a", "b", no_end, 1), IB_NOT_ALLOWED, 0, 0);
    scans_to("scan of too many pairs", scan(a, "a", "b", 1, no_end), IB_OUT_OF_MEMORY, 0, 0);
    scans_to("scan of no key to none", ib_scan_nowait(a, NULL, 0, NULL, 0, NULL, 0, NULL, 0), IB_NO_ROOM, 0, 0);
}

/* Scans of the 40 keys from 00 to 39. */
static void good_scans(ib_session *a, ib_session *b) {
    static const char most[] = "\xff\xff\xff\xff\xff\xff\xff\xff\xff\xff\xff\xff\xff\xff\xff";
    char key[12];
    uint32_t place = get(a, "").place, n = 0, some = 0, seconds = 0;
    scans_to("scan of nothing", scan(a, "a", "b", 1, 1), IB_OK, 1, 0);
    key_is("from a", chunks[0], chunks[1], "a");
    key_is("to b", chunks[2], chunks[3], "b");
    is("at its place, with no pair", chunks[4] == place && chunks[5] == 0, 1);
    ib_scanned none = scan(a, "b", "a", 1, 1);
    scans_to("scan of keys that fall", none, IB_OK, 0, 0);
    is("at what was seen", none.place, place);
    for (uint32_t i = 0; i < 40; i++) {
        sprintf(key, "%02u", i);
        answers("put in", insert(a, key, i), IB_OK, IB_INSERTED);
    }
    ib_scanned first = scan(a, "", most, 0, PAIRS);
    scans_to("no chunk place", first, IB_NO_ROOM, 0, 0);
    key_is("next", first.next_first, first.next_second, "");
    first = scan(a, "05", most, 1, 0);
    scans_to("no pair place", first, IB_NO_ROOM, 0, 0);
    key_is("next", first.next_first, first.next_second, "05");
    scans_to("scan of a part", scan(a, "05", "07", 1, 3), IB_OK, 1, 3);
    is("three pairs", chunks[5] == 3 && pairs[2] == 5 && pairs[5] == 6 && pairs[8] == 7, 1);
    /* In rooms of one chunk, from `next` on. */
    ib_scanned s = {0};
    uint64_t second[2] = {0, 0};
    do {
        uint8_t low[IB_KEY_BYTES];
        uint64_t next[2] = {s.next_first, s.next_second};
        s = scan_from(b, low, ib_key_bytes(next[0], next[1], low), most, 1, 35);
        scans_to("scan of a chunk", s, s.status == IB_OK ? IB_OK : IB_NO_ROOM, 1, s.pairs);
        is("from next", chunks[0] == next[0] && chunks[1] == next[1], 1);
        is("at its place", (uint32_t)chunks[4], place + 40);
        is("with its pairs", (uint32_t)chunks[5], s.pairs);
        for (uint32_t i = 0; i < s.pairs; i++, n++) {
            sprintf(key, "%02u", n);
            key_is("in order", pairs[3 * i], pairs[3 * i + 1], key);
            is("its value", (uint32_t)pairs[3 * i + 2], n);
        }
        if (!some++) second[0] = s.next_first, second[1] = s.next_second;
    } while (s.status == IB_NO_ROOM && some < 40);
    is("all keys", n, 40);
    is("more chunks than one", some > 1, 1);
    is("done at its place", s.place, place + 40);
    key_is("to the end", chunks[2], chunks[3], most);
    scans_to("all at once", scan(a, "", most, CHUNKS, PAIRS), IB_OK, some, 40);
    /* What another session holds. */
    is("take X on the index", ib_try_x(b, IB_LATCH_INDEX, IB_LEVEL_INDEX_TREE).status, IB_OK);
    s = scan(a, "05", most, CHUNKS, PAIRS);
    scans_to("beside X on the index", s, IB_BUSY, 0, 0);
    is("its latch and word", s.latch == IB_LATCH_INDEX && s.found == 0 && s.expected == 0, 1);
    key_is("next", s.next_first, s.next_second, "05");
    is("X back", ib_unlock_x(b, IB_LATCH_INDEX).status, IB_OK);
    for (uint32_t page = 2; page < 16; page++) {
        is("take X on a page", ib_try_x(b, IB_LATCH_PAGE(page), NODE).status, IB_OK);
        s = scan(a, "", most, CHUNKS, PAIRS);
        is("X back", ib_unlock_x(b, IB_LATCH_PAGE(page)).status, IB_OK);
        if (s.status == IB_OK || s.chunks != 1) continue;
        scans_to("beside X on the second leaf", s, IB_BUSY, 1, (uint32_t)chunks[5]);
        is("its latch", s.latch, IB_LATCH_PAGE(page));
        is("next is the second chunk", s.next_first == second[0] && s.next_second == second[1], 1);
        seconds++;
    }
    is("one second leaf", seconds, 1);
    is("nothing held", (uint32_t)ib_held(a).grants, 0);
    for (uint32_t i = 0; i < 40; i++) {
        sprintf(key, "%02u", i);
        answers("taken out", delete(a, key), IB_OK, IB_DELETED);
    }
}

/* Pairs until one is refused, which is told; then all are there, and one is not. */
static ib_answered fill(ib_session *s, uint32_t *count) {
    uint8_t key[4];
    ib_answered last;
    for (*count = 0;; ++*count) {
        for (int i = 0; i < 4; i++) key[i] = (uint8_t)(*count >> (24 - 8 * i));
        last = ib_insert_nowait(s, key, 4, *count);
        if (last.reply != IB_INSERTED) break;
    }
    answers("not put in", ib_get_nowait(s, key, 4), IB_OK, IB_NOT_FOUND);
    key[3]--;
    answers("the last before", ib_get_nowait(s, key, 4), IB_OK, IB_FOUND);
    return last;
}

static void fulls(void) {
    ib_space s = IB_SPACE_NONE;
    ib_session a = IB_SESSION_NONE;
    uint32_t count;
    is("open", ib_open(&s, 16, 100000, 1), IB_OK);
    is("connect", ib_connect(&s, &a), IB_OK);
    ib_answered last = fill(&a, &count);
    answers("space full", last, IB_OK, IB_SPACE_FULL);
    is("fewer free than needed", last.free < last.need, 1);
    is("at its place", last.place, count);
    is("no log told", last.used || last.cap, 0);
    is("disconnect", ib_disconnect(&s, &a), IB_OK);
    is("close", ib_close(&s), IB_OK);
    uint64_t first = 0;
    ib_copied copied = ib_log_words(&s, 0, &first, 1);
    is("its log", copied.status, IB_OK);
    is("has words", copied.used > count && first != 0, 1);
    is("free", ib_free(&s), IB_OK);
    is("open", ib_open(&s, 4096, 20000, 1), IB_OK);
    is("connect", ib_connect(&s, &a), IB_OK);
    last = fill(&a, &count);
    answers("log full", last, IB_OK, IB_LOG_FULL);
    is("its words", last.cap, 20000);
    is("no room for one more", last.used <= 20000 && last.used > 20000 - 8196, 1);
    is("no space told", last.free || last.need, 0);
    answers("delete of a full log", ib_delete_nowait(&a, (const uint8_t[4]){0}, 4), IB_OK, IB_LOG_FULL);
    is("disconnect", ib_disconnect(&s, &a), IB_OK);
    is("close", ib_close(&s), IB_OK);
    is("used as told", ib_log_words(&s, 0, NULL, 0).used, last.used);
    is("free", ib_free(&s), IB_OK);
}

int main(void) {
    ib_space s = IB_SPACE_NONE;
    ib_session a = IB_SESSION_NONE, b = IB_SESSION_NONE;
    opens();
    connects();
    log_words();
    is("open", ib_open(&s, 16, 100000, 2), IB_OK);
    is("connect a", ib_connect(&s, &a), IB_OK);
    is("connect b", ib_connect(&s, &b), IB_OK);
    wishes(&a, &b);
    readers(&a, &b);
#ifndef IB_NO_WAITS
    waits(&a, &b);
#endif
    wrong_calls(&a);
    busy_callers(&a, &b);
    replies(&a, &b);
    refusals(&a, &b);
    wrong_scans(&a, &b);
    good_scans(&a, &b);
    is("disconnect a", ib_disconnect(&s, &a), IB_OK);
    is("disconnect b", ib_disconnect(&s, &b), IB_OK);
    is("close", ib_close(&s), IB_OK);
    is("free", ib_free(&s), IB_OK);
    fulls();
    printf("%d statuses, %d wrong\n", tests, failures);
    return failures != 0;
}

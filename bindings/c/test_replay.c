/* The log and the pages of a closed space read back: the log's file replayed, the pages tested as a tree, and what is told of
 * bytes and pages that are no log's and no tree's. */
#include <stdio.h>
#include <stdlib.h>
#include <string.h>

#include "bukhloem.h"

#define PAGES 16u
#define WORDS (PAGES * IB_PAGE_WORDS)
#define MOST 64

static int tests, failures;

static void is(const char *what, uint64_t got, uint64_t wanted) {
    tests++;
    if (got != wanted) {
        failures++;
        printf("%s: %llu where %llu is wanted\n", what, (unsigned long long)got, (unsigned long long)wanted);
    }
}

static uint64_t pages[WORDS];

/* The words of a closed space of which nothing was written. */
static void page_words(void) {
    ib_space s = IB_SPACE_NONE;
    uint64_t page[IB_PAGE_WORDS + 1];
    memset(page, 7, sizeof page);
    uint64_t seven = page[0];
    is("page of null", ib_page_words(NULL, 0, page, IB_PAGE_WORDS).status, IB_NULL);
    is("page to null", ib_page_words(&s, 0, NULL, IB_PAGE_WORDS).status, IB_NULL);
    is("page of empty", ib_page_words(&s, 0, page, IB_PAGE_WORDS).status, IB_NO_HANDLE);
    is("open", ib_open(&s, PAGES, 8196, 1), IB_OK);
    is("page of open", ib_page_words(&s, 0, page, IB_PAGE_WORDS).status, IB_WRONG_STATE);
    is("close", ib_close(&s), IB_OK);
    is("page 16", ib_page_words(&s, PAGES, page, IB_PAGE_WORDS).status, IB_BAD_RANGE);
    is("page 2^32-1", ib_page_words(&s, 4294967295u, page, IB_PAGE_WORDS).status, IB_BAD_RANGE);
    is("a word less", ib_page_words(&s, 0, page, IB_PAGE_WORDS - 1).status, IB_BAD_RANGE);
    is("a word more", ib_page_words(&s, 0, page, IB_PAGE_WORDS + 1).status, IB_BAD_RANGE);
    is("no room", ib_page_words(&s, 0, NULL, 0).status, IB_BAD_RANGE);
    is("so many", ib_page_words(&s, 0, NULL, 0).used, IB_PAGE_WORDS);
    is("nothing copied", page[0] == seven && page[IB_PAGE_WORDS] == seven, 1);
    for (uint32_t p = 0; p < PAGES; p++) is("page", ib_page_words(&s, p, pages + p * IB_PAGE_WORDS, IB_PAGE_WORDS).status, IB_OK);
    is("pages 0 and 1 are taken", pages[0], 3);
    is("free", ib_free(&s), IB_OK);
}

static void trees(void) {
    is("tree of null", ib_check_tree(NULL, WORDS), IB_NULL);
    is("no words", ib_check_tree(NULL, 0), IB_BAD_PAGES);
    is("tree", ib_check_tree(pages, WORDS), IB_OK);
    is("a word less", ib_check_tree(pages, WORDS - 1), IB_BAD_PAGES);
    is("15 pages", ib_check_tree(pages, WORDS - IB_PAGE_WORDS), IB_BAD_PAGES);
    pages[0] ^= 4;
    is("page 2 taken and not in the tree", ib_check_tree(pages, WORDS), IB_FAULTY);
    pages[0] ^= 6;
    is("the root free", ib_check_tree(pages, WORDS), IB_FAULTY);
    pages[0] ^= 2;
    pages[IB_PAGE_WORDS] ^= 1;
    is("the root's first word", ib_check_tree(pages, WORDS), IB_FAULTY);
    pages[IB_PAGE_WORDS] ^= 1;
    is("a tree again", ib_check_tree(pages, WORDS), IB_OK);

    uint64_t *most = calloc(4097 * IB_PAGE_WORDS, sizeof *most);
    if (!most) exit(1);
    memcpy(most, pages, sizeof pages);
    for (uint32_t p = PAGES; p < 4097; p++) memcpy(most + p * IB_PAGE_WORDS, pages + 2 * IB_PAGE_WORDS, IB_PAGE_WORDS * sizeof *most);
    is("4096 pages", ib_check_tree(most, 4096 * IB_PAGE_WORDS), IB_OK);
    is("4097 pages", ib_check_tree(most, 4097 * IB_PAGE_WORDS), IB_BAD_PAGES);
    free(most);
}

/* The file of a log: its form, its pages and its words. */
static uint8_t file[8 * MOST];

static size_t file_of(uint64_t form, uint64_t space, const uint64_t *words, size_t count) {
    for (size_t i = 0; i < count + 2; i++) {
        uint64_t word = i == 0 ? form : i == 1 ? space : words[i - 2];
        for (int b = 0; b < 8; b++) file[8 * i + b] = (uint8_t)(word >> (56 - 8 * b));
    }
    return 8 * (count + 2);
}

static void told(const char *what, size_t length, uint32_t fault, uint32_t place, uint64_t word) {
    uint64_t out[3] = {7, 7, 7};
    ib_replayed r = ib_replay(file, length, out, 3);
    is(what, r.status, IB_FAULTY);
    is("its fault", r.fault, fault);
    is("its place", r.place, place);
    is("its word", r.word, word);
    is("nothing else told", r.pages + r.entries + r.pairs, 0);
    is("nothing written", out[0] == 7 && out[1] == 7 && out[2] == 7, 1);
}

/* The log of a space of which nothing was written. */
static void empty_log(void) {
    ib_space s = IB_SPACE_NONE;
    is("open", ib_open(&s, PAGES, 8196, 1), IB_OK);
    is("close", ib_close(&s), IB_OK);
    uint32_t used = ib_log_words(&s, 0, NULL, 0).used;
    uint64_t words[MOST];
    is("short enough", used <= MOST - 2, 1);
    is("log", ib_log_words(&s, 0, words, used).status, IB_OK);
    is("free", ib_free(&s), IB_OK);
    ib_replayed r = ib_replay(file, file_of(IB_LOG_FORM, PAGES, words, used), NULL, 0);
    is("replay", r.status, IB_OK);
    is("its pages", r.pages, PAGES);
    is("no entries", r.entries, 0);
    is("no pairs", r.pairs, 0);
}

/* Session 1 inserted the key 10 with 100 (examples/insert.log). */
static const uint64_t insert[] = {
    0x100010009u, 1, 0x3130000000000000u, 2, 100, 0xa2, 1, 0xa5, 1, 0xa7, 0x218u, 0xb2, 0x114u, 0xb3, 0x200u,
    0xb4, 19, 0xb5, 0x3130000000000000u, 0xb6, 2, 0xb7, 100,
};

#define INSERT (sizeof insert / sizeof *insert)

static void one_insert(void) {
    uint64_t out[4] = {7, 7, 7, 7}, words[MOST];
    size_t length = file_of(IB_LOG_FORM, PAGES, insert, INSERT);
    ib_replayed r = ib_replay(file, length, out, 2);
    is("no room for a pair", r.status, IB_BAD_RANGE);
    is("pages", r.pages, PAGES);
    is("entries", r.entries, 1);
    is("pairs", r.pairs, 1);
    is("nothing written", out[0] == 7 && out[1] == 7, 1);
    r = ib_replay(file, length, out, 4);
    is("replay", r.status, IB_OK);
    is("pairs", r.pairs, 1);
    uint8_t key[IB_KEY_BYTES];
    is("two bytes", ib_key_bytes(out[0], out[1], key), 2);
    is("10", key[0] == '1' && key[1] == '0', 1);
    is("100", out[2], 100);
    is("the rest", out[3], 7);

    memcpy(words, insert, sizeof insert);
    memcpy(words + INSERT, insert, sizeof insert);
    words[0] = 9;
    told("session 0", file_of(IB_LOG_FORM, PAGES, words, INSERT), IB_FAULT_HEAD, 0, 9);
    words[0] = insert[0];
    told("a write's word lacks", file_of(IB_LOG_FORM, PAGES, words, INSERT - 1), IB_FAULT_SHORT, 0, 0);
    words[7] = 0xa2;
    told("a place again", file_of(IB_LOG_FORM, PAGES, words, INSERT), IB_FAULT_WRITE, 0, 0xa2);
    words[7] = WORDS;
    told("a place on no page", file_of(IB_LOG_FORM, PAGES, words, INSERT), IB_FAULT_OUTSIDE, 0, WORDS);
    words[7] = insert[7];
    words[1] = 2;
    told("number 2", file_of(IB_LOG_FORM, PAGES, words, INSERT), IB_FAULT_UNLAWFUL, 0, IB_RULE_NUMBER);
    words[1] = 1;
    words[INSERT + 1] = 2;
    told("the key again", file_of(IB_LOG_FORM, PAGES, words, 2 * INSERT), IB_FAULT_UNLAWFUL, INSERT, IB_RULE_CHANGE);
    words[4] = 101;
    told("another value", file_of(IB_LOG_FORM, PAGES, words, INSERT), IB_FAULT_UNLAWFUL, 0, IB_RULE_TREE);
}

static void bad_files(void) {
    uint64_t none = 0;
    is("replay null", ib_replay(NULL, 16, NULL, 0).status, IB_NULL);
    is("replay to null", ib_replay(file, 16, NULL, 1).status, IB_NULL);
    told("no bytes", 0, IB_FAULT_SHORT, 0, 0);
    told("15 bytes", 15, IB_FAULT_ODD_LENGTH, 0, 15);
    told("8 bytes", 8, IB_FAULT_SHORT, 0, 0);
    told("version 1", file_of(IB_LOG_FORM - 1, PAGES, &none, 0), IB_FAULT_FILE, 0, IB_LOG_FORM - 1);
    told("15 pages", file_of(IB_LOG_FORM, 15, &none, 0), IB_FAULT_FILE, 1, 15);
    told("4097 pages", file_of(IB_LOG_FORM, 4097, &none, 0), IB_FAULT_FILE, 1, 4097);
    told("2^32 + 16 pages", file_of(IB_LOG_FORM, 4294967312u, &none, 0), IB_FAULT_FILE, 1, 4294967312u);
    told("a word that is no entry", file_of(IB_LOG_FORM, PAGES, &none, 1), IB_FAULT_SHORT, 0, 0);
    /* No byte of so many is read. */
    is("2^35 bytes", ib_replay(file, (size_t)1 << 35, NULL, 0).status, IB_BAD_LOG);
}

int main(void) {
    page_words();
    trees();
    empty_log();
    one_insert();
    bad_files();
    printf("%d statuses of replays and trees, %d wrong\n", tests, failures);
    return failures != 0;
}

/* Bukhloem, for C: one tree of records, with its latches and pages, as MySQL 5.7 has them (btr0cur, sync0rw, sync0arr), in memory.
 *
 * No call waits, wakes or starts a thread. A call that is refused says so by its status, and its caller sleeps and
 * wakes by means of its own (bukhloem_wait.h does it by a mutex and a condition for each latch).
 *
 * Handles. A space and a session are each a handle, which the program keeps in a place of its own, all zeros at first
 * (IB_SPACE_NONE, IB_SESSION_NONE). It reads and writes none of their fields. A handle is for one call at a time: calls on
 * one session, or on one space, must not overlap. Calls on different sessions may, and so may a call on a space and calls
 * on its sessions. A handle may be moved to another place. A session's may be used by another thread, where that is ordered
 * by a lock, by the start or end of a thread, or by a sequentially consistent atomic: that it is safe there is proved. Of a
 * space's handle it is not proved (of the words of a closed space), so it is to stay on one thread, which opens, connects,
 * disconnects and closes. A copy of a handle is a dangling handle once either is used.
 *
 * Conditions. Each call tests its own and tells by a status what is wrong: below 16 what it came to, from 16 on why it did
 * nothing, and then nothing is changed. What no call can test: a pointer that is not null and not to a handle, a
 * handle that is a copy, and two calls at a time on one handle. No call may be made from a signal handler, or in the
 * child of a fork of a process with threads.
 *
 * Memory. ib_open and ib_connect take it, by malloc, and ib_disconnect, ib_close and ib_free give it back. ib_replay,
 * ib_check_tree and ib_scan_nowait take some and give it back before they return. No other call takes any.
 *
 * Each price is what it costs with nobody else at the latch, in steps on shared words (each sequentially consistent).
 */
#ifndef BUKHLOEM_H
#define BUKHLOEM_H

#include <stddef.h>
#include <stdint.h>

#ifdef __cplusplus
extern "C" {
#endif

/* What a call came to. */
enum ib_status {
    IB_OK = 0,
    IB_BUSY = 1,              /* the lock word refuses the wish: `found` is the word */
    IB_RACED = 2,             /* the exchange found another word than the look before it: try again */
    IB_NEXT = 3,              /* X is reserved: readers remain, and nobody reads the latch anew */
    IB_NOT_READY = 4,         /* readers remain still */
    IB_ASLEEP = 5,            /* the generation is the one recorded: the session may sleep */
    IB_NO_ROOM = 6,           /* a scan: there is no room for the next chunk, and those before it are written */

    IB_NO_HANDLE = 16,        /* the handle is empty */
    IB_IN_USE = 17,           /* the handle is to be filled, and is not empty */
    IB_BAD_LATCH = 18,        /* the space has no such latch */
    IB_BAD_LEVEL = 19,        /* no level has this number */
    IB_BAD_MODE = 20,         /* no mode has this number */
    IB_NOT_ALLOWED = 21,      /* what the session holds forbids it, or it is in the middle of something */
    IB_TOO_MANY_GRANTS = 22,  /* the session holds 8,192 grants, or has taken 2^52 ever */
    IB_NOT_HELD = 23,         /* the session does not hold the latch in that mode */
    IB_WRONG_PHASE = 24,      /* the session is not in the phase that the call is for */
    IB_BAD_PAGES = 25,        /* a space has 16 to 4,096 pages */
    IB_BAD_LOG = 26,          /* a log has 8,196 to 16,777,216 words; the file of a log (ib_replay) fewer than 2^35 bytes */
    IB_BAD_SESSIONS = 27,     /* a space has 1 to 1,024 sessions */
    IB_NO_SESSION_LEFT = 28,  /* all sessions of the space are connected */
    IB_CONNECTED = 29,        /* sessions of the space are connected */
    IB_WRONG_STATE = 30,      /* the space is closed, or is not closed yet */
    IB_OUT_OF_MEMORY = 31,
    IB_BAD_KEY = 32,          /* a key has 15 bytes at most */
    IB_BAD_RANGE = 33,        /* a place behind the end, too many bytes, or no room for what is to be written */
    IB_FAULTY = 34,           /* the bytes, or the pages, are not lawful */
    IB_IN_CALL = 35,          /* a call on a session of the space has not ended */
    IB_NOT_CONNECTED = 36,    /* all sessions of the space are given back: this is none of them */

    IB_NULL = 64,             /* a null pointer (told by this header) */
    IB_OTHER_SPACE = 65       /* the session is one of another space (told by this header) */
};

/* The latches of a space: the log's, the index's, and one for each page. */
#define IB_LATCH_LOG 0u
#define IB_LATCH_INDEX 1u
#define IB_LATCH_PAGE(page) ((uint32_t)(page) + 2u)

/* The level at which a latch is taken, below the levels of all latches that the session holds; TREE_NODE beside TREE_NODE
 * and PAGE_NEW beside PAGE_NEW are allowed (sync0debug, latch_level_t). */
enum ib_level {
    IB_LEVEL_LOG = 1,
    IB_LEVEL_PAGE_NEW = 2,
    IB_LEVEL_SPACE = 3,
    IB_LEVEL_TREE_NODE = 4,
    IB_LEVEL_INDEX_TREE = 5
};

/* The modes of a latch (RW_S_LATCH, RW_SX_LATCH, RW_X_LATCH). */
enum ib_mode { IB_S = 0, IB_SX = 1, IB_X = 2 };

/* A handle of a space. Its fields are the library's. */
typedef struct ib_space {
    uint32_t live;
    void *at;
} ib_space;

/* A handle of a session. Its fields are the library's, but `home`, which is this header's: the space that it is of. */
typedef struct ib_session {
    uint32_t live;
    void *at;
    const void *home;
} ib_session;

#define IB_SPACE_NONE {0, NULL}
#define IB_SESSION_NONE {0, NULL, NULL}

/* What a try came to: its status, and the words of its looks, 0 where none is told. */
typedef struct ib_tried {
    uint32_t status;
    int32_t expected;         /* IB_RACED: the word of the look */
    int32_t found;            /* IB_BUSY, IB_RACED, IB_NOT_READY: the word found; IB_NEXT: the word that is left */
} ib_tried;

/* What a release came to: its status, and the generation that it raised, for which its caller wakes who sleeps on it. */
typedef struct ib_released {
    uint32_t status;
    uint32_t raised;          /* IB_RAISED_NOTHING, IB_RAISED_GENERATION, IB_RAISED_EX_GENERATION */
    uint64_t generation;      /* what it was raised to */
} ib_released;

enum ib_raised {
    IB_RAISED_NOTHING = 0,
    IB_RAISED_GENERATION = 1,    /* sessions that wait for a first grant: wake them all */
    IB_RAISED_EX_GENERATION = 2  /* the next writer: wake it */
};

/* A generation of a latch, and the status of the call that told it. */
typedef struct ib_generation {
    uint32_t status;
    uint64_t generation;
} ib_generation;

/* A lock word, and the status of the call that told it. */
typedef struct ib_looked {
    uint32_t status;
    int32_t word;
} ib_looked;

/* How many grants a session holds now, on all latches. */
typedef struct ib_held_grants {
    uint32_t status;
    uint64_t grants;
} ib_held_grants;

/* How many grants of each mode a session holds on a latch. */
typedef struct ib_counted {
    uint32_t status;
    uint64_t s, sx, x;
} ib_counted;

/* What a session is in the middle of, and on which latch (0 for IB_PHASE_FREE). */
typedef struct ib_in_phase {
    uint32_t status;
    uint32_t phase;
    uint32_t latch;
} ib_in_phase;

/* What a copy of the log's words, or of a page's, came to, and how many words the log or a page has, 0 where that is not
 * known. */
typedef struct ib_copied {
    uint32_t status;
    uint32_t used;
} ib_copied;

/* What a lookup, an insert or a delete was answered. */
enum ib_reply {
    IB_NO_REPLY = 0,          /* the call was refused: `status` says why */
    IB_FOUND = 1,             /* a lookup: `value` is the key's */
    IB_NOT_FOUND = 2,
    IB_INSERTED = 3,
    IB_DUPLICATE = 4,         /* the key was there, and nothing was changed */
    IB_DELETED = 5,           /* `value` was the key's */
    IB_MISSING = 6,           /* the key was not there, and nothing was changed */
    IB_TOO_HIGH = 7,          /* the tree would get a ninth level, and nothing was changed */
    IB_SPACE_FULL = 8,        /* `free` pages are free where `need` are needed, and nothing was changed */
    IB_LOG_FULL = 9,          /* beside the `used` ones fewer than 8,196 of the log's `cap` words are left, and nothing was changed */
    IB_SCANNED = 10           /* not told: ib_scan_nowait tells it by ib_scanned */
};

/* What a lookup, an insert or a delete came to: its reply, at a place of the log (how many entries are before it); or the latch
 * that was not had (IB_BUSY, IB_RACED), with the words of the looks. What is not told is 0. */
typedef struct ib_answered {
    uint32_t status;
    uint32_t reply;           /* enum ib_reply */
    uint64_t value;           /* IB_FOUND, IB_DELETED */
    uint32_t place;           /* with each reply */
    uint32_t latch;           /* IB_BUSY, IB_RACED */
    int32_t expected;         /* IB_RACED: the word of the look */
    int32_t found;            /* IB_BUSY, IB_RACED: the word found */
    uint32_t used, cap;       /* IB_LOG_FULL */
    uint32_t free, need;      /* IB_SPACE_FULL */
} ib_answered;

/* The words of a page (UNIV_PAGE_SIZE), those of a pair that ib_replay and ib_scan_nowait write, those of a chunk of a scan, and the
 * most bytes of a key. */
#define IB_PAGE_WORDS 160u
#define IB_PAIR_WORDS 3u
#define IB_CHUNK_WORDS 6u
#define IB_KEY_BYTES 15u

/* What a scan came to: how many chunks and pairs it wrote (IB_OK, IB_NO_ROOM, IB_BUSY, IB_RACED); where it ended before its end, the
 * two words of the key at which the next chunk begins (ib_key_bytes); and the latch that was not had (IB_BUSY, IB_RACED), with the words
 * of the looks. What is not told is 0. */
typedef struct ib_scanned {
    uint32_t status;
    uint32_t chunks, pairs;
    uint32_t place;           /* IB_OK: the last chunk's, of a scan of no chunk what the session had seen */
    uint64_t next_first, next_second; /* IB_NO_ROOM, IB_BUSY, IB_RACED */
    uint32_t latch;           /* IB_BUSY, IB_RACED */
    int32_t expected;         /* IB_RACED: the word of the look */
    int32_t found;            /* IB_BUSY, IB_RACED: the word found */
} ib_scanned;

/* What a replay came to: its status; of a lawful log (IB_OK, IB_BAD_RANGE) the pages of its space, and how many entries and
 * pairs it has; of another (IB_FAULTY) its first fault. What is not told is 0. */
typedef struct ib_replayed {
    uint32_t status;
    uint32_t pages;
    uint64_t entries;
    uint64_t pairs;
    uint32_t fault;           /* enum ib_fault */
    uint32_t place;           /* the log word at which the entry begins; of IB_FAULT_FILE which number of the file, from 0 */
    uint64_t word;            /* the word that is wrong there; of IB_FAULT_ODD_LENGTH how many bytes there are; of
                               * IB_FAULT_UNLAWFUL which rule the entry breaks (enum ib_rule) */
} ib_replayed;

/* The first fault of the file of a log. */
enum ib_fault {
    IB_FAULT_SHORT = 1,       /* an entry, or the file, has fewer words than it needs */
    IB_FAULT_HEAD = 2,        /* the word is not one of an entry's head */
    IB_FAULT_WRITE = 3,       /* a write whose place is not above the one before it */
    IB_FAULT_OUTSIDE = 4,     /* a write whose place is on no page */
    IB_FAULT_ODD_LENGTH = 5,  /* no whole number of words */
    IB_FAULT_FILE = 6,        /* number 0 is not IB_LOG_FORM, or number 1 is not 16 to 4,096 pages */
    IB_FAULT_UNLAWFUL = 7,    /* an entry that may not stand where it stands */
    IB_FAULT_CANNOT_PLAN = 8, /* of logs of version 1, which ib_replay does not read */
    IB_FAULT_NO_MEMORY = 9    /* not told: it is IB_OUT_OF_MEMORY */
};

/* The rule that an entry breaks. */
enum ib_rule {
    IB_RULE_NUMBER = 1,       /* its number is not one more than those of the session before it */
    IB_RULE_CHANGE = 2,       /* the map does not make its change: the key is there, or is not */
    IB_RULE_TREE = 3          /* its pages are no tree with what the map has */
};

/* What the file of a log begins with, in big endian as all its words: the text IBLOG572; then how many pages the space has,
 * and the words of the log. */
#define IB_LOG_FORM 0x49424c4f47353732u

/* What a session is in the middle of. No call of this header leaves IB_PHASE_ARMED or a phase that owes. */
enum ib_phase_number {
    IB_PHASE_FREE = 0,
    IB_PHASE_ARMED = 1,
    IB_PHASE_FLAGGED = 2,       /* after ib_arm */
    IB_PHASE_CHECKED = 3,       /* after ib_recheck's IB_BUSY */
    IB_PHASE_ASLEEP = 4,        /* after ib_look's IB_ASLEEP */
    IB_PHASE_NEXT = 5,          /* after IB_NEXT */
    IB_PHASE_NEXT_ARMED = 6,    /* after ib_arm_next */
    IB_PHASE_NEXT_CHECKED = 7,  /* after ib_verify's IB_NOT_READY */
    IB_PHASE_NEXT_ASLEEP = 8,   /* after ib_look's IB_ASLEEP */
    IB_PHASE_OWES_LOOK = 9,
    IB_PHASE_OWES_CLEAR = 10,
    IB_PHASE_OWES_RAISE = 11,
    IB_PHASE_OWES_RAISE_EX = 12
};

/* What the library exports. Call the functions below them, which test for null. */
uint32_t ib_c_open(ib_space *space, uint32_t pages, uint32_t log_words, uint32_t sessions);
uint32_t ib_c_connect(ib_space *space, ib_session *session);
uint32_t ib_c_disconnect(ib_space *space, ib_session *session);
uint32_t ib_c_close(ib_space *space);
uint32_t ib_c_free(ib_space *space);
ib_tried ib_c_try_s(ib_session *session, uint32_t latch, uint32_t level);
ib_tried ib_c_try_sx(ib_session *session, uint32_t latch, uint32_t level);
ib_tried ib_c_try_x(ib_session *session, uint32_t latch, uint32_t level);
ib_tried ib_c_reserve_x(ib_session *session, uint32_t latch, uint32_t level);
ib_tried ib_c_ready_x(ib_session *session, uint32_t latch);
ib_released ib_c_unlock_s(ib_session *session, uint32_t latch);
ib_released ib_c_unlock_sx(ib_session *session, uint32_t latch);
ib_released ib_c_unlock_x(ib_session *session, uint32_t latch);
ib_generation ib_c_arm(ib_session *session, uint32_t latch, uint32_t mode, uint32_t level);
ib_tried ib_c_recheck(ib_session *session, uint32_t latch);
uint32_t ib_c_stand_down(ib_session *session, uint32_t latch);
ib_generation ib_c_arm_next(ib_session *session, uint32_t latch);
ib_tried ib_c_verify(ib_session *session, uint32_t latch);
ib_generation ib_c_look(ib_session *session, uint32_t latch);
ib_looked ib_c_word(ib_session *session, uint32_t latch);
ib_held_grants ib_c_held(ib_session *session);
ib_counted ib_c_counts(ib_session *session, uint32_t latch);
ib_in_phase ib_c_phase(ib_session *session);
uint32_t ib_c_may_take(ib_session *session, uint32_t latch, uint32_t mode, uint32_t level);
ib_answered ib_c_get_nowait(ib_session *session, const uint8_t *key, size_t length);
ib_answered ib_c_insert_nowait(ib_session *session, const uint8_t *key, size_t length, uint64_t value);
ib_answered ib_c_delete_nowait(ib_session *session, const uint8_t *key, size_t length);
ib_scanned ib_c_scan_nowait(ib_session *session, const uint8_t *low, size_t low_length, const uint8_t *high, size_t high_length,
                            uint64_t *chunks, size_t chunk_count, uint64_t *pairs, size_t pair_count);
ib_copied ib_c_log_words(ib_space *space, uint32_t first, uint64_t *out, size_t count);
ib_copied ib_c_page_words(ib_space *space, uint32_t page, uint64_t *out, size_t count);
ib_replayed ib_c_replay(const uint8_t *bytes, size_t length, uint64_t *out, size_t count);
uint32_t ib_c_check_tree(const uint64_t *words, size_t count);

static inline ib_tried ib_tried_null(void) {
    ib_tried none = {IB_NULL, 0, 0};
    return none;
}

static inline ib_released ib_released_null(void) {
    ib_released none = {IB_NULL, 0, 0};
    return none;
}

/* Opens a new space of `pages` pages and a log of `log_words` words, for `sessions` sessions, into an empty handle
 * (fsp_header_init, dict_index_add_to_cache). Price: it fills all words; each session takes some 150 KB. */
static inline uint32_t ib_open(ib_space *space, uint32_t pages, uint32_t log_words, uint32_t sessions) {
    return space ? ib_c_open(space, pages, log_words, sessions) : (uint32_t)IB_NULL;
}

/* Takes a session of the space that nobody has, into an empty handle (innobase_connection, mtr_start). The sessions of a space
 * are numbered from 1 on, as its log's entries name them; a new space gives them from the greatest down, and what was given back
 * last is given first. Price: one allocation, no step on a shared word. */
static inline uint32_t ib_connect(ib_space *space, ib_session *session) {
    if (!space || !session) return IB_NULL;
    uint32_t status = ib_c_connect(space, session);
    if (status == IB_OK) session->home = space->at;
    return status;
}

/* Gives a session back, which holds nothing and is in the middle of nothing, else IB_NOT_ALLOWED
 * (innobase_close_connection). Its handle is empty then. It takes no memory. IB_NOT_CONNECTED where all sessions of the space
 * are given back already. That the session is one of this space is the one condition that no test inside the library keeps: it
 * is tested here, so ib_c_disconnect is called by nobody else. */
static inline uint32_t ib_disconnect(ib_space *space, ib_session *session) {
    if (!space || !session) return IB_NULL;
    if (space->live && session->live && session->home != space->at) return IB_OTHER_SPACE;
    return ib_c_disconnect(space, session);
}

/* Closes a space all of whose sessions are given back, else IB_CONNECTED: its words are read where they lie, so it takes no
 * memory (fil_close). IB_IN_CALL where a call on a session that is given back has not ended. Then nothing is changed. */
static inline uint32_t ib_close(ib_space *space) { return space ? ib_c_close(space) : (uint32_t)IB_NULL; }

/* Frees a space that is closed: its handle is empty then. */
static inline uint32_t ib_free(ib_space *space) { return space ? ib_c_free(space) : (uint32_t)IB_NULL; }

/* Takes S on a latch of which the session holds nothing (rw_lock_s_lock_nowait). IB_OK, IB_BUSY or IB_RACED. Price: one
 * look and one exchange. */
static inline ib_tried ib_try_s(ib_session *session, uint32_t latch, uint32_t level) {
    return session ? ib_c_try_s(session, latch, level) : ib_tried_null();
}

/* Takes SX on a latch that the session does not read (rw_lock_sx_lock_nowait); beside its own SX or X always granted.
 * IB_OK, IB_BUSY or IB_RACED. Price: one look, one exchange and one store; beside its own SX one look. */
static inline ib_tried ib_try_sx(ib_session *session, uint32_t latch, uint32_t level) {
    return session ? ib_c_try_sx(session, latch, level) : ib_tried_null();
}

/* Takes X on a free latch, or once more beside its own X (rw_lock_x_lock_func_nowait). IB_OK, IB_BUSY or IB_RACED;
 * IB_NOT_ALLOWED beside its own SX alone, for which ib_reserve_x is. Price: one look, one exchange and one store. */
static inline ib_tried ib_try_x(ib_session *session, uint32_t latch, uint32_t level) {
    return session ? ib_c_try_x(session, latch, level) : ib_tried_null();
}

/* Takes X, or reserves it while readers remain (rw_lock_x_lock_low). IB_OK, IB_NEXT, IB_BUSY or IB_RACED. After IB_NEXT
 * the session is the latch's next writer, and may do nothing but wait for it: ib_ready_x, or ib_arm_next and so on. */
static inline ib_tried ib_reserve_x(ib_session *session, uint32_t latch, uint32_t level) {
    return session ? ib_c_reserve_x(session, latch, level) : ib_tried_null();
}

/* Whether the next writer owns X by now (rw_lock_x_lock_wait). IB_OK or IB_NOT_READY. Price: one look. */
static inline ib_tried ib_ready_x(ib_session *session, uint32_t latch) {
    return session ? ib_c_ready_x(session, latch) : ib_tried_null();
}

/* Gives S back (rw_lock_s_unlock). The last reader before a next writer raises the ex generation. Price: one addition. */
static inline ib_released ib_unlock_s(ib_session *session, uint32_t latch) {
    return session ? ib_c_unlock_s(session, latch) : ib_released_null();
}

/* Gives one SX back (rw_lock_sx_unlock). The last one raises the generation where somebody waits. Price: one addition and
 * one look at the waiters flag; where it is set, one exchange and one addition more. */
static inline ib_released ib_unlock_sx(ib_session *session, uint32_t latch) {
    return session ? ib_c_unlock_sx(session, latch) : ib_released_null();
}

/* Gives one X back (rw_lock_x_unlock). The last one raises the generation where somebody waits. Price: as ib_unlock_sx. */
static inline ib_released ib_unlock_x(ib_session *session, uint32_t latch) {
    return session ? ib_c_unlock_x(session, latch) : ib_released_null();
}

/* How a session sleeps by means of its own, for a first grant:
 *     ib_arm, then ib_recheck: IB_OK or IB_NEXT, it is granted or reserved; IB_RACED, ib_recheck again or ib_stand_down;
 *     IB_BUSY, ib_look: IB_OK, the generation was raised, and it begins anew; IB_ASLEEP, it sleeps until whoever raised
 *     the generation wakes it, and then ib_look again.
 * As a next writer, after IB_NEXT:
 *     ib_arm_next, then ib_verify: IB_OK, it owns X; IB_NOT_READY, ib_look, as above. After ib_look's IB_OK it is a next
 *     writer as before, and tries ib_ready_x or ib_arm_next again.
 * No raise after ib_arm (ib_arm_next) is missed: ib_look tells that the generation is another then. */

/* Records the latch's generation and the wish, and sets the waiters flag (sync_array_reserve_cell,
 * rw_lock_set_waiter_flag). Price: one look and one store. */
static inline ib_generation ib_arm(ib_session *session, uint32_t latch, uint32_t mode, uint32_t level) {
    ib_generation none = {IB_NULL, 0};
    return session ? ib_c_arm(session, latch, mode, level) : none;
}

/* Tries once more for what was recorded (the second look of rw_lock_s_lock_spin). IB_OK, IB_NEXT, IB_BUSY or IB_RACED. */
static inline ib_tried ib_recheck(ib_session *session, uint32_t latch) {
    return session ? ib_c_recheck(session, latch) : ib_tried_null();
}

/* Gives the recorded wish up (sync_array_free_cell). Price: one look. */
static inline uint32_t ib_stand_down(ib_session *session, uint32_t latch) {
    return session ? ib_c_stand_down(session, latch) : (uint32_t)IB_NULL;
}

/* The next writer records the latch's ex generation (sync_array_reserve_cell for RW_LOCK_X_WAIT). */
static inline ib_generation ib_arm_next(ib_session *session, uint32_t latch) {
    ib_generation none = {IB_NULL, 0};
    return session ? ib_c_arm_next(session, latch) : none;
}

/* Whether the next writer that has recorded the ex generation owns X. IB_OK or IB_NOT_READY. Price: one look. */
static inline ib_tried ib_verify(ib_session *session, uint32_t latch) {
    return session ? ib_c_verify(session, latch) : ib_tried_null();
}

/* The sleeper's look: IB_ASLEEP while the generation that it recorded stands (os_event_wait_low's reset_sig_count). */
static inline ib_generation ib_look(ib_session *session, uint32_t latch) {
    ib_generation none = {IB_NULL, 0};
    return session ? ib_c_look(session, latch) : none;
}

/* The lock word of a latch, by one look of a session in the middle of nothing: 0x20000000 where nobody has it
 * (rw_lock_get_x_lock_count and the like). Price: one look. */
static inline ib_looked ib_word(ib_session *session, uint32_t latch) {
    ib_looked none = {IB_NULL, 0};
    return session ? ib_c_word(session, latch) : none;
}

/* How many grants the session holds now, on all latches. No step on a shared word, nor has any of the calls below. */
static inline ib_held_grants ib_held(ib_session *session) {
    ib_held_grants none = {IB_NULL, 0};
    return session ? ib_c_held(session) : none;
}

/* How many grants of each mode it holds on a latch (mtr_memo_contains). A next writer has its X counted. */
static inline ib_counted ib_counts(ib_session *session, uint32_t latch) {
    ib_counted none = {IB_NULL, 0, 0, 0};
    return session ? ib_c_counts(session, latch) : none;
}

/* What the session is in the middle of, and on which latch. */
static inline ib_in_phase ib_phase(ib_session *session) {
    ib_in_phase none = {IB_NULL, 0, 0};
    return session ? ib_c_phase(session) : none;
}

/* Whether a grant of the mode may be wished for on a latch at a level: IB_OK, or what ib_try_s, ib_try_sx or
 * ib_reserve_x would be refused for, before any look at the latch (sync_check_lock). */
static inline uint32_t ib_may_take(ib_session *session, uint32_t latch, uint32_t mode, uint32_t level) {
    return session ? ib_c_may_take(session, latch, mode, level) : (uint32_t)IB_NULL;
}

/* Lookups and changes of the tree. A key is `length` bytes, 15 at most, else IB_BAD_KEY; keys are in the order of their bytes. The
 * session holds nothing and is in the middle of nothing, and may take 16,384 grants more of its 2^52, else IB_NOT_ALLOWED; it
 * holds nothing afterwards. Each latch is tried, and where one is refused, all is given up with nothing changed: IB_BUSY or
 * IB_RACED, with that latch. Else IB_OK, with the reply.
 *
 * These calls raise generations, as every release does, but tell of none and wake nobody: a session that sleeps on a latch by means
 * of its own beside such calls is to look again (ib_look) after a time of its own. */

/* Looks a key up (row_search_mvcc by a key of the clustered index, without versions): IB_FOUND or IB_NOT_FOUND. Price: a look, an
 * exchange and an addition for the index and for each page of the key's path, two to nine in all (ib_try_s, ib_unlock_s), a look at
 * the log's end, and the search of each page. */
static inline ib_answered ib_get_nowait(ib_session *session, const uint8_t *key, size_t length) {
    ib_answered none = {IB_NULL, 0, 0, 0, 0, 0, 0, 0, 0, 0, 0};
    uint8_t nothing = 0;
    if (!session || (!key && length)) return none;
    return ib_c_get_nowait(session, key ? key : &nothing, length);
}

/* Puts a pair in (row_ins_clust_index_entry): IB_INSERTED, IB_DUPLICATE, IB_TOO_HIGH, IB_SPACE_FULL or IB_LOG_FULL. Price: the index
 * and the pages above the leaf in S, the leaf and the log in X (btr_cur_optimistic_insert): a look, an exchange and an addition for
 * each, and a store and a look more for those in X, then a store for each word of the entry. Where the leaf is full all is done again
 * with the index in SX and the pages that change in X (btr_cur_pessimistic_insert): 128 grants at most. */
static inline ib_answered ib_insert_nowait(ib_session *session, const uint8_t *key, size_t length, uint64_t value) {
    ib_answered none = {IB_NULL, 0, 0, 0, 0, 0, 0, 0, 0, 0, 0};
    uint8_t nothing = 0;
    if (!session || (!key && length)) return none;
    return ib_c_insert_nowait(session, key ? key : &nothing, length, value);
}

/* Takes a key out (row_upd_clust_step with the record's delete mark, and the purge after it, at once): IB_DELETED, IB_MISSING or
 * IB_LOG_FULL. Price: as ib_insert_nowait (btr_cur_optimistic_delete); where the leaf is not the root and has 17 records or
 * fewer all is done again (btr_cur_pessimistic_delete). */
static inline ib_answered ib_delete_nowait(ib_session *session, const uint8_t *key, size_t length) {
    ib_answered none = {IB_NULL, 0, 0, 0, 0, 0, 0, 0, 0, 0, 0};
    uint8_t nothing = 0;
    if (!session || (!key && length)) return none;
    return ib_c_delete_nowait(session, key ? key : &nothing, length);
}

/* Scans from `low` to `high`, both with them, without waiting (row_search_mvcc of a range; btr_pcur_move_to_next_page). What is there is
 * written chunk by chunk, each as the tree has it at the chunk's own place of the log: in front of `chunks` IB_CHUNK_WORDS words a chunk,
 * the two words of the key that it begins at, the two of the key that it ends at (ib_key_bytes), its place, and how many pairs it has; in
 * front of `pairs` the pairs of all chunks, in order of keys, IB_PAIR_WORDS words a pair, as ib_replay writes them. The first chunk begins
 * at `low`, each further one behind the end of the one before, at no lower place, and of a scan that is done the last one ends at `high`.
 * There is room for `chunk_room` chunks and `pair_room` pairs; the two must not overlap, and all words behind what is written stay as
 * they were.
 *
 * IB_OK: all was scanned; where `low` is above `high`, with no chunk. IB_NO_ROOM: the chunk that begins at `next` finds no place of a
 * chunk spare, or fewer places of pairs than it has pairs; a chunk has 35 at most, so with room for one and 35 pairs a scan gets ahead.
 * IB_BUSY, IB_RACED: a latch was refused on the way to the chunk that begins at `next`, and all was given up. In each of them what is
 * before `next` is written, so that a scan from `next` on goes on, with more room or later. The session holds nothing afterwards.
 *
 * Else nothing is done, and no word is written: IB_BAD_KEY where a key has more than 15 bytes; IB_NOT_ALLOWED where the session holds
 * something, is in the middle of something, or may take fewer of its 2^52 grants than 8,192 for each chunk of the room and 8,192 more;
 * IB_OUT_OF_MEMORY. Price: that of ib_get_nowait for the first leaf, and for each further one a look, an exchange, an addition and a look
 * at the log's end; memory for the room, which is given back. */
static inline ib_scanned ib_scan_nowait(ib_session *session, const uint8_t *low, size_t low_length, const uint8_t *high, size_t high_length,
                                        uint64_t *chunks, size_t chunk_room, uint64_t *pairs, size_t pair_room) {
    ib_scanned none = {IB_NULL, 0, 0, 0, 0, 0, 0, 0, 0};
    uint8_t nothing = 0;
    uint64_t no_chunk, no_pair;
    if (!session || (!low && low_length) || (!high && high_length) || (!chunks && chunk_room) || (!pairs && pair_room)) return none;
    return ib_c_scan_nowait(session, low ? low : &nothing, low_length, high ? high : &nothing, high_length, chunks ? chunks : &no_chunk,
                            IB_CHUNK_WORDS * chunk_room, pairs ? pairs : &no_pair, IB_PAIR_WORDS * pair_room);
}

/* Copies `count` words of a closed space's log, from `first` on, else IB_BAD_RANGE and nothing is copied. `used` tells how
 * many words the log has, also where `count` is 0. Price: one load for each word. */
static inline ib_copied ib_log_words(ib_space *space, uint32_t first, uint64_t *out, size_t count) {
    ib_copied none = {IB_NULL, 0};
    uint64_t nothing;
    if (!space || (!out && count)) return none;
    return ib_c_log_words(space, first, out ? out : &nothing, count);
}

/* Copies the words of a page of a closed space, where `count` is IB_PAGE_WORDS and the space has the page, else IB_BAD_RANGE
 * and nothing is copied (buf_page_get_gen and the frame that it gives). `used` tells how many words a page has. Price: one load
 * for each word. */
static inline ib_copied ib_page_words(ib_space *space, uint32_t page, uint64_t *out, size_t count) {
    ib_copied none = {IB_NULL, 0};
    uint64_t nothing;
    if (!space || (!out && count)) return none;
    return ib_c_page_words(space, page, out ? out : &nothing, count);
}

/* Replays the file of a log on the pages of a new space and on the empty map, and writes the pairs of the map, in order of
 * keys, IB_PAIR_WORDS words a pair: the two of its key (ib_key_bytes) and its value (recv_recovery_from_checkpoint_start,
 * recv_apply_hashed_log_recs). IB_OK: the bytes are the file of a lawful log, of which each entry left a tree with what the
 * map had. IB_BAD_RANGE: they are too, and `count` is below 3 * pairs; the counts are told, and nothing is written. There are no more
 * pairs than entries, and an entry has 7 words at least, so length / 16 words of room are enough. IB_FAULTY: the first fault.
 * IB_BAD_LOG: 2^35 bytes or more. IB_OUT_OF_MEMORY. The words behind the pairs stay as they were. Any bytes may be given. Price: for each
 * entry the pages that it writes, their children and their neighbours; memory for all pages, all entries and the map. */
static inline ib_replayed ib_replay(const uint8_t *bytes, size_t length, uint64_t *out, size_t count) {
    ib_replayed none = {IB_NULL, 0, 0, 0, 0, 0, 0};
    uint8_t no_bytes = 0;
    uint64_t nothing;
    if ((!bytes && length) || (!out && count)) return none;
    return ib_c_replay(bytes ? bytes : &no_bytes, length, out ? out : &nothing, count);
}

/* The bytes of a key, from its two words, and how many they are. */
static inline size_t ib_key_bytes(uint64_t first, uint64_t second, uint8_t bytes[IB_KEY_BYTES]) {
    for (int i = 0; i < 8; i++) bytes[i] = (uint8_t)(first >> (56 - 8 * i));
    for (int i = 0; i < 7; i++) bytes[8 + i] = (uint8_t)(second >> (56 - 8 * i));
    return (size_t)(second & 15);
}

/* Whether the words of all pages, one page behind another, are those of a lawful tree: page 0 says which pages are taken, page
 * 1 is the root, and the keys, levels, links and ranges are right (btr_validate_index). IB_OK or IB_FAULTY; IB_BAD_PAGES where
 * they are not 16 to 4,096 pages; IB_OUT_OF_MEMORY. Any words may be given. Price: a copy of all words, and one visit of each
 * page; some 500 KB of stack, of which a thread may have less. */
static inline uint32_t ib_check_tree(const uint64_t *words, size_t count) {
    uint64_t nothing = 0;
    if (!words && count) return IB_NULL;
    return ib_c_check_tree(words ? words : &nothing, count);
}

#ifdef __cplusplus
}
#endif

#endif

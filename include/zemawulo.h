/* The archive's register: a world of servers, views, clients and messages in a
 * lent image of 21,744 bytes, moved by steps of 12 bytes. docs/LAYOUT.md has
 * every byte of both, and of all else that is lent here.
 *
 * Every answer is refusal + 256 * result, and 0 as refusal means done. Beside a
 * refusal the result is 0, but for the steps of a replay, and no lent byte is
 * changed, but for what a replay did before its stop and the fresh world that 15
 * of zw_shorten leaves. No call allocates memory, keeps a pointer or has a state
 * of its own. Any length is allowed and any byte: what does not fit is refused.
 * Buffers of one call must not overlap; one that is only read may be of any kind
 * of memory that no other thread writes. */
#ifndef ZEMAWULO_H
#define ZEMAWULO_H

#include <stddef.h>
#include <stdint.h>

#ifdef __cplusplus
extern "C" {
#endif

#define ZW_IMAGE 21744         /* bytes of an image */
#define ZW_STEP 12             /* bytes of a step */
#define ZW_FIRST 8             /* bytes of the step that a watched replay names */
#define ZW_SERVER 20           /* bytes of a server's record */
#define ZW_CLIENT 20           /* bytes of a client's record */
#define ZW_ADMINISTRATOR 4     /* bytes of the administrator's record */
#define ZW_SERVER_CALL 24      /* bytes of what is asked of a server */
#define ZW_CLIENT_CALL 17      /* bytes of what is asked of a client */
#define ZW_ADMINISTRATOR_CALL 12 /* bytes of what is asked of the administrator */
#define ZW_MESSAGE 20          /* bytes of a message's record */
#define ZW_VIEW 8              /* bytes of a view's record */
#define ZW_PHASE 644           /* bytes of the record of a phase */
#define ZW_ANSWER_CALL 28      /* bytes of what zw_answer takes: an answer, a message, and its view */
#define ZW_SHORTEN_STEPS 512   /* steps of a journal that is shortened, at most */
#define ZW_LOG_LINE 20         /* bytes of a line of a log that is judged */
#define ZW_LOG_LINES 256       /* lines of a log that is judged, at most */
#define ZW_ORDER_LINE 2        /* bytes of a line's number in an order */
#define ZW_ENTRY 12            /* bytes of an entry */
#define ZW_UNSIGNED_ANSWER 16  /* bytes of an answer without a signature, for zw_vouch */

/* Refusals. */
enum zw_refusal {
    ZW_DONE = 0,
    ZW_LENGTH = 1,      /* a buffer of wrong length */
    ZW_UNREADABLE = 2,  /* no image of a world */
    ZW_RANGE = 3,       /* unknown kind, a field out of range or an unused one set */
    ZW_BUSY = 4,        /* client not idle; the newest view is being ended */
    ZW_NO_MESSAGE = 5,  /* no such message, or of the wrong kind */
    ZW_FAULTY = 6,      /* the server is faulty, or is not */
    ZW_NO_RULE = 7,     /* the rule does not apply; the answer is taken or not to what is open; nothing is being ended */
    ZW_SIZE = 8,        /* size rule broken, a read size outside its bounds, or no view is left */
    ZW_NO_KEY = 9,      /* the server lacks that key */
    ZW_FULL = 10,       /* all message numbers are used */
    ZW_COUNT = 11,      /* the write would need too large a count */
    ZW_IDLE = 12,       /* the client is idle */
    ZW_NO_ORDER = 13,   /* no order of the log exists */
    ZW_MALFORMED = 14,  /* a log or a list of answers that breaks its rules */
    ZW_NO_REFUSAL = 15, /* the replay stops on no refusal */
    ZW_UNVOUCHED = 16   /* no entry qualifies */
};

/* Kinds of messages. */
enum zw_kind {
    ZW_KIND_READ = 1,
    ZW_KIND_WRITE = 2,
    ZW_KIND_END = 3,
    ZW_KIND_START = 4,
    ZW_KIND_ANSWER = 5
};

/* What an answer did to the phase that it was given to: results of zw_answer. */
enum zw_answered {
    ZW_OPEN = 0,          /* it is open */
    ZW_CLOSED = 1,        /* it is closed */
    ZW_CLOSED_AT_ONCE = 2 /* it is closed, and a read may end without its WRITE */
};

static inline unsigned zw_refusal_of(uint64_t answer) { return (unsigned)(answer & 255); }
static inline uint64_t zw_result_of(uint64_t answer) { return answer >> 8; }

/* Makes the fresh world of these members (bit s-1 is server s), f and read size
 * r: 0 for a quorum, or at least 2f+1 and twice r at most n+f+1. Result 0.
 * Refusals 1, 8. */
uint64_t zw_fresh(uint8_t *image, size_t n, uint32_t members, uint8_t f, uint8_t r);

/* How many of n servers with threshold f and read size r close READ, and how
 * many WRITE and END. Result: the first + 256 * the second. Refusal 8. */
uint64_t zw_quorum(uint32_t n, uint32_t f, uint32_t r);

static inline unsigned zw_read_size_of(uint64_t answer) { return (unsigned)(answer >> 8 & 255); }
static inline unsigned zw_write_size_of(uint64_t answer) { return (unsigned)(answer >> 16); }

/* One step, of kind 1 write, 2 read, 3 deliver, 4 take, 5 fault, 6 false answer,
 * 7 new view, 8 give up or 9 restart of the administrator. Result: the number of
 * the client whose operation it completed, or 0; the operation's entry is in that
 * client's record. Refusals 1 to 12. */
uint64_t zw_step(uint8_t *image, size_t n, const uint8_t *step, size_t m);

/* Whether no view has more faulty servers with its key than its threshold.
 * Result 1 if so. Refusals 1, 2. */
uint64_t zw_premise(const uint8_t *image, size_t n);

/* The steps of a journal, one behind the other, up to the first that is
 * refused. Result: the steps done, beside a refusal too, exact below 2^56 (the
 * remainder by 2^56 is told). Refusals 1 to 12. */
uint64_t zw_replay(uint8_t *image, size_t n, const uint8_t *journal, size_t m);

/* The rest of a journal: its steps but the first ones, which were done before
 * on this image, up to the first that is refused. Result: the steps done now,
 * beside a refusal too, exact below 2^56. Refusals 1 to 12; 1 also if the journal
 * has fewer steps. */
uint64_t zw_resume(uint8_t *image, size_t n, const uint8_t *journal, size_t m, uint64_t steps);

/* A replay that watches the premise: the result and the refusals are those of
 * zw_replay. `first`, 8 bytes, gets the number of the first step after which some
 * view has more faulty servers with its key than its threshold, or 0, a u64,
 * little-endian; beside a stop too. It is written unless the refusal is 1 or 2.
 * 1 also if k is another length. */
uint64_t zw_watch(uint8_t *image, size_t n, const uint8_t *journal, size_t m, uint8_t *first, size_t k);

/* Writes the load of a seed and a number of steps: a journal of n bytes, n being
 * ZW_STEP * steps. The two inputs fix every byte, and each step passes check 3.
 * Result 0. Refusal 1, n is another length. */
uint64_t zw_load(uint8_t *journal, size_t n, uint32_t seed, uint32_t steps);

/* Judges a log of lines of 20 bytes: whether its operations have an order in
 * which each read returns the last write before it, what ended before another
 * began comes first, and stamps never fall. Done, `order` has the numbers of the
 * lines in such an order, u16, zero after them; it is of 2 bytes a line. Result:
 * how many they are. Refusals 1, lengths; 14, a malformed log (over 256 lines
 * too); 13, no order exists. A refusal leaves `order` as it was. */
uint64_t zw_judge(const uint8_t *log, size_t n, uint8_t *order, size_t m);

/* The short journal behind a refusal, from the fresh world of these members,
 * f and r: its replay stops with the same refusal number, and no longer does when
 * any single step is dropped. `shorter` has as many bytes as the journal (k = m),
 * at most 512 steps; it gets the short journal, zero after it. Result: the
 * number of its steps. When done, and after 15, the image holds the fresh world;
 * beside any other refusal no lent byte is changed. Refusals 1, 8, 15. */
uint64_t zw_shorten(uint8_t *image, size_t n, uint32_t members, uint8_t f, uint8_t r,
                    const uint8_t *journal, size_t m, uint8_t *shorter, size_t k);

/* Entries without a signature: chosen by how many of n servers show them, at
 * most b of which lie. `answers` is a list of answers of 16 bytes (server u8, 3
 * zero, entry 12), each server at most once, at least half of n+2b+1, rounded
 * up. Of the entries that at least b+1 servers show, the largest stamp, for
 * equal stamps the smaller value. Result 0; done, the entry is written to
 * `entry`, 12 bytes. Refusals 1, 14, 16. */
uint64_t zw_vouch(const uint8_t *answers, size_t m, uint32_t n, uint32_t b,
                  uint8_t *entry, size_t k);

/* The same for thresholds: `largest`, the largest permitted b, plus 1 in place
 * of b+1, and an entry is dropped if that many servers show larger stamps. 14
 * also if `largest` is below b or above (n-1)/4. */
uint64_t zw_vouch_threshold(const uint8_t *answers, size_t m, uint32_t n, uint32_t b,
                            uint32_t largest, uint8_t *entry, size_t k);

/* The rules of one machine, on its record alone, as a real machine runs them.
 * docs/LAYOUT.md has what is asked of it. Refusals 1, 3, then as its step, but
 * 10: only the world knows how many message numbers are used. */

/* A server: a message reaches it (rule 3), or a faulty one gives a false answer
 * (rule 6). Result of 3: 1 if it answers, with the view and entry of its record,
 * 0 if it answers nothing. Result of 6: 0; not refused, it may answer with the
 * view that was asked for, and its record stays as it is. */
uint64_t zw_server(uint8_t *server, size_t n, const uint8_t *call, size_t m);

/* A client: it begins a write or a read (rules 1, 2), its phase closes with an
 * entry (rule 4; a read whose answers all carry it, in a view whose read size is
 * not below its write size, the call's last byte being 1, is complete and sends
 * nothing), or it gives its operation up (rule 8, all else of the call zero; 12,
 * it is idle). Result 1 if its operation is complete, else 0, as for one that is
 * given up. */
uint64_t zw_client(uint8_t *client, size_t n, const uint8_t *call, size_t m);

/* The administrator: it calls a new view (rule 7), END closes (rule 4), or it
 * restarted before END closed (rule 9, with the view that is pending from now on,
 * or with zeros to leave it as it is; 3, no members but f or r; 7, nothing is
 * being ended; 8). A restart leaves the record as it is. Result 0. */
uint64_t zw_administrator(uint8_t *administrator, size_t n, const uint8_t *call, size_t m);

/* The answers to one request, for a client's phase or the administrator's END:
 * a lent record of 644 bytes has the answers taken so far, however many they
 * are. Give it every answer that arrives and whose signature fits its tag and
 * its sender; it counts servers, each view apart. */

/* Opens the record: `kind` is that of the request (ZW_KIND_READ, ZW_KIND_WRITE
 * or ZW_KIND_END), `view` the number of the view that END ends, 1 to 31, and 0
 * for the others, `request` the request's number, 1 to 1,023. All bytes are
 * written. Result 0. Refusals 1, 3. */
uint64_t zw_open(uint8_t *phase, size_t n, uint8_t kind, uint8_t view, uint16_t request);

/* One answer: `call` is its message (ZW_MESSAGE bytes; `taken` and `next` are 0)
 * and the record of the view that it is tagged with (ZW_VIEW bytes: members, f,
 * r). Result ZW_OPEN: the phase is open. ZW_CLOSED: it is closed, and `entry`, 12
 * bytes, is written. ZW_CLOSED_AT_ONCE: as that, and a read may end here without
 * its WRITE. After 2 the last byte of what is asked of the client by rule 4 is 1,
 * after 1 it is 0: zw_at_once_of. Closed, the record has nothing open, and a later
 * answer is refused with 7. `entry` is written only when closed. Refusals 1; 3; 5,
 * not an answer; 7, marked as taken or of another request; 8, the view breaks the
 * size rule. */
uint64_t zw_answer(uint8_t *phase, size_t n, const uint8_t *call, size_t m,
                   uint8_t *entry, size_t k);

static inline unsigned zw_at_once_of(uint64_t answer) { return zw_result_of(answer) == ZW_CLOSED_AT_ONCE; }

#ifdef __cplusplus
}
#endif

#endif

/* Saltlicker's calls for C and C++. `bin/library` proves and builds them in target/staticlib: link libsaltlicker.a (x86-64
   Linux), for the trace check libsaltlicker_audit.a, and for the texts at the end libsaltlicker_text.a, alone or together.
   examples/viaduct.c uses most of them.

   Every slice is a pointer and a length in elements, not in bytes. A pointer may not be null; where the length is 0 it is not
   read through. Two slices of one call may not overlap where either is written. Within these two rules no call reads or writes
   past a slice, whatever it is lent, and a call that is refused leaves what it was lent unchanged but where its line says
   otherwise.

   The calls allocate nothing and keep nothing from one to the next: a desk is its two tables and its words, and can be stored
   and brought back as those. Threads that share a desk must take turns. The order, and the texts of a desk and of an order,
   want 256 KiB of stack, more than some small threads have; the text of a trace check 40; the other calls a few. */
#ifndef SALTLICKER_H
#define SALTLICKER_H

#include <stddef.h>
#include <stdint.h>

#ifdef __cplusplus
extern "C" {
#endif

/* An answer: a code in the upper 32 bits, a value in the lower 32. A code below 100 is a refusal by that number (below), or
   99. From 101 on it is the kind of the event that the answer puts in the trace, plus 100; from 201 on the rest. The value is 0
   where nothing else is said of it. */
typedef uint64_t saltlicker_answer;

static inline uint32_t saltlicker_code(saltlicker_answer answer) { return (uint32_t)(answer >> 32); }
static inline uint32_t saltlicker_value(saltlicker_answer answer) { return (uint32_t)answer; }

/* The refusals. Of a request and, 1 only, of a clearing; where several apply, the lowest:
    1 tables unequal, empty or over 4,096 words
    2 seat over 31
    3 record not below the tables' length
    4 BEGIN on a live seat
    5 another request on a free seat
    6 BEGIN with 2,097,151 or more begun
    7 TOUCH or RELEASE of a record that the seat does not hold
    8 LOCK, TOUCH or RELEASE of a record that it holds and has released
   Of an event, the first fault from the left:
   20 the input ends inside it
   21 number not shortest, over 2,097,151, or of more than three bytes
   22 kind not 1 to 5
   23 ticket 0 or over 2,097,151, or record over 4,095
   24 no room to write it
   Of an order, also 20 to 23:
   25 table or list of wrong length
   26 trace over 65,536 bytes
   27 ticket over 256
   28 the befores close a ring
   Of a trace check, also 1 for tables of another length than 4,096, and 20 to 23:
   40 event not allowed: the desk could not have written it then */
enum {
    SALTLICKER_UNKNOWN_KIND = 22, /* a request or an event of no such kind, whatever else is wrong with it */
    SALTLICKER_WRONG_LENGTH = 99, /* desk, requests, answers, event or at of another length than asked; nothing is changed */

    SALTLICKER_STARTED = 101,  /* value: the ticket */
    SALTLICKER_GRANTED = 102,
    SALTLICKER_TOUCHED = 103,
    SALTLICKER_RELEASED = 104,
    SALTLICKER_FINISHED = 105,

    SALTLICKER_HELD = 201,     /* LOCK: the seat holds the record already */
    SALTLICKER_WAIT = 202,     /* LOCK: ask again later. Value: 1, another holds the record; 2, the seat's wake forbids it */
    SALTLICKER_CLEARED = 203,
    SALTLICKER_JUDGED = 204,
    SALTLICKER_FOUND = 205,    /* value: the event's length in bytes */
    SALTLICKER_END = 206,      /* no event is left */
    SALTLICKER_WRITTEN = 207,  /* value: the event's length in bytes */
    SALTLICKER_ORDERED = 208,  /* value: how many tickets are listed */
    SALTLICKER_ACCEPTED = 209
};

/* Kinds of request, and of event: 1 started, 2 granted, 3 touched, 4 released, 5 finished. */
enum {
    SALTLICKER_BEGIN = 1,
    SALTLICKER_LOCK = 2,
    SALTLICKER_TOUCH = 3,
    SALTLICKER_RELEASE = 4,
    SALTLICKER_FINISH = 5
};

enum {
    SALTLICKER_SEATS = 32,
    SALTLICKER_RECORDS = 4096,       /* tables have 1 to this many words */
    SALTLICKER_REQUEST_WORDS = 3,    /* kind, seat, record (BEGIN and FINISH do not read the record) */
    SALTLICKER_EVENT_WORDS = 3,      /* kind, ticket, record (0 for kinds 1 and 5, which have none) */
    SALTLICKER_DESK_WORDS = 67,      /* words 2s and 2s+1: ticket and wake of seat s; bit s of word 64: seat s is live;
                                        bit s of word 65: it has a lock; word 66: how many changes have begun */
    SALTLICKER_TABLE_WORDS = 2048,   /* bit (j-1)%32 of word 8*(i-1) + (j-1)/32: ticket i comes before ticket j */
    SALTLICKER_LIST_PLACES = 256,    /* the tickets in order, then zeros */
    SALTLICKER_TRACE_BYTES = 65536,  /* the longest trace that has an order */
    SALTLICKER_FILE_BYTES = 16384,   /* the longest request file */
    SALTLICKER_DESK_TEXT = 242971,   /* room for the text of any request file */
    SALTLICKER_ORDER_TEXT = 5403,    /* room for the text of any trace's order */
    SALTLICKER_AUDIT_TEXT = 53       /* room for the text of any trace's check */
};

/* Fills both tables with zeros and the desk with a record of free seats: CLEARED. Refused 1, the tables stay and the desk is
   still filled. Word a of a table belongs to record a, and bit s of it to seat s. */
saltlicker_answer saltlicker_clear(uint32_t *held, size_t held_words, uint32_t *released, size_t released_words,
                                   uint32_t *desk, size_t desk_words);

/* Judges the requests one after the other, each on what the one before left, and puts each one's answer at its place:
   JUDGED, also where requests are refused: those say so in their own answers. There must be three words of requests to each
   answer, else WRONG_LENGTH and no answer is written.

   Of the tables, FINISH stores only the words that have the seat's bit (examples/pages.c counts the pages), a LOCK that is granted
   and a RELEASE that is not refused one word, and all else none. The desk's 67 words are stored by every call but with
   WRONG_LENGTH, also where all requests are refused.

   The caller keeps the trace: an answer of 101 to 105 calls for saltlicker_write of kind code - 100, with the record asked for
   and the seat's ticket: the value of STARTED, or else word 2s of the desk from before the request, since FINISH takes it away.
   (Of many requests in one call: from before the call, or the value of the seat's latest STARTED within it.) */
saltlicker_answer saltlicker_judge(uint32_t *held, size_t held_words, uint32_t *released, size_t released_words,
                                   uint32_t *desk, size_t desk_words, const uint32_t *requests, size_t request_words,
                                   saltlicker_answer *answers, size_t answer_count);

/* Reads the event at the front of the rest of a trace into kind, ticket and record: FOUND with its length, by which the caller
   moves on, or END or refused 20 to 23, which leave the event's words. */
saltlicker_answer saltlicker_read(const uint8_t *rest, size_t rest_bytes, uint32_t *event, size_t event_words);

/* Puts an event at the front of the unused rest of a buffer: WRITTEN with its length (at most 6), by which the caller moves on,
   or refused 22 to 24. Kinds 1 and 5 do not look at the record. */
saltlicker_answer saltlicker_write(uint8_t *room, size_t room_bytes, uint32_t kind, uint32_t ticket, uint32_t record);

/* Works out the table of befores and the list of the tickets that touched something or were granted something: ORDERED, or
   refused, with the offset as the value: the first byte of the faulty event, or 0 for 25, 26 and 28. Refused 28, the table
   holds the pairs and the list zeros. Ticket i comes before ticket j if i touched or was granted some record earlier than j
   did. */
saltlicker_answer saltlicker_order(const uint8_t *trace, size_t trace_bytes, uint32_t *table, size_t table_words,
                                   uint16_t *list, size_t list_places);

/* Checks a trace: ACCEPTED if a desk of 4,096 records could have written it from cleared tables, each started change on the
   lowest free seat, or refused 20 to 23 or 40, with the offset of the first byte of the first faulty event in at[0]. Both tables
   must have SALTLICKER_RECORDS words and are left as after the last event allowed, whatever they held before; refused 1, they
   stay and at[0] is 0. `at` is one word, of 64 bits since the trace may have any length; ACCEPTED leaves it. In
   libsaltlicker_audit.a. */
saltlicker_answer saltlicker_audit(const uint8_t *trace, size_t trace_bytes, uint32_t *held, size_t held_words,
                                   uint32_t *released, size_t released_words, uint64_t *at, size_t at_words);

/* What the desk program prints of a request file, at the front of out, and how long it is; as much of it as there is room for.
   No zero byte ends it. */
size_t saltlicker_desk_text(const uint8_t *input, size_t input_bytes, uint8_t *out, size_t out_bytes);

/* What the order program prints of a trace, in the same way. */
size_t saltlicker_order_text(const uint8_t *trace, size_t trace_bytes, uint8_t *out, size_t out_bytes);

/* What the audit program prints of a trace, in the same way. */
size_t saltlicker_audit_text(const uint8_t *trace, size_t trace_bytes, uint8_t *out, size_t out_bytes);

#ifdef __cplusplus
}
#endif

#endif

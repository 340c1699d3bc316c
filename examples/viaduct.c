/* The viaduct, request by request: prints what the desk program prints of it. */
#include "saltlicker.h"
#include <stdio.h>

enum { RECORDS = 256 };
enum { SWEEP = 0, EDITOR = 1 };
enum { DECK = 5, ROAD = 6 };

static uint32_t held[RECORDS], released[RECORDS], desk[SALTLICKER_DESK_WORDS];
static uint8_t trace[SALTLICKER_TRACE_BYTES];
static size_t used;

static void print_answer(saltlicker_answer answer) {
    uint32_t value = saltlicker_value(answer);
    switch (saltlicker_code(answer)) {
    case SALTLICKER_STARTED: printf("started %u\n", (unsigned)value); break;
    case SALTLICKER_GRANTED: puts("granted"); break;
    case SALTLICKER_TOUCHED: puts("touched"); break;
    case SALTLICKER_RELEASED: puts("released"); break;
    case SALTLICKER_FINISHED: puts("finished"); break;
    case SALTLICKER_HELD: puts("held"); break;
    case SALTLICKER_WAIT: printf("wait %u\n", (unsigned)value); break;
    default: printf("refused %u\n", (unsigned)saltlicker_code(answer));
    }
}

/* Puts the event that an answer calls for in the trace; `ticket` is the seat's from before the request. */
static int note(saltlicker_answer answer, uint32_t ticket, uint32_t record) {
    uint32_t code = saltlicker_code(answer);
    if (code < SALTLICKER_STARTED || code > SALTLICKER_FINISHED) return 0;
    if (code == SALTLICKER_STARTED) ticket = saltlicker_value(answer);
    saltlicker_answer written = saltlicker_write(trace + used, sizeof trace - used, code - 100, ticket, record);
    if (saltlicker_code(written) != SALTLICKER_WRITTEN) return 1;
    used += saltlicker_value(written);
    return 0;
}

static int ask(uint32_t kind, uint32_t seat, uint32_t record) {
    uint32_t request[SALTLICKER_REQUEST_WORDS] = {kind, seat, record};
    uint32_t ticket = seat < SALTLICKER_SEATS ? desk[2 * seat] : 0; /* now, since FINISH takes it away */
    saltlicker_answer answer;
    saltlicker_judge(held, RECORDS, released, RECORDS, desk, SALTLICKER_DESK_WORDS, request, SALTLICKER_REQUEST_WORDS,
                     &answer, 1);
    print_answer(answer);
    return note(answer, ticket, record);
}

static int print_order(void) {
    static uint32_t table[SALTLICKER_TABLE_WORDS];
    static uint16_t list[SALTLICKER_LIST_PLACES];
    saltlicker_answer answer =
        saltlicker_order(trace, used, table, SALTLICKER_TABLE_WORDS, list, SALTLICKER_LIST_PLACES);
    uint32_t code = saltlicker_code(answer), value = saltlicker_value(answer);
    if (code != SALTLICKER_ORDERED) {
        printf("refused %u at %u\n", (unsigned)code, (unsigned)value);
        return 1;
    }
    printf("order %u\n", (unsigned)value);
    for (uint32_t place = 0; place < value; place++) printf("%u\n", (unsigned)list[place]);
    return 0;
}

int main(void) {
    static const uint32_t requests[][SALTLICKER_REQUEST_WORDS] = {
        {SALTLICKER_BEGIN, SWEEP, 0},
        {SALTLICKER_LOCK, SWEEP, DECK},
        {SALTLICKER_TOUCH, SWEEP, DECK},
        {SALTLICKER_RELEASE, SWEEP, DECK},
        {SALTLICKER_BEGIN, EDITOR, 0},
        {SALTLICKER_LOCK, EDITOR, DECK},
        {SALTLICKER_TOUCH, EDITOR, DECK},
        {SALTLICKER_LOCK, EDITOR, ROAD},
        {SALTLICKER_LOCK, SWEEP, ROAD},
        {SALTLICKER_TOUCH, SWEEP, ROAD},
        {SALTLICKER_RELEASE, SWEEP, ROAD},
        {SALTLICKER_LOCK, EDITOR, ROAD},
        {SALTLICKER_TOUCH, EDITOR, ROAD},
        {SALTLICKER_FINISH, EDITOR, 0},
        {SALTLICKER_FINISH, SWEEP, 0},
    };
    saltlicker_clear(held, RECORDS, released, RECORDS, desk, SALTLICKER_DESK_WORDS);
    for (size_t at = 0; at < sizeof requests / sizeof requests[0]; at++)
        if (ask(requests[at][0], requests[at][1], requests[at][2])) return 1;
    return print_order();
}

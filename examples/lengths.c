/* Slices of right and wrong lengths, and tickets at their limit, from C: each call serves or refuses them by number. Silent when
   all is well; under valgrind a step past a slice is an error too, since each is allocated at exactly its size. */
#include "saltlicker.h"
#include <stdio.h>
#include <stdlib.h>
#include <string.h>

static int failed;

static void *slice(size_t bytes) {
    void *made = malloc(bytes);
    if (made == NULL) exit(2); /* a null pointer may not be lent, even of length 0 */
    memset(made, 7, bytes);
    return made;
}

static void expect(const char *call, saltlicker_answer answer, uint32_t code) {
    if (saltlicker_code(answer) == code) return;
    fprintf(stderr, "%s: %u, not %u\n", call, (unsigned)saltlicker_code(answer), (unsigned)code);
    failed = 1;
}

static void clear(size_t n, size_t m, size_t desk_words, uint32_t code) {
    uint32_t *held = slice(n * sizeof *held), *released = slice(m * sizeof *released);
    uint32_t *desk = slice(desk_words * sizeof *desk);
    expect("clear", saltlicker_clear(held, n, released, m, desk, desk_words), code);
    free(held), free(released), free(desk);
}

/* Requests of each kind in turn, on a damaged desk; `each` is what the last of them is told. */
static void judge(size_t n, size_t m, size_t desk_words, size_t words, size_t count, uint32_t code, uint32_t each) {
    uint32_t *held = slice(n * sizeof *held), *released = slice(m * sizeof *released);
    uint32_t *desk = slice(desk_words * sizeof *desk), *requests = slice(words * sizeof *requests);
    saltlicker_answer *answers = slice(count * sizeof *answers);
    for (size_t at = 0; at < words; at++) requests[at] = at % 3 == 0 ? (uint32_t)(at / 3 % 5 + 1) : 0;
    expect("judge", saltlicker_judge(held, n, released, m, desk, desk_words, requests, words, answers, count), code);
    if (each != 0) expect("judge, the last", answers[count - 1], each);
    free(held), free(released), free(desk), free(requests), free(answers);
}

static void read_and_write(size_t bytes, size_t words, uint32_t read, uint32_t written) {
    uint8_t *room = slice(bytes);
    uint32_t *event = slice(words * sizeof *event);
    expect("write", saltlicker_write(room, bytes, SALTLICKER_TOUCH, 2097151, 4095), written);
    expect("read", saltlicker_read(room, bytes, event, words), read);
    free(room), free(event);
}

/* A ticket of three bytes reads back as itself; one that is refused leaves the room, and no kind is 7. */
static void ticket(uint32_t number, uint32_t written, uint32_t read) {
    uint8_t *room = slice(4);
    uint32_t *event = slice(3 * sizeof *event);
    expect("write, a ticket", saltlicker_write(room, 4, SALTLICKER_BEGIN, number, 0), written);
    expect("read, a ticket", saltlicker_read(room, 4, event, 3), read);
    if (read == SALTLICKER_FOUND && event[1] != number) failed = 1;
    free(room), free(event);
}

static void order(size_t bytes, size_t words, size_t places, uint32_t code) {
    uint8_t *trace = slice(bytes);
    uint32_t *table = slice(words * sizeof *table);
    uint16_t *list = slice(places * sizeof *list);
    memset(trace, SALTLICKER_BEGIN, bytes);
    expect("order", saltlicker_order(trace, bytes, table, words, list, places), code);
    free(trace), free(table), free(list);
}

/* `offset` is where a refusal must be; an offset that nothing is said of must stay. */
static void audit(size_t bytes, size_t n, size_t m, size_t at_words, uint32_t code, uint64_t offset) {
    uint8_t *trace = slice(bytes);
    uint32_t *held = slice(n * sizeof *held), *released = slice(m * sizeof *released);
    uint64_t *at = slice(at_words * sizeof *at), lent = at_words > 0 ? at[0] : 0;
    memset(trace, SALTLICKER_BEGIN, bytes);
    expect("audit", saltlicker_audit(trace, bytes, held, n, released, m, at, at_words), code);
    if (at_words > 0 && at[0] != (code < SALTLICKER_WRONG_LENGTH ? offset : lent)) failed = 1;
    free(trace), free(held), free(released), free(at);
}

static void text(size_t bytes, size_t room) {
    uint8_t *input = slice(bytes), *out = slice(room);
    memset(input, SALTLICKER_BEGIN, bytes);
    if (saltlicker_desk_text(input, bytes, out, room) > room) failed = 1;
    if (saltlicker_order_text(input, bytes, out, room) > room) failed = 1;
    if (saltlicker_audit_text(input, bytes, out, room) > room) failed = 1;
    free(input), free(out);
}

int main(void) {
    size_t whole = SALTLICKER_DESK_WORDS;
    clear(4, 4, whole, SALTLICKER_CLEARED), clear(4096, 4096, whole, SALTLICKER_CLEARED);
    clear(0, 0, whole, 1), clear(4, 5, whole, 1), clear(4097, 4097, whole, 1);
    clear(4, 4, 0, SALTLICKER_WRONG_LENGTH), clear(4, 4, whole - 1, SALTLICKER_WRONG_LENGTH);
    judge(4, 4, whole, 15, 5, SALTLICKER_JUDGED, SALTLICKER_FINISHED), judge(4, 4, whole, 0, 0, SALTLICKER_JUDGED, 0);
    judge(0, 0, whole, 15, 5, SALTLICKER_JUDGED, 1), judge(5, 4, whole, 15, 5, SALTLICKER_JUDGED, 1);
    judge(4, 4, whole - 1, 3, 1, SALTLICKER_WRONG_LENGTH, 0), judge(4, 4, whole, 2, 1, SALTLICKER_WRONG_LENGTH, 0);
    judge(4, 4, whole, 4, 1, SALTLICKER_WRONG_LENGTH, 0), judge(4, 4, whole, 3, 2, SALTLICKER_WRONG_LENGTH, 0);
    read_and_write(6, 3, SALTLICKER_FOUND, SALTLICKER_WRITTEN), read_and_write(0, 3, SALTLICKER_END, 24);
    read_and_write(5, 3, SALTLICKER_UNKNOWN_KIND, 24), read_and_write(6, 2, SALTLICKER_WRONG_LENGTH, SALTLICKER_WRITTEN);
    ticket(65535, SALTLICKER_WRITTEN, SALTLICKER_FOUND), ticket(65536, SALTLICKER_WRITTEN, SALTLICKER_FOUND);
    ticket(2097151, SALTLICKER_WRITTEN, SALTLICKER_FOUND), ticket(2097152, 23, SALTLICKER_UNKNOWN_KIND);
    order(0, 2048, 256, SALTLICKER_ORDERED), order(65536, 2048, 256, SALTLICKER_ORDERED), order(3, 2048, 256, 20);
    order(65537, 2048, 256, 26), order(65537, 2047, 256, 25), order(0, 2049, 256, 25), order(0, 2048, 0, 25);
    audit(0, 4096, 4096, 1, SALTLICKER_ACCEPTED, 0), audit(2, 4096, 4096, 1, SALTLICKER_ACCEPTED, 0);
    audit(3, 4096, 4096, 1, 20, 2), audit(4, 4096, 4096, 1, 40, 2), audit(70000, 4096, 4096, 1, 40, 2);
    audit(4, 4095, 4096, 1, 1, 0), audit(4, 4096, 4097, 1, 1, 0), audit(4, 0, 0, 1, 1, 0), audit(4, 4, 4, 1, 1, 0);
    audit(4, 4096, 4096, 0, SALTLICKER_WRONG_LENGTH, 0), audit(4, 4096, 4096, 2, SALTLICKER_WRONG_LENGTH, 0);
    audit(4, 0, 4096, 2, SALTLICKER_WRONG_LENGTH, 0);
    text(0, 0), text(0, 8), text(3, 5), text(16385, 16), text(65537, 3), text(524289, 3);
    return failed;
}

/* Hurkeztor: judges reorderings of loop nests. Six entries over a ticket's bytes; every one is proved to answer as documents 01 and 02 say,
 * for every ticket, however mangled. No entry keeps memory, calls anything, or fails in any other way than by its answer. Beside them stands the sign
 * of two indices, hurkeztor_sign.
 *
 * A ticket's steps, up to eight, are of four words each: kind, a, b, c. Loops are numbered from 1, by their place when the step is reached.
 *   1  exchange     loops a and b = a + 1; c is 0
 *   2  reversal     loop a; b and c are 0
 *   3  skew         inner loop b by outer loop a; c is 1 or -1
 *   4  section      loop a by width b, 2 to 256; c is 0
 *   5  circulation  loop a goes to place b, another one, and those between close up; c is 0
 *
 * An answer is one number:
 *   bits 0 to 7    document 01's number: 0 accepted, 1 to 16 refused
 *   bits 8 to 31   the place of a refusal: a word, step, loop or statement, counted from 1; 0 on acceptance
 *   bits 32 to 63  the count on acceptance: iterations (judge, run), bytes written (write, list), 1 'apart' or 0 'perhaps' (quick);
 *                  0 on refusal
 * The reason entry has two answers more, which are told apart from acceptance by their place (see there).
 *
 * Every answer fits these fields: that is proved too. A refused call changes no lent memory; an accepted one leaves every byte beyond those written
 * as it was. A call uses less than 1 MiB of stack. Calls may run at the same time in several threads.
 *
 * What is proved assumes of a caller, and nothing checks: a pointer and its length are of memory that can be read, and of out, store and list
 * written, for the whole call; out, store and list do not overlap the ticket; a store is aligned for its words and a list for its records; no
 * pointer is null, though of length 0 any other aligned address will do.
 */
#ifndef HURKEZTOR_H
#define HURKEZTOR_H

#include <stddef.h>
#include <stdint.h>

/* The version of this header and of the library that belongs to it. */
#define HURKEZTOR_VERSION_MAJOR 0
#define HURKEZTOR_VERSION_MINOR 1
#define HURKEZTOR_VERSION_PATCH 0
#define HURKEZTOR_VERSION "0.1.0"

#ifdef __cplusplus
extern "C" {
#endif

/* Whether the new order is accepted, and the count of iterations. */
uint64_t hurkeztor_judge(const uint8_t *ticket, size_t ticket_len);

/* The new nest's bytes into out. The longest has 2,696 bytes. */
uint64_t hurkeztor_write(const uint8_t *ticket, size_t ticket_len, uint8_t *out, size_t out_len);

/* The listing of all directions into out, in ASCII. The longest has 21,330 bytes. */
uint64_t hurkeztor_list(const uint8_t *ticket, size_t ticket_len, uint8_t *out, size_t out_len);

/* Whether two accesses, numbered from 1 in ticket order, are apart: they never name one element. */
uint64_t hurkeztor_quick(const uint8_t *ticket, size_t ticket_len, uint64_t first, uint64_t second);

/* The nest in its new order on a store of store_words words, arrays following one another, last subscript fastest. */
uint64_t hurkeztor_run(const uint8_t *ticket, size_t ticket_len, uint32_t *store, size_t store_words);

/* Two conflicting instances that trade places, and one kind of their conflict. Two that conflict in several ways have a record for each kind. It has
 * 22 bytes without padding, aligned to 2. */
typedef struct hurkeztor_pair {
    int16_t source[4];         /* the earlier instance's iteration, in the ticket's own indices, outermost first; 0 for loops not there */
    int16_t sink[4];           /* the later instance's iteration */
    uint16_t source_statement; /* the earlier instance's statement, from 1 */
    uint16_t sink_statement;   /* the later instance's statement */
    uint16_t kind;             /* the letter: 'F' written, then read; 'A' read, then written; 'O' written twice */
} hurkeztor_pair;

/* Why judge refuses the ticket with 10: the conflicting pairs that trade places at the refused step, into list, as many as it has room for. They come
 * by source iteration as first run, then sink iteration, source statement, sink statement and kind F, A, O. Three answers:
 *   pairs               number 0, place the refused step, count of all records, lent or not: at least 1
 *   by the table alone  number 0, place the refused step, count 0: no pair trades places
 *   any other           what judge answers: number 0 and place 0 on acceptance, or a refusal other than 10
 * Records of list beyond the pairs found keep their contents; where the answer is not pairs, all do. A list of length 0 gets the count. */
uint64_t hurkeztor_reason(const uint8_t *ticket, size_t ticket_len, hurkeztor_pair *list, size_t list_len);

/* The sign that directions have of a source's index and a sink's: -1, 0 or 1 as the source's is below, equal to or above the sink's; in a listing
 * that is <, = or >. It is proved for all numbers of 64 bits, also where their difference does not fit. */
int64_t hurkeztor_sign(int64_t source, int64_t sink);

static inline unsigned hurkeztor_number(uint64_t answer) { return (unsigned)(answer & 0xff); }
static inline unsigned hurkeztor_place(uint64_t answer) { return (unsigned)(answer >> 8 & 0xffffff); }
static inline uint32_t hurkeztor_count(uint64_t answer) { return (uint32_t)(answer >> 32); }

#ifdef __cplusplus
}
#endif

#endif

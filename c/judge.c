/* Judges a ticket with the six entries of Hurkeztor. Of pairs that trade places it gives the direction vector too.
 *
 *   judge [FILE]     a ticket's bytes, from FILE or from standard input
 *
 * The exit status is 0 where the new order is accepted, 1 where it is refused, 2 where the ticket can't be read.
 *
 *   cc -Iinclude c/judge.c crates/hurkeztor/out/libhurkeztor.a -o judge
 */
#include "hurkeztor.h"

#include <errno.h>
#include <inttypes.h>
#include <stdio.h>
#include <string.h>

/* No ticket that is accepted is longer than 1,008 bytes; whatever follows is refused where it begins. */
enum { TICKET_BYTES = 65536, NEST_BYTES = 2696, LISTING_BYTES = 21330, MOST_ELEMENTS = 16384, PAIRS_SHOWN = 20, OUT_OF_ORDER = 10 };

_Static_assert(sizeof(hurkeztor_pair) == 22 && _Alignof(hurkeztor_pair) == 2, "the library's records have no padding");

static const char *const names[] = {
    "accepted",      "torn",         "overhang",    "bad count", "bad word", "overfull",     "off the nest", "far index",   "crowded",
    "off the array", "out of order", "limits full", "big number", "sprawl",   "short buffer", "opaque",       "wrong store",
};

/* Prints a refusal; on acceptance prints no more than the entry's name. */
static int refused(const char *entry, uint64_t answer)
{
    unsigned number = hurkeztor_number(answer);
    printf("%s:", entry);
    if (number != 0)
        printf(" refused %u %u %s\n", number, hurkeztor_place(answer), names[number]);
    return number != 0;
}

static int word(const uint8_t *ticket, size_t place)
{
    int value = ticket[2 * place] | ticket[2 * place + 1] << 8;
    return value < 32768 ? value : value - 65536;
}

/* The elements of all arrays of an accepted ticket: its loops are skipped, its extents multiplied. */
static size_t elements(const uint8_t *ticket)
{
    size_t place = 1, total = 0;
    int loops = word(ticket, 0);
    for (int outside = 0; outside < loops; outside++)
        for (int side = 0; side < 2; side++)
            place += 1 + (size_t)word(ticket, place) * (2 + (size_t)outside);
    int arrays = word(ticket, place++);
    for (int array = 0; array < arrays; array++) {
        size_t product = 1;
        int dimensions = word(ticket, place++);
        for (int dimension = 0; dimension < dimensions; dimension++)
            product *= (size_t)word(ticket, place++);
        total += product;
    }
    return total;
}

static void print_iteration(const int16_t *indices, int loops)
{
    for (int index = 0; index < loops; index++)
        printf("%s%d", index == 0 ? " (" : ", ", indices[index]);
    printf(")");
}

/* How the indices of source and sink compare, outermost first. */
static void print_vector(const hurkeztor_pair *pair, int loops)
{
    printf(" ");
    for (int index = 0; index < loops; index++)
        putchar("<=>"[hurkeztor_sign(pair->source[index], pair->sink[index]) + 1]);
}

/* The pairs that trade places, where the ticket is out of order. */
static void give_reason(const uint8_t *ticket, size_t length)
{
    static hurkeztor_pair list[PAIRS_SHOWN];
    uint64_t answer = hurkeztor_reason(ticket, length, list, PAIRS_SHOWN);
    uint32_t count = hurkeztor_count(answer);
    printf("reason: step %u, ", hurkeztor_place(answer));
    if (count == 0)
        printf("by the table alone\n");
    else
        printf("%" PRIu32 " %s\n", count, count == 1 ? "pair" : "pairs");
    for (uint32_t place = 0; place < count && place < PAIRS_SHOWN; place++) {
        const hurkeztor_pair *pair = &list[place];
        printf("%c %u %u", pair->kind, pair->source_statement, pair->sink_statement);
        print_iteration(pair->source, word(ticket, 0));
        print_iteration(pair->sink, word(ticket, 0));
        print_vector(pair, word(ticket, 0));
        printf("\n");
    }
    if (count > PAIRS_SHOWN)
        printf("(+%" PRIu32 " more)\n", count - PAIRS_SHOWN);
}

static void write_nest(const uint8_t *ticket, size_t length)
{
    static uint8_t nest[NEST_BYTES];
    uint64_t answer = hurkeztor_write(ticket, length, nest, sizeof nest);
    if (refused("write", answer))
        return;
    for (size_t place = 0; place < hurkeztor_count(answer) / 2; place++)
        printf(" %d", word(nest, place));
    printf("\n");
}

static void list_directions(const uint8_t *ticket, size_t length)
{
    static uint8_t text[LISTING_BYTES];
    uint64_t answer = hurkeztor_list(ticket, length, text, sizeof text);
    if (refused("list", answer))
        return;
    printf("\n");
    fwrite(text, 1, hurkeztor_count(answer), stdout);
}

/* The first access, which is the first statement's write, against each access in turn. */
static void test_accesses(const uint8_t *ticket, size_t length)
{
    for (uint64_t second = 1;; second++) {
        uint64_t answer = hurkeztor_quick(ticket, length, 1, second);
        if (second > 1 && hurkeztor_number(answer) == 4)
            return; /* no such access */
        char entry[32];
        snprintf(entry, sizeof entry, "quick 1 %" PRIu64, second);
        if (refused(entry, answer))
            return;
        printf(" %s\n", hurkeztor_count(answer) == 1 ? "apart" : "perhaps");
    }
}

/* On elements numbered from 0. */
static void run_nest(const uint8_t *ticket, size_t length, size_t store_words)
{
    static uint32_t store[MOST_ELEMENTS];
    for (size_t place = 0; place < store_words; place++)
        store[place] = (uint32_t)place;
    uint64_t answer = hurkeztor_run(ticket, length, store, store_words);
    if (refused("run", answer))
        return;
    for (size_t place = 0; place < store_words; place++)
        printf(" %" PRIu32, store[place]);
    printf("\n");
}

/* Reads up to `room` bytes; answers 0 where that fails. */
static int read_ticket(const char *path, uint8_t *bytes, size_t room, size_t *length)
{
    FILE *file = path ? fopen(path, "rb") : stdin;
    if (!file) {
        fprintf(stderr, "judge: can't open %s: %s\n", path, strerror(errno));
        return 0;
    }
    *length = fread(bytes, 1, room, file);
    int sound = !ferror(file);
    if (!sound)
        fprintf(stderr, "judge: can't read %s: %s\n", path ? path : "standard input", strerror(errno));
    if (path)
        fclose(file);
    return sound;
}

int main(int argc, char **argv)
{
    static uint8_t ticket[TICKET_BYTES];
    size_t length;
    if (argc > 2) {
        fprintf(stderr, "usage: judge [FILE]\n");
        return 2;
    }
    if (!read_ticket(argc == 2 ? argv[1] : NULL, ticket, sizeof ticket, &length))
        return 2;
    uint64_t answer = hurkeztor_judge(ticket, length);
    int turned_back = refused("judge", answer);
    if (!turned_back)
        printf(" accepted, %" PRIu32 " iterations\n", hurkeztor_count(answer));
    if (hurkeztor_number(answer) == OUT_OF_ORDER)
        give_reason(ticket, length);
    write_nest(ticket, length);
    list_directions(ticket, length);
    test_accesses(ticket, length);
    run_nest(ticket, length, turned_back ? 0 : elements(ticket));
    return turned_back ? 1 : 0;
}

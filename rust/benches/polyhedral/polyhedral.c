/* Judges a ticket with isl, an exact polyhedral library, and times it.
 *
 *   polyhedral FILE     a binary ticket
 *
 *   cc -std=c11 -O2 polyhedral.c -lisl -o polyhedral
 *
 * Prints verdict, direction vectors and microseconds, parted by tabs. The time is the least of many, each from the ticket's bytes to the
 * verdict; isl's context is made once, before all of them. The vectors are exact, kinds merged as judge merges them. Refusals other than 10
 * are not looked for, and iterations are not counted. Exit status 2 where the file is no ticket.
 */
#define _POSIX_C_SOURCE 200809L

#include <isl/ctx.h>
#include <isl/map.h>
#include <isl/mat.h>
#include <isl/options.h>
#include <isl/space.h>

#include <stdbool.h>
#include <stdint.h>
#include <stdio.h>
#include <string.h>
#include <time.h>

enum { LOOPS = 4, LIMITS = 4, ARRAYS = 4, DIMENSIONS = 3, STATEMENTS = 4, READS = 4, STEPS = 8, NEW_LOOPS = 6, VECTORS = 729 };
enum { ACCESSES = STATEMENTS * (1 + READS), TICKET_BYTES = 65536 };
enum { EXCHANGE = 1, REVERSE, SKEW, SECTION };
enum { LESS, EQUAL, GREATER };

enum { LEAST_RUNS = 20 };
static const double SECONDS_OF_RUNS = 0.3;

/* A constant, then a coefficient for each loop: 0 beyond those that the ticket has. */
typedef struct {
    int number[1 + LOOPS];
} Affine;

/* multiplier * index >= e, or <= e for an upper one. */
typedef struct {
    int loop, multiplier;
    bool upper;
    Affine e;
} Limit;

typedef struct {
    int statement, array, dimensions;
    bool writes;
    Affine subscripts[DIMENSIONS];
} Access;

/* Loops are counted from 0. */
typedef struct {
    int kind, a, b, c;
} Step;

typedef struct {
    int loops, limits, accesses, steps;
    Limit limit[2 * LOOPS * LIMITS];
    Access access[ACCESSES];
    Step step[STEPS];
} Ticket;

/* A vector is numbered by its signs as base-three digits, the outermost most significant. */
typedef struct {
    int loops;
    bool found[VECTORS];
} Vectors;

static const int powers[NEW_LOOPS + 1] = {1, 3, 9, 27, 81, 243, 729};

/* ---- From bytes to a ticket ---- */

typedef struct {
    const uint8_t *bytes;
    size_t count, read;
    bool wrong;
} Words;

/* 0 from the first wrong word on, as in `within`. */
static int word(Words *words)
{
    if (words->wrong || words->read == words->count) {
        words->wrong = true;
        return 0;
    }
    const uint8_t *pair = words->bytes + 2 * words->read++;
    int value = pair[0] | pair[1] << 8;
    return value < 32768 ? value : value - 65536;
}

static int within(Words *words, int least, int most)
{
    int value = word(words);
    if (value < least || value > most)
        words->wrong = true;
    return words->wrong ? 0 : value;
}

static Affine affine(Words *words, int indices)
{
    Affine value = {0};
    for (int k = 0; k <= indices; k++)
        value.number[k] = word(words);
    return value;
}

static void read_loops(Words *words, Ticket *ticket)
{
    ticket->loops = within(words, 1, LOOPS);
    for (int loop = 0; loop < ticket->loops; loop++)
        for (int upper = 0; upper < 2; upper++)
            for (int left = within(words, 1, LIMITS); left > 0; left--) {
                Limit *limit = &ticket->limit[ticket->limits++];
                *limit = (Limit){.loop = loop, .multiplier = within(words, 1, 32767), .upper = upper};
                limit->e = affine(words, loop);
            }
}

static void read_access(Words *words, Ticket *ticket, int statement, bool writes, const int *dimensions, int arrays)
{
    Access *access = &ticket->access[ticket->accesses++];
    *access = (Access){.statement = statement, .writes = writes, .array = within(words, 1, arrays)};
    access->dimensions = words->wrong ? 0 : dimensions[access->array - 1];
    for (int d = 0; d < access->dimensions; d++)
        access->subscripts[d] = affine(words, ticket->loops);
}

static void read_body(Words *words, Ticket *ticket)
{
    int dimensions[ARRAYS], arrays = within(words, 1, ARRAYS);
    for (int array = 0; array < arrays; array++) {
        dimensions[array] = within(words, 1, DIMENSIONS);
        for (int d = 0; d < dimensions[array]; d++)
            within(words, 1, 4096);
    }
    int statements = within(words, 1, STATEMENTS);
    for (int statement = 0; statement < statements; statement++) {
        within(words, 0, 3);     /* the rule */
        within(words, 0, 32767); /* its constant */
        read_access(words, ticket, statement, true, dimensions, arrays);
        for (int left = within(words, 0, READS); left > 0; left--)
            read_access(words, ticket, statement, false, dimensions, arrays);
    }
}

static void read_steps(Words *words, Ticket *ticket)
{
    int loops = ticket->loops, steps = within(words, 0, STEPS);
    for (int k = 0; k < steps; k++) {
        Step *step = &ticket->step[ticket->steps++];
        step->kind = within(words, 1, 4);
        step->a = within(words, 1, loops) - 1;
        int next = step->a + 2;
        if (step->kind == EXCHANGE || step->kind == SKEW)
            step->b = within(words, next, step->kind == EXCHANGE && next < loops ? next : loops) - 1;
        else
            step->b = word(words);
        step->c = word(words);
        loops += step->kind == SECTION;
        if (loops > NEW_LOOPS)
            words->wrong = true;
    }
}

static bool read_ticket(const uint8_t *bytes, size_t length, Ticket *ticket)
{
    Words words = {.bytes = bytes, .count = length / 2};
    ticket->limits = ticket->accesses = ticket->steps = 0;
    read_loops(&words, ticket);
    read_body(&words, ticket);
    read_steps(&words, ticket);
    return !words.wrong && 2 * words.read == length;
}

/* ---- Dependences ----
 *
 * The iterations x and y, both within the limits, at which two accesses name one element are related as x -> d, where d = y - x: a sign
 * of a vector is then a bound of one variable. x is projected out before signs are tried, which makes the tests of emptiness several
 * times quicker. Signs are tried outermost first; a prefix that no pair has is not looked into, nor one whose vectors are all found. */

typedef struct {
    int number[1 + 2 * LOOPS]; /* constant, x, d */
} Row;

/* Adds `times` an affine value at x, or at y = x + d. */
static void add(Row *row, int loops, int times, const Affine *value, bool at_y)
{
    row->number[0] += times * value->number[0];
    for (int k = 1; k <= loops; k++) {
        row->number[k] += times * value->number[k];
        if (at_y)
            row->number[loops + k] += times * value->number[k];
    }
}

static isl_mat *put(isl_mat *matrix, int at, const Row *row, int loops)
{
    for (int k = 0; k <= 2 * loops; k++)
        matrix = isl_mat_set_element_si(matrix, at, k, row->number[k]);
    return matrix;
}

/* Rows that are at least 0 where x and y are within the limits. */
static isl_mat *limits(isl_ctx *ctx, const Ticket *ticket)
{
    isl_mat *matrix = isl_mat_alloc(ctx, 2 * (unsigned)ticket->limits, 1 + 2 * (unsigned)ticket->loops);
    for (int k = 0; k < ticket->limits; k++) {
        const Limit *limit = &ticket->limit[k];
        Affine index = {0};
        index.number[1 + limit->loop] = limit->multiplier;
        int sense = limit->upper ? -1 : 1;
        for (int at_y = 0; at_y < 2; at_y++) {
            Row row = {0};
            add(&row, ticket->loops, sense, &index, at_y);
            add(&row, ticket->loops, -sense, &limit->e, at_y);
            matrix = put(matrix, 2 * k + at_y, &row, ticket->loops);
        }
    }
    return matrix;
}

/* Rows that are 0 where two accesses of an array name one element. */
static isl_mat *one_element(isl_ctx *ctx, const Ticket *ticket, const Access *at_x, const Access *at_y)
{
    isl_mat *matrix = isl_mat_alloc(ctx, (unsigned)at_x->dimensions, 1 + 2 * (unsigned)ticket->loops);
    for (int k = 0; k < at_x->dimensions; k++) {
        Row row = {0};
        add(&row, ticket->loops, -1, &at_x->subscripts[k], false);
        add(&row, ticket->loops, 1, &at_y->subscripts[k], true);
        matrix = put(matrix, k, &row, ticket->loops);
    }
    return matrix;
}

/* All d of two accesses. Takes the matrices. */
static isl_basic_map *distances(isl_ctx *ctx, int loops, isl_mat *zero, isl_mat *at_least_zero)
{
    isl_space *space = isl_space_alloc(ctx, 0, (unsigned)loops, (unsigned)loops);
    isl_basic_map *pairs = isl_basic_map_from_constraint_matrices(space, zero, at_least_zero, isl_dim_cst, isl_dim_param, isl_dim_in,
                                                                  isl_dim_out, isl_dim_div);
    return isl_basic_map_project_out(pairs, isl_dim_in, 0, (unsigned)loops);
}

/* Those d that have a sign at a loop, seen from x: < where d is positive. Keeps what it is given. */
static isl_basic_map *with_sign(isl_basic_map *d, int loop, int sign)
{
    d = isl_basic_map_copy(d);
    if (sign == LESS)
        return isl_basic_map_lower_bound_si(d, isl_dim_out, (unsigned)loop, 1);
    if (sign == GREATER)
        return isl_basic_map_upper_bound_si(d, isl_dim_out, (unsigned)loop, -1);
    return isl_basic_map_fix_si(d, isl_dim_out, (unsigned)loop, 0);
}

static bool all_found(const Vectors *vectors, int prefix, int left)
{
    return memchr(vectors->found + prefix * powers[left], false, (size_t)powers[left]) == NULL;
}

/* Finds the vectors that begin with a prefix; d has its signs, turned over where y is the source. Takes d. */
static void search(Vectors *vectors, isl_basic_map *d, int loop, int prefix, bool y_first)
{
    int left = vectors->loops - loop;
    if (!isl_basic_map_is_empty(d)) {
        if (left == 0)
            vectors->found[prefix] = true;
        for (int sign = LESS; left > 0 && sign <= GREATER; sign++)
            if (!all_found(vectors, 3 * prefix + sign, left - 1))
                search(vectors, with_sign(d, loop, y_first ? GREATER - sign : sign), loop + 1, 3 * prefix + sign, y_first);
    }
    isl_basic_map_free(d);
}

/* Finds the vectors of two accesses: with x as the source (1 way), with either (2), or none (0); and that of one iteration if `own`.
 * Takes d. */
static void search_pair(Vectors *vectors, isl_basic_map *d, int ways, bool own)
{
    int prefix = 0;
    for (int loop = 0; loop < vectors->loops && !isl_basic_map_plain_is_empty(d); loop++) {
        int left = vectors->loops - 1 - loop;
        for (int way = 0; way < ways; way++)
            if (!all_found(vectors, 3 * prefix + LESS, left))
                search(vectors, with_sign(d, loop, way == 0 ? LESS : GREATER), loop + 1, 3 * prefix + LESS, way == 1);
        prefix = 3 * prefix + EQUAL;
        if (left == 0 && !own)
            break;
        isl_basic_map *equal = with_sign(d, loop, EQUAL);
        isl_basic_map_free(d);
        d = equal;
    }
    if (own && !isl_basic_map_is_empty(d))
        vectors->found[prefix] = true;
    isl_basic_map_free(d);
}

static bool same_place(const Access *one, const Access *other)
{
    return one->array == other->array && memcmp(one->subscripts, other->subscripts, sizeof one->subscripts) == 0;
}

/* Different instances conflict: in one iteration those of two statements, the earlier being the source. A statement's own reads and write
 * are of one instance. */
static Vectors find_vectors(isl_ctx *ctx, const Ticket *ticket)
{
    Vectors vectors = {.loops = ticket->loops};
    /* Of each access the first in the same place: pairs in the same two places have the same d. */
    int place[ACCESSES];
    bool searched[ACCESSES][ACCESSES] = {{false}};
    isl_mat *within_limits = limits(ctx, ticket);
    for (int j = 0; j < ticket->accesses; j++) {
        const Access *at_y = &ticket->access[j];
        for (place[j] = 0; !same_place(&ticket->access[place[j]], at_y);)
            place[j]++;
        for (int i = 0; i <= j; i++) {
            const Access *at_x = &ticket->access[i];
            if (at_x->array != at_y->array || !(at_x->writes || at_y->writes))
                continue;
            int ways = searched[place[i]][place[j]] ? 0 : place[i] == place[j] ? 1 : 2;
            bool own = at_x->statement < at_y->statement && !vectors.found[powers[ticket->loops] / 2];
            if (ways == 0 && !own)
                continue;
            searched[place[i]][place[j]] = searched[place[j]][place[i]] = true;
            isl_mat *zero = one_element(ctx, ticket, at_x, at_y);
            search_pair(&vectors, distances(ctx, ticket->loops, zero, isl_mat_copy(within_limits)), ways, own);
        }
    }
    isl_mat_free(within_limits);
    return vectors;
}

/* ---- Steps, by Wolfe's tables ---- */

static int sign_at(const Vectors *vectors, int number, int loop)
{
    return number / powers[vectors->loops - 1 - loop] % 3;
}

/* Whether numbers with two signs can have a sum with a third. */
static bool may_add(int one, int other, int sum)
{
    if (one == EQUAL || other == EQUAL)
        return sum == (one == EQUAL ? other : one);
    return one != other || sum == one;
}

static void map_vector(const Vectors *old, int number, const Step *step, Vectors *new)
{
    int a = sign_at(old, number, step->a), weight = powers[old->loops - 1 - step->a];
    if (step->kind == REVERSE) {
        new->found[number + (GREATER - 2 * a) * weight] = true;
    } else if (step->kind == SECTION) {
        int outside = number / (3 * weight), inside = number % weight;
        for (int s = LESS; s <= GREATER; s++)
            for (int e = LESS; e <= GREATER; e++)
                if (s == EQUAL ? e == a : s == a)
                    new->found[((3 * outside + s) * 3 + e) * weight + inside] = true;
    } else {
        int b = sign_at(old, number, step->b), inner = powers[old->loops - 1 - step->b];
        if (step->kind == EXCHANGE)
            new->found[number + (b - a) * weight + (a - b) * inner] = true;
        for (int sum = LESS; step->kind == SKEW && sum <= GREATER; sum++)
            if (may_add(step->c == 1 ? a : GREATER - a, b, sum))
                new->found[number + (sum - b) * inner] = true;
    }
}

static Vectors after(const Vectors *old, const Step *step)
{
    Vectors new = {.loops = old->loops + (step->kind == SECTION)};
    for (int number = 0; number < powers[old->loops]; number++)
        if (old->found[number])
            map_vector(old, number, step, &new);
    return new;
}

/* Numbers beyond that of all = do. */
static bool points_back(const Vectors *vectors)
{
    int half = powers[vectors->loops] / 2;
    return memchr(vectors->found + half + 1, true, (size_t)half) != NULL;
}

/* The step that is out of order, from 1; 0 where there is none; -1 where the bytes are no ticket. */
static int judge(isl_ctx *ctx, const uint8_t *bytes, size_t length, Vectors *vectors)
{
    Ticket ticket;
    if (!read_ticket(bytes, length, &ticket))
        return -1;
    *vectors = find_vectors(ctx, &ticket);
    Vectors now = *vectors;
    for (int k = 0; k < ticket.steps; k++) {
        now = after(&now, &ticket.step[k]);
        if (points_back(&now))
            return k + 1;
    }
    return 0;
}

/* ---- The program ---- */

static double seconds(void)
{
    struct timespec now;
    clock_gettime(CLOCK_MONOTONIC, &now);
    return (double)now.tv_sec + (double)now.tv_nsec / 1e9;
}

static void print_vectors(const Vectors *vectors)
{
    const char *before = "";
    for (int number = 0; number < powers[vectors->loops]; number++)
        if (vectors->found[number]) {
            printf("%s", before);
            for (int loop = 0; loop < vectors->loops; loop++)
                putchar("<=>"[sign_at(vectors, number, loop)]);
            before = " ";
        }
}

int main(int count, char **arguments)
{
    static uint8_t bytes[TICKET_BYTES];
    if (count != 2) {
        fprintf(stderr, "usage: polyhedral FILE\n");
        return 2;
    }
    FILE *file = fopen(arguments[1], "rb");
    if (file == NULL) {
        perror(arguments[1]);
        return 2;
    }
    size_t length = fread(bytes, 1, sizeof bytes, file);
    fclose(file);

    isl_ctx *ctx = isl_ctx_alloc();
    isl_options_set_on_error(ctx, ISL_ON_ERROR_ABORT);
    Vectors vectors;
    int step = judge(ctx, bytes, length, &vectors);
    if (step < 0) {
        fprintf(stderr, "%s: no ticket\n", arguments[1]);
        isl_ctx_free(ctx);
        return 2;
    }
    double least = 1e9, begun = seconds();
    for (int k = 0; k < LEAST_RUNS || seconds() - begun < SECONDS_OF_RUNS; k++) {
        double start = seconds();
        judge(ctx, bytes, length, &vectors);
        double taken = seconds() - start;
        if (taken < least)
            least = taken;
    }
    isl_ctx_free(ctx);

    if (step == 0)
        printf("accepted\t");
    else
        printf("refused 10 at step %d, out of order\t", step);
    print_vectors(&vectors);
    printf("\t%.1f\n", least * 1e6);
    return 0;
}

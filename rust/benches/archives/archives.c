/* Times the entries of two libraries on the same tickets, in one process and taking turns.
 *
 *   archives BEFORE.so AFTER.so TICKET...
 *
 * Prints for each ticket and entry the quickest batch of each library, in nanoseconds a call.
 */
#define _GNU_SOURCE
#include "hurkeztor.h"

#include <dlfcn.h>
#include <stdio.h>
#include <stdlib.h>
#include <string.h>
#include <time.h>

enum { TICKET_BYTES = 65536, OUT_BYTES = 21330, MOST_ELEMENTS = 16384, BATCHES = 100, ENTRIES = 5 };
static const double BATCH_NANOSECONDS = 3e5;

static const char *const names[ENTRIES] = { "judge", "write", "list", "quick", "run" };

typedef struct library {
    __typeof__(hurkeztor_judge) *judge;
    __typeof__(hurkeztor_write) *write;
    __typeof__(hurkeztor_list) *list;
    __typeof__(hurkeztor_quick) *quick;
    __typeof__(hurkeztor_run) *run;
} library;

static uint8_t ticket[TICKET_BYTES], out[OUT_BYTES];
static uint32_t store[MOST_ELEMENTS];
static size_t length, store_words;

static uint64_t call(const library *from, int entry)
{
    switch (entry) {
    case 0:
        return from->judge(ticket, length);
    case 1:
        return from->write(ticket, length, out, sizeof out);
    case 2:
        return from->list(ticket, length, out, sizeof out);
    case 3:
        return from->quick(ticket, length, 1, 2);
    default:
        return from->run(ticket, length, store, store_words);
    }
}

static double nanoseconds(void)
{
    struct timespec now;
    clock_gettime(CLOCK_MONOTONIC, &now);
    return (double)now.tv_sec * 1e9 + (double)now.tv_nsec;
}

static double batch(const library *from, int entry, unsigned calls)
{
    double begun = nanoseconds();
    for (unsigned n = 0; n < calls; n++)
        call(from, entry);
    return (nanoseconds() - begun) / calls;
}

static int word(size_t place)
{
    return (int16_t)(ticket[2 * place] | ticket[2 * place + 1] << 8);
}

/* The elements of all arrays of an accepted ticket: its loops are skipped, its extents multiplied. */
static size_t elements(void)
{
    size_t place = 1, total = 0;
    for (int outside = 0; outside < word(0); outside++)
        for (int side = 0; side < 2; side++)
            place += 1 + (size_t)word(place) * (2 + (size_t)outside);
    int arrays = word(place++);
    for (int array = 0; array < arrays; array++) {
        size_t product = 1;
        int dimensions = word(place++);
        for (int dimension = 0; dimension < dimensions; dimension++)
            product *= (size_t)word(place++);
        total += product;
    }
    return total;
}

static void *found(void *object, const char *name)
{
    void *symbol = dlsym(object, name);
    if (!symbol) {
        fprintf(stderr, "archives: %s\n", dlerror());
        exit(2);
    }
    return symbol;
}

static library loaded(const char *path)
{
    void *object = dlopen(path, RTLD_NOW | RTLD_LOCAL);
    if (!object) {
        fprintf(stderr, "archives: %s\n", dlerror());
        exit(2);
    }
    return (library){ found(object, "hurkeztor_judge"), found(object, "hurkeztor_write"), found(object, "hurkeztor_list"),
                      found(object, "hurkeztor_quick"), found(object, "hurkeztor_run") };
}

static void read_ticket(const char *path)
{
    FILE *file = fopen(path, "rb");
    if (!file) {
        fprintf(stderr, "archives: can't open %s\n", path);
        exit(2);
    }
    length = fread(ticket, 1, sizeof ticket, file);
    fclose(file);
    store_words = elements();
}

static void compare(const library libraries[2], int entry, const char *name)
{
    if (call(&libraries[0], entry) != call(&libraries[1], entry)) {
        fprintf(stderr, "archives: %s of %s is answered otherwise\n", names[entry], name);
        exit(1);
    }
    unsigned calls = 1;
    while (batch(&libraries[0], entry, calls) * calls < BATCH_NANOSECONDS)
        calls *= 2;
    double least[2] = { 1e18, 1e18 };
    for (int n = 0; n < BATCHES; n++)
        for (int turn = 0; turn < 2; turn++) {
            int side = (n + turn) % 2;
            double time = batch(&libraries[side], entry, calls);
            if (time < least[side])
                least[side] = time;
        }
    printf("%s %s %.1f %.1f\n", names[entry], name, least[0], least[1]);
}

int main(int argc, char **argv)
{
    if (argc < 4) {
        fprintf(stderr, "usage: archives BEFORE.so AFTER.so TICKET...\n");
        return 2;
    }
    library libraries[2] = { loaded(argv[1]), loaded(argv[2]) };
    for (int place = 3; place < argc; place++) {
        read_ticket(argv[place]);
        const char *slash = strrchr(argv[place], '/');
        for (int entry = 0; entry < ENTRIES; entry++)
            compare(libraries, entry, slash ? slash + 1 : argv[place]);
    }
    return 0;
}

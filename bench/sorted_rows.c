/* Rows kept in one vector in rising order of their identifiers, as a yardstick for the hash map of qe_esc: each row of
   an identifier of 32 bytes and a value of 33 is put in its place, found by halving, and then all are looked for.
   sorted_rows COUNT prints how many were found. */
#include <stdint.h>
#include <stdio.h>
#include <stdlib.h>
#include <string.h>

enum { ID = 32, ROW = 65 };

static uint64_t state;

/* SplitMix64, which spreads identifiers as evenly as a hash does. */
static uint64_t next_word(void)
{
    uint64_t z = state += 0x9e3779b97f4a7c15;
    z = (z ^ (z >> 30)) * 0xbf58476d1ce4e5b9;
    z = (z ^ (z >> 27)) * 0x94d049bb133111eb;
    return z ^ (z >> 31);
}

static void next_id(unsigned char *id)
{
    for (int i = 0; i < ID; i += 8) {
        uint64_t word = next_word();
        memcpy(id + i, &word, 8);
    }
}

/* The place of the first row that isn't below the identifier. */
static size_t place(const unsigned char *rows, size_t count, const unsigned char *id)
{
    size_t low = 0;
    while (low < count) {
        size_t middle = low + (count - low) / 2;
        if (memcmp(rows + middle * ROW, id, ID) < 0)
            low = middle + 1;
        else
            count = middle;
    }
    return low;
}

int main(int argc, char **argv)
{
    size_t count = argc > 1 ? strtoul(argv[1], NULL, 10) : 10000, found = 0;
    unsigned char *rows = calloc(count + 1, ROW), id[ID];
    if (!rows)
        return 1;
    state = 1;
    for (size_t i = 0; i < count; i++) {
        next_id(id);
        unsigned char *at = rows + place(rows, i, id) * ROW;
        memmove(at + ROW, at, rows + i * ROW - at);
        memcpy(at, id, ID);
    }
    state = 1;
    for (size_t i = 0; i < count; i++) {
        next_id(id);
        size_t at = place(rows, count, id);
        found += at < count && memcmp(rows + at * ROW, id, ID) == 0;
    }
    printf("%zu\n", found);
    free(rows);
    return 0;
}

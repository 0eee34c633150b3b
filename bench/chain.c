/* The baseline of chains in bench/run: writes N records of 32 bytes to a file, reads them back, and sums them. It moves
   blocks of 1024 records, as chain_bench does. */
#include <inttypes.h>
#include <stdio.h>
#include <stdlib.h>

#define BLOCK 1024

struct record {
    uint64_t a, b, c, d;
};

static struct record block[BLOCK];

/* A file with no buffer of its own, so that each block is one call of the system. */
static FILE *opened(const char *name, const char *mode) {
    FILE *file = fopen(name, mode);
    if (file) setvbuf(file, NULL, _IONBF, 0);
    return file;
}

/* Writes the records of the numbers below count. */
static int write_all(const char *name, uint64_t count) {
    FILE *file = opened(name, "wb");
    if (!file) return 0;
    int good = 1;
    size_t filled = 0;
    for (uint64_t i = 0; good && i < count; i++) {
        block[filled++] = (struct record){i * UINT64_C(11400714819323198485), i + 1, 1, 0};
        if (filled == BLOCK || i + 1 == count) {
            good = fwrite(block, sizeof *block, filled, file) == filled;
            filled = 0;
        }
    }
    return fclose(file) == 0 && good;
}

/* Reads count records, and sums their words a and b. */
static int read_all(const char *name, uint64_t count, uint64_t *sum) {
    FILE *file = opened(name, "rb");
    if (!file) return 0;
    uint64_t read = 0;
    size_t filled;
    for (*sum = 0; (filled = fread(block, sizeof *block, BLOCK, file)) > 0; read += filled)
        for (size_t i = 0; i < filled; i++) *sum += block[i].a + block[i].b;
    return fclose(file) == 0 && read == count;
}

int main(int argc, char **argv) {
    if (argc != 3) {
        fprintf(stderr, "usage: chain N FILE\n");
        return 1;
    }
    uint64_t count = strtoull(argv[1], NULL, 10), sum;
    if (!write_all(argv[2], count) || !read_all(argv[2], count, &sum)) return 3;
    printf("%" PRIu64 " records, sum %" PRIu64 "\n", count, sum);
    return 0;
}

/* The baseline of emptying in bench/run: writes N records of 32 bytes to a file, and distributes them from there over 64
   files by their first words, each range of 2^58 numbers to one. It moves blocks of 1024 records, as empty_bench does. */
#include <inttypes.h>
#include <stdio.h>
#include <stdlib.h>

#define BLOCK 1024
#define CHILDREN 64

struct record {
    uint64_t a, b, c, d;
};

struct child {
    uint64_t low, count;
    FILE *file;
    size_t filled;
    struct record block[BLOCK];
};

static struct record block[BLOCK];
static struct child children[CHILDREN];

/* A file of a folder with no buffer of its own, so that each block is one call of the system. */
static FILE *opened(const char *folder, const char *name, const char *mode) {
    char path[4096];
    if (snprintf(path, sizeof path, "%s/%s", folder, name) >= (int)sizeof path) return NULL;
    FILE *file = fopen(path, mode);
    if (file) setvbuf(file, NULL, _IONBF, 0);
    return file;
}

/* Writes the records of the numbers below count. */
static int write_all(const char *folder, uint64_t count) {
    FILE *file = opened(folder, "records", "wb");
    if (!file) return 0;
    int good = 1;
    size_t filled = 0;
    for (uint64_t i = 0; good && i < count; i++) {
        block[filled++] = (struct record){i * UINT64_C(11400714819323198485), i + 1, 1, 0};
        if (filled == BLOCK || i + 1 == count) {
            good = fwrite(block, sizeof *block, filled, file) == filled;
            filled = 0;
        }
    }
    return fclose(file) == 0 && good;
}

static int open_children(const char *folder) {
    for (int i = 0; i < CHILDREN; i++) {
        char name[16];
        snprintf(name, sizeof name, "child%d", i);
        children[i].low = (uint64_t)i << 58;
        children[i].file = opened(folder, name, "wb");
        if (!children[i].file) return 0;
    }
    return 1;
}

/* The last child whose low number is at most the key, by halving. */
static struct child *child_of(uint64_t key) {
    int low = 0, high = CHILDREN;
    while (high - low > 1) {
        int middle = (low + high) / 2;
        if (children[middle].low <= key)
            low = middle;
        else
            high = middle;
    }
    return &children[low];
}

static int store(struct child *child) {
    size_t filled = child->filled;
    child->filled = 0;
    return fwrite(child->block, sizeof *child->block, filled, child->file) == filled;
}

/* Reads all records, and appends each to the file of its child. */
static int distribute(const char *folder) {
    FILE *file = opened(folder, "records", "rb");
    if (!file) return 0;
    int good = 1;
    size_t filled;
    while (good && (filled = fread(block, sizeof *block, BLOCK, file)) > 0)
        for (size_t i = 0; good && i < filled; i++) {
            struct child *child = child_of(block[i].a);
            child->block[child->filled++] = block[i];
            child->count++;
            if (child->filled == BLOCK) good = store(child);
        }
    for (int i = 0; i < CHILDREN; i++) {
        if (children[i].filled > 0) good = store(&children[i]) && good;
        good = fclose(children[i].file) == 0 && good;
    }
    return fclose(file) == 0 && good;
}

int main(int argc, char **argv) {
    if (argc != 3) {
        fprintf(stderr, "usage: distribute N FOLDER\n");
        return 1;
    }
    uint64_t count = strtoull(argv[1], NULL, 10), sum = 0;
    if (!write_all(argv[2], count) || !open_children(argv[2]) || !distribute(argv[2])) return 3;
    for (int i = 0; i < CHILDREN; i++) sum += (uint64_t)(i + 1) * children[i].count;
    printf("%" PRIu64 " records, sum %" PRIu64 "\n", count, sum);
    return 0;
}

/* The baseline of sorting in memory: makes N records, puts them in order by std::sort, as many at a time as an area of emtool's
   default pool has, and prints the sum of each second word times its place in its lot, from 1 on. The records are those of
   bench/chain.c. */
#include <algorithm>
#include <cinttypes>
#include <vector>

#include "baseline.h"

#define LOT (32 * BLOCK)

int main(int argc, char **argv) {
    if (argc != 2) {
        fprintf(stderr, "usage: sort N\n");
        return 1;
    }
    uint64_t count = strtoull(argv[1], NULL, 10), sum = 0;
    std::vector<record> records(LOT);
    for (uint64_t first = 0; first < count; first += LOT) {
        uint64_t lot = std::min<uint64_t>(LOT, count - first);
        for (uint64_t i = 0; i < lot; i++)
            records[i] = record_of((first + i) * UINT64_C(11400714819323198485), first + i + 1, 1, 0);
        std::sort(records.begin(), records.begin() + lot, [](const record &x, const record &y) { return before(&x, &y); });
        for (uint64_t i = 0; i < lot; i++) sum += (i + 1) * records[i].b;
    }
    printf("%" PRIu64 " records, sum %" PRIu64 "\n", count, sum);
    return 0;
}

/* The baseline of bench/run: reads a map file by getline and strtoull, and keeps nothing but the last value. */
#include <stdio.h>
#include <stdlib.h>
#include <string.h>

int main(int argc, char **argv) {
    if (argc < 2) return 1;
    FILE *file = fopen(argv[1], "r");
    if (!file) return 3;
    char *line = NULL;
    size_t room = 0;
    unsigned long long value = 0, lines = 0;
    while (getline(&line, &room, file) > 0) {
        if (strncmp(line, "put ", 4) == 0) {
            char *end;
            strtoull(line + 4, &end, 10);
            value = strtoull(end, &end, 10);
        } else if (strncmp(line, "get ", 4) == 0) {
            strtoull(line + 4, NULL, 10);
            printf("%llu\n", value);
        }
        lines++;
    }
    free(line);
    fclose(file);
    return lines == 0;
}

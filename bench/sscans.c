/* Reads lines by fgets, scans each by sscanf, and prints the values of a match, by the format with this name. */
#include <stdio.h>
#include <string.h>

#define MOST 4096

static char line[MOST], one[MOST], two[MOST], three[MOST];

int main(int argc, char **argv) {
    int a, b;
    unsigned c;
    if (argc < 2) return 2;
    if (!strcmp(argv[1], "ints")) {
        while (fgets(line, MOST, stdin))
            if (sscanf(line, "%d,%d", &a, &b) == 2) printf("%d %d\n", a, b);
    } else if (!strcmp(argv[1], "mixed")) {
        while (fgets(line, MOST, stdin))
            if (sscanf(line, "%s %d %x", one, &a, &c) == 3) printf("\"%s\" %d %u\n", one, a, c);
    } else {
        while (fgets(line, MOST, stdin))
            if (sscanf(line, "%[^,],%[^,],%[^\n]", one, two, three) == 3) printf("\"%s\" \"%s\" \"%s\"\n", one, two, three);
    }
    return 0;
}

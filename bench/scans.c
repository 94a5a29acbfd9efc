/* The records of standard input by one of five formats, with fscanf and printf, as `sf scan` prints them: `scans NAME`.
   With `scans NAME scan` nothing is printed of a record: the numbers, and of each text the length and the first byte, are
   summed, and the sum is printed at the end. */
#include <stdio.h>
#include <string.h>

static char a[4096], b[4096], c[4096];
static long long sum;

static long long text(const char *s) {
    return (long long)strlen(s) + (unsigned char)s[0];
}

static void ints(int summing) {
    int x, y;
    while (fscanf(stdin, "%d,%d", &x, &y) == 2)
        if (summing) sum += (long long)x + y;
        else printf("%d %d\n", x, y);
}

static void mixed(int summing) {
    int x;
    unsigned y;
    while (fscanf(stdin, "%4095s %d %x", a, &x, &y) == 3)
        if (summing) sum += text(a) + x + y;
        else printf("\"%s\" %d %u\n", a, x, y);
}

static void csv(int summing) {
    while (fscanf(stdin, "%4095[^,],%4095[^,],%4095[^\n]%*c", a, b, c) == 3)
        if (summing) sum += text(a) + text(b) + text(c);
        else printf("\"%s\" \"%s\" \"%s\"\n", a, b, c);
}

static void unsigned_numbers(int summing) {
    unsigned x;
    while (fscanf(stdin, "%u", &x) == 1)
        if (summing) sum += x;
        else printf("%u\n", x);
}

static void fixed(int summing) {
    int x;
    unsigned y;
    while (fscanf(stdin, "%5d%3u%8s", &x, &y, a) == 3)
        if (summing) sum += (long long)x + y + text(a);
        else printf("%d %u \"%s\"\n", x, y, a);
}

int main(int argc, char **argv) {
    int summing = argc == 3 && !strcmp(argv[2], "scan");
    if (argc != 2 + summing) return 2;
    if (!strcmp(argv[1], "ints")) ints(summing);
    else if (!strcmp(argv[1], "mixed")) mixed(summing);
    else if (!strcmp(argv[1], "csv")) csv(summing);
    else if (!strcmp(argv[1], "u")) unsigned_numbers(summing);
    else if (!strcmp(argv[1], "fixed")) fixed(summing);
    else return 2;
    if (summing) printf("%lld\n", sum);
    return 0;
}

/* timed HOW COUNT: COUNT records by %d,%d in one of several ways, and the sum of their values. The difference of the
   instructions of two counts, less that of `none`, is what the records cost. In `long` 100 KB follow each record. */
#include "sf.h"
#include <errno.h>
#include <limits.h>
#include <stdio.h>
#include <stdlib.h>

enum { TEXT = 100000 };
static char lines[64][24], text[TEXT + 1], *all;
static size_t all_len, all_at;

static ptrdiff_t give(void *from, void *to, size_t room) {
    (void)from;
    size_t n = all_len - all_at < room ? all_len - all_at : room;
    memcpy(to, all + all_at, n);
    all_at += n;
    return (ptrdiff_t)n;
}

/* A number by strtol, with all tests that its answer wants. */
static int number(const char *s, const char **end, int *to) {
    char *e;
    errno = 0;
    long n = strtol(s, &e, 10);
    if (e == s || errno == ERANGE || n < INT_MIN || n > INT_MAX) return 0;
    return *end = e, *to = (int)n, 1;
}

static long long many(long n, bool by_lines) {
    sf_value *v = malloc(sizeof *v * 2 * (size_t)(n + 1));
    uint8_t texts[1];
    sf_c_outcome o;
    sf_c_done d;
    long long sum = 0;
    sf_c_scan_many(3, (const uint8_t *)"%d,%d", 5, (const uint8_t *)all, all_len, by_lines, 1000, v, 2 * (size_t)n,
        texts, 0, &o, &d);
    for (size_t i = 0; i < 2 * d.records; i++) sum += (int32_t)v[i].bits;
    free(v);
    return sum;
}

static long long next(void) {
    int a, b;
    long long sum = 0;
    sf_report r;
    sf_reader *s = sf_open(give, 0, "%d,%d", SF_LINES, 1000, &r);
    while (!sf_next(s, &r, SF_TO(&a), SF_TO(&b))) sum += a + b;
    sf_close(s);
    return sum;
}

static int one(const char *how, const char *line) {
    int a = 0, b = 0;
    const char *e;
    sf_report r;
    if (!strcmp(how, "sscanf")) return sscanf(line, "%d,%d", &a, &b) == 2 ? a + b : 0;
    if (!strcmp(how, "strtol")) return number(line, &e, &a) && *e == ',' && number(e + 1, &e, &b) ? a + b : 0;
    if (!strcmp(how, "scan")) return sf_scan(line, strlen(line), "%d,%d", &r, SF_TO(&a), SF_TO(&b)) ? 0 : a + b;
    if (!strcmp(how, "long")) return sf_scan(text, TEXT, "%d,%d", &r, SF_TO(&a), SF_TO(&b)) ? 0 : a + b;
    if (!strcmp(how, "long-sscanf")) return sscanf(text, "%d,%d", &a, &b) == 2 ? a + b : 0;
    return line[0];
}

int main(int argc, char **argv) {
    const char *how = argc > 1 ? argv[1] : "scan";
    long n = argc > 2 ? atol(argv[2]) : 1000;
    long long sum = 0;
    memset(text, 'x', TEXT);
    memcpy(text, "12,-7 ", 6);
    for (int i = 0; i < 64; i++) sprintf(lines[i], "%d,%d\n", i * 37 + 12, -(i * 11 + 7));
    all = malloc((size_t)n * 24 + 1);
    for (long i = 0; i < n; i++) {
        memcpy(all + all_len, lines[i & 63], strlen(lines[i & 63]));
        all_len += strlen(lines[i & 63]);
    }
    if (!strcmp(how, "records") || !strcmp(how, "lines")) sum = many(n, how[0] == 'l');
    else if (!strcmp(how, "next")) sum = next();
    else for (long i = 0; i < n; i++) sum += one(how, lines[i & 63]);
    printf("%s %lld\n", how, sum);
    free(all);
    return 0;
}

/* fuzz COUNT [SEED]: sf_c_scan beside the C library's sscanf, on so many random texts and formats. Both must assign the
   same values, use the same bytes and return the same, but where C leaves the result open or the libraries differ:

     range      a number isn't within its type (C11 7.21.6.2p10 leaves it open)
     suppressed the input ends after a suppressed item: -1 of some libraries, 0 of C11 7.21.6.2p16
     prefix     `0x` without a digit after it is a number of some libraries

   The last line counts the runs of each class; what differs else is printed, and the status is 1 then. */
#include "sf.h"
#include <stdio.h>
#include <stdlib.h>

static uint64_t state = 88172645463325252u;

static unsigned below(unsigned n) {
    state ^= state << 13, state ^= state >> 7, state ^= state << 17;
    return (unsigned)((state >> 11) % n);
}

static const char *const formats[] = {"%d,%d", "%3d%3d", "%u %u", "%2x%2x", "%x %x", "%o,%i", "%i %i", " %d - %d",
    "%*d%d%d", "%4i,%4i", "%[0-9]%d%d", "%2$d,%1$d"};
static const char *const alphabets[] = {"0123456789 ,-+", "01234567 ,-+\n\t", "0189abxX ,-+", "12 ,"};
enum { FORMATS = sizeof formats / sizeof *formats, ALPHABETS = sizeof alphabets / sizeof *alphabets };

static void random_text(char text[16]) {
    const char *alphabet = alphabets[below(ALPHABETS)];
    unsigned len = below(12);
    for (unsigned k = 0; k < len; k++) text[k] = alphabet[below((unsigned)strlen(alphabet))];
    text[len] = 0;
}

/* Whether the C library stored the same; -99 stands where it stored nothing. */
static int is_same_value(const sf_value *v, const uint8_t *texts, const int *theirs) {
    if (v->kind == SF_NONE) return *theirs == -99;
    if (v->kind != SF_TEXT) return *theirs == (int)v->bits;
    return strlen((const char *)theirs) == v->len && !memcmp(theirs, texts + v->bits, v->len);
}

int main(int argc, char **argv) {
    long runs = argc > 1 ? atol(argv[1]) : 200000, same = 0, range = 0, suppressed = 0, prefix = 0, differ = 0;
    if (argc > 2) state += (uint64_t)atoll(argv[2]) * 2654435761u;
    for (long i = 0; i < runs; i++) {
        const char *format = formats[below(FORMATS)];
        char text[16], with_count[32];
        int theirs[4][8] = {{-99}, {-99}, {-99}, {-99}};
        random_text(text);
        snprintf(with_count, sizeof with_count, format[2] == '$' ? "%s" : "%s%%n", format);
        int answer = sscanf(text, with_count, theirs[0], theirs[1], theirs[2], theirs[3]);
        sf_value v[4] = {0};
        uint8_t texts[16];
        sf_c_outcome o;
        if (sf_c_scan(1, (const uint8_t *)format, strlen(format), (const uint8_t *)text, strlen(text), 1000, v, 4,
            texts, 16, &o)) return 2;
        int is_whole = !o.status && format[2] != '$', count = theirs[o.slots][0];
        int is_same = answer == o.c_return && (!is_whole || count == (int)o.used);
        for (int k = 0; k < o.slots; k++) is_same = is_same && is_same_value(&v[k], texts, theirs[k]);
        if (is_same) same++;
        else if (o.status == SF_RANGE) range++;
        else if (format[1] == '*' && answer == -1 && !o.c_return) suppressed++;
        else if (strstr(text, "0x") || strstr(text, "0X")) prefix++;
        else if (differ++ < 5)
            printf("%s on \"%s\": the C library %d (%d %d %d), %d used; sf %d (%d %d %d), %u used\n", format, text,
                answer, theirs[0][0], theirs[1][0], theirs[2][0], count, o.c_return, (int)v[0].bits, (int)v[1].bits,
                (int)v[2].bits, o.used);
    }
    printf("%ld same, %ld range, %ld suppressed, %ld prefix, %ld differ\n", same, range, suppressed, prefix, differ);
    return differ != 0;
}

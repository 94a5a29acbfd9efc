/* The same as scans.c and hand.c, written by hand as one does at first: read byte after byte by getc_unlocked, and written
   byte after byte into a block. It ends at the first record that does not match. */
#include <limits.h>
#include <stdio.h>
#include <stdlib.h>
#include <string.h>

#define INLINE static inline

enum { BLOCK = 65536, MOST_TEXT = 4095, MOST_RECORD_OUT = 3 * (2 * MOST_TEXT + 3) };

struct text {
    size_t len;
    char bytes[MOST_TEXT + 1];
};

/* The byte that is next, or EOF. */
static int c;
static long long sum;

INLINE void next(void) {
    c = getc_unlocked(stdin);
}

INLINE int is_space(void) {
    return c == ' ' || (c >= '\t' && c <= '\r');
}

INLINE void blanks(void) {
    while (is_space()) next();
}

INLINE int nibble(void) {
    if (c >= '0' && c <= '9') return c - '0';
    if (c >= 'a' && c <= 'f') return c - 'a' + 10;
    if (c >= 'A' && c <= 'F') return c - 'A' + 10;
    return 16;
}

/* An integer of at most `width` bytes with its sign. A number that its type can't hold is undefined, as it is in C. */
INLINE int number(int radix, int width, long long *n) {
    blanks();
    int minus = c == '-';
    if (minus || c == '+') {
        next();
        width--;
    }
    unsigned long long v = 0;
    int digits = 0, zero = 0;
    while (width > 0) {
        int d = nibble();
        if (radix == 16 && digits == 1 && zero && (c == 'x' || c == 'X')) {
            next();
            width--;
            digits = zero = 0;
            continue;
        }
        if (d >= radix) break;
        zero = d == 0;
        v = v * (unsigned)radix + (unsigned)d;
        digits++;
        width--;
        next();
    }
    *n = minus ? -(long long)v : (long long)v;
    return digits > 0;
}

INLINE int word(int width, struct text *t) {
    blanks();
    size_t len = 0;
    while (c != EOF && !is_space() && width-- > 0) {
        t->bytes[len++] = (char)c;
        next();
    }
    t->len = len;
    return len > 0;
}

INLINE int until(int last, struct text *t) {
    size_t len = 0;
    while (c != EOF && c != last && len < MOST_TEXT) {
        t->bytes[len++] = (char)c;
        next();
    }
    t->len = len;
    return len > 0;
}

INLINE int comma(void) {
    if (c != ',') return 0;
    next();
    return 1;
}

static char out[BLOCK], *o = out;

/* Makes room for a record. */
INLINE void make_room(void) {
    if (out + BLOCK - o > MOST_RECORD_OUT) return;
    fwrite(out, 1, (size_t)(o - out), stdout);
    o = out;
}

INLINE void put(int byte) {
    *o++ = (char)byte;
}

INLINE void put_number(long long n) {
    char digits[24];
    int count = 0;
    unsigned long long v = n < 0 ? -(unsigned long long)n : (unsigned long long)n;
    if (n < 0) put('-');
    do digits[count++] = (char)('0' + v % 10);
    while (v /= 10);
    while (count) put(digits[--count]);
}

INLINE void put_text(const struct text *t) {
    put('"');
    for (size_t i = 0; i < t->len; i++) {
        if (t->bytes[i] == '"' || t->bytes[i] == '\\') put('\\');
        put(t->bytes[i]);
    }
    put('"');
}

INLINE long long summed(const struct text *t) {
    return (long long)t->len + (unsigned char)t->bytes[0];
}

static struct text a, b, d;

static void ints(int summing) {
    long long x, y;
    while (number(10, INT_MAX, &x) && comma() && number(10, INT_MAX, &y)) {
        if (summing) {
            sum += (int)x + (int)y;
            continue;
        }
        put_number((int)x);
        put(' ');
        put_number((int)y);
        put('\n');
        make_room();
    }
}

static void mixed(int summing) {
    long long x, y;
    while (word(MOST_TEXT, &a) && number(10, INT_MAX, &x) && number(16, INT_MAX, &y)) {
        if (summing) {
            sum += summed(&a) + (int)x + (unsigned)y;
            continue;
        }
        put_text(&a);
        put(' ');
        put_number((int)x);
        put(' ');
        put_number((unsigned)y);
        put('\n');
        make_room();
    }
}

static void csv(int summing) {
    while (until(',', &a) && comma() && until(',', &b) && comma() && until('\n', &d)) {
        next();
        if (summing) {
            sum += summed(&a) + summed(&b) + summed(&d);
            continue;
        }
        put_text(&a);
        put(' ');
        put_text(&b);
        put(' ');
        put_text(&d);
        put('\n');
        make_room();
    }
}

static void unsigned_numbers(int summing) {
    long long x;
    while (number(10, INT_MAX, &x)) {
        if (summing) {
            sum += (unsigned)x;
            continue;
        }
        put_number((unsigned)x);
        put('\n');
        make_room();
    }
}

static void fixed(int summing) {
    long long x, y;
    while (number(10, 5, &x) && number(10, 3, &y) && word(8, &a)) {
        if (summing) {
            sum += (int)x + (long long)(unsigned)y + summed(&a);
            continue;
        }
        put_number((int)x);
        put(' ');
        put_number((unsigned)y);
        put(' ');
        put_text(&a);
        put('\n');
        make_room();
    }
}

int main(int argc, char **argv) {
    int summing = argc == 3 && !strcmp(argv[2], "scan");
    if (argc != 2 + summing) return 2;
    next();
    if (!strcmp(argv[1], "ints")) ints(summing);
    else if (!strcmp(argv[1], "mixed")) mixed(summing);
    else if (!strcmp(argv[1], "csv")) csv(summing);
    else if (!strcmp(argv[1], "u")) unsigned_numbers(summing);
    else if (!strcmp(argv[1], "fixed")) fixed(summing);
    else return 2;
    fwrite(out, 1, (size_t)(o - out), stdout);
    if (summing) printf("%lld\n", sum);
    return ferror(stdout) || fflush(stdout) ? 3 : 0;
}

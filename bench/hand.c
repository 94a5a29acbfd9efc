/* The same as scans.c, read and written by hand: fread of big blocks, digit loops, texts where they stand, and an output of
   its own. It ends where scans.c does, at the first record that does not match. A number that its type can't hold is
   undefined, as it is in C. */
#include <stdio.h>
#include <stdlib.h>
#include <string.h>

typedef unsigned char byte;

#define INLINE static inline __attribute__((always_inline))

/* So many bytes behind a text may be read and written too, so that a short one is copied without a call. */
enum { BLOCK = 65536, MOST_TEXT = 4095, SLACK = 16, MOST_RECORD_OUT = 3 * MOST_TEXT + 64 + SLACK };

struct text {
    const byte *at;
    size_t len;
};

/* What was read and isn't used yet: from p to end, where a line feed stands behind the last byte. */
static byte *block, *end;
static const byte *p;
static size_t room;
static int at_end;

/* Where the last record that didn't match was left. */
static const byte *left_at;

static byte out[BLOCK + MOST_RECORD_OUT], *o = out;
static long long sum;

/* Moves what is left to the front, and reads more behind it; the block grows where one record fills it. */
static void more(void) {
    size_t left = (size_t)(end - p);
    if (left > room / 2) {
        byte *grown = malloc(2 * room + SLACK);
        if (!grown) exit(3);
        memcpy(grown, p, left);
        free(block);
        block = grown;
        room *= 2;
    } else {
        memmove(block, p, left);
    }
    size_t got = fread(block + left, 1, room - left, stdin);
    if (got < room - left) at_end = 1;
    p = block;
    end = block + left + got;
    *end = '\n';
}

INLINE const byte *unmatched(const byte *q) {
    left_at = q;
    return NULL;
}

INLINE int is_space(byte b) {
    return b == ' ' || (byte)(b - '\t') < 5;
}

INLINE const byte *blanks(const byte *q) {
    while (q < end && is_space(*q)) q++;
    return q;
}

/* %d and %u: blanks, a sign, and digits, of at most `width` bytes with the sign. Null where there are no digits. */
INLINE const byte *decimal(const byte *q, size_t width, unsigned long *n) {
    q = blanks(q);
    const byte *stop = (size_t)(end - q) < width ? end : q + width;
    int minus = *q == '-';
    if (q < stop && (minus || *q == '+')) q++;
    const byte *from = q;
    unsigned long v = 0;
    while (q < stop && (byte)(*q - '0') < 10) v = v * 10 + (byte)(*q++ - '0');
    *n = minus ? -v : v;
    return q == from ? unmatched(q) : q;
}

/* The same without a width: the line feed behind the last byte ends it. */
INLINE const byte *number(const byte *q, unsigned long *n) {
    q = blanks(q);
    int minus = *q == '-';
    if (minus || *q == '+') q++;
    const byte *from = q;
    unsigned long v = 0;
    byte d;
    while ((d = (byte)(*q - '0')) < 10) {
        v = v * 10 + d;
        q++;
    }
    *n = minus ? -v : v;
    return q == from ? unmatched(q) : q;
}

INLINE int nibble(byte b) {
    if ((byte)(b - '0') < 10) return b - '0';
    b |= 0x20;
    return (byte)(b - 'a') < 6 ? b - 'a' + 10 : -1;
}

/* %x: blanks, a sign, 0x, and digits. Where no digit follows 0x, nothing matches, as in C and musl; glibc makes it 0. */
INLINE const byte *hexadecimal(const byte *q, unsigned long *n) {
    q = blanks(q);
    int minus = *q == '-', d;
    if (minus || *q == '+') q++;
    if (*q == '0' && (q[1] | 0x20) == 'x') q += 2;
    const byte *from = q;
    unsigned long v = 0;
    while ((d = nibble(*q)) >= 0) {
        v = v * 16 + (unsigned)d;
        q++;
    }
    *n = minus ? -v : v;
    return q == from ? unmatched(q) : q;
}

/* %s: blanks, and bytes that are none, at most `width`. */
INLINE const byte *word(const byte *q, size_t width, struct text *t) {
    q = blanks(q);
    const byte *stop = (size_t)(end - q) < width ? end : q + width;
    t->at = q;
    while (q < stop && !is_space(*q)) q++;
    t->len = (size_t)(q - t->at);
    return t->len ? q : unmatched(q);
}

/* %[^..] of one byte. */
INLINE const byte *until(const byte *q, byte last, struct text *t) {
    size_t most = (size_t)(end - q) < MOST_TEXT ? (size_t)(end - q) : MOST_TEXT;
    const byte *found = memchr(q, last, most);
    t->at = q;
    t->len = found ? (size_t)(found - q) : most;
    return t->len ? q + t->len : unmatched(q);
}

INLINE const byte *comma(const byte *q) {
    return q < end && *q == ',' ? q + 1 : unmatched(q);
}

static const char PAIRS[] =
    "00010203040506070809101112131415161718192021222324252627282930313233343536373839404142434445464748495051525354555657585960"
    "616263646566676869707172737475767778798081828384858687888990919293949596979899";

INLINE unsigned digits_of(unsigned n) {
    if (n < 100) return n < 10 ? 1 : 2;
    if (n < 10000) return n < 1000 ? 3 : 4;
    if (n < 1000000) return n < 100000 ? 5 : 6;
    if (n < 100000000) return n < 10000000 ? 7 : 8;
    return n < 1000000000 ? 9 : 10;
}

INLINE byte *put_unsigned(byte *w, unsigned n) {
    byte *behind = w + digits_of(n), *d = behind;
    while (n >= 100) {
        d -= 2;
        memcpy(d, PAIRS + 2 * (n % 100), 2);
        n /= 100;
    }
    if (n >= 10) memcpy(d - 2, PAIRS + 2 * n, 2);
    else d[-1] = (byte)('0' + n);
    return behind;
}

INLINE byte *put_signed(byte *w, int n) {
    *w = '-';
    return put_unsigned(w + (n < 0), n < 0 ? -(unsigned)n : (unsigned)n);
}

INLINE byte *put_text(byte *w, const struct text *t) {
    *w++ = '"';
    if (t->len <= SLACK) memcpy(w, t->at, SLACK);
    else memcpy(w, t->at, t->len);
    w += t->len;
    *w++ = '"';
    return w;
}

static void flush(void) {
    if (fwrite(out, 1, (size_t)(o - out), stdout) != (size_t)(o - out)) exit(3);
    o = out;
}

INLINE void end_line(byte *w) {
    *w++ = '\n';
    o = w;
    if (o - out >= BLOCK) flush();
}

INLINE long long summed(const struct text *t) {
    return (long long)t->len + t->at[0];
}

/* What a record was: it matched, or it did not, or the block ends within it. */
enum { MATCHED, UNMATCHED, CUT };

/* A record that was read up to the block's last byte is read again with more behind it, unless nothing is. */
INLINE int judged(const byte *q) {
    if (!at_end && (q ? q : left_at) >= end) return CUT;
    return q ? MATCHED : UNMATCHED;
}

INLINE int ints(int summing) {
    unsigned long x, y;
    const byte *q = number(p, &x);
    if (q) q = comma(q);
    if (q) q = number(q, &y);
    int is = judged(q);
    if (is != MATCHED) return is;
    p = q;
    if (summing) {
        sum += (long long)(int)x + (int)y;
        return MATCHED;
    }
    byte *w = put_signed(o, (int)x);
    *w++ = ' ';
    w = put_signed(w, (int)y);
    end_line(w);
    return MATCHED;
}

INLINE int mixed(int summing) {
    struct text a;
    unsigned long x, y;
    const byte *q = word(p, MOST_TEXT, &a);
    if (q) q = number(q, &x);
    if (q) q = hexadecimal(q, &y);
    int is = judged(q);
    if (is != MATCHED) return is;
    p = q;
    if (summing) {
        sum += summed(&a) + (int)x + (unsigned)y;
        return MATCHED;
    }
    byte *w = put_text(o, &a);
    *w++ = ' ';
    w = put_signed(w, (int)x);
    *w++ = ' ';
    w = put_unsigned(w, (unsigned)y);
    end_line(w);
    return MATCHED;
}

INLINE int csv(int summing) {
    struct text a, b, c;
    const byte *q = until(p, ',', &a);
    if (q) q = comma(q);
    if (q) q = until(q, ',', &b);
    if (q) q = comma(q);
    if (q) q = until(q, '\n', &c);
    int is = judged(q);
    if (is != MATCHED) return is;
    p = q + (q < end);
    if (summing) {
        sum += summed(&a) + summed(&b) + summed(&c);
        return MATCHED;
    }
    byte *w = put_text(o, &a);
    *w++ = ' ';
    w = put_text(w, &b);
    *w++ = ' ';
    w = put_text(w, &c);
    end_line(w);
    return MATCHED;
}

INLINE int unsigned_numbers(int summing) {
    unsigned long x;
    const byte *q = number(p, &x);
    int is = judged(q);
    if (is != MATCHED) return is;
    p = q;
    if (summing) {
        sum += (unsigned)x;
        return MATCHED;
    }
    byte *w = put_unsigned(o, (unsigned)x);
    end_line(w);
    return MATCHED;
}

INLINE int fixed(int summing) {
    struct text a;
    unsigned long x, y;
    const byte *q = decimal(p, 5, &x);
    if (q) q = decimal(q, 3, &y);
    if (q) q = word(q, 8, &a);
    int is = judged(q);
    if (is != MATCHED) return is;
    p = q;
    if (summing) {
        sum += (long long)(int)x + (unsigned)y + summed(&a);
        return MATCHED;
    }
    byte *w = put_signed(o, (int)x);
    *w++ = ' ';
    w = put_unsigned(w, (unsigned)y);
    *w++ = ' ';
    w = put_text(w, &a);
    end_line(w);
    return MATCHED;
}

/* Record after record; each pair of a format and a way has a loop of its own. */
INLINE void run(int (*record)(int), int summing) {
    for (;;) {
        int is = record(summing);
        if (is == UNMATCHED) return;
        if (is == CUT) more();
    }
}

int main(int argc, char **argv) {
    int summing = argc == 3 && !strcmp(argv[2], "scan");
    if (argc != 2 + summing) return 2;
    room = BLOCK;
    block = malloc(room + SLACK);
    if (!block) return 3;
    p = end = block;
    *end = '\n';
    const char *name = argv[1];
    if (!strcmp(name, "ints")) summing ? run(ints, 1) : run(ints, 0);
    else if (!strcmp(name, "mixed")) summing ? run(mixed, 1) : run(mixed, 0);
    else if (!strcmp(name, "csv")) summing ? run(csv, 1) : run(csv, 0);
    else if (!strcmp(name, "u")) summing ? run(unsigned_numbers, 1) : run(unsigned_numbers, 0);
    else if (!strcmp(name, "fixed")) summing ? run(fixed, 1) : run(fixed, 0);
    else return 2;
    if (summing) printf("%lld\n", sum);
    else flush();
    return 0;
}

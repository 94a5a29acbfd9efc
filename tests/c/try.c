/* Each call of sf.h, and what it must answer. Prints what is wrong, a line each; the status is 1 if anything is. What a
   number, a text or a failure is, C11 7.21.6.2 says; where C leaves something open, sf.h says what is refused. */
#include "sf.h"
#include <stdio.h>
#include <stdlib.h>

static int wrong;
#define IS(test) ((test) ? (void)0 : (void)(wrong = 1, printf("try.c:%d: not so: %s\n", __LINE__, #test)))
#define SAYS(text) IS(!strcmp(sf_words(&r, words), text))
#define SCAN(s, ...) sf_scan(s, strlen(s), __VA_ARGS__)
#define WHOLE(s, ...) sf_scan_whole(s, strlen(s), __VA_ARGS__)

static void numbers(void) {
    int8_t c = 1; int16_t h = 1; int32_t i = 1; int64_t l = 1; long long ll = 1;
    uint8_t uc = 1; uint16_t uh = 1; uint32_t u = 1; uint64_t ul = 1; float f = 1; double d = 1;
    sf_report r;
    IS(SCAN("12,-7", "%d,%ld", &r, SF_TO(&i), SF_TO(&l)) == SF_OK && i == 12 && l == -7);
    IS(r.used == 5 && r.assigned == 2 && r.at == 0);
    IS(SCAN("-128 -32768", "%hhd %hd", &r, SF_TO(&c), SF_TO(&h)) == SF_OK && c == -128 && h == -32768);
    IS(SCAN("255 65535", "%hhu %hu", &r, SF_TO(&uc), SF_TO(&uh)) == SF_OK && uc == 255 && uh == 65535);
    IS(SCAN("4294967295 ffffffffffffffff", "%u %lx", &r, SF_TO(&u), SF_TO(&ul)) == SF_OK);
    IS(u == UINT32_MAX && ul == UINT64_MAX);
    IS(SCAN("-9223372036854775808", "%lld", &r, SF_TO(&ll)) == SF_OK && ll == INT64_MIN);
    IS(SCAN("1.5 -2.25e-3", "%f %lf", &r, SF_TO(&f), SF_TO(&d)) == SF_OK && f == 1.5f && d == -2.25e-3);
    IS(SCAN("0x1f 017", "%i %i", &r, SF_TO(&i), SF_TO(&i)) == SF_OK && i == 15);
    IS(SCAN("-1", "%u", &r, SF_TO(&u)) == SF_OK && u == UINT32_MAX); /* C11 7.22.1.4p5: negated in its type */
}

static void refused(void) {
    char name[6] = "old", words[SF_WORDS]; int32_t a = 99, b = 98; uint8_t u = 97; double d = 1; sf_report r;
    IS(SCAN("1,99999999999", "%d,%d", &r, SF_TO(&a), SF_TO(&b)) == SF_RANGE && a == 99 && b == 98 && r.at == 3);
    SAYS("out of range at 3, used 13, assigned 1");
    IS(SCAN("300", "%hhu", &r, SF_TO(&u)) == SF_RANGE && u == 97);
    IS(SCAN("12", "%d", &r, SF_TO(&u)) == SF_KINDS && r.slot == 1 && u == 97);
    SAYS("not the types of the format: value 1");
    IS(SCAN("12 13", "%d %d", &r, SF_TO(&a)) == SF_KINDS && r.slot == 0 && a == 99);
    SAYS("not the types of the format");
    IS(SCAN("12", "%d", &r, SF_TO(&a), SF_TO(&b)) == SF_KINDS && r.slot == 0);
    IS(SCAN("1.5", "%f", &r, SF_TO(&d)) == SF_KINDS && r.slot == 1);
    IS(SCAN("7 longer", "%d %s", &r, SF_TO(&a), SF_CHARS(name)) == SF_ROOM && r.slot == 2);
    IS(a == 99 && !strcmp(name, "old"));
    SAYS("no room: value 2");
    IS(SCAN("1 x", "%d %d", &r, SF_TO(&a), SF_TO(&b)) == SF_MATCH && r.at == 3 && r.used == 2 && a == 99);
    SAYS("matching failure at 3, used 2, assigned 1");
    IS(SCAN("1 ", "%d %d", &r, SF_TO(&a), SF_TO(&b)) == SF_INPUT && a == 99);
    SAYS("input failure at 3, used 2, assigned 1");
    IS(SCAN("1", "%[z-a]", &r, SF_CHARS(name)) == SF_FORMAT && r.fault == 8 && r.fault_at == 2);
    SAYS("no format: F8 at 2");
    IS(WHOLE("12x", "%d", &r, SF_TO(&a)) == SF_REST && r.used == 2 && a == 99);
    SAYS("bytes are left at 0, used 2, assigned 1");
    IS(WHOLE("12", "%d", &r, SF_TO(&a)) == SF_OK && a == 12);
    SAYS("done at 0, used 2, assigned 1");
    IS(SCAN("7", "%*d%d", &r, SF_TO(&b)) == SF_INPUT && b == 98 && r.assigned == 0);
    IS(SCAN("0xg", "%x", &r, SF_TO(&(uint32_t){0})) == SF_MATCH);
}

static void texts(void) {
    char name[6], first[4], second[4]; size_t len = 0; sf_report r; int32_t a = 5;
    IS(SCAN("short", "%s", &r, SF_CHARS(name)) == SF_OK && !strcmp(name, "short"));
    IS(SCAN("ab:cd", "%[^:]:%s", &r, SF_CHARS(first), SF_CHARS(second)) == SF_OK);
    IS(!strcmp(first, "ab") && !strcmp(second, "cd"));
    IS(SCAN("ef gh", "%2$s %1$s", &r, SF_CHARS(first), SF_CHARS(second)) == SF_OK);
    IS(!strcmp(first, "gh") && !strcmp(second, "ef"));
    IS(sf_scan("a\0b", 3, "%3c", &r, SF_CHARS_LEN(first, &len)) == SF_OK && len == 3 && !memcmp(first, "a\0b", 4));
    IS(sf_scan(NULL, 0, "%d", &r, SF_TO(&a)) == SF_INPUT && a == 5);
    IS(SCAN("x;7", "%?d%*[^;];%d", &r, SF_TO(&a), SF_TO(&(int32_t){0})) == SF_OK && a == 5); /* missing: it stays */
    char *line = malloc(100001);
    memset(line, 'x', 100000);
    line[100000] = 0;
    memcpy(line, "12 ", 3);
    IS(sf_scan(line, 100000, "%d", &r, SF_TO(&a)) == SF_OK && a == 12 && r.used == 2);
    char *copy = malloc(100001);
    sf_to to[] = {{copy, 100001, &len, SF_TEXT}};
    IS(sf_scan_to(line + 3, 99997, "%s", 0, &r, to, 1) == SF_OK && len == 99997 && strlen(copy) == 99997);
    free(line), free(copy);
}

static void printed(void) {
    char out[32]; size_t len; sf_report r;
#define PRINTS(text, ...) \
    IS(sf_print(out, sizeof out, &len, __VA_ARGS__) == SF_OK && !strcmp(out, text) && len == strlen(text))
    PRINTS("+5|ab  |ff\n", "%+d|%-4s|%x\n", &r, SF_OF(5), SF_STR("ab"), SF_OF(255u));
    PRINTS("2.50 1e+10", "%.2f %g", &r, SF_OF(2.5), SF_OF(1e10));
    PRINTS("-128 -9223372036854775808", "%hhd %ld", &r, SF_OF((int8_t)-128), SF_OF(INT64_MIN));
    PRINTS("18446744073709551615", "%llu", &r, SF_OF(UINT64_MAX));
    IS(sf_print(out, 3, &len, "%d", &r, SF_OF(12345)) == SF_ROOM && len == 5 && !strcmp(out, "12"));
    IS(sf_print(NULL, 0, &len, "%d", &r, SF_OF(12345)) == SF_ROOM && len == 5);
    IS(sf_print(out, 9, &len, "%u", &r, SF_OF(-1)) == SF_KINDS && r.slot == 1);
    IS(sf_print(out, 9, &len, "%d %d", &r, SF_OF(1)) == SF_KINDS && r.slot == 0);
    IS(sf_print(out, 9, &len, "%q", &r, SF_OF(1)) == SF_FORMAT && r.fault == 4);
}

static void checked(void) {
    char words[SF_WORDS]; sf_report r;
    IS(sf_check("%d,%s\n", "%11d,%20s%*1[\n]", &r) == SF_OK);
    IS(sf_check("%d%d\n", "%5d%5d%*1[\n]", &r) == SF_PAIR && r.fault == 6 && r.at == 1);
    SAYS("no pair: Q6 at 1");
    IS(sf_check("%d", "%q", &r) == SF_FORMAT && r.fault == 4 && r.fault_at == 1);
    IS(sf_check("%q", "%d", &r) == SF_FORMAT && r.fault == 4 && r.fault_at == 1);
}

/* An input that comes in pieces of `step` bytes; `fails` says whether it ends in a read that fails. */
typedef struct { const char *at; size_t left, step; int fails; } pieces;
static ptrdiff_t by_pieces(void *from, void *to, size_t room) {
    pieces *p = from;
    size_t n = p->left < p->step ? p->left : p->step;
    if (n > room) n = room;
    if (!n && p->fails) return -1;
    memcpy(to, p->at, n);
    p->at += n, p->left -= n;
    return (ptrdiff_t)n;
}

/* What a reader answers, in words, until there is no more; a reader of records also ends at the first that is none. */
static void reads(int line, const char *text, const char *format, int flags, int fails, const char *wanted) {
    for (size_t step = 1; step < 40; step++) {
        pieces p = {text, strlen(text), step, fails};
        char all[500] = "", words[SF_WORDS], name[6]; int32_t a = 0, b = 0; sf_report r; sf_status s;
        sf_reader *in = sf_open(by_pieces, &p, format, flags, 20, &r);
        if (!in) { wrong = 1; printf("try.c:%d: %s\n", line, sf_words(&r, words)); return; }
        do {
            s = sf_next(in, &r, SF_TO(&a), SF_TO(&b), SF_CHARS(name));
            size_t n = strlen(all);
            if (s) snprintf(all + n, sizeof all - n, "%s;", sf_words(&r, words));
            else snprintf(all + n, sizeof all - n, "%d %d %s;", a, b, name);
        } while (s == SF_OK || (flags & SF_LINES && s < SF_STALLED));
        if (flags & SF_LINES || s >= SF_STALLED || (s && s != SF_ROOM))
            IS(sf_next(in, &r, SF_TO(&a), SF_TO(&b), SF_CHARS(name)) == s); /* it stays so */
        sf_close(in);
        if (strcmp(all, wanted)) {
            wrong = 1;
            printf("try.c:%d: by %zu: %s, not %s\n", line, step, all, wanted);
            return;
        }
    }
}
#define READS(...) reads(__LINE__, __VA_ARGS__)

static void readers(void) {
    const char *text = "12,-7 x\n3,4 yy\nbad\n555,6 zzz";
    READS(text, "%d,%d %5s", SF_LINES, 0,
        "12 -7 x;3 4 yy;record 3: matching failure at 1, used 0, assigned 0;555 6 zzz;end;");
    READS(text, "%d,%d %5s", 0, 0, "12 -7 x;3 4 yy;record 3: matching failure at 1, used 1, assigned 0;");
    READS("1,2 a\n", "%d,%d %5s", 0, 0, "1 2 a;end;");
    READS("1,2 a", "%d,%d %5s", SF_LINES, 0, "1 2 a;end;");
    READS("", "%d,%d %5s", SF_LINES, 0, "end;");
    READS("\n1,2 a\n", "%d,%d %5s", SF_LINES, 0, "record 1: input failure at 1, used 0, assigned 0;1 2 a;end;");
    READS("1,2 a\n3,4 b", "%d,%d %5s", SF_LINES, 1, "1 2 a;read fault;");
    READS("1,2 a 3,4 b", "%d,%d %5s", 0, 1, "1 2 a;3 4 b;read fault;");
    READS("1,2 a 3,", "%d,%d %5s", 0, 1, "1 2 a;read fault;");
    READS("1,2 longer 3,4 b", "%d,%d %6s", 0, 0, "record 1: no room: value 3;");
    READS("1,2 longer\n3,4 b", "%d,%d %6s", SF_LINES, 0, "record 1: no room: value 3;3 4 b;end;");
    READS("1,99999999999 a\n3,4 b", "%d,%d %5s", SF_LINES, 0,
        "record 1: out of range at 3, used 13, assigned 1;3 4 b;end;");
    READS("1,2 a            and more than is allowed\n3,4 b", "%d,%d %5s", SF_LINES, 0,
        "record 1: too long at 0, used 0, assigned 0;3 4 b;end;");
    READS("1,2 a 3", "%?d,%?d %?5s", 0, 0, "1 2 a;record 2: input failure at 2, used 2, assigned 1;");
    READS("1,2 a \n ", " %?d ,%?d %?5s", 0, 0, "1 2 a;end;");
}

static void records(void) {
    int32_t a; sf_report r; sf_status s;
    for (size_t step = 1; step < 40; step++) {
        pieces p = {"1 22 333 4444", 13, step, 0};
        long sum = 0;
        sf_reader *in = sf_open(by_pieces, &p, "%d", 0, 1000, &r);
        while (!(s = sf_next(in, &r, SF_TO(&a)))) sum = sum * 31 + a;
        IS(s == SF_END && sum == ((1L * 31 + 22) * 31 + 333) * 31 + 4444);
        sf_close(in);
        pieces q = {"5 6 \n", 5, step, 0}; /* what may be missing is missing at the end: there is no further record */
        in = sf_open(by_pieces, &q, "%?d", 0, 1000, &r);
        IS(!sf_next(in, &r, SF_TO(&a)) && a == 5 && !sf_next(in, &r, SF_TO(&a)) && a == 6);
        IS(sf_next(in, &r, SF_TO(&a)) == SF_END && sf_next(in, &r, SF_TO(&a)) == SF_END);
        sf_close(in);
        pieces w = {"x", 1, step, 0};
        in = sf_open(by_pieces, &w, "%?d", 0, 1000, &r);
        IS(sf_next(in, &r, SF_TO(&a)) == SF_STALLED && r.record == 1);
        sf_close(in);
    }
    IS(!sf_open(by_pieces, NULL, "%q", 0, 1000, &r) && r.status == SF_FORMAT && r.fault == 4);
    IS(!sf_open(by_pieces, NULL, "%d", 0, 2147483648u, &r) && r.status == SF_LONG);
    sf_close(NULL);
}

/* A file that is longer than what is read at once, and a record that is longer than the first buffers. */
static void files(void) {
    FILE *file = tmpfile();
    int32_t a, b; sf_report r; sf_status s; long n = 0; size_t len = 0;
    for (int i = 0; i < 50000; i++) fprintf(file, "%d,%d\n", i, -i);
    rewind(file);
    sf_reader *in = sf_open(sf_read_file, file, "%d,%d", SF_LINES, 1000, &r);
    while (!(s = sf_next(in, &r, SF_TO(&a), SF_TO(&b)))) IS(a == n && b == -n), n++;
    IS(s == SF_END && n == 50000);
    sf_close(in);
    rewind(file);
    for (int i = 0; i < 300000; i++) fputc('y', file);
    fputc('\n', file);
    rewind(file);
    char *big = malloc(300001);
    sf_to to[] = {{big, 300001, &len, SF_TEXT}};
    in = sf_open(sf_read_file, file, "%s", 0, 1000000, &r);
    IS(sf_next_to(in, &r, to, 1) == SF_OK && len == 300000 && strspn(big, "y") == 300000);
    sf_close(in);
    free(big);
    fclose(file);
}

int main(void) {
    numbers(), refused(), texts(), printed(), checked(), readers(), records(), files();
    return wrong;
}

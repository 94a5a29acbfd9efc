/* sf.h: scanf and printf with typed destinations, checked, over the proved library of sf. docs/C.md has examples.

       int32_t x; uint8_t share; char name[20], words[SF_WORDS]; sf_report r;
       if (sf_scan(line, strlen(line), "%d %hhu%% %19s", &r, SF_TO(&x), SF_TO(&share), SF_CHARS(name)) != SF_OK)
           fprintf(stderr, "%s\n", sf_words(&r, words));

   What C leaves open is refused, with a status each, and no destination is written unless the call answers SF_OK.
   Formats: C11's, of the C locale, without %p, %m and wide characters; %b of base 2; %?d, which may be missing, so that
   its destination stays as it is; %=8lf, a column of eight bytes; %!d, no blank or plus before it. %d wants int32_t,
   %ld int64_t, %hhu uint8_t, %f float, %lf double. Ownership: a call keeps only what a reader is opened with (`from`),
   which has to live as long as the reader. sf_close gives back a reader's memory, which grows to the longest record.
   Any thread may call; a reader is for one thread at a time. There are no globals, no locale, no errno. Memory comes
   from malloc: no signal handler may call. Where memory is refused the answer is SF_MEMORY; nothing aborts. */
#ifndef SF_H
#define SF_H
#include "sf_c.h"
#include <string.h>

typedef enum sf_status { SF_OK,
    SF_INPUT,   /* the input ended where a byte was due */
    SF_MATCH,   /* the bytes that stand there don't match */
    SF_RANGE,   /* a number doesn't fit its type */
    SF_LONG,    /* more bytes than the limit, or than 2147483647 */
    SF_MEMORY,  /* memory was refused */
    SF_FORMAT,  /* the format is none: `fault` is the 8 of F8, found at the byte `fault_at` of it */
    SF_KINDS,   /* the destinations or values aren't those of the format: see `slot` */
    SF_ROOM,    /* a text is longer than its array: see `slot`; what is printed is longer than there is room for */
    SF_REST,    /* sf_scan_whole: bytes are left, from `used` on */
    SF_PAIR,    /* the formats are no pair: `fault` is the 6 of Q6, found at the directive `at` */
    SF_STALLED, /* sf_next: the record used no byte, so that a loop would never end */
    SF_READ,    /* sf_next: a read failed */
    SF_END      /* sf_next: there is no further record */
} sf_status;
typedef struct sf_report {
    sf_status status; uint32_t used;   /* how many bytes were consumed */
    uint16_t at; uint8_t assigned;     /* the directive that failed, from 1, or 0; how many items were assigned */
    uint8_t slot, fault;               /* slot: which destination or value, from 1; 0 where their number is another */
    uint16_t fault_at; uint64_t record; /* sf_next: the record or line, from 1 */
} sf_report;

/* A destination. SF_TO(&x): the type of x says the kind. SF_CHARS(array): an array of char, for a text and a NUL;
   SF_CHARS_LEN(array, &len) also says how many bytes the text has, as it may have NULs of its own. */
typedef struct sf_to { void *to; size_t room, *len; uint8_t kind; } sf_to;
#define SF_TO(p) ((sf_to){(p), 0, 0, _Generic((p), int8_t *: SF_I8, int16_t *: SF_I16, int32_t *: SF_I32, \
    int64_t *: SF_I64, long long *: SF_I64, uint8_t *: SF_U8, uint16_t *: SF_U16, uint32_t *: SF_U32, \
    uint64_t *: SF_U64, unsigned long long *: SF_U64, float *: SF_F32, double *: SF_F64)})
#define SF_CHARS_LEN(a, n) ((sf_to){(a), sizeof(a), (n), _Generic(&(a), char (*)[sizeof(a)]: SF_TEXT)})
#define SF_CHARS(a) SF_CHARS_LEN(a, 0)
/* A value to print. SF_OF(x): the type of x says the kind. SF_BYTES(p, n), SF_STR(s): a text. */
typedef struct sf_of { uint64_t bits; const void *text; size_t len; uint8_t kind; } sf_of;
static inline uint64_t sf_bits(double x) { uint64_t bits; memcpy(&bits, &x, sizeof bits); return bits; }
#define SF_OF(x) ((sf_of){_Generic((x), float: sf_bits((double)(x)), double: sf_bits((double)(x)), \
    default: (uint64_t)(x)), 0, 0, _Generic((x), int8_t: SF_I8, int16_t: SF_I16, int32_t: SF_I32, int64_t: SF_I64, \
    long long: SF_I64, uint8_t: SF_U8, uint16_t: SF_U16, uint32_t: SF_U32, uint64_t: SF_U64, \
    unsigned long long: SF_U64, float: SF_F64, double: SF_F64)})
#define SF_BYTES(p, n) ((sf_of){0, (p), (n), SF_TEXT})
#define SF_STR(s) SF_BYTES(s, strlen(s))
/* One record at the front of a text, which needs no NUL and may have some; sf_scan_whole: no byte may be left. */
#define sf_scan(text, len, format, r, ...) sf_scan_to(text, len, format, 0, r, SF_LIST(sf_to, __VA_ARGS__))
#define sf_scan_whole(text, len, format, r, ...) sf_scan_to(text, len, format, SF_WHOLE, r, SF_LIST(sf_to, __VA_ARGS__))
/* Prints into `out`, with a NUL after the text, of which *len counts all bytes. SF_ROOM: its first bytes are there. */
#define sf_print(out, room, len, format, r, ...) sf_print_of(out, room, len, format, r, SF_LIST(sf_of, __VA_ARGS__))
/* Whether the scan format reads back what the print format prints of values that fit, whatever follows. */
sf_status sf_check(const char *print, const char *scan, sf_report *r);
enum { SF_WHOLE = 1, SF_LINES = 2, SF_WORDS = 120 };
/* Says a report in words, as `record 3: matching failure at 1, used 0, assigned 0`, and answers `out`. */
const char *sf_words(const sf_report *r, char out[SF_WORDS]);
/* Records of an input, one after the other, as a loop around fscanf has them; by SF_LINES each line is an input of its
   own, and the call after a line that fails goes on with the next. `read` gives at most `room` bytes, and answers how
   many, 0 at the end, and -1 where it failed. Each record has at most `limit` bytes. NULL: the report says why. */
typedef ptrdiff_t sf_read(void *from, void *to, size_t room);
typedef struct sf_reader sf_reader;
sf_reader *sf_open(sf_read *read, void *from, const char *format, int flags, uint32_t limit, sf_report *r);
#define sf_next(reader, r, ...) sf_next_to(reader, r, SF_LIST(sf_to, __VA_ARGS__))
void sf_close(sf_reader *reader);
ptrdiff_t sf_read_file(void *file, void *to, size_t room); /* reads a FILE */
#define SF_LIST(type, ...) (type[]){__VA_ARGS__}, sizeof((type[]){__VA_ARGS__}) / sizeof(type)
sf_status sf_scan_to(const void *text, size_t len, const char *format, int flags, sf_report *r, const sf_to *, size_t);
sf_status sf_print_of(char *out, size_t room, size_t *len, const char *format, sf_report *r, const sf_of *, size_t);
sf_status sf_next_to(sf_reader *reader, sf_report *r, const sf_to *to, size_t n);
#endif

/* The calls of the proved library, crates/sf_c, whose contracts say what each answers. Programs use sf.h, over them.

   A slice is a pointer and a length. The pointer is never NULL (where the length is 0, any address will do), and no
   slice that is written overlaps another. Nothing is kept after a call. Memory comes from malloc: no signal handler may
   call. */
#ifndef SF_C_H
#define SF_C_H
#include <stdbool.h>
#include <stddef.h>
#include <stdint.h>

/* What a call answers: crates/sf_c/src/codes.rt. */
enum {
    SF_C_OK, SF_C_BAD_FORMAT, SF_C_BAD_LIMIT, SF_C_NO_MEMORY, SF_C_NO_ROOM, SF_C_BAD_VALUE, SF_C_NOT_PRINTED,
    SF_C_BAD_SCAN_FORMAT, SF_C_NO_PAIR, SF_C_BAD_PROFILE
};
/* The kinds of slots and values. */
enum { SF_NONE, SF_I8, SF_I16, SF_I32, SF_I64, SF_U8, SF_U16, SF_U32, SF_U64, SF_TEXT, SF_F32, SF_F64 };

/* A slot: its kind, and the kind of what it was given (SF_NONE: nothing). `bits` is a number in two's complement, the
   pattern of a float, or the place of a text of `len` bytes among the texts. */
typedef struct sf_value { uint64_t bits; uint32_t len; uint8_t kind, slot; } sf_value;
/* status: 0 done, 1 input failure, 2 matching failure, 3 out of range, 4 too long, 5 out of memory */
typedef struct sf_c_outcome {
    int32_t c_return; uint32_t used; uint16_t at, converted, fault_at; uint8_t assigned, status, met, fault, slots;
} sf_c_outcome;
/* records that have their values, their bytes, the bytes of their texts; the bytes of the run after them */
typedef struct sf_c_done { size_t records, used, filled, failed; } sf_c_done;
typedef struct sf_c_printed { uint32_t len; uint16_t fault_at; uint8_t fault, why, slot; } sf_c_printed;
typedef struct sf_c_fault { uint16_t at; uint8_t number; } sf_c_fault;
typedef struct sf_c_kinds_of { uint16_t fault_at; uint8_t fault, slots; } sf_c_kinds_of;

/* As #[repr(C)] lays them out; nothing else compares the two declarations. */
_Static_assert(sizeof(sf_value) == 16 && offsetof(sf_value, kind) == 12 && offsetof(sf_value, slot) == 13, "sf_value");
_Static_assert(sizeof(sf_c_outcome) == 20 && offsetof(sf_c_outcome, fault_at) == 12, "sf_c_outcome");
_Static_assert(offsetof(sf_c_outcome, slots) == 18, "sf_c_outcome");
_Static_assert(sizeof(sf_c_done) == 32 && sizeof(sf_c_printed) == 12, "sf_c_done, sf_c_printed");
_Static_assert(sizeof(sf_c_fault) == 4 && sizeof(sf_c_kinds_of) == 4, "sf_c_fault, sf_c_kinds_of");

int32_t sf_c_scan(uint8_t profile, const uint8_t *format, size_t format_len, const uint8_t *text, size_t text_len,
    uint32_t limit, sf_value *values, size_t values_len, uint8_t *texts, size_t texts_len, sf_c_outcome *outcome);
int32_t sf_c_scan_many(uint8_t profile, const uint8_t *format, size_t format_len, const uint8_t *text, size_t text_len,
    bool lines, uint32_t limit, sf_value *values, size_t values_len, uint8_t *texts, size_t texts_len,
    sf_c_outcome *outcome, sf_c_done *done);
int32_t sf_c_print(uint8_t profile, const uint8_t *format, size_t format_len, const sf_value *values, size_t values_len,
    const uint8_t *texts, size_t texts_len, uint8_t *output, size_t output_len, sf_c_printed *printed);
int32_t sf_c_check(uint8_t profile, const uint8_t *print, size_t print_len, const uint8_t *scan, size_t scan_len,
    sf_c_fault *fault);
int32_t sf_c_kinds(uint8_t profile, bool print, const uint8_t *format, size_t format_len, uint8_t *kinds,
    size_t kinds_len, sf_c_kinds_of *found);
size_t sf_c_words(uint8_t status, uint8_t *output, size_t output_len);
#endif

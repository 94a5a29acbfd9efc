/* sf.h over the calls of sf_c.h. Nothing proves this file: it keeps buffers, and copies values to their places. */
#include "sf.h"
#include <stdio.h>
#include <stdlib.h>

enum { PROFILE = 3, MOST_SLOTS = 32, MOST_BYTES = 2147483647, FEW = 256, ROOM = 1 << 16, CELLS = 1 << 11 };
#define BYTES(s) (const uint8_t *)(s), strlen(s)
/* What the answers of the library mean; SF_C_NO_ROOM is left where memory for the texts was refused. */
static const uint8_t says[] = {SF_OK, SF_FORMAT, SF_LONG, SF_MEMORY, SF_MEMORY, SF_KINDS, SF_KINDS, SF_FORMAT, SF_PAIR};
static sf_status ended(sf_report *r, int status) { return r->status = (sf_status)status; }

/* What a call answered. The numbers of a run's statuses are those of sf_status. */
static sf_status told(sf_report *r, int32_t code, const sf_c_outcome *o) {
    *r = (sf_report){0, o->used, o->at, o->assigned, 0, o->fault, o->fault_at, 0};
    return ended(r, code ? says[code] : o->status);
}

/* Copies the values to the destinations, where these are those of the slots, and the texts have room. x86-64 is
   little-endian: the first bytes of a number are those of its type. A slot without a value leaves its destination. */
static sf_status put(const sf_value *v, size_t slots, const uint8_t *texts, const sf_to *to, size_t n, sf_report *r) {
    static const uint8_t sizes[] = {0, 1, 2, 4, 8, 1, 2, 4, 8, 0, 4, 8};
    if (n != slots) return ended(r, SF_KINDS);
    for (size_t i = 0; i < n; i++) {
        int is_long = v[i].kind == SF_TEXT && v[i].len >= to[i].room, is_other = to[i].kind != v[i].slot;
        if (is_long || is_other) return r->slot = (uint8_t)(i + 1), ended(r, is_other ? SF_KINDS : SF_ROOM);
    }
    for (size_t i = 0; i < n; i++) {
        if (v[i].kind != SF_TEXT) { memcpy(to[i].to, &v[i].bits, sizes[v[i].kind]); continue; }
        memcpy(to[i].to, texts + v[i].bits, v[i].len), ((char *)to[i].to)[v[i].len] = 0;
        if (to[i].len) *to[i].len = v[i].len;
    }
    return ended(r, SF_OK);
}

sf_status sf_scan_to(const void *s, size_t len, const char *format, int how, sf_report *r, const sf_to *to, size_t n) {
    sf_value v[MOST_SLOTS]; sf_c_outcome o; int32_t code;
    uint8_t few[FEW], *texts = few; size_t room = FEW;
    do code = sf_c_scan(PROFILE, BYTES(format), s ? s : few, len, MOST_BYTES, v, MOST_SLOTS, texts, room, &o);
    while (code == SF_C_NO_ROOM && room != len && (texts = malloc(room = len)));
    if (!told(r, code, &o) && how & SF_WHOLE && o.used != len) ended(r, SF_REST);
    if (!r->status) put(v, o.slots, texts, to, n, r);
    if (texts != few) free(texts);
    return r->status;
}

sf_status sf_print_of(char *out, size_t cap, size_t *len, const char *format, sf_report *r, const sf_of *of, size_t n) {
    sf_value v[MOST_SLOTS] = {0}; sf_c_printed p; size_t all = 0;
    *r = (sf_report){0};
    if (n > MOST_SLOTS) return ended(r, SF_KINDS);
    for (size_t i = 0; i < n; all += of[i++].len)
        v[i] = (sf_value){of[i].kind == SF_TEXT ? all : of[i].bits, (uint32_t)of[i].len, of[i].kind, 0};
    uint8_t *texts = all > MOST_BYTES ? NULL : malloc(all + 1);
    if (!texts) return ended(r, all > MOST_BYTES ? SF_LONG : SF_MEMORY);
    for (size_t i = 0; i < n; i++) if (of[i].len) memcpy(texts + v[i].bits, of[i].text, of[i].len);
    int32_t code = sf_c_print(PROFILE, BYTES(format), v, n, texts, all, cap ? (uint8_t *)out : texts,
        cap ? cap - 1 : 0, &p);
    free(texts);
    *r = (sf_report){.fault = p.fault, .fault_at = p.fault_at, .slot = p.slot};
    if (code) return ended(r, p.why == 4 ? SF_LONG : says[code]);
    *len = p.len;
    if (cap) out[p.len < cap ? p.len : cap - 1] = 0;
    return ended(r, p.len < cap ? SF_OK : SF_ROOM);
}

sf_status sf_check(const char *print, const char *scan, sf_report *r) {
    sf_c_fault f; int32_t code = sf_c_check(PROFILE, BYTES(print), BYTES(scan), &f);
    *r = (sf_report){.fault = f.number, .fault_at = f.at, .at = code == SF_C_NO_PAIR ? f.at : 0};
    return ended(r, says[code]);
}

const char *sf_words(const sf_report *r, char out[SF_WORDS]) {
    static const char *const own[] = {"no format", "not the types of the format", "no room", "bytes are left",
        "no pair", "no byte used", "read fault", "end"};
    char words[32] = "", where[64] = "";
    sf_c_words((uint8_t)r->status, (uint8_t *)words, sizeof words - 1);
    if (r->record) snprintf(where, sizeof where, "record %llu: ", (unsigned long long)r->record);
    int n = snprintf(out, SF_WORDS, "%s%s", where, r->status < SF_FORMAT ? words : own[r->status - SF_FORMAT]);
    if (r->status == SF_FORMAT || r->status == SF_PAIR)
        snprintf(out + n, sizeof where, ": %c%d at %d", r->status == SF_PAIR ? 'Q' : 'F', r->fault, r->fault_at);
    else if (r->slot) snprintf(out + n, sizeof where, ": value %d", r->slot);
    else if (r->status < SF_FORMAT || r->status == SF_REST)
        snprintf(out + n, sizeof where, " at %d, used %u, assigned %d", r->at, r->used, r->assigned);
    return out;
}

struct sf_reader {
    sf_read *read; void *from;
    int lines, over, has_failed;   /* over: 0 more may come, 1 the input has ended, 2 a read failed */
    uint8_t *held;                 /* held[at] to held[end - 1] were read, and not scanned; texts stand after `room` */
    size_t room, at, end, slots, next, records, failed_len;
    uint64_t answered; uint32_t limit;
    sf_c_outcome failed;           /* of the run after the records, where that is none */
    sf_value values[CELLS];        /* of so many records, of which `next` comes next */
    char format[];
};

void sf_close(sf_reader *s) { if (s) free(s->held); free(s); }

static int32_t scan(sf_reader *s, size_t len, sf_c_done *d) {
    return sf_c_scan_many(PROFILE, BYTES(s->format), s->held + s->at, len, s->lines, s->limit, s->values, CELLS,
        s->held + s->room, s->room, &s->failed, d);
}

sf_reader *sf_open(sf_read *read, void *from, const char *format, int flags, uint32_t limit, sf_report *r) {
    sf_c_done d; sf_reader *s = calloc(1, sizeof *s + strlen(format) + 1);
    *r = (sf_report){.status = SF_MEMORY};
    if (!s || !(s->held = malloc(2 * ROOM))) return sf_close(s), NULL;
    s->read = read, s->from = from, s->lines = flags & SF_LINES, s->limit = limit, s->room = ROOM;
    strcpy(s->format, format);
    if (told(r, scan(s, 0, &d), &s->failed)) return sf_close(s), NULL;
    s->slots = s->failed.slots;
    return s;
}

/* Reads once, after what is held; makes room for that first. No text is kept meanwhile. */
static sf_status more(sf_reader *s) {
    memmove(s->held, s->held + s->at, s->end -= s->at), s->at = 0;
    if (s->end == s->room) {
        uint8_t *held = s->room > MOST_BYTES / 2 ? NULL : realloc(s->held, 4 * s->room);
        if (!held) return s->room > MOST_BYTES / 2 ? SF_LONG : SF_MEMORY;
        s->held = held, s->room *= 2;
    }
    ptrdiff_t n = s->read(s->from, s->held + s->end, s->room - s->end);
    if (n > 0 && (size_t)n <= s->room - s->end) s->end += (size_t)n;
    else s->over = n ? 2 : 1;
    return SF_OK;
}

/* Scans what is held, as far as more bytes couldn't change it. After a read that failed a whole record counts. */
static sf_status batch(sf_reader *s) {
    size_t len = s->end - s->at; sf_c_done d;
    if (s->lines && s->over != 1) while (len && s->held[s->at + len - 1] != '\n') len--;
    s->next = s->records = 0;
    if (!len) return SF_OK;
    int32_t code = scan(s, len, &d);
    if (code && code != SF_C_NO_ROOM) return SF_MEMORY;
    int is_open = !code && !s->lines && s->over != 1 && s->failed.met, is_taken = d.used == len;
    if (is_open && is_taken && !s->over) d.records--, d.used -= s->failed.used;
    s->records = d.records, s->at += d.used, s->failed_len = d.failed;
    s->has_failed = !code && !is_open && !is_taken;
    return SF_OK;
}

/* Answers the run that is no record. A reader of lines goes on after it; another one stays there. */
static sf_status failed(sf_reader *s, sf_report *r) {
    told(r, SF_C_OK, &s->failed);
    if (!s->lines && r->status <= SF_INPUT && s->failed.met && !s->failed.converted) return ended(r, SF_END);
    r->record = s->answered + 1;
    if (s->lines) s->answered++, s->at += s->failed_len, s->has_failed = 0;
    return ended(r, r->status ? r->status : SF_STALLED);
}

sf_status sf_next_to(sf_reader *s, sf_report *r, const sf_to *to, size_t n) {
    *r = (sf_report){0};
    for (size_t before = s->at; s->next == s->records; before = s->at) {
        sf_status status = s->has_failed ? SF_OK : batch(s);
        if (!status && s->has_failed && s->next == s->records) return failed(s, r);
        if (!status && s->next == s->records && s->at == before)
            status = s->over == 2 ? SF_READ : s->over ? SF_END : more(s);
        if (status) return ended(r, status);
    }
    r->record = ++s->answered;
    return put(s->values + s->slots * s->next++, s->slots, s->held + s->room, to, n, r);
}

ptrdiff_t sf_read_file(void *file, void *to, size_t room) {
    size_t n = fread(to, 1, room, file);
    return n ? (ptrdiff_t)n : ferror((FILE *)file) ? -1 : 0;
}

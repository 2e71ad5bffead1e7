/*
 * The published operations in plain C: one sharing at a time, term by term (the library's verdict looks at a term once
 * for 64 sharings), output sharings marked in a bitmap. The benchmark measures the library against this. PREFIX goes before every name, so that
 * one program can hold it built by several compilers.
 */
#include "../../../include/jestrunas.h"
#include <string.h>

#ifndef PREFIX
#define PREFIX plain_
#endif
#define JOIN2(a, b) a##b
#define JOIN(a, b) JOIN2(a, b)
#define NAME(f) JOIN(PREFIX, f)

#define RECORDS_MAX (3 + JESTRUNAS_STAGES_MAX * (1 + JESTRUNAS_SHARE_BITS_MAX))

typedef struct {
    size_t m, s, k;
    size_t start[RECORDS_MAX]; /* where each record's body starts */
} layout;

typedef struct {
    const uint8_t *terms;
    size_t count;
} list;

static size_t u16_at(const uint8_t *p) { return (size_t)p[0] | (size_t)p[1] << 8; }

static uint32_t u32_at(const uint8_t *p) {
    return (uint32_t)p[0] | (uint32_t)p[1] << 8 | (uint32_t)p[2] << 16 | (uint32_t)p[3] << 24;
}

static int limits_hold(size_t m, size_t s, size_t k) {
    return m >= 1 && m <= JESTRUNAS_WIDTH_MAX && s >= JESTRUNAS_SHARES_MIN && s <= JESTRUNAS_SHARES_MAX &&
           m * s <= JESTRUNAS_SHARE_BITS_MAX && k >= 1 && k <= JESTRUNAS_STAGES_MAX;
}

static int all_below(const uint8_t *t, size_t n, size_t limit) {
    for (size_t i = 0; i < n; i++)
        if (t[i] >= limit) return 0;
    return 1;
}

static int repeats(const uint8_t *t, size_t n) {
    uint64_t seen = 0;
    for (size_t i = 0; i < n; i++) {
        if (seen >> t[i] & 1) return 1;
        seen |= (uint64_t)1 << t[i];
    }
    return 0;
}

static size_t body_fault(const uint8_t *body, size_t len, size_t kind, const layout *d) {
    if (kind == 1) return limits_hold(body[0], body[1], body[2]) ? 0 : 4;
    if (kind == 2) return all_below(body, len, (size_t)1 << d->m) ? 0 : 5;
    if (kind == 3) {
        uint32_t least = 0, limit = (uint32_t)1 << (d->m * d->s);
        for (size_t i = 0; i < len; i += 4) {
            uint32_t t = u32_at(body + i);
            if (t < least || t >= limit) return 6;
            least = t + 1;
        }
    }
    return 0;
}

static jestrunas_verdict_t read_layout(const uint8_t *file, size_t file_len, layout *d) {
    size_t at = 0, records = 1;
    for (size_t r = 0; r < records; r++) {
        jestrunas_verdict_t fault = {0, at, 0};
        size_t kind = r == 0 ? 1 : r == 1 ? 2 : r == records - 1 ? 4 : (r - 2) % (1 + d->m * d->s) == 0 ? 2 : 3;
        if (file_len - at < 4) { fault.reason = 1; return fault; }
        size_t len = u16_at(file + at);
        if (u16_at(file + at + 2) != kind) { fault.reason = 2; return fault; }
        int fits = kind == 1 ? len == 3 : kind == 2 ? len == (size_t)1 << d->m : kind == 3 ? len % 4 == 0 && len <= 4 * JESTRUNAS_TERMS_MAX : len == 0;
        if (!fits) { fault.reason = 3; return fault; }
        if (file_len - at - 4 < len) { fault.reason = 1; return fault; }
        fault.reason = body_fault(file + at + 4, len, kind, d);
        if (fault.reason) return fault;
        d->start[r] = at + 4;
        if (r == 0) {
            d->m = file[at + 4];
            d->s = file[at + 5];
            d->k = file[at + 6];
            records = 3 + d->k * (1 + d->m * d->s);
        }
        at += 4 + len;
    }
    jestrunas_verdict_t end = {at < file_len ? 7 : 0, at < file_len ? at : 0, 0};
    return end;
}

static size_t table_record(const layout *d, size_t g) { return 2 + g * (1 + d->m * d->s); }

static void lists_of(const uint8_t *file, const layout *d, size_t g, list *l) {
    for (size_t i = 0; i < d->m * d->s; i++) {
        size_t start = d->start[table_record(d, g) + 1 + i];
        l[i].terms = file + start;
        l[i].count = u16_at(file + start - 4) / 4;
    }
}

static uint32_t value_at(list l, uint32_t x) {
    uint32_t sum = 0;
    for (size_t i = 0; i < l.count; i++) {
        uint32_t t = u32_at(l.terms + 4 * i);
        sum ^= (x & t) == t;
    }
    return sum;
}

static uint32_t stage_at(const list *l, size_t bits, uint32_t x) {
    uint32_t y = 0;
    for (size_t i = 0; i < bits; i++) y |= value_at(l[i], x) << i;
    return y;
}

static uint32_t sum_of(uint32_t x, size_t m, size_t s) {
    uint32_t sum = 0, mask = ((uint32_t)1 << m) - 1;
    for (size_t j = 0; j < s; j++) sum ^= x >> (j * m) & mask;
    return sum;
}

static int names_every_share(uint32_t variables, size_t m, size_t s) {
    uint32_t mask = ((uint32_t)1 << m) - 1;
    for (size_t e = 0; e < s; e++)
        if (!(variables >> (e * m) & mask)) return 0;
    return 1;
}

/* The lowest component whose terms together name every share; 0 where there is none. */
static size_t offending(const list *l, size_t m, size_t s) {
    for (size_t j = 0; j < s; j++) {
        uint32_t named = 0;
        for (size_t b = 0; b < m; b++)
            for (size_t i = 0; i < l[j * m + b].count; i++) {
                named |= u32_at(l[j * m + b].terms + 4 * i);
                if (names_every_share(named, m, s)) return j + 1;
            }
    }
    return 0;
}

/* Trials are counted where a pass ends, so that counting adds nothing to the loops. */
static jestrunas_judged_t judge_stage(const uint8_t *file, const layout *d, size_t g, uint8_t *ws) {
    list l[JESTRUNAS_SHARE_BITS_MAX];
    size_t bits = d->m * d->s, sharings = (size_t)1 << bits;
    const uint8_t *table = file + d->start[table_record(d, g)];
    jestrunas_judged_t v = {0, g + 1, 0, (2 * g + 2) * sharings};
    lists_of(file, d, g, l);
    for (uint32_t x = 0; x >> bits == 0; x++)
        if (sum_of(stage_at(l, bits, x), d->m, d->s) != table[sum_of(x, d->m, d->s)]) {
            v.reason = 12;
            v.trials = 2 * g * sharings + x + 1;
            return v;
        }
    v.component = offending(l, d->m, d->s);
    if (v.component) { v.reason = 13; v.trials = (2 * g + 1) * sharings; return v; }
    for (uint32_t x = 0; x >> bits == 0; x++) {
        uint32_t y = stage_at(l, bits, x);
        if (ws[y >> 3] >> (y & 7) & 1) { v.reason = 14; v.trials = (2 * g + 1) * sharings + x + 1; break; }
        ws[y >> 3] |= (uint8_t)(1 << (y & 7));
    }
    memset(ws, 0, sharings / 8);
    return v;
}

jestrunas_verdict_t NAME(read)(const uint8_t *file, size_t file_len) {
    layout d = {0};
    return read_layout(file, file_len, &d);
}

/* A file of the head record alone that reads so far is cut short where the next record is due. */
jestrunas_forecast_t NAME(forecast)(const uint8_t *file, size_t file_len) {
    layout d = {0};
    jestrunas_forecast_t f = {read_layout(file, file_len < 7 ? file_len : 7, &d).reason, 0, 0};
    if (!d.k) return f;
    f.reason = 0;
    f.workspace = ((size_t)1 << (d.m * d.s)) / 8;
    f.trials = (2 * d.k) << (d.m * d.s);
    return f;
}

jestrunas_judged_t NAME(judge)(const uint8_t *file, size_t file_len, uint8_t *ws, size_t ws_len) {
    layout d = {0};
    jestrunas_verdict_t read = read_layout(file, file_len, &d);
    jestrunas_judged_t v = {read.reason, read.place, read.component, 0};
    if (v.reason) return v;
    size_t size = (size_t)1 << d.m, bytes = ((size_t)1 << (d.m * d.s)) / 8;
    if (repeats(file + d.start[1], size)) { v.reason = 8; return v; }
    if (ws_len < bytes) { v.reason = 9; return v; }
    memset(ws, 0, bytes);
    for (size_t x = 0; x < size; x++) {
        size_t y = x;
        for (size_t g = 0; g < d.k; g++) y = file[d.start[table_record(&d, g)] + y];
        if (y != file[d.start[1] + x]) { v.reason = 10; return v; }
    }
    /* 11 is retired, and not given again */
    for (size_t g = 0; g < d.k; g++) {
        v = judge_stage(file, &d, g, ws);
        if (v.reason) return v;
    }
    return v;
}

jestrunas_run_t NAME(run)(const uint8_t *file, size_t file_len, jestrunas_shares_t shares) {
    layout d = {0};
    list l[JESTRUNAS_SHARE_BITS_MAX];
    jestrunas_run_t a = {0, {{0}}};
    uint32_t x = 0;
    a.reason = read_layout(file, file_len, &d).reason;
    if (a.reason) return a;
    for (size_t j = 0; j < JESTRUNAS_SHARES_MAX; j++) {
        if (shares.share[j] >= (j < d.s ? 1 << d.m : 1)) { a.reason = 15; return a; }
        if (j < d.s) x |= (uint32_t)shares.share[j] << (j * d.m);
    }
    for (size_t g = 0; g < d.k; g++) {
        lists_of(file, &d, g, l);
        x = stage_at(l, d.m * d.s, x);
    }
    for (size_t j = 0; j < d.s; j++) a.shares.share[j] = (uint8_t)(x >> (j * d.m) & ((1 << d.m) - 1));
    return a;
}

/* For each variable, the entries where it is 0 are added to those where it is 1. */
static void transform_in_place(uint8_t *t, size_t n) {
    for (size_t half = 1; half < n; half *= 2)
        for (size_t at = 0; at < n; at += 2 * half)
            for (size_t i = 0; i < half; i++) t[at + half + i] ^= t[at + i];
}

size_t NAME(transform)(size_t m, const uint8_t *in, size_t in_len, uint8_t *out, size_t out_len) {
    if (m < 1 || m > JESTRUNAS_WIDTH_MAX) return 4;
    size_t n = (size_t)1 << m;
    if (in_len != n) return 3;
    if (!all_below(in, n, n)) return 5;
    if (out_len < n) return 17;
    memcpy(out, in, n);
    transform_in_place(out, n);
    return 0;
}

static void put16(uint8_t *p, size_t x) {
    p[0] = (uint8_t)x;
    p[1] = (uint8_t)(x >> 8);
}

static void put32(uint8_t *p, uint32_t x) {
    for (int i = 0; i < 4; i++) p[i] = (uint8_t)(x >> 8 * i);
}

typedef struct {
    size_t m, s, component;
    uint8_t *terms;
    size_t count;
} target;

/* Whether a placement has a component outside it for each set of shares but the empty one and that of all. */
static int loads(const uint8_t *placement, size_t placement_len, size_t s) {
    if (placement_len != ((size_t)1 << s) - 2) return 0;
    for (size_t set = 1; set <= placement_len; set++) {
        size_t c = placement[set - 1];
        if (c < 1 || c > s || set >> (c - 1) & 1) return 0;
    }
    return 1;
}

static void expand(target *t, const uint8_t *component, uint32_t left, uint32_t product, size_t set) {
    if (!left) {
        if (component[set] != t->component) return;
        size_t i = t->count++;
        for (; i > 0 && u32_at(t->terms + 4 * (i - 1)) > product; i--) memmove(t->terms + 4 * i, t->terms + 4 * (i - 1), 4);
        put32(t->terms + 4 * i, product);
        return;
    }
    size_t v = (size_t)__builtin_ctz(left);
    for (size_t c = 0; c < t->s; c++)
        expand(t, component, left & (left - 1), product | (uint32_t)1 << (c * t->m + v), set | (size_t)1 << c);
}

jestrunas_produced_t NAME(produce)(size_t m, size_t s, const uint8_t *table, size_t table_len, const uint8_t *placement,
                                   size_t placement_len, uint8_t *out, size_t out_len) {
    uint8_t words[1 << JESTRUNAS_WIDTH_MAX], component[1 << JESTRUNAS_SHARES_MAX];
    jestrunas_produced_t a = {0, 0};
    if (m > JESTRUNAS_WIDTH_MAX || s > JESTRUNAS_SHARES_MAX || !limits_hold(m, s, 1)) { a.reason = 4; return a; }
    size_t size = (size_t)1 << m;
    if (table_len != size) { a.reason = 3; return a; }
    if (!all_below(table, size, size)) { a.reason = 5; return a; }
    if (repeats(table, size)) { a.reason = 8; return a; }
    if (!loads(placement, placement_len, s)) { a.reason = 21; return a; }
    memcpy(words, table, size);
    transform_in_place(words, size);
    size_t length = 11 + 2 * (4 + size) + 4 * m * s;
    for (size_t u = 0; u < size; u++) {
        size_t products = 4;
        if (words[u] && (size_t)__builtin_popcountl(u) >= s) { a.reason = 16; return a; }
        for (int d = __builtin_popcountl(u); d > 0; d--) products *= s;
        length += products * (size_t)__builtin_popcount(words[u]);
    }
    if (out_len < length) { a.reason = 17; return a; }
    component[0] = 0;
    for (size_t set = 1; set <= placement_len; set++) component[set] = placement[set - 1] - 1;
    put16(out, 3);
    put16(out + 2, 1);
    out[4] = (uint8_t)m;
    out[5] = (uint8_t)s;
    out[6] = 1;
    uint8_t *at = out + 7;
    for (int i = 0; i < 2; i++, at += 4 + size) {
        put16(at, size);
        put16(at + 2, 2);
        memcpy(at + 4, table, size);
    }
    for (size_t j = 0; j < s; j++)
        for (size_t b = 0; b < m; b++) {
            target t = {m, s, j, at + 4, 0};
            for (size_t u = 0; u < size; u++)
                if (words[u] >> b & 1) expand(&t, component, (uint32_t)u, 0, 0);
            put16(at, 4 * t.count);
            put16(at + 2, 3);
            at += 4 + 4 * t.count;
        }
    put16(at, 0);
    put16(at + 2, 4);
    a.length = length;
    return a;
}

/* The joined file is the first without its end, with the new k and S, and then the second from its first stage on. */
jestrunas_produced_t NAME(join)(const uint8_t *first, size_t first_len, const uint8_t *second, size_t second_len, uint8_t *out,
                                size_t out_len) {
    layout d = {0}, e = {0};
    jestrunas_produced_t a = {0, 0};
    a.reason = read_layout(first, first_len, &d).reason;
    if (a.reason) return a;
    a.reason = read_layout(second, second_len, &e).reason;
    if (a.reason) return a;
    if (d.m != e.m || d.s != e.s) { a.reason = 19; return a; }
    if (d.k + e.k > JESTRUNAS_STAGES_MAX) { a.reason = 20; return a; }
    size_t size = (size_t)1 << d.m, stages = 11 + size, end = first_len - 4;
    size_t length = end + (second_len - stages);
    if (out_len < length) { a.reason = 17; return a; }
    memcpy(out, first, end);
    out[6] = (uint8_t)(d.k + e.k);
    for (size_t x = 0; x < size; x++) out[11 + x] = second[11 + first[11 + x]];
    memcpy(out + end, second + stages, second_len - stages);
    a.length = length;
    return a;
}

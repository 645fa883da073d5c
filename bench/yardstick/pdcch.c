/* Writes and searches the PDCCH of one slot of one NR carrier (3GPP Release 15, settings of version 1).
 *
 *   nrpdcch write   SETTINGS RELIABILITY INPUTORDER GRANTS
 *   nrpdcch search  SETTINGS RELIABILITY INPUTORDER GRID [--handset NAME]
 *   nrpdcch explain SETTINGS RELIABILITY INPUTORDER GRID --handset NAME --watch NUMBER
 *   nrpdcch sweep   NUMBER RELIABILITY INPUTORDER [THREADS]
 *
 * A yardstick for measurements: bits stand in 64-bit words, and each layer has the fast form that a C
 * programmer would take. The last word of `sweep` is this program's own.
 */
#define _POSIX_C_SOURCE 200809L
#include <errno.h>
#include <fcntl.h>
#include <pthread.h>
#include <signal.h>
#include <stdatomic.h>
#include <stdbool.h>
#include <stddef.h>
#include <stdint.h>
#include <stdio.h>
#include <stdlib.h>
#include <string.h>
#include <sys/stat.h>
#include <time.h>
#include <unistd.h>

#include "json.h"

typedef uint8_t u8;
typedef uint16_t u16;
typedef uint32_t u32;
typedef uint64_t u64;
typedef unsigned __int128 u128;

#define COUNT(a) (sizeof(a) / sizeof *(a))

enum {
    DONE = 0, USAGE = 2, GRANTS_REFUSED = 3, SETTINGS_REFUSED = 4, TABLE_REFUSED = 5, GRANTS_FILE_REFUSED = 6,
    GRID_REFUSED = 7, READ_FAULT = 8, WRITE_FAULT = 9, NO_MEMORY = 10, FILE_TOO_LONG = 11, NO_SUCH = 12,
    SLOT_REFUSED = 13
};

/* ---- memory and texts ------------------------------------------------------------------------ */

static bool write_all(int to, const char *p, size_t n)
{
    while (n > 0) {
        ssize_t took = write(to, p, n);
        if (took < 0 && errno == EINTR)
            continue;
        if (took <= 0)
            return false;
        p += took;
        n -= (size_t)took;
    }
    return true;
}

static void no_memory(void)
{
    static const char line[] = "error: memory\n";
    _exit(write_all(2, line, sizeof line - 1) ? NO_MEMORY : WRITE_FAULT);
}

static void *must(void *p)
{
    if (!p)
        no_memory();
    return p;
}

typedef struct Chunk {
    struct Chunk *before;
    max_align_t bytes[];
} Chunk;

static Chunk *chunks;
static char *arena_at, *arena_end;

/* Not zeroed, never given back, for the main thread alone. */
static void *arena(size_t n)
{
    n = (n + 15) & ~(size_t)15;
    if ((size_t)(arena_end - arena_at) < n) {
        size_t room = n > 65536 ? n : 65536;
        Chunk *c = must(malloc(sizeof(Chunk) + room));
        c->before = chunks;
        chunks = c;
        arena_at = (char *)c->bytes;
        arena_end = arena_at + room;
    }
    void *p = arena_at;
    arena_at += n;
    return p;
}

static void *arena_zero(size_t n)
{
    return memset(arena(n), 0, n);
}

typedef struct {
    char *p;
    size_t n, room;
} Text;

static Text out, err;

static char *text_room(Text *t, size_t more)
{
    if (t->room - t->n < more) {
        t->room = (t->n + more) * 2 + 256;
        t->p = must(realloc(t->p, t->room));
    }
    return t->p + t->n;
}

static void put_bytes(Text *t, const char *p, size_t n)
{
    memcpy(text_room(t, n), p, n);
    t->n += n;
}

static void put(Text *t, const char *word)
{
    put_bytes(t, word, strlen(word));
}

static void put_number(Text *t, u64 v)
{
    char digits[20];
    size_t at = sizeof digits;
    do
        digits[--at] = (char)('0' + v % 10);
    while (v /= 10);
    put_bytes(t, digits + at, sizeof digits - at);
}

/* ---- parity (38.212 5.1, 7.3.2) -------------------------------------------------------------- */

/* Up to 128 bits, bit 0 on top. */
typedef u128 Bits;

static u32 crc_table[256]; /* entry b is the remainder of b·D^24 */
static u32 crc_start;      /* the register after 24 ones */

static u32 crc_step(u32 reg, unsigned width, u32 bits)
{
    return (reg << width & 0xFFFFFF) ^ crc_table[(reg >> (24 - width) ^ bits) & 0xFF];
}

static void crc_tables(void)
{
    for (u32 b = 0; b < 256; b++) {
        u32 r = b << 16;
        for (int i = 0; i < 8; i++)
            r = r << 1 ^ (r & 0x800000 ? 0x1B2B117 : 0);
        crc_table[b] = r;
    }
    for (int i = 0; i < 3; i++)
        crc_start = crc_step(crc_start, 8, 0xFF);
}

static u32 parity(Bits payload, unsigned size)
{
    u32 reg = crc_start;
    unsigned head = size & 7;
    if (head) {
        reg = crc_step(reg, head, (u32)(payload >> (128 - head)));
        payload <<= head;
    }
    for (unsigned i = size >> 3; i > 0; i--) {
        reg = crc_step(reg, 8, (u32)(payload >> 120));
        payload <<= 8;
    }
    return reg;
}

/* ---- Gold sequence (38.211 5.2.1) ------------------------------------------------------------ */

#define GOLD_WORDS 28

static u64 gold_x1[GOLD_WORDS]; /* x1 from place 1600 on */
static u32 gold_jump[31];       /* the x2 register at place 1600 for each single bit of c_init */

/* 28 bits in one turn: x(n+31) needs nothing above x(n+3). */
static u32 turn_x1(u32 s)
{
    return s >> 28 | ((s ^ s >> 3) & 0xFFFFFFF) << 3;
}

static u32 turn_x2(u32 s)
{
    return s >> 28 | ((s ^ s >> 1 ^ s >> 2 ^ s >> 3) & 0xFFFFFFF) << 3;
}

/* Places 1600 on, from 57 turns and four bits. */
static u32 jump_1600(u32 s, u32 (*turn)(u32))
{
    for (int i = 0; i < 57; i++)
        s = turn(s);
    u32 next = turn(s);
    return s >> 4 | (next >> 3 & 0xF) << 27;
}

/* The first 128 bits behind a register of 31. */
static void first_words(u32 s, u32 (*turn)(u32), u64 *w)
{
    u64 a = turn(s), b = turn((u32)a), c = turn((u32)b), d = turn((u32)c);
    a >>= 3, b >>= 3, c >>= 3, d >>= 3;
    w[0] = s | a << 31 | b << 59;
    w[1] = b >> 5 | c << 23 | d << 51;
}

static u64 window(u64 low, u64 high, unsigned at)
{
    return low >> at | high << (64 - at);
}

static void gold_tables(void)
{
    first_words(jump_1600(1, turn_x1), turn_x1, gold_x1);
    /* The generator polynomials hold for every fourth place too: x1(n+124) = x1(n+12) + x1(n). */
    for (int i = 2; i < GOLD_WORDS; i++)
        gold_x1[i] = window(gold_x1[i - 2], gold_x1[i - 1], 4) ^ window(gold_x1[i - 2], gold_x1[i - 1], 16);
    for (int i = 0; i < 31; i++)
        gold_jump[i] = jump_1600((u32)1 << i, turn_x2);
}

/* c(0) to c(64n-1), low place first; n is at least 2. */
static void gold_words(u32 c_init, unsigned n, u64 *w)
{
    u32 s = 0;
    for (u32 c = c_init; c; c &= c - 1)
        s ^= gold_jump[__builtin_ctz(c)];
    u64 first[2];
    first_words(s, turn_x2, first);
    u64 a = first[0], b = first[1];
    w[0] = a ^ gold_x1[0];
    w[1] = b ^ gold_x1[1];
    for (unsigned i = 2; i < n; i++) {
        u64 v = window(a, b, 4) ^ window(a, b, 8) ^ window(a, b, 12) ^ window(a, b, 16);
        w[i] = v ^ gold_x1[i];
        a = b;
        b = v;
    }
}

/* ---- polar code (38.212 5.3.1, 5.4.1) -------------------------------------------------------- */

static u16 reliability[1024], input_order[164];

static const u8 sub_block[32] = {0, 1, 2, 4, 3, 5, 6, 7, 8, 16, 9, 17, 10, 18, 11, 19,
                                 12, 20, 13, 21, 14, 22, 15, 23, 24, 25, 26, 28, 27, 29, 30, 31};

enum { REPEATED, PUNCTURED, SHORTENED };

typedef struct {
    u16 k, e, n;
    u8 log, kind;
    u16 words; /* of e bits */
    u64 last;  /* the bits of the last word that count */
    u64 info[8], zero[8]; /* information positions; positions that decoding must find 0 */
    u16 place[108];       /* of each bit of the block */
    u8 bit[512];          /* of the block, for each information position */
} Code;

static Code *codes[5][109]; /* by level and K */

static unsigned log_of(u32 n) /* the least b with n <= 2^b */
{
    return n <= 1 ? 0 : 32 - (unsigned)__builtin_clz(n - 1);
}

static unsigned order_of(unsigned n, unsigned m)
{
    return sub_block[32 * m / n] * (n / 32) + m % (n / 32);
}

static const Code *code_make(unsigned level, unsigned k)
{
    Code *c = codes[level][k] = arena_zero(sizeof *c);
    unsigned e = 108u << level, b = log_of(e);
    unsigned n1 = 16 * e <= 9u << b && 16 * k < 9 * e ? b - 1 : b, n2 = log_of(8 * k);
    unsigned log = n1 < n2 ? n1 : n2;
    log = log > 9 ? 9 : log < 5 ? 5 : log;
    unsigned n = 1u << log;
    c->k = (u16)k, c->e = (u16)e, c->n = (u16)n, c->log = (u8)log;
    c->kind = e >= n ? REPEATED : 16 * k <= 7 * e ? PUNCTURED : SHORTENED;
    c->words = (u16)((e + 63) / 64);
    c->last = e % 64 ? ((u64)1 << e % 64) - 1 : ~(u64)0;

    u64 frozen[8] = {0}, lost[8] = {0};
    if (c->kind == PUNCTURED) {
        for (unsigned m = 0; m < n - e; m++)
            lost[order_of(n, m) >> 6] |= (u64)1 << (order_of(n, m) & 63);
        memcpy(frozen, lost, sizeof frozen);
        unsigned front = 4 * e >= 3 * n ? (3 * n - 2 * e + 3) / 4 : (9 * n - 4 * e + 15) / 16;
        for (unsigned i = 0; i < front; i++)
            frozen[i >> 6] |= (u64)1 << (i & 63);
    } else if (c->kind == SHORTENED)
        for (unsigned m = e; m < n; m++)
            frozen[order_of(n, m) >> 6] |= (u64)1 << (order_of(n, m) & 63);

    unsigned left = k;
    for (int i = 1023; left > 0 && i >= 0; i--) {
        unsigned r = reliability[i];
        if (r < n && !(frozen[r >> 6] >> (r & 63) & 1)) {
            c->info[r >> 6] |= (u64)1 << (r & 63);
            left--;
        }
    }
    unsigned t = 0;
    for (unsigned w = 0; w < n / 64; w++) {
        c->zero[w] = ~c->info[w] & ~lost[w];
        for (u64 left_over = c->info[w]; left_over; left_over &= left_over - 1) {
            while (input_order[t] < 164 - k)
                t++;
            unsigned at = 64 * w + (unsigned)__builtin_ctzll(left_over), bit = input_order[t++] - (164 - k);
            c->place[bit] = (u16)at;
            c->bit[at] = (u8)bit;
        }
    }
    return c;
}

static const Code *code_of(unsigned level, unsigned k)
{
    return codes[level][k] ? codes[level][k] : code_make(level, k);
}

/* d_j is the sum of the u_i whose binary ones contain those of j; applied twice it gives back its input. */
static void transform(u64 *w, unsigned words)
{
    static const u64 even[6] = {0x5555555555555555, 0x3333333333333333, 0x0F0F0F0F0F0F0F0F,
                                0x00FF00FF00FF00FF, 0x0000FFFF0000FFFF, 0x00000000FFFFFFFF};
    for (unsigned i = 0; i < words; i++) {
        u64 v = w[i];
        v ^= v >> 1 & even[0];
        v ^= v >> 2 & even[1];
        v ^= v >> 4 & even[2];
        v ^= v >> 8 & even[3];
        v ^= v >> 16 & even[4];
        v ^= v >> 32 & even[5];
        w[i] = v;
    }
    for (unsigned step = 1; step < words; step <<= 1)
        for (unsigned i = 0; i < words; i++)
            if (!(i & step))
                w[i] ^= w[i | step];
}

static void encode(const Code *c, Bits block, u64 *e)
{
    unsigned words = c->n / 64, sh = c->log - 5;
    u64 d[8] = {0}, y[9] = {0}, half[2] = {(u64)(block >> 64), (u64)block};
    for (unsigned h = 0; h < 2; h++)
        for (u64 v = half[h]; v;) {
            unsigned at = (unsigned)__builtin_clzll(v);
            unsigned place = c->place[64 * h + at];
            d[place >> 6] |= (u64)1 << (place & 63);
            v ^= (u64)1 << 63 >> at;
        }
    transform(d, words);
    u64 piece = ((u64)1 << (1u << sh)) - 1;
    for (unsigned i = 0; i < 32; i++) {
        unsigned from = (unsigned)sub_block[i] << sh, to = i << sh;
        y[to >> 6] |= (d[from >> 6] >> (from & 63) & piece) << (to & 63);
    }
    if (c->kind == REPEATED) {
        for (unsigned i = 0; i < c->words; i++)
            e[i] = y[i & (words - 1)];
    } else {
        unsigned gone = c->kind == PUNCTURED ? c->n - c->e : 0, skip = gone >> 6, low = gone & 63;
        for (unsigned i = 0; i < c->words; i++)
            e[i] = low ? y[i + skip] >> low | (i + skip < 8 ? y[i + skip + 1] << (64 - low) : 0) : y[i + skip];
    }
    e[c->words - 1] &= c->last;
}

/* Exactly the inverse: false with the least differing repeat in *at, or with *at = -1 where the bits are no code word. */
static bool decode(const Code *c, const u64 *r, Bits *block, int *at)
{
    unsigned words = c->n / 64, sh = c->log - 5;
    u64 y[8] = {0}, d[8] = {0};
    if (c->kind == REPEATED) {
        for (unsigned i = words; i < c->words; i++) {
            u64 differ = r[i] ^ r[i & (words - 1)];
            if (i + 1u == c->words)
                differ &= c->last;
            if (differ) {
                *at = (int)(64 * i + (unsigned)__builtin_ctzll(differ));
                return false;
            }
        }
        memcpy(y, r, words * sizeof *y);
    } else if (c->kind == PUNCTURED) {
        unsigned gone = c->n - c->e, skip = gone >> 6, low = gone & 63;
        for (unsigned i = skip; i < words; i++) {
            y[i] = i - skip < c->words ? r[i - skip] << low : 0;
            if (low && i > skip)
                y[i] |= r[i - skip - 1] >> (64 - low);
        }
    } else
        memcpy(y, r, c->words * sizeof *y);
    *at = -1;
    u64 piece = ((u64)1 << (1u << sh)) - 1;
    for (unsigned i = 0; i < 32; i++) {
        unsigned to = (unsigned)sub_block[i] << sh, from = i << sh;
        d[to >> 6] |= (y[from >> 6] >> (from & 63) & piece) << (to & 63);
    }
    transform(d, words);
    u64 wrong = 0;
    for (unsigned i = 0; i < words; i++)
        wrong |= d[i] & c->zero[i];
    if (wrong)
        return false;
    u64 half[2] = {0, 0};
    for (unsigned i = 0; i < words; i++)
        for (u64 v = d[i] & c->info[i]; v; v &= v - 1) {
            unsigned bit = c->bit[64 * i + (unsigned)__builtin_ctzll(v)];
            half[bit >> 6] |= (u64)1 << 63 >> (bit & 63);
        }
    *block = (Bits)half[0] << 64 | half[1];
    return true;
}

/* ---- settings -------------------------------------------------------------------------------- */

enum { COMMON, FALLBACK, SPECIFIC };
enum { SEMI_STATIC, DYNAMIC };
enum { TYPE0, TYPE1, TYPE_DYNAMIC };

typedef struct {
    int start, size;
} Bwp;

typedef struct {
    int number, duration, dmrs_id; /* dmrs_id -1 where absent */
    bool interleaved;
    int bundle, rows, shift; /* shift -1 where absent */
    u64 groups;
    int cces;
} Coreset;

typedef struct {
    int number, coreset, kind, period, offset, duration, base;
    int candidates[5];
    u64 symbols;
    int coreset_at;
} SearchSet;

typedef struct {
    int bwps, allocation, rbg_config, tdra, hopping, second_dai, transform, dmrs_type, dmrs_length, srs_resources,
        csi_request, cbg, ptrs, beta;
} UplinkFields;

typedef struct {
    int bwps, allocation, rbg_config, tdra, interleaved, bundling, rate_match, zp_sets, codewords, timing, dmrs_type,
        dmrs_length, tci, cbg, flush;
} DownlinkFields;

typedef struct {
    char name[16];
    int name_length, rnti, codebook, coreset_count, set_count;
    Bwp downlink, uplink;
    bool has_uplink, has_downlink;
    UplinkFields uplink_fields;
    DownlinkFields downlink_fields;
    Coreset coresets[3];
    SearchSet sets[10];
} Handset;

typedef struct {
    int version, number, mu, blocks, initial_downlink, initial_uplink, coreset0, handset_count;
    Handset *handsets;
} Cell;

/* Shape and ranges of the settings, one row of keys for each object. */
enum { T_NUMBER, T_FLAG, T_NAME, T_WORD, T_ZEROS_AND_ONES, T_OBJECT, T_LIST, T_FIVE };

typedef struct Row Row;

typedef struct {
    const char *word;
    u8 type;
    bool optional;
    int low, high, absent;      /* range of a number, length of a list, value where the key is absent */
    const int *allowed;         /* or the numbers, ended by -1 */
    const char *const *words;   /* of T_WORD, ended by NULL */
    const Row *row;
    size_t at, also, stride;    /* where the value goes; where a list's count or an object's presence goes */
} Key;

struct Row {
    int count;
    const Key *keys;
};

#define ROW(keys) {COUNT(keys), keys}
#define NUM(s, k, lo, hi) {.word = #k, .type = T_NUMBER, .low = lo, .high = hi, .at = offsetof(s, k)}
#define NUM_AT(s, k, f, lo, hi) {.word = #k, .type = T_NUMBER, .low = lo, .high = hi, .at = offsetof(s, f)}
#define NUM_OF(s, k, list) {.word = #k, .type = T_NUMBER, .allowed = list, .at = offsetof(s, k)}
#define NUM_OR(s, k, lo, hi, none) \
    {.word = #k, .type = T_NUMBER, .optional = true, .low = lo, .high = hi, .absent = none, .at = offsetof(s, k)}
#define FLAG(s, k) {.word = #k, .type = T_FLAG, .at = offsetof(s, k)}
#define WORD(s, k, list) {.word = #k, .type = T_WORD, .words = list, .at = offsetof(s, k)}

static const int cbgs[] = {0, 2, 4, 6, 8, -1}, bundles[] = {2, 3, 6, -1}, coreset0s[] = {24, 48, 96, -1},
                 periods[] = {1, 2, 4, 5, 8, 10, 16, 20, 40, 80, 160, 320, 640, 1280, 2560, -1},
                 candidate_counts[] = {0, 1, 2, 3, 4, 5, 6, 8, -1};
static const char *const kinds[] = {"common", "fallback", "specific", NULL},
                         *const codebooks[] = {"semi_static", "dynamic", NULL},
                         *const allocations[] = {"type0", "type1", "dynamic", NULL};

static const Key bwp_keys[] = {NUM(Bwp, start, 0, 269), NUM(Bwp, size, 6, 275)};
static const Row bwp_row = ROW(bwp_keys);

static const Key interleave_keys[] = {NUM_OF(Coreset, bundle, bundles), NUM_OF(Coreset, rows, bundles),
                                      NUM_OR(Coreset, shift, 0, 274, -1)};
static const Row interleave_row = ROW(interleave_keys);

static const Key coreset_keys[] = {
    NUM(Coreset, number, 1, 11),
    {.word = "groups", .type = T_ZEROS_AND_ONES, .high = 45, .at = offsetof(Coreset, groups)},
    NUM(Coreset, duration, 1, 3),
    {.word = "interleave", .type = T_OBJECT, .optional = true, .row = &interleave_row, .also = offsetof(Coreset, interleaved)},
    NUM_OR(Coreset, dmrs_id, 0, 65535, -1)};
static const Row coreset_row = ROW(coreset_keys);

static const Key set_keys[] = {
    NUM(SearchSet, number, 1, 39),
    NUM(SearchSet, coreset, 1, 11),
    WORD(SearchSet, kind, kinds),
    NUM_OF(SearchSet, period, periods),
    NUM(SearchSet, offset, 0, 2559),
    NUM_OR(SearchSet, duration, 1, 2559, 1),
    {.word = "symbols", .type = T_ZEROS_AND_ONES, .high = 14, .at = offsetof(SearchSet, symbols)},
    {.word = "candidates", .type = T_FIVE, .allowed = candidate_counts, .at = offsetof(SearchSet, candidates)},
    NUM_OR(SearchSet, base, 0, 65535, 0)};
static const Row set_row = ROW(set_keys);

static const Key uplink_keys[] = {
    NUM(UplinkFields, bwps, 0, 4), WORD(UplinkFields, allocation, allocations), NUM(UplinkFields, rbg_config, 1, 2),
    NUM(UplinkFields, tdra, 0, 4), FLAG(UplinkFields, hopping), FLAG(UplinkFields, second_dai),
    FLAG(UplinkFields, transform), NUM(UplinkFields, dmrs_type, 1, 2), NUM(UplinkFields, dmrs_length, 1, 2),
    NUM(UplinkFields, srs_resources, 1, 2), NUM(UplinkFields, csi_request, 0, 6), NUM_OF(UplinkFields, cbg, cbgs),
    FLAG(UplinkFields, ptrs), FLAG(UplinkFields, beta)};
static const Row uplink_row = ROW(uplink_keys);

static const Key downlink_keys[] = {
    NUM(DownlinkFields, bwps, 0, 4), WORD(DownlinkFields, allocation, allocations), NUM(DownlinkFields, rbg_config, 1, 2),
    NUM(DownlinkFields, tdra, 0, 4), FLAG(DownlinkFields, interleaved), FLAG(DownlinkFields, bundling),
    NUM(DownlinkFields, rate_match, 0, 2), NUM(DownlinkFields, zp_sets, 0, 3), NUM(DownlinkFields, codewords, 1, 2),
    NUM(DownlinkFields, timing, 0, 3), NUM(DownlinkFields, dmrs_type, 1, 2), NUM(DownlinkFields, dmrs_length, 1, 2),
    FLAG(DownlinkFields, tci), NUM_OF(DownlinkFields, cbg, cbgs), FLAG(DownlinkFields, flush)};
static const Row downlink_row = ROW(downlink_keys);

static const Key handset_keys[] = {
    {.word = "name", .type = T_NAME, .at = offsetof(Handset, name), .also = offsetof(Handset, name_length)},
    NUM(Handset, rnti, 1, 65519),
    {.word = "downlink", .type = T_OBJECT, .row = &bwp_row, .at = offsetof(Handset, downlink)},
    {.word = "uplink", .type = T_OBJECT, .row = &bwp_row, .at = offsetof(Handset, uplink)},
    WORD(Handset, codebook, codebooks),
    {.word = "coresets", .type = T_LIST, .low = 1, .high = 3, .row = &coreset_row, .at = offsetof(Handset, coresets),
     .also = offsetof(Handset, coreset_count), .stride = sizeof(Coreset)},
    {.word = "sets", .type = T_LIST, .low = 1, .high = 10, .row = &set_row, .at = offsetof(Handset, sets),
     .also = offsetof(Handset, set_count), .stride = sizeof(SearchSet)},
    {.word = "uplink_fields", .type = T_OBJECT, .optional = true, .row = &uplink_row,
     .at = offsetof(Handset, uplink_fields), .also = offsetof(Handset, has_uplink)},
    {.word = "downlink_fields", .type = T_OBJECT, .optional = true, .row = &downlink_row,
     .at = offsetof(Handset, downlink_fields), .also = offsetof(Handset, has_downlink)}};
static const Row handset_row = ROW(handset_keys);

static const Key top_keys[] = {
    NUM(Cell, version, 1, 1), NUM_AT(Cell, cell, number, 0, 1007), NUM(Cell, mu, 0, 3), NUM(Cell, blocks, 6, 275),
    NUM(Cell, initial_downlink, 6, 275), NUM(Cell, initial_uplink, 6, 275),
    {.word = "coreset0", .type = T_NUMBER, .optional = true, .allowed = coreset0s, .absent = -1, .at = offsetof(Cell, coreset0)},
    {.word = "handsets", .type = T_LIST, .low = 1, .high = 64, .row = &handset_row, .at = offsetof(Cell, handsets),
     .also = offsetof(Cell, handset_count), .stride = sizeof(Handset)}};
static const Row top_row = ROW(top_keys);

static struct {
    const char *key; /* or NULL for an index */
    int index;
} path[8];
static int path_length;
static Text first_range; /* the line of the first number out of its range */

static void step_key(const char *key)
{
    path[path_length++].key = key;
}

static void step_index(int index)
{
    path[path_length].key = NULL;
    path[path_length++].index = index;
}

static bool settings_fault(Text *t, const char *reason)
{
    put(t, "error: settings: ");
    for (int i = 0; i < path_length; i++) {
        if (i)
            put(t, "/");
        if (path[i].key)
            put(t, path[i].key);
        else
            put_number(t, (u64)path[i].index);
    }
    put(t, path_length ? ": " : "file: ");
    put(t, reason);
    put(t, "\n");
    return false;
}

static bool is_name(const char *p, u32 n)
{
    if (n < 1 || n > 16)
        return false;
    for (u32 i = 0; i < n; i++) {
        char c = p[i];
        if (!((c >= 'a' && c <= 'z') || (c >= 'A' && c <= 'Z') || (c >= '0' && c <= '9') || c == '_'))
            return false;
    }
    return true;
}

/* A number of at most 65,535, and its range, which only counts where no shape is at fault. */
static bool walk_number(const Json *v, const Key *key, int *to)
{
    if (v->kind != J_WHOLE)
        return settings_fault(&err, "wrong kind");
    if (v->whole > 65535)
        return settings_fault(&err, "out of range");
    *to = (int)v->whole;
    bool fits = *to >= key->low && *to <= key->high;
    if (key->allowed) {
        const int *a = key->allowed;
        while (*a >= 0 && *a != *to)
            a++;
        fits = *a >= 0;
    }
    if (!fits && first_range.n == 0)
        settings_fault(&first_range, "out of range");
    return true;
}

static bool walk(const Json *v, const Row *row, char *to);

static bool walk_value(const Json *v, const Key *key, char *to)
{
    switch (key->type) {
    case T_NUMBER:
        return walk_number(v, key, (int *)(void *)(to + key->at));
    case T_FLAG:
        if (v->kind != J_BOOL)
            return settings_fault(&err, "wrong kind");
        *(int *)(void *)(to + key->at) = (int)v->whole;
        return true;
    case T_NAME:
        if (v->kind != J_TEXT)
            return settings_fault(&err, "wrong kind");
        if (!is_name(v->text, v->length))
            return settings_fault(&err, "out of range");
        memcpy(to + key->at, v->text, v->length);
        *(int *)(void *)(to + key->also) = (int)v->length;
        return true;
    case T_WORD:
        if (v->kind != J_TEXT)
            return settings_fault(&err, "wrong kind");
        for (int i = 0; key->words[i]; i++)
            if (json_is(v->text, v->length, key->words[i])) {
                *(int *)(void *)(to + key->at) = i;
                return true;
            }
        return settings_fault(&err, "out of range");
    case T_ZEROS_AND_ONES: {
        u64 bits = 0;
        if (v->kind != J_TEXT)
            return settings_fault(&err, "wrong kind");
        bool fits = (int)v->length == key->high;
        for (u32 i = 0; fits && i < v->length; i++) {
            fits = v->text[i] == '0' || v->text[i] == '1';
            bits |= (u64)(v->text[i] == '1') << i;
        }
        if (!fits)
            return settings_fault(&err, "out of range");
        *(u64 *)(void *)(to + key->at) = bits;
        return true;
    }
    case T_OBJECT:
        if (key->also)
            *(bool *)(to + key->also) = true;
        return walk(v, key->row, to + key->at);
    case T_LIST: {
        if (v->kind != J_LIST)
            return settings_fault(&err, "wrong kind");
        if (v->length < (u32)key->low || v->length > (u32)key->high)
            return settings_fault(&err, "out of range");
        *(int *)(void *)(to + key->also) = (int)v->length;
        char *place = to + key->at;
        if (key->row == &handset_row)
            place = (char *)(*(Handset **)(void *)place = arena_zero(v->length * sizeof(Handset)));
        int i = 0;
        for (const Json *one = v->first; one; one = one->next, i++) {
            step_index(i);
            if (!walk(one, key->row, place + (size_t)i * key->stride))
                return false;
            path_length--;
        }
        return true;
    }
    default: {
        if (v->kind != J_LIST)
            return settings_fault(&err, "wrong kind");
        if (v->length != 5)
            return settings_fault(&err, "out of range");
        int *place = (int *)(void *)(to + key->at);
        for (const Json *one = v->first; one; one = one->next)
            if (!walk_number(one, key, place++))
                return false;
        return true;
    }
    }
}

static bool walk(const Json *v, const Row *row, char *to)
{
    if (v->kind != J_OBJECT)
        return settings_fault(&err, "wrong kind");
    for (const Json *m = v->first; m; m = m->next) {
        int i = 0;
        while (i < row->count && !json_is(m->key, m->key_length, row->keys[i].word))
            i++;
        if (i == row->count)
            return settings_fault(&err, "unknown");
    }
    for (int i = 0; i < row->count; i++) {
        const Key *key = &row->keys[i];
        const Json *one = json_member(v, key->word);
        if (!one && key->optional) {
            if (key->type == T_NUMBER)
                *(int *)(void *)(to + key->at) = key->absent;
            continue;
        }
        step_key(key->word);
        if (!one)
            return settings_fault(&err, "missing");
        if (!walk_value(one, key, to))
            return false;
        path_length--;
    }
    return true;
}

static bool conflict(const char *list, int index, const char *object, const char *key)
{
    if (list) {
        step_key(list);
        step_index(index);
    }
    if (object)
        step_key(object);
    if (key)
        step_key(key);
    return settings_fault(&err, "conflict");
}

static int popcount(u64 v)
{
    return __builtin_popcountll(v);
}

static bool coreset_conflicts(Handset *h, int at)
{
    Coreset *c = &h->coresets[at];
    for (int i = 0; i < at; i++)
        if (h->coresets[i].number == c->number)
            return conflict("coresets", at, NULL, "number");
    int first = (h->downlink.start + 5) / 6 * 6, room = h->downlink.start + h->downlink.size - first;
    int inside = room < 0 ? 0 : room / 6;
    if (c->groups == 0 || c->groups >> inside)
        return conflict("coresets", at, NULL, "groups");
    c->cces = popcount(c->groups) * c->duration;
    if (c->interleaved) {
        if ((c->bundle == 3 && c->duration < 3) || (c->bundle == 2 && c->duration == 3))
            return conflict("coresets", at, "interleave", "bundle");
        if (6 * c->cces % (c->bundle * c->rows))
            return conflict("coresets", at, "interleave", "rows");
    }
    return true;
}

static bool set_conflicts(Handset *h, int at)
{
    SearchSet *s = &h->sets[at];
    for (int i = 0; i < at; i++)
        if (h->sets[i].number == s->number)
            return conflict("sets", at, NULL, "number");
    const Coreset *c = NULL;
    for (int i = 0; i < h->coreset_count; i++)
        if (h->coresets[i].number == s->coreset) {
            c = &h->coresets[i];
            s->coreset_at = i;
        }
    if (!c)
        return conflict("sets", at, NULL, "coreset");
    if (s->kind == SPECIFIC && !(h->has_uplink && h->has_downlink))
        return conflict("sets", at, NULL, "kind");
    if (s->offset >= s->period)
        return conflict("sets", at, NULL, "offset");
    if (s->duration > 1 && s->duration >= s->period)
        return conflict("sets", at, NULL, "duration");
    if (s->symbols == 0 || s->symbols >> (15 - c->duration))
        return conflict("sets", at, NULL, "symbols");
    for (int i = 0; i < 5; i++)
        if (s->candidates[i] > 0 && 1 << i > c->cces)
            return conflict("sets", at, NULL, "candidates");
    if (s->base != 0 && s->kind == COMMON)
        return conflict("sets", at, NULL, "base");
    return true;
}

static bool handset_conflicts(const Cell *cell, int at)
{
    Handset *h = &cell->handsets[at];
    path_length = 0;
    step_key("handsets");
    step_index(at);
    for (int i = 0; i < at; i++)
        if (cell->handsets[i].name_length == h->name_length && !memcmp(cell->handsets[i].name, h->name, (size_t)h->name_length))
            return conflict(NULL, 0, NULL, "name");
    for (int i = 0; i < at; i++)
        if (cell->handsets[i].rnti == h->rnti)
            return conflict(NULL, 0, NULL, "rnti");
    if (h->downlink.start + h->downlink.size > cell->blocks)
        return conflict(NULL, 0, NULL, "downlink");
    if (h->uplink.start + h->uplink.size > 275)
        return conflict(NULL, 0, NULL, "uplink");
    for (int i = 0; i < h->coreset_count; i++)
        if (!coreset_conflicts(h, i))
            return false;
    for (int i = 0; i < h->set_count; i++)
        if (!set_conflicts(h, i))
            return false;
    if (h->has_uplink && h->uplink_fields.second_dai && h->codebook == SEMI_STATIC)
        return conflict(NULL, 0, "uplink_fields", "second_dai");
    if (h->has_uplink && h->uplink_fields.transform && h->uplink_fields.dmrs_type == 2)
        return conflict(NULL, 0, "uplink_fields", "dmrs_type");
    if (h->has_downlink && h->downlink_fields.flush && h->downlink_fields.cbg == 0)
        return conflict(NULL, 0, "downlink_fields", "flush");
    return true;
}

static bool cell_read(Cell *cell, const u8 *bytes, size_t n)
{
    const Json *top = json_read(bytes, n);
    path_length = 0;
    if (!top)
        return settings_fault(&err, "not json");
    if (!walk(top, &top_row, (char *)cell))
        return false;
    if (first_range.n) {
        put_bytes(&err, first_range.p, first_range.n);
        return false;
    }
    for (int i = 0; i < cell->handset_count; i++)
        if (!handset_conflicts(cell, i))
            return false;
    return true;
}

static int handset_of(const Cell *cell, const char *name, size_t n)
{
    for (int i = 0; i < cell->handset_count; i++)
        if ((size_t)cell->handsets[i].name_length == n && !memcmp(cell->handsets[i].name, name, n))
            return i;
    return -1;
}

/* ---- fields and sizes (38.212 7.3.1) --------------------------------------------------------- */

enum { F00, F10, ORDER, F01, F11, FORMATS };

static const char *const format_words[] = {"0_0", "1_0", "order", "0_1", "1_1", NULL};

#define FIELDS(X)                                                                                                       \
    X(FDRA, "fdra") X(TDRA, "tdra") X(HOPPING, "hopping") X(MCS, "mcs") X(NDI, "ndi") X(RV, "rv") X(HARQ, "harq")       \
    X(TPC, "tpc") X(VRB, "vrb") X(DAI, "dai") X(PUCCH, "pucch") X(TIMING, "timing") X(PREAMBLE, "preamble")             \
    X(SUPPLEMENTARY, "supplementary") X(SSB, "ssb") X(MASK, "mask") X(RESERVED, "reserved") X(BWP, "bwp")               \
    X(BUNDLING, "bundling") X(RATE_MATCH, "rate_match") X(ZP_CSI_RS, "zp_csi_rs") X(MCS2, "mcs2") X(NDI2, "ndi2")       \
    X(RV2, "rv2") X(PORTS, "ports") X(TCI, "tci") X(SRS, "srs") X(CBGTI, "cbgti") X(FLUSH, "flush") X(DMRS, "dmrs")     \
    X(DAI2, "dai2") X(SRI, "sri") X(PRECODING, "precoding") X(CSI, "csi") X(PTRS, "ptrs") X(BETA, "beta")               \
    X(ULSCH, "ulsch")

#define FIELD_ID(id, word) FIELD_##id,
#define FIELD_WORD(id, word) word,
enum { FIELD_IDENTIFIER, FIELDS(FIELD_ID) FIELD_COUNT };
static const char *const field_words[] = {"", FIELDS(FIELD_WORD)};

typedef struct {
    u8 count, total;
    u8 name[30], width[30];
} List;

typedef struct {
    List common_up, common_down, common_order, fallback_up, fallback_down, fallback_order, up, down;
    unsigned common, fallback, up_size, down_size;
} Shape;

static void row(List *l, int name, unsigned width)
{
    l->name[l->count] = (u8)name;
    l->width[l->count++] = (u8)width;
    l->total = (u8)(l->total + width);
}

static unsigned riv_width(int n)
{
    return log_of((u32)n * ((u32)n + 1) / 2);
}

static void list_00(List *l, unsigned fdra)
{
    *l = (List){0};
    row(l, FIELD_IDENTIFIER, 1);
    row(l, FIELD_FDRA, fdra);
    row(l, FIELD_TDRA, 4);
    row(l, FIELD_HOPPING, 1);
    row(l, FIELD_MCS, 5);
    row(l, FIELD_NDI, 1);
    row(l, FIELD_RV, 2);
    row(l, FIELD_HARQ, 4);
    row(l, FIELD_TPC, 2);
}

static void list_10(List *l, unsigned fdra)
{
    *l = (List){0};
    row(l, FIELD_IDENTIFIER, 1);
    row(l, FIELD_FDRA, fdra);
    row(l, FIELD_TDRA, 4);
    row(l, FIELD_VRB, 1);
    row(l, FIELD_MCS, 5);
    row(l, FIELD_NDI, 1);
    row(l, FIELD_RV, 2);
    row(l, FIELD_HARQ, 4);
    row(l, FIELD_DAI, 2);
    row(l, FIELD_TPC, 2);
    row(l, FIELD_PUCCH, 3);
    row(l, FIELD_TIMING, 3);
}

static void list_order(List *l, unsigned fdra)
{
    *l = (List){0};
    row(l, FIELD_IDENTIFIER, 1);
    row(l, FIELD_FDRA, fdra);
    row(l, FIELD_PREAMBLE, 6);
    row(l, FIELD_SUPPLEMENTARY, 1);
    row(l, FIELD_SSB, 6);
    row(l, FIELD_MASK, 4);
    row(l, FIELD_RESERVED, 10);
}

static unsigned fdra_width(const Bwp *b, int allocation, int config)
{
    int class = b->size <= 36 ? 0 : b->size <= 72 ? 1 : b->size <= 144 ? 2 : 3;
    static const int group[2][4] = {{2, 4, 8, 16}, {4, 8, 16, 16}};
    int p = group[config - 1][class];
    unsigned type0 = (unsigned)((b->size + b->start % p + p - 1) / p), type1 = riv_width(b->size);
    return allocation == TYPE0 ? type0 : allocation == TYPE1 ? type1 : (type0 > type1 ? type0 : type1) + 1;
}

static const u8 bwp_bits[5] = {0, 1, 2, 2, 2};

static void list_01(List *l, const Handset *h)
{
    const UplinkFields *f = &h->uplink_fields;
    static const u8 ports[2][2] = {{3, 4}, {4, 5}};
    *l = (List){0};
    row(l, FIELD_IDENTIFIER, 1);
    row(l, FIELD_BWP, bwp_bits[f->bwps]);
    row(l, FIELD_FDRA, fdra_width(&h->uplink, f->allocation, f->rbg_config));
    row(l, FIELD_TDRA, (unsigned)f->tdra);
    row(l, FIELD_HOPPING, f->hopping && f->allocation != TYPE0);
    row(l, FIELD_MCS, 5);
    row(l, FIELD_NDI, 1);
    row(l, FIELD_RV, 2);
    row(l, FIELD_HARQ, 4);
    row(l, FIELD_DAI, h->codebook == DYNAMIC ? 2 : 1);
    row(l, FIELD_DAI2, f->second_dai ? 2 : 0);
    row(l, FIELD_TPC, 2);
    row(l, FIELD_SRI, log_of((u32)f->srs_resources));
    row(l, FIELD_PRECODING, 0);
    row(l, FIELD_PORTS, f->transform ? (unsigned)f->dmrs_length * 2 : ports[f->dmrs_type - 1][f->dmrs_length - 1]);
    row(l, FIELD_SRS, 2);
    row(l, FIELD_CSI, (unsigned)f->csi_request);
    row(l, FIELD_CBGTI, (unsigned)f->cbg);
    row(l, FIELD_PTRS, f->ptrs ? 2 : 0);
    row(l, FIELD_BETA, f->beta ? 2 : 0);
    row(l, FIELD_DMRS, f->transform ? 0 : 1);
    row(l, FIELD_ULSCH, 1);
}

static void list_11(List *l, const Handset *h)
{
    const DownlinkFields *f = &h->downlink_fields;
    static const u8 ports[2][2] = {{4, 5}, {5, 6}};
    bool two = f->codewords == 2;
    *l = (List){0};
    row(l, FIELD_IDENTIFIER, 1);
    row(l, FIELD_BWP, bwp_bits[f->bwps]);
    row(l, FIELD_FDRA, fdra_width(&h->downlink, f->allocation, f->rbg_config));
    row(l, FIELD_TDRA, (unsigned)f->tdra);
    row(l, FIELD_VRB, f->interleaved && f->allocation != TYPE0);
    row(l, FIELD_BUNDLING, f->bundling ? 1 : 0);
    row(l, FIELD_RATE_MATCH, (unsigned)f->rate_match);
    row(l, FIELD_ZP_CSI_RS, log_of((u32)f->zp_sets + 1));
    row(l, FIELD_MCS, 5);
    row(l, FIELD_NDI, 1);
    row(l, FIELD_RV, 2);
    row(l, FIELD_MCS2, two ? 5 : 0);
    row(l, FIELD_NDI2, two ? 1 : 0);
    row(l, FIELD_RV2, two ? 2 : 0);
    row(l, FIELD_HARQ, 4);
    row(l, FIELD_DAI, h->codebook == DYNAMIC ? 2 : 0);
    row(l, FIELD_TPC, 2);
    row(l, FIELD_PUCCH, 3);
    row(l, FIELD_TIMING, (unsigned)f->timing);
    row(l, FIELD_PORTS, ports[f->dmrs_type - 1][f->dmrs_length - 1]);
    row(l, FIELD_TCI, f->tci ? 3 : 0);
    row(l, FIELD_SRS, 2);
    row(l, FIELD_CBGTI, (unsigned)f->cbg);
    row(l, FIELD_FLUSH, f->flush ? 1 : 0);
    row(l, FIELD_DMRS, 1);
}

/* What is too much for the size goes off the top of `fdra`. */
static void fit(List *l, unsigned size)
{
    if (l->total > size) {
        l->width[1] = (u8)(l->width[1] - (l->total - size));
        l->total = (u8)size;
    }
}

static Shape shape_of(const Cell *cell, const Handset *h)
{
    Shape s;
    unsigned down = riv_width(cell->coreset0 >= 0 ? cell->coreset0 : cell->initial_downlink);
    list_00(&s.common_up, riv_width(cell->initial_uplink));
    list_10(&s.common_down, down);
    list_order(&s.common_order, down);
    s.common = s.common_down.total;
    fit(&s.common_up, s.common);
    down = riv_width(h->downlink.size);
    list_00(&s.fallback_up, riv_width(h->uplink.size));
    list_10(&s.fallback_down, down);
    list_order(&s.fallback_order, down);
    s.fallback = s.fallback_up.total > s.fallback_down.total ? s.fallback_up.total : s.fallback_down.total;
    s.up_size = s.down_size = 0;

    bool has[3] = {false, false, false};
    for (int i = 0; i < h->set_count; i++)
        has[h->sets[i].kind] = true;
    if (!has[SPECIFIC])
        return s;
    list_01(&s.up, h);
    list_11(&s.down, h);
    s.up_size = s.up.total + (has[FALLBACK] && s.up.total == s.fallback ? 1u : 0);
    s.down_size = s.down.total + (has[FALLBACK] && s.down.total == s.fallback ? 1u : 0);
    if (has[COMMON] && has[FALLBACK] && s.common != s.fallback && s.common != s.up_size && s.common != s.down_size &&
        s.fallback != s.up_size && s.fallback != s.down_size && s.up_size != s.down_size) {
        s.up_size = s.up.total;
        s.down_size = s.down.total;
        s.fallback = s.common;
        s.fallback_up = s.common_up;
        s.fallback_down = s.common_down;
        s.fallback_order = s.common_order;
    }
    return s;
}

typedef struct {
    int name; /* -1 where no field has the word */
    u64 value;
    const char *word;
    u32 length;
} Given;

typedef struct {
    u8 cause;
    u32 a; /* place in `given`, number of a grant */
    u32 width;
} Refusal;

enum { UNKNOWN_HANDSET, UNKNOWN_SET, UNMONITORED, FIELD_UNKNOWN, FIELD_TOO_LARGE, FIELD_ALL_ONES, OVERLAP };

static u64 ones(unsigned n)
{
    return ((u64)1 << n) - 1;
}

static bool pack(const List *l, int format, const Given *given, u32 count, Bits *payload, Refusal *why)
{
    u32 value[FIELD_COUNT] = {0};
    for (u32 i = 0; i < count; i++) {
        int name = given[i].name, at = 1;
        while (at < l->count && l->name[at] != name)
            at++;
        if (name < 0 || at == l->count || (format == ORDER && name == FIELD_FDRA)) {
            *why = (Refusal){FIELD_UNKNOWN, i, 0};
            return false;
        }
        if (given[i].value >> l->width[at]) {
            *why = (Refusal){FIELD_TOO_LARGE, i, l->width[at]};
            return false;
        }
        value[name] = (u32)given[i].value;
    }
    value[FIELD_IDENTIFIER] = format == F10 || format == ORDER || format == F11;
    if (format == F10 && value[FIELD_FDRA] == ones(l->width[1])) {
        *why = (Refusal){FIELD_ALL_ONES, 0, 0};
        return false;
    }
    if (format == ORDER)
        value[FIELD_FDRA] = (u32)ones(l->width[1]);
    Bits b = 0;
    for (int i = 0; i < l->count; i++)
        b = b << l->width[i] | value[l->name[i]];
    *payload = b << (128 - l->total);
    return true;
}

/* ---- REGs of a CORESET (38.211 7.3.2.2) ------------------------------------------------------ */

typedef struct {
    int start, duration, bundle, rows, shift; /* bundle 0 without interleaving */
    u64 groups;
    int cces;
    u16 regs[135][6];  /* of each CCE; a REG is its symbol << 9 | its common block */
    u16 *candidate[5]; /* by level, then start / level: 6·level REGs by symbol, then block */
} Map;

static void map_regs(Map *m)
{
    u16 block[270];
    int n = 0, first = (m->start + 5) / 6 * 6;
    for (int g = 0; g < 45; g++)
        if (m->groups >> g & 1)
            for (int i = 0; i < 6; i++)
                block[n++] = (u16)(first + 6 * g + i);
    m->cces = n / 6 * m->duration;
    int regs = n * m->duration, bundle = m->bundle ? m->bundle : 6, per = 6 / bundle;
    int columns = m->bundle ? regs / (bundle * m->rows) : 0;
    for (int j = 0; j < m->cces; j++)
        for (int b = 0; b < per; b++) {
            int x = per * j + b, f = x;
            if (m->bundle)
                f = (x % m->rows * columns + x / m->rows + m->shift) % (regs / bundle);
            for (int i = 0; i < bundle; i++) {
                int r = f * bundle + i;
                m->regs[j][b * bundle + i] = (u16)(r % m->duration << 9 | block[r / m->duration]);
            }
        }
}

static void map_level(Map *m, int level)
{
    if (m->candidate[level])
        return;
    int size = 1 << level, n = m->cces / size;
    u16 *to = m->candidate[level] = arena((size_t)(n * 6 * size) * sizeof *to);
    u64 set[3][5] = {{0}};
    for (int c = 0; c < n; c++) {
        for (int j = c * size; j < (c + 1) * size; j++)
            for (int i = 0; i < 6; i++) {
                unsigned r = m->regs[j][i], b = r & 511;
                set[r >> 9][b >> 6] |= (u64)1 << (b & 63);
            }
        for (int s = 0; s < m->duration; s++)
            for (unsigned w = 0; w < 5; w++) {
                for (u64 v = set[s][w]; v; v &= v - 1)
                    *to++ = (u16)((unsigned)s << 9 | (64 * w + (unsigned)__builtin_ctzll(v)));
                set[s][w] = 0;
            }
    }
}

/* ---- watches (38.213 10.1) ------------------------------------------------------------------- */

typedef struct {
    const u16 *regs;
    const List *up, *down, *order;
    u32 scramble;
    u16 set, size, rnti, dmrs_id;
    u8 kind, symbol, level, candidate; /* level is the exponent */
} Watch;

typedef struct {
    bool made;
    u32 mask; /* the sets that are monitored; a plan depends on nothing else of its slot */
    u32 count, room;
    Watch *watches;
    u32 first[10], last[10]; /* of each set of the handset */
    bool over;
    u32 candidates, cces;
} Plan;

typedef struct {
    Shape shape;
    Map *map[3];
    u8 search_order[10];
} Prepared;

typedef struct {
    u64 key; /* 0 where empty */
    u64 words[GOLD_WORDS];
} Sequence;

/* What one thread works with. */
typedef struct {
    const Cell *cell;
    const Prepared *prepared;
    Plan *plans;
    u64 *seen;
    size_t seen_room;
    Sequence reference[14][4], scrambles[8];
} Worker;

static Prepared prepare(const Cell *cell, int at, Prepared *before)
{
    const Handset *h = &cell->handsets[at];
    Prepared p = {.shape = shape_of(cell, h)};
    for (int i = 0; i < h->coreset_count; i++) {
        const Coreset *c = &h->coresets[i];
        Map want = {.start = h->downlink.start, .duration = c->duration, .groups = c->groups};
        if (c->interleaved) {
            want.bundle = c->bundle;
            want.rows = c->rows;
            want.shift = c->shift >= 0 ? c->shift : cell->number;
        }
        /* Handsets mostly share their CORESETs. */
        for (int k = 0; k < at && before && !p.map[i]; k++)
            for (int j = 0; j < cell->handsets[k].coreset_count; j++) {
                Map *m = before[k].map[j];
                if (m->start == want.start && m->duration == want.duration && m->groups == want.groups &&
                    m->bundle == want.bundle && m->rows == want.rows && m->shift == want.shift)
                    p.map[i] = m;
            }
        if (!p.map[i]) {
            p.map[i] = arena(sizeof want);
            *p.map[i] = want;
            map_regs(p.map[i]);
        }
    }
    int n = 0;
    for (int others = 0; others < 2; others++)
        for (int number = 1; number < 40; number++)
            for (int i = 0; i < h->set_count; i++)
                if (h->sets[i].number == number && (h->sets[i].kind != COMMON) == others)
                    p.search_order[n++] = (u8)i;
    for (int i = 0; i < h->set_count; i++)
        for (int level = 0; level < 5; level++)
            if (h->sets[i].candidates[level])
                map_level(p.map[h->sets[i].coreset_at], level);
    return p;
}

static u32 monitored(const Cell *cell, const Handset *h, int frame, int slot)
{
    u32 mask = 0;
    long t = frame * (10L << cell->mu) + slot;
    for (int i = 0; i < h->set_count; i++) {
        const SearchSet *s = &h->sets[i];
        if ((t + s->period - s->offset) % s->period < s->duration)
            mask |= (u32)1 << i;
    }
    return mask;
}

/* The sizes that a set watches, rising. */
static int set_sizes(const Shape *s, int kind, unsigned *size)
{
    if (kind != SPECIFIC) {
        size[0] = kind == COMMON ? s->common : s->fallback;
        return 1;
    }
    size[0] = s->up_size < s->down_size ? s->up_size : s->down_size;
    size[1] = s->up_size < s->down_size ? s->down_size : s->up_size;
    return size[0] == size[1] ? 1 : 2;
}

static u32 start_cce(const SearchSet *s, int level, int m, int cces)
{
    u32 size = (u32)1 << level, n = (u32)cces;
    return size * (((u32)s->base + (u32)m * n / (size * (u32)s->candidates[level])) % (n / size));
}

static u32 scramble_of(const Cell *cell, const Handset *h, const SearchSet *s)
{
    const Coreset *c = &h->coresets[s->coreset_at];
    if (s->kind == COMMON || c->dmrs_id < 0)
        return (u32)cell->number;
    return ((u32)h->rnti << 16 | (u32)c->dmrs_id) & 0x7FFFFFFF;
}

static const struct {
    u8 candidates, cces;
} limits[4] = {{44, 56}, {36, 56}, {22, 48}, {20, 32}};

/* Adds the candidates and CCEs of one set to the counts. */
static void count_set(Worker *w, const Handset *h, const Prepared *p, const SearchSet *s, u64 cces[3][14][3], Plan *plan)
{
    unsigned size[2];
    int sizes = set_sizes(&p->shape, s->kind, size), n = p->map[s->coreset_at]->cces;
    u32 scramble = scramble_of(w->cell, h, s);
    for (u64 left = s->symbols; left; left &= left - 1) {
        unsigned symbol = (unsigned)__builtin_ctzll(left);
        for (int level = 0; level < 5; level++)
            for (int m = 0; m < s->candidates[level]; m++) {
                u32 start = start_cce(s, level, m, n);
                u64 *row = &cces[s->coreset_at][symbol][start >> 6];
                u64 mask = ones(1u << level) << (start & 63);
                plan->cces += (u32)popcount(mask & ~*row);
                *row |= mask;
                for (int i = 0; i < sizes; i++) {
                    u64 key = (u64)1 << 63 | (u64)s->coreset_at << 60 | (u64)symbol << 56 | (u64)start << 48 |
                              (u64)level << 40 | (u64)size[i] << 32 | scramble;
                    size_t at = (size_t)(key * 0x9E3779B97F4A7C15u >> 40) & (w->seen_room - 1);
                    while (w->seen[at] && w->seen[at] != key)
                        at = (at + 1) & (w->seen_room - 1);
                    plan->candidates += w->seen[at] == 0;
                    w->seen[at] = key;
                }
            }
    }
}

static void watch_set(Worker *w, const Handset *h, const Prepared *p, const SearchSet *s, Plan *plan)
{
    unsigned size[2];
    const Shape *shape = &p->shape;
    const Coreset *c = &h->coresets[s->coreset_at];
    const Map *map = p->map[s->coreset_at];
    int sizes = set_sizes(shape, s->kind, size);
    Watch one = {.scramble = scramble_of(w->cell, h, s), .set = (u16)s->number, .rnti = (u16)h->rnti, .kind = (u8)s->kind,
                 .dmrs_id = (u16)(c->dmrs_id >= 0 ? c->dmrs_id : w->cell->number)};
    for (u64 left = s->symbols; left; left &= left - 1) {
        one.symbol = (u8)__builtin_ctzll(left);
        for (int level = 0; level < 5; level++) {
            one.level = (u8)level;
            for (int m = 0; m < s->candidates[level]; m++) {
                one.candidate = (u8)m;
                one.regs = map->candidate[level] + 6 * start_cce(s, level, m, map->cces);
                for (int i = 0; i < sizes; i++) {
                    one.size = (u16)size[i];
                    if (s->kind == COMMON) {
                        one.up = &shape->common_up, one.down = &shape->common_down, one.order = &shape->common_order;
                    } else if (s->kind == FALLBACK) {
                        one.up = &shape->fallback_up, one.down = &shape->fallback_down, one.order = &shape->fallback_order;
                    } else {
                        one.up = size[i] == shape->up_size ? &shape->up : NULL;
                        one.down = size[i] == shape->down_size ? &shape->down : NULL;
                    }
                    plan->watches[plan->count++] = one;
                }
            }
        }
    }
}

static u32 set_watches(const Shape *shape, const SearchSet *s)
{
    unsigned size[2];
    int n = 0;
    for (int level = 0; level < 5; level++)
        n += s->candidates[level];
    return (u32)(n * popcount(s->symbols) * set_sizes(shape, s->kind, size));
}

static void plan_make(Worker *w, int at, u32 mask, Plan *plan)
{
    const Handset *h = &w->cell->handsets[at];
    const Prepared *p = &w->prepared[at];
    *plan = (Plan){.made = true, .mask = mask, .room = plan->room, .watches = plan->watches};
    u32 most = 0;
    for (int i = 0; i < h->set_count; i++)
        if (mask >> i & 1)
            most += set_watches(&p->shape, &h->sets[i]);
    size_t room = 64;
    while (room < 2 * (size_t)most)
        room *= 2;
    if (w->seen_room < room) {
        free(w->seen);
        w->seen = must(calloc(room, sizeof *w->seen));
        w->seen_room = room;
    } else
        memset(w->seen, 0, w->seen_room * sizeof *w->seen);

    u64 cces[3][14][3] = {{{0}}};
    const u32 candidate_limit = limits[w->cell->mu].candidates, cce_limit = limits[w->cell->mu].cces;
    u8 allotted[10];
    int n = 0;
    u32 watches = 0;
    bool common = true;
    for (int i = 0; i < h->set_count; i++) {
        const SearchSet *s = &h->sets[p->search_order[i]];
        if (!(mask >> p->search_order[i] & 1))
            continue;
        if (common && s->kind != COMMON) {
            common = false;
            if (plan->candidates > candidate_limit || plan->cces > cce_limit)
                break;
        }
        count_set(w, h, p, s, cces, plan);
        if (!common && (plan->candidates > candidate_limit || plan->cces > cce_limit))
            goto allotted;
        allotted[n++] = p->search_order[i];
        watches += set_watches(&p->shape, s);
    }
    if (plan->candidates > candidate_limit || plan->cces > cce_limit) {
        plan->over = true;
        return;
    }
allotted:
    if (plan->room < watches) {
        free(plan->watches);
        plan->watches = must(malloc(watches * sizeof(Watch)));
        plan->room = watches;
    }
    for (int i = 0; i < n; i++) {
        plan->first[allotted[i]] = plan->count;
        watch_set(w, h, p, &h->sets[allotted[i]], plan);
        plan->last[allotted[i]] = plan->count;
    }
}

static Plan *plan_for(Worker *w, int at, int frame, int slot)
{
    u32 mask = monitored(w->cell, &w->cell->handsets[at], frame, slot);
    Plan *plan = &w->plans[at];
#ifndef PLAN_EACH_SLOT
    if (plan->made && plan->mask == mask)
        return plan;
#endif
    plan_make(w, at, mask, plan);
    return plan;
}

static void worker_open(Worker *w, const Cell *cell, const Prepared *prepared)
{
    memset(w, 0, sizeof *w);
    w->cell = cell;
    w->prepared = prepared;
    w->plans = must(calloc((size_t)cell->handset_count, sizeof *w->plans));
}

static void worker_close(Worker *w)
{
    for (int i = 0; i < w->cell->handset_count; i++)
        free(w->plans[i].watches);
    free(w->plans);
    free(w->seen);
}

/* ---- grid ------------------------------------------------------------------------------------ */

/* One word for the 12 places of a block in a symbol. Place k has b0 and b1 of its point at bits 2k and
 * 2k+1 (0 where it is empty) and bit 32+k where it isn't empty. */
typedef struct {
    int mu, frame, slot, blocks;
    u64 *cells; /* symbol · blocks + block */
} Grid;

#define FULL ((u64)0xFFF << 32)
#define REFERENCES 0xC0C0Cu /* the points of places 1, 5 and 9 */
#define FULL_AND_REFERENCES (FULL | REFERENCES)

static void grid_write(Text *t, const Grid *g)
{
    put(t, "nrpdcch grid 1\nmu ");
    put_number(t, (u64)g->mu);
    put(t, " frame ");
    put_number(t, (u64)g->frame);
    put(t, " slot ");
    put_number(t, (u64)g->slot);
    put(t, " blocks ");
    put_number(t, (u64)g->blocks);
    put(t, "\n");
    size_t size = 14 * (12 * (size_t)g->blocks + 1);
    char *p = text_room(t, size);
    const u64 *cell = g->cells;
    for (int y = 0; y < 14; y++) {
        for (int b = 0; b < g->blocks; b++, p += 12) {
            u64 v = *cell++;
            memset(p, '.', 12);
            if (v)
                for (int k = 0; k < 12; k++)
                    if (v >> (32 + k) & 1)
                        p[k] = "0213"[v >> 2 * k & 3];
        }
        *p++ = '\n';
    }
    t->n += size;
    put(t, "end\n");
}

typedef struct {
    const u8 *p;
    size_t n, at;
} Scan;

static bool scan_text(Scan *s, const char *text)
{
    for (; *text; text++, s->at++)
        if (s->at == s->n || s->p[s->at] != (u8)*text)
            return false;
    return true;
}

/* True where the digits so far are or begin a number of the range. */
static bool begins_number(int v, int low, int high)
{
    if (v == 0)
        return low == 0;
    for (int scale = 1; v * scale <= high; scale *= 10)
        if (v * scale + scale - 1 >= low)
            return true;
    return false;
}

static bool scan_number(Scan *s, int low, int high, int *value)
{
    int v = 0;
    bool any = false;
    while (s->at < s->n && s->p[s->at] >= '0' && s->p[s->at] <= '9') {
        int next = v * 10 + (s->p[s->at] - '0');
        if ((any && v == 0) || !begins_number(next, low, high))
            return false;
        any = true;
        v = next;
        s->at++;
    }
    *value = v;
    return any && v >= low && v <= high;
}

/* Where the bytes aren't a grid, s->at is the length of the longest prefix that a grid has. */
static bool scan_grid(Scan *s, Grid *g)
{
    static u8 code[256]; /* point, 4 where there is one, 8 where the byte is none */
    memset(code, 8, sizeof code);
    code['.'] = 0, code['0'] = 4, code['1'] = 6, code['2'] = 5, code['3'] = 7;
    if (!scan_text(s, "nrpdcch grid 1\nmu ") || !scan_number(s, 0, 3, &g->mu) || !scan_text(s, " frame ") ||
        !scan_number(s, 0, 1023, &g->frame) || !scan_text(s, " slot ") ||
        !scan_number(s, 0, (10 << g->mu) - 1, &g->slot) || !scan_text(s, " blocks ") ||
        !scan_number(s, 6, 275, &g->blocks) || !scan_text(s, "\n"))
        return false;
    u64 *cell = g->cells = arena(14 * (size_t)g->blocks * sizeof *g->cells);
    for (int y = 0; y < 14; y++) {
        for (int b = 0; b < g->blocks; b++) {
            const u8 *p = s->p + s->at;
            u64 v = 0;
            if (s->n - s->at < 12 || memcmp(p, "............", 12) != 0) {
                size_t n = s->n - s->at < 12 ? s->n - s->at : 12;
                for (size_t k = 0; k < n; k++) {
                    u64 c = code[p[k]];
                    if (c & 8) {
                        s->at += k;
                        return false;
                    }
                    v |= (c & 3) << 2 * k | (c >> 2) << (32 + k);
                }
                if (n < 12) {
                    s->at = s->n;
                    return false;
                }
            }
            *cell++ = v;
            s->at += 12;
        }
        if (!scan_text(s, "\n"))
            return false;
    }
    return scan_text(s, "end\n") && s->at == s->n;
}

/* ---- the signal of one candidate ------------------------------------------------------------- */

static const u64 *reference_words(Worker *w, const Grid *g, unsigned symbol, unsigned id)
{
    Sequence *s = &w->reference[symbol][id & 3];
    u64 key = (u64)1 << 63 | (u64)g->slot << 16 | id;
    if (s->key != key) {
        u64 c = ((u64)(14 * g->slot) + symbol + 1) * (2 * id + 1);
        unsigned n = (6 * (unsigned)g->blocks + 63) / 64;
        gold_words((u32)((c << 17) + 2 * id) & 0x7FFFFFFF, n < 2 ? 2 : n, s->words);
        s->key = key;
    }
    return s->words;
}

static const u64 *scramble_words(Worker *w, u32 c_init)
{
    Sequence *s = &w->scrambles[(c_init ^ c_init >> 16) & 7];
    if (s->key != ((u64)1 << 63 | c_init)) {
        gold_words(c_init, 27, s->words);
        s->key = (u64)1 << 63 | c_init;
    }
    return s->words;
}

/* Points of places 1, 5 and 9 of a block. */
static u64 reference_points(const u64 *words, unsigned block)
{
    unsigned at = 6 * block, low = at & 63;
    u64 v = words[at >> 6] >> low;
    if (low > 58)
        v |= words[(at >> 6) + 1] << (64 - low);
    return (v & 3) << 2 | (v & 12) << 8 | (v & 48) << 14;
}

enum { HEARD, EMPTY, REFERENCE, REPEAT, CODE, CRC, FORMAT };

typedef struct {
    int what, format;
    Bits payload;
    unsigned symbol;
    int at; /* a subcarrier or a bit */
} Answer;

static void bad_place(u64 cell, u64 points, unsigned symbol, unsigned block, Answer *a)
{
    for (int k = 0; k < 12; k++) {
        bool there = cell >> (32 + k) & 1, reference = k == 1 || k == 5 || k == 9;
        if (there && (!reference || (cell >> 2 * k & 3) == (points >> 2 * k & 3)))
            continue;
        a->what = reference ? REFERENCE : EMPTY;
        a->symbol = symbol;
        a->at = (int)(12 * block) + k;
        return;
    }
}

static const List *list_for(const Watch *w, int format)
{
    return format == ORDER ? w->order : format == F00 || format == F01 ? w->up : w->down;
}

static bool hear(Worker *w, const Watch *watch, const Grid *g, Answer *a)
{
    u64 r[28], acc = 0, *to = r;
    unsigned have = 0, now = 3, n = 6u << watch->level;
    const u64 *row = NULL, *sequence = NULL;
    for (unsigned i = 0; i < n; i++) {
        unsigned s = watch->regs[i] >> 9, b = watch->regs[i] & 511;
        if (s != now) {
            now = s;
            row = g->cells + (watch->symbol + s) * (unsigned)g->blocks;
            sequence = reference_words(w, g, watch->symbol + s, watch->dmrs_id);
        }
        u64 v = row[b], points = reference_points(sequence, b);
        if ((v ^ (FULL | points)) & FULL_AND_REFERENCES) {
            bad_place(v, points, watch->symbol + s, b, a);
            return false;
        }
        u64 e = (v & 3) | (v >> 2 & 0xFC) | (v >> 4 & 0x3F00) | (v >> 6 & 0x3C000);
        acc |= e << have;
        if (have >= 46) {
            *to++ = acc;
            acc = e >> (64 - have);
            have -= 46;
        } else
            have += 18;
    }
    if (have)
        *to = acc;

    const Code *c = code_of(watch->level, watch->size + 24u);
    const u64 *gold = scramble_words(w, watch->scramble);
    for (unsigned i = 0; i < c->words; i++)
        r[i] ^= gold[i];
    r[c->words - 1] &= c->last;

    Bits block;
    if (!decode(c, r, &block, &a->at)) {
        a->what = a->at >= 0 ? REPEAT : CODE;
        return false;
    }
    unsigned size = watch->size;
    u32 check = (u32)(block >> (128 - size - 24)) & 0xFFFFFF;
    if (parity(block, size) != (check ^ watch->rnti)) {
        a->what = CRC;
        return false;
    }
    bool down = block >> 127;
    const List *l = down ? watch->down : watch->up;
    a->what = FORMAT;
    if (!l || (size > l->total && (u64)(block >> (128 - size)) & ones(size - l->total)))
        return false;
    a->what = HEARD;
    a->payload = block;
    if (watch->kind == SPECIFIC)
        a->format = down ? F11 : F01;
    else if (!down)
        a->format = F00;
    else
        a->format = (u64)(block >> (127 - l->width[1]) & ones(l->width[1])) == ones(l->width[1]) ? ORDER : F10;
    return true;
}

static void put_signal(Worker *w, const Watch *watch, Bits payload, Grid *g)
{
    u64 e[28];
    unsigned size = watch->size, n = 6u << watch->level, now = 3;
    const Code *c = code_of(watch->level, size + 24);
    encode(c, payload | (Bits)(parity(payload, size) ^ watch->rnti) << (128 - size - 24), e);
    const u64 *gold = scramble_words(w, watch->scramble);
    for (unsigned i = 0; i < c->words; i++)
        e[i] ^= gold[i];
    u64 *row = NULL;
    const u64 *sequence = NULL;
    for (unsigned i = 0; i < n; i++) {
        unsigned s = watch->regs[i] >> 9, b = watch->regs[i] & 511, at = 18 * i, low = at & 63;
        if (s != now) {
            now = s;
            row = g->cells + (watch->symbol + s) * (unsigned)g->blocks;
            sequence = reference_words(w, g, watch->symbol + s, watch->dmrs_id);
        }
        u64 v = e[at >> 6] >> low;
        if (low > 46)
            v |= e[(at >> 6) + 1] << (64 - low);
        row[b] = FULL | (v & 3) | (v & 0xFC) << 2 | (v & 0x3F00) << 4 | (v & 0x3C000) << 6 | reference_points(sequence, b);
    }
}

/* ---- grants and the desk --------------------------------------------------------------------- */

typedef struct {
    int handset, set, level, candidate, symbol, format; /* handset -1 where unknown; candidate, symbol -1 where absent */
    Given *given;
    u32 count;
} Grant;

typedef struct {
    int frame, slot;
    u32 count;
    Grant *grants;
} GrantList;

static bool grants_fault(int grant, const char *key, const char *reason)
{
    put(&err, "error: grants: ");
    if (grant >= 0) {
        put(&err, "grants/");
        put_number(&err, (u64)grant);
        if (key)
            put(&err, "/");
    } else if (!key)
        key = "file";
    if (key)
        put(&err, key);
    put(&err, ": ");
    put(&err, reason);
    put(&err, "\n");
    return false;
}

static bool known_keys(const Json *v, const char *const *keys)
{
    for (const Json *m = v->first; m; m = m->next) {
        const char *const *k = keys;
        while (*k && !json_is(m->key, m->key_length, *k))
            k++;
        if (!*k)
            return false;
    }
    return true;
}

/* A number of at most `high`; an absent optional key leaves *to as it is. */
static bool grant_number(const Json *v, int grant, const char *key, bool optional, int high, int *to)
{
    const Json *one = json_member(v, key);
    if (!one)
        return optional || grants_fault(grant, key, "missing");
    if (one->kind != J_WHOLE)
        return grants_fault(grant, key, "wrong kind");
    if (one->whole > (u64)high)
        return grants_fault(grant, key, "out of range");
    *to = (int)one->whole;
    return true;
}

static int given_order(const void *a, const void *b)
{
    const Given *x = a, *y = b;
    u32 n = x->length < y->length ? x->length : y->length;
    int c = memcmp(x->word, y->word, n);
    return c ? c : x->length < y->length ? -1 : x->length > y->length;
}

static int field_of(const char *word, u32 n)
{
    for (int i = 1; i < FIELD_COUNT; i++)
        if (json_is(word, n, field_words[i]))
            return i;
    return -1;
}

static bool is_field_word(const char *p, u32 n)
{
    if (n < 1 || n > 24)
        return false;
    for (u32 i = 0; i < n; i++)
        if (!((p[i] >= 'a' && p[i] <= 'z') || (p[i] >= '0' && p[i] <= '9') || p[i] == '_'))
            return false;
    return true;
}

typedef struct {
    Given given;
    const Json *member;
    u32 at;
} FieldEntry;

static int entry_order(const void *a, const void *b)
{
    const FieldEntry *x = a, *y = b;
    int c = given_order(&x->given, &y->given);
    return c ? c : x->at < y->at ? -1 : 1;
}

/* Words in ascending order, and the last value of a word that stands more than once. */
static bool read_fields(const Json *v, int number, Grant *g)
{
    if (v->kind != J_OBJECT)
        return grants_fault(number, "fields", "wrong kind");
    u32 n = 0;
    FieldEntry *entries = must(malloc((v->length ? v->length : 1) * sizeof *entries));
    for (const Json *m = v->first; m; m = m->next, n++)
        entries[n] = (FieldEntry){{.word = m->key, .length = m->key_length}, m, n};
    qsort(entries, n, sizeof *entries, entry_order);
    g->given = arena(n * sizeof *g->given);
    bool fits = true;
    for (u32 i = 0; fits && i < n; i++) {
        Given *e = &entries[i].given;
        if (i + 1 < n && given_order(e, &entries[i + 1].given) == 0)
            continue;
        if (!is_field_word(e->word, e->length))
            fits = grants_fault(number, "fields", "out of range");
        else if (entries[i].member->kind != J_WHOLE)
            fits = grants_fault(number, "fields", "wrong kind");
        e->name = field_of(e->word, e->length);
        e->value = entries[i].member->whole;
        g->given[g->count++] = *e;
    }
    free(entries);
    return fits;
}

static bool read_grant(const Cell *cell, const Json *v, int number, Grant *g)
{
    static const char *const keys[] = {"handset", "set", "level", "candidate", "symbol", "format", "fields", NULL};
    if (v->kind != J_OBJECT)
        return grants_fault(number, NULL, "wrong kind");
    if (!known_keys(v, keys))
        return grants_fault(number, NULL, "unknown");
    *g = (Grant){.candidate = -1, .symbol = -1};
    const Json *name = json_member(v, "handset");
    if (!name)
        return grants_fault(number, "handset", "missing");
    if (name->kind != J_TEXT)
        return grants_fault(number, "handset", "wrong kind");
    if (!is_name(name->text, name->length))
        return grants_fault(number, "handset", "out of range");
    g->handset = handset_of(cell, name->text, name->length);
    int level = 0;
    if (!grant_number(v, number, "set", false, 65535, &g->set) || !grant_number(v, number, "level", false, 16, &level))
        return false;
    if (level == 0 || (level & (level - 1)))
        return grants_fault(number, "level", "out of range");
    g->level = (int)log_of((u32)level);
    if (!grant_number(v, number, "candidate", true, 65535, &g->candidate) ||
        !grant_number(v, number, "symbol", true, 65535, &g->symbol))
        return false;
    const Json *format = json_member(v, "format");
    if (!format)
        return grants_fault(number, "format", "missing");
    if (format->kind != J_TEXT)
        return grants_fault(number, "format", "wrong kind");
    while (format_words[g->format] && !json_is(format->text, format->length, format_words[g->format]))
        g->format++;
    if (!format_words[g->format])
        return grants_fault(number, "format", "out of range");
    const Json *fields = json_member(v, "fields");
    return !fields || read_fields(fields, number, g);
}

static bool grants_read(const Cell *cell, const u8 *bytes, size_t n, GrantList *list)
{
    static const char *const keys[] = {"frame", "slot", "grants", NULL};
    const Json *top = json_read(bytes, n);
    if (!top)
        return grants_fault(-1, NULL, "not json");
    if (top->kind != J_OBJECT)
        return grants_fault(-1, NULL, "wrong kind");
    if (!known_keys(top, keys))
        return grants_fault(-1, NULL, "unknown");
    if (!grant_number(top, -1, "frame", false, 1023, &list->frame) ||
        !grant_number(top, -1, "slot", false, (10 << cell->mu) - 1, &list->slot))
        return false;
    const Json *grants = json_member(top, "grants");
    if (!grants)
        return grants_fault(-1, "grants", "missing");
    if (grants->kind != J_LIST)
        return grants_fault(-1, "grants", "wrong kind");
    if (grants->length > 4096)
        return grants_fault(-1, "grants", "out of range");
    list->grants = arena(grants->length * sizeof *list->grants);
    for (const Json *one = grants->first; one; one = one->next, list->count++)
        if (!read_grant(cell, one, (int)list->count, &list->grants[list->count]))
            return false;
    return true;
}

/* Grants of one slot on their way to the grid. Every handset has its plan for the slot. */
typedef struct {
    Grid *grid;
    u16 owner[14 * 275]; /* 1 + the number of the grant on each REG */
} Desk;

static void desk_open(Desk *d, Grid *g)
{
    d->grid = g;
    memset(d->owner, 0, 14 * (size_t)g->blocks * sizeof *d->owner);
}

static bool is_free(const Desk *d, const Watch *w)
{
    for (unsigned i = 0; i < 6u << w->level; i++)
        if (d->owner[(w->symbol + (w->regs[i] >> 9)) * (unsigned)d->grid->blocks + (w->regs[i] & 511)])
            return false;
    return true;
}

static bool place(Worker *w, Desk *d, u32 number, const Grant *g, Refusal *why)
{
    static const bool fits[FORMATS][3] = {[F00] = {1, 1, 0}, [F10] = {1, 1, 0}, [ORDER] = {1, 1, 0},
                                          [F01] = {0, 0, 1}, [F11] = {0, 0, 1}};
    *why = (Refusal){UNKNOWN_HANDSET, 0, 0};
    if (g->handset < 0)
        return false;
    const Handset *h = &w->cell->handsets[g->handset];
    int set = 0;
    while (set < h->set_count && h->sets[set].number != g->set)
        set++;
    why->cause = UNKNOWN_SET;
    if (set == h->set_count)
        return false;
    why->cause = UNMONITORED;
    if (!fits[g->format][h->sets[set].kind])
        return false;
    const Plan *plan = &w->plans[g->handset];
    const Watch *first = NULL, *end = plan->watches + plan->last[set], *watch = plan->watches + plan->first[set];
    Bits payload = 0;
    for (; watch < end; watch++) {
        if (watch->level != g->level || (g->candidate >= 0 && watch->candidate != g->candidate) ||
            (g->symbol >= 0 && watch->symbol != g->symbol) || !list_for(watch, g->format))
            continue;
        if (!first) {
            first = watch;
            if (!pack(list_for(watch, g->format), g->format, g->given, g->count, &payload, why))
                return false;
        }
        if (is_free(d, watch))
            break;
    }
    if (!first)
        return false;
    if (watch == end) {
        u32 earliest = UINT32_MAX;
        for (unsigned i = 0; i < 6u << first->level; i++) {
            u32 owner = d->owner[(first->symbol + (first->regs[i] >> 9)) * (unsigned)d->grid->blocks + (first->regs[i] & 511)];
            if (owner && owner - 1 < earliest)
                earliest = owner - 1;
        }
        *why = (Refusal){OVERLAP, earliest, 0};
        return false;
    }
    for (unsigned i = 0; i < 6u << watch->level; i++)
        d->owner[(watch->symbol + (watch->regs[i] >> 9)) * (unsigned)d->grid->blocks + (watch->regs[i] & 511)] =
            (u16)(number + 1);
    put_signal(w, watch, payload, d->grid);
    return true;
}

static void put_refusal(u32 number, const Grant *g, const Refusal *why)
{
    put(&err, "grant ");
    put_number(&err, number);
    put(&err, ": ");
    const Given *given = why->cause == FIELD_UNKNOWN || why->cause == FIELD_TOO_LARGE ? &g->given[why->a] : NULL;
    switch (why->cause) {
    case UNKNOWN_HANDSET: put(&err, "unknown handset"); break;
    case UNKNOWN_SET: put(&err, "unknown set"); break;
    case UNMONITORED: put(&err, "unmonitored"); break;
    case FIELD_UNKNOWN:
        put(&err, "unknown field ");
        put_bytes(&err, given->word, given->length);
        break;
    case FIELD_TOO_LARGE:
        put(&err, "field ");
        put_bytes(&err, given->word, given->length);
        put(&err, " too large: ");
        put_number(&err, given->value);
        put(&err, " for ");
        put_number(&err, why->width);
        put(&err, " bits");
        break;
    case FIELD_ALL_ONES: put(&err, "field fdra all ones"); break;
    default:
        put(&err, "overlap with grant ");
        put_number(&err, why->a);
    }
    put(&err, "\n");
}

/* ---- reports --------------------------------------------------------------------------------- */

static void put_pair(Text *t, const char *key, u64 value)
{
    put(t, key);
    put_number(t, value);
}

static void put_watch(Text *t, const Watch *w)
{
    put_pair(t, "set ", w->set);
    put_pair(t, " symbol ", w->symbol);
    put_pair(t, " level ", (u64)1 << w->level);
    put_pair(t, " candidate ", w->candidate);
    put_pair(t, " size ", w->size);
}

static void put_values(Text *t, const Watch *w, const Answer *a)
{
    const List *l = list_for(w, a->format);
    put(t, format_words[a->format]);
    Bits left = a->payload << 1;
    for (int i = 1; i < l->count; i++) {
        unsigned width = l->width[i];
        if (width == 0)
            continue;
        if (!(a->format == ORDER && l->name[i] == FIELD_FDRA)) {
            put(t, " ");
            put(t, field_words[l->name[i]]);
            put_pair(t, "=", (u64)(left >> (128 - width)));
        }
        left <<= width;
    }
    put(t, "\n");
}

static void report(Worker *w, int at, const Grid *g)
{
    const Handset *h = &w->cell->handsets[at];
    const Plan *plan = &w->plans[at];
    static Text lines;
    u32 heard = 0;
    Answer a;
    lines.n = 0;
    for (u32 i = 0; i < plan->count; i++) {
        const Watch *watch = &plan->watches[i];
        if (!hear(w, watch, g, &a))
            continue;
        heard++;
        put_watch(&lines, watch);
        put(&lines, " rnti ");
        for (int shift = 12; shift >= 0; shift -= 4)
            put_bytes(&lines, &"0123456789abcdef"[watch->rnti >> shift & 15], 1);
        put(&lines, " ");
        put_values(&lines, watch, &a);
    }
    put(&out, "handset ");
    put_bytes(&out, h->name, (size_t)h->name_length);
    put_pair(&out, " watches ", plan->count);
    put_pair(&out, " heard ", heard);
    put(&out, "\n");
    put_bytes(&out, lines.p ? lines.p : "", lines.n);
}

static void explain(Worker *w, const Watch *watch, u32 number, const Grid *g)
{
    Answer a;
    hear(w, watch, g, &a);
    put_pair(&out, "watch ", number);
    put(&out, " ");
    put_watch(&out, watch);
    put(&out, a.what == HEARD ? "\nheard: " : "\nsilent: ");
    switch (a.what) {
    case HEARD:
        put_values(&out, watch, &a);
        return;
    case EMPTY: case REFERENCE:
        put_pair(&out, a.what == EMPTY ? "empty at symbol " : "reference at symbol ", a.symbol);
        put_pair(&out, " subcarrier ", (u64)a.at);
        break;
    case REPEAT: put_pair(&out, "repeat at bit ", (u64)a.at); break;
    case CODE: put(&out, "code"); break;
    case CRC: put(&out, "crc"); break;
    default: put(&out, "format");
    }
    put(&out, "\n");
}

/* ---- files ----------------------------------------------------------------------------------- */

#define FILE_LIMIT 8388608u

static int fetch(const char *name, u8 **bytes, size_t *size)
{
    struct stat st;
    int file = open(name, O_RDONLY | O_CLOEXEC);
    size_t room = 65536, n = 0;
    u8 *p = NULL;
    bool good = file >= 0;
    if (good && fstat(file, &st) == 0 && S_ISREG(st.st_mode) && st.st_size >= 0)
        room = (u64)st.st_size > FILE_LIMIT ? FILE_LIMIT + 1 : (size_t)st.st_size + 1;
    if (good)
        p = must(malloc(room));
    while (good && n <= FILE_LIMIT) {
        if (n == room) {
            room = room * 2 > FILE_LIMIT ? FILE_LIMIT + 1 : room * 2;
            p = must(realloc(p, room));
        }
        ssize_t got = read(file, p + n, room - n);
        if (got < 0 && errno == EINTR)
            continue;
        if (got == 0)
            break;
        if (got < 0)
            good = false;
        else
            n += (size_t)got;
    }
    if (file >= 0)
        close(file);
    if (!good || n > FILE_LIMIT) {
        free(p);
        put(&err, good ? "error: too long: " : "error: read ");
        put(&err, name);
        put(&err, "\n");
        return good ? FILE_TOO_LONG : READ_FAULT;
    }
    *bytes = p;
    *size = n;
    return DONE;
}

static bool table_value(const char *what, u32 value, size_t at, u32 size, u8 *stood, u16 *to, u32 *found)
{
    if (value < size && !stood[value]) {
        stood[value] = 1;
        to[(*found)++] = (u16)value;
        return true;
    }
    put(&err, "error: ");
    put(&err, what);
    put_pair(&err, ": value ", value);
    if (value >= size)
        put_pair(&err, " at ", at);
    put(&err, value >= size ? " too large\n" : " repeated\n");
    return false;
}

static bool table_read(const char *what, const u8 *p, size_t n, u32 size, u16 *to)
{
    u8 stood[1024] = {0};
    u32 found = 0;
    for (size_t i = 0; i < n;) {
        size_t at = i;
        u32 v = 0;
        while (i < n && p[i] >= '0' && p[i] <= '9') {
            v = v * 10 + (p[i++] - '0');
            v = v > 65535 ? 65535 : v;
        }
        if (i > at && !table_value(what, v, at, size, stood, to, &found))
            return false;
        if (i < n && p[i] != ' ' && p[i] != '\t' && p[i] != '\r' && p[i] != '\n' && p[i] != ',') {
            put(&err, "error: ");
            put(&err, what);
            put_pair(&err, ": bad byte at ", i);
            put(&err, "\n");
            return false;
        }
        i++;
    }
    if (found == size)
        return true;
    put(&err, "error: ");
    put(&err, what);
    put_pair(&err, ": ", found);
    put(&err, " values\n");
    return false;
}

static int read_table(const char *what, const char *name, u32 size, u16 *to)
{
    u8 *bytes;
    size_t n;
    int status = fetch(name, &bytes, &n);
    if (status)
        return status;
    bool good = table_read(what, bytes, n, size, to);
    free(bytes);
    return good ? DONE : TABLE_REFUSED;
}

/* ---- commands -------------------------------------------------------------------------------- */

enum { WRITE, SEARCH, EXPLAIN, SWEEP };

typedef struct {
    int command, count;
    const char *words[4];
    const char *handset, *watch;
    u32 number, threads, watch_number;
} Words;

static bool digits(const char *p, u32 *value)
{
    size_t n = strlen(p);
    u32 v = 0;
    if (n < 1 || n > 9)
        return false;
    for (; *p; p++) {
        if (*p < '0' || *p > '9')
            return false;
        v = v * 10 + (u32)(*p - '0');
    }
    *value = v;
    return true;
}

static bool words_read(int count, char **given, Words *w)
{
    static const char *const commands[] = {"write", "search", "explain", "sweep", NULL};
    if (count < 1)
        return false;
    while (commands[w->command] && strcmp(commands[w->command], given[0]) != 0)
        w->command++;
    if (!commands[w->command])
        return false;
    for (int i = 1; i < count; i++) {
        const char *word = given[i];
        if (*word == '\0' || !utf8_valid((const u8 *)word, strlen(word)))
            return false;
        if (*word != '-') {
            if (w->count == 4)
                return false;
            w->words[w->count++] = word;
            continue;
        }
        const char **option = NULL;
        if (!strcmp(word, "--handset") && (w->command == SEARCH || w->command == EXPLAIN))
            option = &w->handset;
        if (!strcmp(word, "--watch") && w->command == EXPLAIN)
            option = &w->watch;
        if (!option || *option || ++i == count)
            return false;
        word = given[i];
        if (*word == '\0' || *word == '-' || !utf8_valid((const u8 *)word, strlen(word)))
            return false;
        *option = word;
    }
    if (w->command == SWEEP) {
        w->threads = 1;
        return (w->count == 3 || (w->count == 4 && digits(w->words[3], &w->threads) && w->threads >= 1 && w->threads <= 64)) &&
               digits(w->words[0], &w->number) && w->number >= 1 && w->number <= 200;
    }
    if (w->command == EXPLAIN && (!w->handset || !w->watch || !digits(w->watch, &w->watch_number)))
        return false;
    return w->count == 4;
}

static int slot_over(const Handset *h, const Plan *plan)
{
    put(&err, "error: slot: handset ");
    put_bytes(&err, h->name, (size_t)h->name_length);
    put_pair(&err, ": ", plan->candidates);
    put_pair(&err, " candidates, ", plan->cces);
    put(&err, " cces\n");
    return SLOT_REFUSED;
}

static int run_write(Worker *w, Desk *d, Grid *g, const GrantList *list)
{
    for (int i = 0; i < w->cell->handset_count; i++) {
        const Plan *plan = plan_for(w, i, list->frame, list->slot);
        if (plan->over)
            return slot_over(&w->cell->handsets[i], plan);
    }
    *g = (Grid){w->cell->mu, list->frame, list->slot, w->cell->blocks, NULL};
    g->cells = arena_zero(14 * (size_t)g->blocks * sizeof *g->cells);
    desk_open(d, g);
    bool refused = false;
    for (u32 i = 0; i < list->count; i++) {
        Refusal why;
        if (!place(w, d, i, &list->grants[i], &why)) {
            put_refusal(i, &list->grants[i], &why);
            refused = true;
        }
    }
    grid_write(&out, g);
    return refused ? GRANTS_REFUSED : DONE;
}

static int run_search(Worker *w, const Words *words, int only, const Grid *g)
{
    int from = only >= 0 ? only : 0, to = only >= 0 ? only + 1 : w->cell->handset_count;
    for (int i = from; i < to; i++) {
        const Plan *plan = plan_for(w, i, g->frame, g->slot);
        if (plan->over)
            return slot_over(&w->cell->handsets[i], plan);
    }
    if (words->command == EXPLAIN) {
        if (words->watch_number >= w->plans[only].count) {
            put(&err, "error: no such watch ");
            put(&err, words->watch);
            put(&err, "\n");
            return NO_SUCH;
        }
        explain(w, &w->plans[only].watches[words->watch_number], words->watch_number, g);
        return DONE;
    }
    put_pair(&out, "frame ", (u64)g->frame);
    put_pair(&out, " slot ", (u64)g->slot);
    put(&out, "\n");
    for (int i = from; i < to; i++)
        report(w, i, g);
    return DONE;
}

static int run_slot(const Words *words)
{
    static Cell cell;
    static Worker worker;
    static Desk desk;
    u8 *bytes;
    size_t n;
    int status = fetch(words->words[0], &bytes, &n);
    if (status)
        return status;
    bool good = cell_read(&cell, bytes, n);
    free(bytes); /* names were copied */
    if (!good)
        return SETTINGS_REFUSED;
    if ((status = read_table("reliability", words->words[1], 1024, reliability)) ||
        (status = read_table("input order", words->words[2], 164, input_order)) ||
        (status = fetch(words->words[3], &bytes, &n)))
        return status;
    Grid grid = {0};
    GrantList list = {0};
    if (words->command == WRITE) {
        if (!grants_read(&cell, bytes, n, &list)) {
            free(bytes);
            return GRANTS_FILE_REFUSED;
        }
    } else {
        Scan s = {bytes, n, 0};
        good = scan_grid(&s, &grid);
        if (!good)
            put_pair(&err, "error: grid: byte ", s.at);
        else if (grid.mu != cell.mu || grid.blocks != cell.blocks) {
            bool mu = grid.mu != cell.mu;
            put_pair(&err, mu ? "error: grid: mu " : "error: grid: blocks ", (u64)(mu ? grid.mu : grid.blocks));
            put_pair(&err, " ", (u64)(mu ? cell.mu : cell.blocks));
            good = false;
        }
        if (!good) {
            put(&err, "\n");
            free(bytes);
            return GRID_REFUSED;
        }
    }
    int only = -1;
    if (words->handset && (only = handset_of(&cell, words->handset, strlen(words->handset))) < 0) {
        put(&err, "error: no such handset ");
        put(&err, words->handset);
        put(&err, "\n");
        free(bytes);
        return NO_SUCH;
    }
    Prepared *prepared = arena_zero((size_t)cell.handset_count * sizeof *prepared);
    if (only >= 0)
        prepared[only] = prepare(&cell, only, NULL);
    else
        for (int i = 0; i < cell.handset_count; i++)
            prepared[i] = prepare(&cell, i, prepared);
    worker_open(&worker, &cell, prepared);
    status = words->command == WRITE ? run_write(&worker, &desk, &grid, &list) : run_search(&worker, words, only, &grid);
    worker_close(&worker);
    free(bytes); /* the grants' words point into it until here */
    return status;
}

/* ---- sweep ----------------------------------------------------------------------------------- */

#define HANDSETS 32

typedef struct {
    u32 placed, overlapped;
    atomic_uint heard;
    Grid grid;
} Slot;

typedef struct {
    Worker worker;
    Desk desk;
} Hand;

typedef struct {
    Slot *slots;
    Hand *hands;
    atomic_uint next, hand;
    u32 total, step;
    void (*work)(Slot *slots, Hand *hand, u32 from, u32 to);
} Pool;

static void load_cell(Cell *cell)
{
    *cell = (Cell){1, 100, 0, 273, 273, 273, -1, HANDSETS, arena_zero(HANDSETS * sizeof(Handset))};
    for (int i = 0; i < HANDSETS; i++) {
        Handset *h = &cell->handsets[i];
        h->name_length = snprintf(h->name, sizeof h->name, "h%d", i);
        h->rnti = i + 1;
        h->downlink = h->uplink = (Bwp){0, 273};
        h->codebook = SEMI_STATIC;
        h->coreset_count = h->set_count = 1;
        h->coresets[0] = (Coreset){.number = 1, .duration = 2, .dmrs_id = -1, .interleaved = true, .bundle = 6, .rows = 2,
                                   .shift = 7, .groups = ones(45), .cces = 90};
        h->sets[0] = (SearchSet){.number = 1, .coreset = 1, .kind = FALLBACK, .period = 1, .duration = 1, .symbols = 1,
                                 .candidates = {0, 2, 0, 0, 0}, .base = i};
    }
}

static void write_slots(Slot *slots, Hand *hand, u32 from, u32 to)
{
    Worker *w = &hand->worker;
    for (u32 t = from; t < to; t++) {
        Slot *s = &slots[t];
        for (int h = 0; h < HANDSETS; h++)
            plan_for(w, h, s->grid.frame, s->grid.slot);
        desk_open(&hand->desk, &s->grid);
        for (u32 i = 0; i < 2 * HANDSETS; i++) {
            u32 h = i % HANDSETS;
            Given given[4] = {{FIELD_FDRA, 1911 + 8 * h, "fdra", 4}, {FIELD_HARQ, (h + t) % 16, "harq", 4},
                              {FIELD_MCS, h % 28, "mcs", 3}, {FIELD_TDRA, t % 16, "tdra", 4}};
            Grant g = {(int)h, 1, 1, -1, -1, i < HANDSETS ? F10 : F00, given, 4};
            Refusal why;
            if (place(w, &hand->desk, i, &g, &why))
                s->placed++;
            else
                s->overlapped++;
        }
    }
}

/* A job is one handset in one slot, slots first. */
static void search_jobs(Slot *slots, Hand *hand, u32 from, u32 to)
{
    Worker *w = &hand->worker;
    Answer a;
    for (u32 job = from; job < to; job++) {
        Slot *s = &slots[job / HANDSETS];
        const Plan *plan = plan_for(w, (int)(job % HANDSETS), s->grid.frame, s->grid.slot);
        u32 heard = 0;
        for (u32 i = 0; i < plan->count; i++)
            heard += hear(w, &plan->watches[i], &s->grid, &a);
        atomic_fetch_add_explicit(&s->heard, heard, memory_order_relaxed);
    }
}

static void *pool_hand(void *p)
{
    Pool *pool = p;
    Hand *hand = &pool->hands[atomic_fetch_add(&pool->hand, 1)];
    for (;;) {
        u32 from = atomic_fetch_add(&pool->next, pool->step);
        if (from >= pool->total)
            return NULL;
        pool->work(pool->slots, hand, from, from + pool->step < pool->total ? from + pool->step : pool->total);
    }
}

static void pool_run(Pool *pool, u32 threads)
{
    pthread_t id[64];
    u32 n = 0;
    atomic_store(&pool->next, 0);
    atomic_store(&pool->hand, 0);
    while (n + 1 < threads && pthread_create(&id[n], NULL, pool_hand, pool) == 0)
        n++;
    pool_hand(pool); /* and does the work of a thread that couldn't be started */
    for (u32 i = 0; i < n; i++)
        pthread_join(id[i], NULL);
}

#ifdef TIMES
static double now(void)
{
    struct timespec t;
    clock_gettime(CLOCK_MONOTONIC, &t);
    return (double)t.tv_sec * 1e3 + (double)t.tv_nsec / 1e6;
}
#endif

static int run_sweep(const Words *words)
{
    int status;
    if ((status = read_table("reliability", words->words[1], 1024, reliability)) ||
        (status = read_table("input order", words->words[2], 164, input_order)))
        return status;
    static Cell cell;
    load_cell(&cell);
    Prepared *prepared = arena_zero(HANDSETS * sizeof *prepared);
    for (int i = 0; i < HANDSETS; i++)
        prepared[i] = prepare(&cell, i, prepared);
    code_of(1, prepared[0].shape.fallback + 24); /* threads share the code and only read it */
    Hand *hands = arena(words->threads * sizeof *hands);
    for (u32 i = 0; i < words->threads; i++)
        worker_open(&hands[i].worker, &cell, prepared);
    Slot *slots = arena_zero(words->number * sizeof *slots);
    size_t cells = 14 * (size_t)cell.blocks;
    u64 *all = must(calloc(words->number * cells, sizeof *all));
    for (u32 t = 0; t < words->number; t++)
        slots[t].grid = (Grid){0, (int)(t / 10), (int)(t % 10), cell.blocks, all + t * cells};

#ifdef TIMES
    double a = now();
#endif
    Pool pool = {.slots = slots, .hands = hands, .total = words->number, .step = 1, .work = write_slots};
    pool_run(&pool, words->threads);
#ifdef TIMES
    double b = now();
#endif
    pool.total = words->number * HANDSETS;
    pool.step = HANDSETS;
    pool.work = search_jobs;
    pool_run(&pool, words->threads);
#ifdef TIMES
    fprintf(stderr, "write %.3f ms, search %.3f ms\n", b - a, now() - b);
#endif

    u32 placed = 0, overlapped = 0, heard = 0;
    for (u32 t = 0; t < words->number; t++) {
        Slot *s = &slots[t];
        put_pair(&out, "frame ", (u64)s->grid.frame);
        put_pair(&out, " slot ", (u64)s->grid.slot);
        put_pair(&out, " placed ", s->placed);
        put_pair(&out, " overlapped ", s->overlapped);
        put_pair(&out, " heard ", s->heard);
        put(&out, "\n");
        placed += s->placed, overlapped += s->overlapped, heard += s->heard;
    }
    put_pair(&out, "slots ", words->number);
    put_pair(&out, " placed ", placed);
    put_pair(&out, " overlapped ", overlapped);
    put_pair(&out, " heard ", heard);
    put(&out, "\n");
    for (u32 i = 0; i < words->threads; i++)
        worker_close(&hands[i].worker);
    free(all);
    return DONE;
}

int main(int count, char **given)
{
    signal(SIGPIPE, SIG_IGN);
    Words words = {0};
    int status;
    if (!words_read(count - 1, given + 1, &words)) {
        put(&err, "error: usage\n");
        status = USAGE;
    } else {
        crc_tables();
        gold_tables();
        status = words.command == SWEEP ? run_sweep(&words) : run_slot(&words);
    }
    if (!write_all(1, out.p, out.n) || !write_all(2, err.p, err.n))
        return WRITE_FAULT;
    return status;
}

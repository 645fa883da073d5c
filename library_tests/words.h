/* For the programs beside it: the words of docs/FORMATS.md for the numbers of nrpdcch.h, and the texts that the program
 * prints. */
#ifndef WORDS_H
#define WORDS_H
#include "nrpdcch.h"
#include "tests.h"
#include <stdarg.h>

static const char *const format_words[] = {"0_0", "1_0", "order", "0_1", "1_1"};
static const char *const name_words[] = {
    "", "fdra", "tdra", "hopping", "vrb", "mcs", "ndi", "rv", "harq", "dai", "tpc", "pucch", "timing", "preamble",
    "supplementary", "ssb", "mask", "reserved", "bwp", "bundling", "rate_match", "zp_csi_rs", "mcs2", "ndi2", "rv2", "dai2",
    "sri", "precoding", "ports", "tci", "srs", "csi", "cbgti", "flush", "ptrs", "beta", "dmrs", "ulsch"};
static const char *const key_words[] = {
    "version", "cell", "mu", "blocks", "initial_downlink", "initial_uplink", "coreset0", "handsets", "name", "rnti", "downlink",
    "uplink", "codebook", "coresets", "sets", "uplink_fields", "downlink_fields", "start", "size", "number", "groups",
    "duration", "interleave", "dmrs_id", "bundle", "rows", "shift", "coreset", "kind", "period", "offset", "symbols",
    "candidates", "base", "bwps", "allocation", "rbg_config", "tdra", "hopping", "second_dai", "transform", "dmrs_type",
    "dmrs_length", "srs_resources", "csi_request", "cbg", "ptrs", "beta", "interleaved", "bundling", "rate_match", "zp_sets",
    "codewords", "timing", "tci", "flush"};
static const char *const reason_words[] = {"", "not json", "missing", "unknown", "wrong kind", "out of range", "conflict"};
static const char *const part_words[] = {"", "reliability", "input order"};

enum { FORMATS = 5, NAMES = 38, KEYS = 56, REASONS = 7, PARTS = 3 };

/* A text that is made piece by piece. */
typedef struct {
    char at[1 << 16];
    size_t size;
} text;

static inline void add(text *to, const char *form, ...)
{
    va_list parts;
    va_start(parts, form);
    int more = vsnprintf(to->at + to->size, sizeof to->at - to->size, form, parts);
    va_end(parts);
    if (more < 0 || (size_t)more >= sizeof to->at - to->size) {
        printf("a text is too long\n");
        exit(2);
    }
    to->size += (size_t)more;
}

/* The word of a number, or a word that no text has. */
static inline const char *word(const char *const *words, uint32_t count, uint32_t number)
{
    return number < count ? words[number] : "(no word)";
}

/* The number of a word, or one that has none. */
static inline uint32_t number_of(const char *const *words, uint32_t count, const char *wanted)
{
    uint32_t number = 0;
    while (number < count && strcmp(words[number], wanted))
        number++;
    return number;
}

static inline void add_watch(text *to, const nrpdcch_watch *watch)
{
    add(to, "set %u symbol %u level %u candidate %u size %u", watch->set, watch->symbol, watch->level, watch->candidate,
        watch->size);
}

static inline void add_heard(text *to, const nrpdcch_heard *heard)
{
    add(to, "%s", word(format_words, FORMATS, heard->format));
    for (uint32_t i = 0; i < heard->count && i < 32; i++)
        add(to, " %s=%u", word(name_words, NAMES, heard->fields[i].name), heard->fields[i].value);
}

static inline void add_silence(text *to, const nrpdcch_silence *silence)
{
    switch (silence->stage) {
    case NRPDCCH_SPOT:
        add(to, "%s at symbol %u subcarrier %u", silence->flaw == NRPDCCH_NO_POINT ? "empty" : "reference", silence->symbol,
            silence->subcarrier);
        break;
    case NRPDCCH_REPEAT: add(to, "repeat at bit %zu", silence->at); break;
    case NRPDCCH_CODE: add(to, "code"); break;
    case NRPDCCH_CRC: add(to, "crc"); break;
    case NRPDCCH_NO_PAYLOAD: add(to, "format"); break;
    default: add(to, "(no stage)");
    }
}

static inline void add_settings_fault(text *to, const nrpdcch_fault *fault)
{
    add(to, "error: settings: %s", fault->count ? "" : "file");
    for (uint32_t i = 0; i < fault->count && i < 6; i++)
        if (fault->steps[i].element)
            add(to, "%s%u", i ? "/" : "", fault->steps[i].value);
        else
            add(to, "%s%s", i ? "/" : "", word(key_words, KEYS, fault->steps[i].value));
    add(to, ": %s\n", word(reason_words, REASONS, fault->reason));
}

static inline void add_table_fault(text *to, const nrpdcch_fault *fault)
{
    add(to, "error: %s: ", word(part_words, PARTS, fault->part));
    switch (fault->reason) {
    case NRPDCCH_BAD_BYTE: add(to, "bad byte at %zu\n", fault->at); break;
    case NRPDCCH_TOO_LARGE: add(to, "value %u at %zu too large\n", fault->value, fault->at); break;
    case NRPDCCH_REPEATED: add(to, "value %u repeated\n", fault->value); break;
    default: add(to, "%u values\n", fault->value);
    }
}

#endif

/*
 * nrpdcch: the downlink control channel of 5G NR (PDCCH), for C11 and C++.
 *
 * A cell is read once, from its settings and the two tables of the polar code, and stands behind a handle. Then each call
 * names a handset of the cell, a frame and a slot, and works on a grid in the caller's memory.
 *
 * Status. Each call answers one of the numbers of `enum nrpdcch_status`; 0 is success. The causes of a refusal are tried in
 * the order in which the comment on the call lists them, and the first one that holds is answered. NRPDCCH_NO_MEMORY may come
 * at any call that says that it takes memory, at any time, in place of every other status but NRPDCCH_CLOSED and
 * NRPDCCH_OPEN. A call writes what its comment says and nothing else.
 *
 * Grid. A grid of so many blocks is 14 * 12 * blocks bytes, symbol by symbol and in a symbol by rising subcarrier. A byte is
 * one of `enum nrpdcch_point`: 0 for nothing, 1 to 4 for the QPSK points of the bits 00, 01, 10 and 11.
 *
 * What the caller owes, and no call can judge:
 * - a handle is all zeros before it is opened for the first time; then nobody but these calls writes into it, and it isn't
 *   copied. Every opened handle is closed once, or its memory is lost;
 * - no pointer is null, also where the length behind it is 0, and each points to so many elements of its type;
 * - what a call writes overlaps nothing else that is handed to it;
 * - one call at a time for a handle, also for calls that only read the cell. Calls with different handles and buffers may
 *   run at once, in different threads: there is no state but the handle's. No call from a signal handler;
 * - a `bool` is 0 or 1;
 * - the stack of the thread has room: 64 KiB is enough for any call but nrpdcch_cell_open, which takes up to 128 KiB on settings
 *   that are nested deeper than any that are legal.
 */
#ifndef NRPDCCH_H
#define NRPDCCH_H

#include <stdbool.h>
#include <stddef.h>
#include <stdint.h>

#ifdef __cplusplus
extern "C" {
#endif

/* What a call answers. */
enum nrpdcch_status {
    NRPDCCH_DONE = 0,         /* it did what it says */
    NRPDCCH_ARGUMENT = 1,     /* a number is out of range: mu 0 to 3, frame 0 to 1023, slot below 10 * 2^mu, blocks 6 to 275 */
    NRPDCCH_NO_MEMORY = 2,    /* there was no memory */
    NRPDCCH_CLOSED = 3,       /* nothing is open behind the handle */
    NRPDCCH_OPEN = 4,         /* the handle is open already */
    NRPDCCH_SETTINGS = 5,     /* the settings are refused */
    NRPDCCH_TABLE = 6,        /* a table is refused */
    NRPDCCH_OVER = 7,         /* the common sets exceed the budget of the slot: the handset has no plan */
    NRPDCCH_NO_HANDSET = 8,   /* the cell has no such handset */
    NRPDCCH_NO_WATCH = 9,     /* the plan has no watch of this number */
    NRPDCCH_NO_FORMAT = 10,   /* no format has this number */
    NRPDCCH_NOT_CARRIED = 11, /* the watch doesn't carry the format */
    NRPDCCH_FIELD = 12,       /* the field values make no payload */
    NRPDCCH_SILENT = 13,      /* nothing is heard at the watch */
    NRPDCCH_GRID_LENGTH = 14, /* the grid has another length than the carrier's */
    NRPDCCH_GRID_BYTE = 15,   /* a byte of the grid is no point */
    NRPDCCH_SMALL = 16,       /* a buffer of the caller is too small */
    NRPDCCH_GRID_TEXT = 17    /* the text is that of no grid */
};

/* What stands at a place of a grid. */
enum nrpdcch_point {
    NRPDCCH_EMPTY = 0,
    NRPDCCH_P00 = 1,
    NRPDCCH_P01 = 2,
    NRPDCCH_P10 = 3,
    NRPDCCH_P11 = 4
};

/* The formats (3GPP TS 38.212, 7.3.1). */
enum nrpdcch_format {
    NRPDCCH_F00 = 0,   /* 0_0 */
    NRPDCCH_F10 = 1,   /* 1_0 */
    NRPDCCH_ORDER = 2, /* 1_0 as a PDCCH order */
    NRPDCCH_F01 = 3,   /* 0_1 */
    NRPDCCH_F11 = 4    /* 1_1 */
};

/* The kinds of search space sets. */
enum nrpdcch_kind {
    NRPDCCH_COMMON = 0,  /* common: formats 0_0, 1_0 and the order, at the common size */
    NRPDCCH_FALLBACK = 1, /* of one handset, for the same formats at the handset's size */
    NRPDCCH_SPECIFIC = 2 /* of one handset, for formats 0_1 and 1_1 */
};

/* The names of the fields, in brackets the word that the texts have for each (3GPP TS 38.212, 7.3.1.1 and 7.3.1.2). */
enum nrpdcch_name {
    NRPDCCH_IDENTIFIER = 0,    /* uplink or downlink: fixed by the format, never given and never heard */
    NRPDCCH_FDRA = 1,          /* frequency domain resource assignment ("fdra") */
    NRPDCCH_TDRA = 2,          /* time domain resource assignment ("tdra") */
    NRPDCCH_HOPPING = 3,       /* frequency hopping flag ("hopping") */
    NRPDCCH_VRB = 4,           /* mapping of virtual to physical blocks ("vrb") */
    NRPDCCH_MCS = 5,           /* modulation and coding scheme ("mcs") */
    NRPDCCH_NDI = 6,           /* new data indicator ("ndi") */
    NRPDCCH_RV = 7,            /* redundancy version ("rv") */
    NRPDCCH_HARQ = 8,          /* HARQ process number ("harq") */
    NRPDCCH_DAI = 9,           /* downlink assignment index ("dai") */
    NRPDCCH_TPC = 10,          /* transmit power control command ("tpc") */
    NRPDCCH_PUCCH = 11,        /* uplink control channel resource ("pucch") */
    NRPDCCH_TIMING = 12,       /* timing of the HARQ feedback ("timing") */
    NRPDCCH_PREAMBLE = 13,     /* random access preamble ("preamble") */
    NRPDCCH_SUPPLEMENTARY = 14, /* supplementary uplink ("supplementary") */
    NRPDCCH_SSB = 15,          /* synchronization signal block ("ssb") */
    NRPDCCH_MASK = 16,         /* mask of the random access occasions ("mask") */
    NRPDCCH_RESERVED = 17,     /* reserved bits ("reserved") */
    NRPDCCH_BWP = 18,          /* bandwidth part ("bwp") */
    NRPDCCH_BUNDLING = 19,     /* size of the bundles of blocks ("bundling") */
    NRPDCCH_RATE_MATCH = 20,   /* rate matching indicator ("rate_match") */
    NRPDCCH_ZP_CSI_RS = 21,    /* trigger of zero power reference signals ("zp_csi_rs") */
    NRPDCCH_MCS2 = 22,         /* those of the second codeword ("mcs2") */
    NRPDCCH_NDI2 = 23,         /* ("ndi2") */
    NRPDCCH_RV2 = 24,          /* ("rv2") */
    NRPDCCH_DAI2 = 25,         /* second downlink assignment index ("dai2") */
    NRPDCCH_SRI = 26,          /* sounding resource ("sri") */
    NRPDCCH_PRECODING = 27,    /* precoding and layers ("precoding") */
    NRPDCCH_PORTS = 28,        /* antenna ports ("ports") */
    NRPDCCH_TCI = 29,          /* transmission configuration indication ("tci") */
    NRPDCCH_SRS = 30,          /* sounding request ("srs") */
    NRPDCCH_CSI = 31,          /* request of channel state information ("csi") */
    NRPDCCH_CBGTI = 32,        /* code block groups that are sent ("cbgti") */
    NRPDCCH_FLUSH = 33,        /* whether code block groups are flushed ("flush") */
    NRPDCCH_PTRS = 34,         /* phase tracking association ("ptrs") */
    NRPDCCH_BETA = 35,         /* beta offset ("beta") */
    NRPDCCH_DMRS = 36,         /* start of the demodulation reference signal ("dmrs") */
    NRPDCCH_ULSCH = 37         /* whether there is data on the uplink ("ulsch") */
};

/* The keys of the settings, in `value` of a step. Each is named as its word. */
enum nrpdcch_key {
    NRPDCCH_KEY_VERSION = 0,
    NRPDCCH_KEY_CELL = 1,
    NRPDCCH_KEY_MU = 2,
    NRPDCCH_KEY_BLOCKS = 3,
    NRPDCCH_KEY_INITIAL_DOWNLINK = 4,
    NRPDCCH_KEY_INITIAL_UPLINK = 5,
    NRPDCCH_KEY_CORESET0 = 6,
    NRPDCCH_KEY_HANDSETS = 7,
    NRPDCCH_KEY_NAME = 8,
    NRPDCCH_KEY_RNTI = 9,
    NRPDCCH_KEY_DOWNLINK = 10,
    NRPDCCH_KEY_UPLINK = 11,
    NRPDCCH_KEY_CODEBOOK = 12,
    NRPDCCH_KEY_CORESETS = 13,
    NRPDCCH_KEY_SETS = 14,
    NRPDCCH_KEY_UPLINK_FIELDS = 15,
    NRPDCCH_KEY_DOWNLINK_FIELDS = 16,
    NRPDCCH_KEY_START = 17,
    NRPDCCH_KEY_SIZE = 18,
    NRPDCCH_KEY_NUMBER = 19,
    NRPDCCH_KEY_GROUPS = 20,
    NRPDCCH_KEY_DURATION = 21,
    NRPDCCH_KEY_INTERLEAVE = 22,
    NRPDCCH_KEY_DMRS_ID = 23,
    NRPDCCH_KEY_BUNDLE = 24,
    NRPDCCH_KEY_ROWS = 25,
    NRPDCCH_KEY_SHIFT = 26,
    NRPDCCH_KEY_CORESET = 27,
    NRPDCCH_KEY_KIND = 28,
    NRPDCCH_KEY_PERIOD = 29,
    NRPDCCH_KEY_OFFSET = 30,
    NRPDCCH_KEY_SYMBOLS = 31,
    NRPDCCH_KEY_CANDIDATES = 32,
    NRPDCCH_KEY_BASE = 33,
    NRPDCCH_KEY_BWPS = 34,
    NRPDCCH_KEY_ALLOCATION = 35,
    NRPDCCH_KEY_RBG_CONFIG = 36,
    NRPDCCH_KEY_TDRA = 37,
    NRPDCCH_KEY_HOPPING = 38,
    NRPDCCH_KEY_SECOND_DAI = 39,
    NRPDCCH_KEY_TRANSFORM = 40,
    NRPDCCH_KEY_DMRS_TYPE = 41,
    NRPDCCH_KEY_DMRS_LENGTH = 42,
    NRPDCCH_KEY_SRS_RESOURCES = 43,
    NRPDCCH_KEY_CSI_REQUEST = 44,
    NRPDCCH_KEY_CBG = 45,
    NRPDCCH_KEY_PTRS = 46,
    NRPDCCH_KEY_BETA = 47,
    NRPDCCH_KEY_INTERLEAVED = 48,
    NRPDCCH_KEY_BUNDLING = 49,
    NRPDCCH_KEY_RATE_MATCH = 50,
    NRPDCCH_KEY_ZP_SETS = 51,
    NRPDCCH_KEY_CODEWORDS = 52,
    NRPDCCH_KEY_TIMING = 53,
    NRPDCCH_KEY_TCI = 54,
    NRPDCCH_KEY_FLUSH = 55
};

/* Which table, in `part` of a fault. */
enum nrpdcch_part {
    NRPDCCH_RELIABILITY = 1,
    NRPDCCH_INPUT_ORDER = 2
};

/* Why settings are refused, in `reason` of a fault, with NRPDCCH_SETTINGS. */
enum nrpdcch_settings_reason {
    NRPDCCH_NOT_JSON = 1,     /* the text is no JSON */
    NRPDCCH_MISSING = 2,      /* a key is absent */
    NRPDCCH_UNKNOWN = 3,      /* an object has a key that it may not have */
    NRPDCCH_WRONG_KIND = 4,   /* a value is of another kind than its key's */
    NRPDCCH_OUT_OF_RANGE = 5, /* a value is out of its range */
    NRPDCCH_CONFLICT = 6      /* a value contradicts another one */
};

/* Why a table is refused, in `reason`, with NRPDCCH_TABLE. */
enum nrpdcch_table_reason {
    NRPDCCH_BAD_BYTE = 1,  /* the byte at `at` is neither a digit nor a separator */
    NRPDCCH_TOO_LARGE = 2, /* the number that begins at `at` is too large: `value`, which is held at 65,535 */
    NRPDCCH_REPEATED = 3,  /* the number `value` stood before */
    NRPDCCH_COUNT = 4      /* the text ends after `value` numbers, which are too few */
};

/* Why field values make no payload, in `reason`, with NRPDCCH_FIELD. */
enum nrpdcch_field_reason {
    NRPDCCH_NO_FIELD = 1,  /* entry `at` of the list is of no field that one may choose in the format */
    NRPDCCH_TOO_WIDE = 2,  /* the value of entry `at` needs more than the field's `value` bits */
    NRPDCCH_ALL_ONES = 3   /* an assignment of all ones in format 1_0 would make it an order */
};

/* The stage of hearing that fails first, in `stage` of a silence. */
enum nrpdcch_stage {
    NRPDCCH_NO_STAGE = 0, /* with every status but NRPDCCH_SILENT */
    NRPDCCH_SPOT = 1,     /* a place of the candidate is bad: `symbol`, `subcarrier` and `flaw` say which, and why */
    NRPDCCH_REPEAT = 2,   /* received bit `at` differs from the one that it repeats */
    NRPDCCH_CODE = 3,     /* the received bits are no block's code */
    NRPDCCH_CRC = 4,      /* the parity is not that of a payload of this handset */
    NRPDCCH_NO_PAYLOAD = 5 /* no format that the watch carries has the payload */
};

/* What is wrong with a place, in `flaw` of a silence. */
enum nrpdcch_flaw {
    NRPDCCH_NO_FLAW = 0,  /* with every other stage */
    NRPDCCH_NO_POINT = 1, /* it is for data and has no point */
    NRPDCCH_REFERENCE = 2 /* it is for a reference point and has not that point */
};

/* A cell with its tables: starts as {0}, which is closed. The fields are the library's own. */
typedef struct {
    void *at;
    bool full;
} nrpdcch_cell;

/* What is on a cell's carrier. Its grids have 14 * 12 * blocks bytes; its frames have 10 * 2^mu slots. */
typedef struct {
    uint32_t mu;
    uint32_t blocks;
    uint32_t handsets;
} nrpdcch_carrier;

/* One place where a handset looks, numbered from 0 in search order. */
typedef struct {
    uint32_t set;       /* the number of the search space set */
    uint32_t kind;      /* its kind, of `enum nrpdcch_kind` */
    uint32_t symbol;    /* the symbol at which the candidate begins */
    uint32_t level;     /* the aggregation level */
    uint32_t candidate; /* the number of the candidate at its level */
    uint32_t size;      /* bits of the payload */
    uint32_t rnti;      /* the identity that masks the parity */
    bool uplink;        /* carries 0_0, or 0_1 where the set is specific */
    bool downlink;      /* carries 1_0 and the order, or 1_1 where the set is specific */
} nrpdcch_watch;

/* A field with its value. `name` is of `enum nrpdcch_name`. */
typedef struct {
    uint32_t name;
    uint32_t value;
} nrpdcch_field;

/* What is heard at a watch: its number, the format, and the first `count` of `fields`; the others are all zeros. */
typedef struct {
    uint32_t watch;
    uint32_t format;
    uint32_t count;
    nrpdcch_field fields[32];
} nrpdcch_heard;

/* Why nothing is heard. Numbers that the stage doesn't need are 0. With NRPDCCH_GRID_BYTE `at` is the place of the byte. */
typedef struct {
    uint32_t stage;
    uint32_t symbol;
    uint32_t subcarrier;
    uint32_t flaw;
    size_t at;
} nrpdcch_silence;

/* One step from a JSON value to a value in it: to key number `value`, or to element `value` of a list. */
typedef struct {
    uint32_t value;
    bool element;
} nrpdcch_step;

/* What is wrong with what was handed over. Numbers that the status and the reason don't need are 0.
   The first `count` of `steps` are the way from the whole of the settings to the value at fault. */
typedef struct {
    uint32_t part;
    uint32_t reason;
    uint32_t value;
    uint32_t count;
    size_t at;
    nrpdcch_step steps[6];
} nrpdcch_fault;

/* The numbers of a grid. */
typedef struct {
    uint32_t mu;
    uint32_t frame;
    uint32_t slot;
    uint32_t blocks;
} nrpdcch_head;

/*
 * Opens a cell: reads its settings (JSON) and the two tables, and keeps the legal cell and the tables behind the handle.
 * Causes: NRPDCCH_OPEN; NRPDCCH_SETTINGS, with `reason` and `steps`; NRPDCCH_TABLE, the reliability first, with `part`,
 * `reason`, `at` and `value`. Takes memory.
 * After a refusal the handle is as before, and `fault` is written. After success `fault` is as before.
 */
uint32_t nrpdcch_cell_open(const uint8_t *settings, size_t settings_length,
                           const uint8_t *reliability, size_t reliability_length,
                           const uint8_t *input_order, size_t input_order_length,
                           nrpdcch_cell *cell, nrpdcch_fault *fault);

/*
 * Closes a handle and gives its memory back. Causes: NRPDCCH_CLOSED. In both cases the handle is closed afterwards, and may
 * be opened again.
 */
uint32_t nrpdcch_cell_close(nrpdcch_cell *cell);

/*
 * The place of the handset of a name in the cell's list, from 0. Causes: NRPDCCH_CLOSED; NRPDCCH_NO_HANDSET.
 * After a refusal `handset` is as before.
 */
uint32_t nrpdcch_cell_handset(nrpdcch_cell *cell, const uint8_t *name, size_t name_length, uint32_t *handset);

/* The numerology, the blocks and the number of handsets of the cell. Causes: NRPDCCH_CLOSED, which leaves `carrier` as before. */
uint32_t nrpdcch_cell_carrier(nrpdcch_cell *cell, nrpdcch_carrier *carrier);

/*
 * The watches of a handset in a slot, in search order: watch i goes to entry i of `watches`, and entries behind the last
 * watch are as before. `count` is how many watches there are.
 * Causes: NRPDCCH_CLOSED; NRPDCCH_NO_HANDSET; NRPDCCH_ARGUMENT (frame, slot); NRPDCCH_OVER; NRPDCCH_SMALL: `count` is how
 * many entries it needs. Takes memory.
 * After a refusal `watches` is as before; `count` is 0 but for NRPDCCH_SMALL.
 */
uint32_t nrpdcch_plan(nrpdcch_cell *cell, uint32_t handset, uint32_t frame, uint32_t slot,
                      nrpdcch_watch *watches, size_t watches_length, size_t *count);

/*
 * What a handset hears at one of its watches on a grid of the slot.
 * Causes: NRPDCCH_CLOSED; NRPDCCH_NO_HANDSET; NRPDCCH_ARGUMENT (frame, slot); NRPDCCH_OVER; NRPDCCH_NO_WATCH;
 * NRPDCCH_GRID_LENGTH; NRPDCCH_GRID_BYTE: the first such byte stands at `at` of `silence`; NRPDCCH_SILENT: `silence` tells
 * the stage. Takes memory.
 * After a refusal `heard` is as before, and `silence` is written. After success `silence` is as before.
 */
uint32_t nrpdcch_hear(nrpdcch_cell *cell, uint32_t handset, uint32_t frame, uint32_t slot, uint32_t watch,
                      const uint8_t *grid, size_t grid_length, nrpdcch_heard *heard, nrpdcch_silence *silence);

/*
 * What a handset hears at all of its watches on a grid of the slot: an entry for each watch at which something is heard, by
 * rising watch. Entries behind the last one are as before. `count` is how many there are.
 * Causes: NRPDCCH_CLOSED; NRPDCCH_NO_HANDSET; NRPDCCH_ARGUMENT (frame, slot); NRPDCCH_OVER; NRPDCCH_GRID_LENGTH;
 * NRPDCCH_GRID_BYTE: `count` is the place of the first such byte; NRPDCCH_SMALL: `count` is how many entries it needs. Takes
 * memory.
 * After a refusal `found` is as before; `count` is 0 but for the two statuses that say what it is.
 */
uint32_t nrpdcch_search(nrpdcch_cell *cell, uint32_t handset, uint32_t frame, uint32_t slot,
                        const uint8_t *grid, size_t grid_length,
                        nrpdcch_heard *found, size_t found_length, size_t *count);

/*
 * Spells the fields of a format at a watch of a handset: the grid gets the points of the candidate, with its reference
 * points, and every other place keeps its own. A field that isn't given is 0; of a field that is given twice the last value
 * counts.
 * Causes: NRPDCCH_CLOSED; NRPDCCH_NO_HANDSET; NRPDCCH_ARGUMENT (frame, slot); NRPDCCH_OVER; NRPDCCH_NO_WATCH;
 * NRPDCCH_NO_FORMAT; NRPDCCH_NOT_CARRIED; NRPDCCH_GRID_LENGTH; NRPDCCH_GRID_BYTE: the first such byte stands at `at` of
 * `fault`; NRPDCCH_FIELD, with `reason`, `at` and `value`. Takes memory.
 * After a refusal the grid is as before, and `fault` is written. After success `fault` is as before.
 */
uint32_t nrpdcch_spell(nrpdcch_cell *cell, uint32_t handset, uint32_t frame, uint32_t slot, uint32_t watch, uint32_t format,
                       const nrpdcch_field *fields, size_t fields_length, uint8_t *grid, size_t grid_length,
                       nrpdcch_fault *fault);

/*
 * The text of a grid: the first `written` bytes of `text`, with no zero behind them; those behind are as before.
 * Causes: NRPDCCH_ARGUMENT (mu, frame, slot, blocks); NRPDCCH_GRID_LENGTH; NRPDCCH_GRID_BYTE: `written` is the place of the
 * first such byte; NRPDCCH_SMALL: `written` is how many bytes it needs. Takes memory.
 * After a refusal `text` is as before; `written` is 0 but for the two statuses that say what it is.
 */
uint32_t nrpdcch_grid_text(uint32_t mu, uint32_t frame, uint32_t slot, uint32_t blocks,
                           const uint8_t *grid, size_t grid_length, uint8_t *text, size_t text_length, size_t *written);

/*
 * The grid of a text: its numbers go to `head`, and its points to the first 14 * 12 * blocks bytes of `grid`; those behind
 * are as before.
 * Causes: NRPDCCH_GRID_TEXT: `at` of `fault` is how many first bytes are those of some grid's text; NRPDCCH_SMALL: `at` of
 * `fault` is how many bytes the grid needs. Takes memory.
 * After a refusal `grid` and `head` are as before, and `fault` is written. After success `fault` is as before.
 */
uint32_t nrpdcch_grid_read(const uint8_t *text, size_t text_length, uint8_t *grid, size_t grid_length,
                           nrpdcch_head *head, nrpdcch_fault *fault);

#ifdef __cplusplus
}
#endif

#endif

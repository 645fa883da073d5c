/* The program of bench/yardstick by the calls of yardstick.h: its own source, and the numbers of nrpdcch.h for its own. */
#define main yardstick_main
#include "yardstick/pdcch.c"
#undef main
#include "points.h"
#include "yardstick.h"

enum { MOST_FIELDS = 64 };

static Cell cell;
static Worker worker;
static Plan *plan;
static Grid grid;

/* The program's numbers for those of `enum nrpdcch_format`. */
static const u8 formats[] = {[NRPDCCH_F00] = F00, [NRPDCCH_F10] = F10, [NRPDCCH_ORDER] = ORDER, [NRPDCCH_F01] = F01,
                             [NRPDCCH_F11] = F11};

/* The program's numbers for those of `enum nrpdcch_name`. */
static const u8 names[] = {
    [NRPDCCH_FDRA] = FIELD_FDRA, [NRPDCCH_TDRA] = FIELD_TDRA, [NRPDCCH_HOPPING] = FIELD_HOPPING, [NRPDCCH_VRB] = FIELD_VRB,
    [NRPDCCH_MCS] = FIELD_MCS, [NRPDCCH_NDI] = FIELD_NDI, [NRPDCCH_RV] = FIELD_RV, [NRPDCCH_HARQ] = FIELD_HARQ,
    [NRPDCCH_DAI] = FIELD_DAI, [NRPDCCH_TPC] = FIELD_TPC, [NRPDCCH_PUCCH] = FIELD_PUCCH, [NRPDCCH_TIMING] = FIELD_TIMING,
    [NRPDCCH_PREAMBLE] = FIELD_PREAMBLE, [NRPDCCH_SUPPLEMENTARY] = FIELD_SUPPLEMENTARY, [NRPDCCH_SSB] = FIELD_SSB,
    [NRPDCCH_MASK] = FIELD_MASK, [NRPDCCH_RESERVED] = FIELD_RESERVED, [NRPDCCH_BWP] = FIELD_BWP,
    [NRPDCCH_BUNDLING] = FIELD_BUNDLING, [NRPDCCH_RATE_MATCH] = FIELD_RATE_MATCH, [NRPDCCH_ZP_CSI_RS] = FIELD_ZP_CSI_RS,
    [NRPDCCH_MCS2] = FIELD_MCS2, [NRPDCCH_NDI2] = FIELD_NDI2, [NRPDCCH_RV2] = FIELD_RV2, [NRPDCCH_DAI2] = FIELD_DAI2,
    [NRPDCCH_SRI] = FIELD_SRI, [NRPDCCH_PRECODING] = FIELD_PRECODING, [NRPDCCH_PORTS] = FIELD_PORTS, [NRPDCCH_TCI] = FIELD_TCI,
    [NRPDCCH_SRS] = FIELD_SRS, [NRPDCCH_CSI] = FIELD_CSI, [NRPDCCH_CBGTI] = FIELD_CBGTI, [NRPDCCH_FLUSH] = FIELD_FLUSH,
    [NRPDCCH_PTRS] = FIELD_PTRS, [NRPDCCH_BETA] = FIELD_BETA, [NRPDCCH_DMRS] = FIELD_DMRS, [NRPDCCH_ULSCH] = FIELD_ULSCH};

/* The place of a number in a table of the program's. */
static u32 number_in(const u8 *table, u32 count, u8 wanted)
{
    u32 number = 0;
    while (number < count && table[number] != wanted)
        number++;
    return number;
}

bool yardstick_open(const uint8_t *settings, size_t settings_length, const uint8_t *reliability_text, size_t reliability_length,
                    const uint8_t *input_order_text, size_t input_order_length)
{
    static bool has_tables;
    if (!has_tables) {
        crc_tables();
        gold_tables();
        has_tables = true;
    }
    cell = (Cell){0};
    if (!cell_read(&cell, settings, settings_length) ||
        !table_read("", reliability_text, reliability_length, 1024, reliability) ||
        !table_read("", input_order_text, input_order_length, 164, input_order))
        return false;
    Prepared *prepared = arena_zero((size_t)cell.handset_count * sizeof *prepared);
    for (int i = 0; i < cell.handset_count; i++)
        prepared[i] = prepare(&cell, i, prepared);
    worker_open(&worker, &cell, prepared);
    grid = (Grid){.mu = cell.mu, .blocks = cell.blocks, .cells = arena_zero(14 * (size_t)cell.blocks * sizeof *grid.cells)};
    return true;
}

void yardstick_close(void)
{
    worker_close(&worker);
}

uint32_t yardstick_plan(uint32_t handset, uint32_t frame, uint32_t slot, nrpdcch_watch *watches, size_t *count)
{
    grid.frame = (int)frame;
    grid.slot = (int)slot;
    plan = plan_for(&worker, (int)handset, (int)frame, (int)slot);
    *count = plan->over ? 0 : plan->count;
    for (size_t i = 0; i < *count; i++) {
        const Watch *w = &plan->watches[i];
        watches[i] = (nrpdcch_watch){w->set, w->kind, w->symbol, 1u << w->level, w->candidate, w->size, w->rnti, w->up, w->down};
    }
    return plan->over ? NRPDCCH_OVER : NRPDCCH_DONE;
}

/* The fields of a payload that are shown. */
static void show(const Watch *watch, const Answer *answer, nrpdcch_heard *heard)
{
    const List *list = list_for(watch, answer->format);
    Bits left = answer->payload;
    for (int i = 0; i < list->count; left <<= list->width[i++])
        if (i > 0 && list->width[i] && !(answer->format == ORDER && list->name[i] == FIELD_FDRA))
            heard->fields[heard->count++] = (nrpdcch_field){number_in(names, COUNT(names), list->name[i]),
                                                            (u32)(left >> (128 - list->width[i]))};
}

static nrpdcch_silence silence_of(const Answer *answer)
{
    nrpdcch_silence silence = {0};
    switch (answer->what) {
    case EMPTY: case REFERENCE:
        silence.stage = NRPDCCH_SPOT;
        silence.symbol = answer->symbol;
        silence.subcarrier = (u32)answer->at;
        silence.flaw = answer->what == EMPTY ? NRPDCCH_NO_POINT : NRPDCCH_REFERENCE;
        break;
    case REPEAT:
        silence.stage = NRPDCCH_REPEAT;
        silence.at = (size_t)answer->at;
        break;
    case CODE: silence.stage = NRPDCCH_CODE; break;
    case CRC: silence.stage = NRPDCCH_CRC; break;
    default: silence.stage = NRPDCCH_NO_PAYLOAD;
    }
    return silence;
}

uint32_t yardstick_hear(uint32_t watch, const uint8_t *points, nrpdcch_heard *heard, nrpdcch_silence *silence)
{
    Answer answer;
    pack_all(points, &grid);
    if (!hear(&worker, &plan->watches[watch], &grid, &answer)) {
        *silence = silence_of(&answer);
        return NRPDCCH_SILENT;
    }
    memset(heard, 0, sizeof *heard);
    heard->watch = watch;
    heard->format = number_in(formats, COUNT(formats), (u8)answer.format);
    show(&plan->watches[watch], &answer, heard);
    return NRPDCCH_DONE;
}

uint32_t yardstick_spell(uint32_t watch, uint32_t format, const nrpdcch_field *fields, size_t fields_length, uint8_t *points,
                         nrpdcch_fault *fault)
{
    const Watch *at = &plan->watches[watch];
    const List *list = list_for(at, formats[format]);
    Given given[MOST_FIELDS];
    Bits payload;
    Refusal why;
    if ((at->kind == SPECIFIC) != (format == NRPDCCH_F01 || format == NRPDCCH_F11) || !list)
        return NRPDCCH_NOT_CARRIED;
    for (size_t i = 0; i < fields_length; i++)
        given[i] = (Given){fields[i].name > 0 && fields[i].name < COUNT(names) ? names[fields[i].name] : -1, fields[i].value,
                           "", 0};
    if (!pack(list, formats[format], given, (u32)fields_length, &payload, &why)) {
        bool is_unknown = why.cause == FIELD_UNKNOWN, is_wide = why.cause == FIELD_TOO_LARGE;
        memset(fault, 0, sizeof *fault);
        fault->reason = is_unknown ? NRPDCCH_NO_FIELD : is_wide ? NRPDCCH_TOO_WIDE : NRPDCCH_ALL_ONES;
        fault->at = why.a;
        fault->value = why.width;
        return NRPDCCH_FIELD;
    }
    pack_all(points, &grid);
    put_signal(&worker, at, payload, &grid);
    unpack_all(&grid, points);
    return NRPDCCH_DONE;
}

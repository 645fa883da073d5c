/* A hostile caller: each call with everything wrong, of which one thing after the other is mended, so that each cause comes in
 * its turn; numbers at their limits and beyond; lengths of 0 and one too few or many; bytes that are no points; texts cut and
 * damaged. After each refusal what the header leaves as before has to be so. The word is the repository's top. */
#define _DEFAULT_SOURCE
#include "slots.h"

#ifdef SLOWLY
enum { STEP = 97 };
#else
enum { STEP = 1 };
#endif

enum { FILLING = 0xA5 };

/* The example one_grant, and a cell in whose slots the common sets of alpha exceed the budget. */
static slot of, over;
static nrpdcch_cell closed;
/* The arguments of a call, and where the answer's place has to be. */
typedef struct {
    nrpdcch_cell *cell;
    uint32_t handset, frame, slot, watch, format;
    const nrpdcch_field *fields;
    size_t fields_length, length, room, place;
    uint32_t reason, value;
} call;

/* A call with everything wrong. */
static const call all_wrong = {.cell = &closed, .handset = 1, .frame = 1024, .slot = 80, .watch = 1, .format = 5, .length = 1};

static void fill(void *at, size_t size)
{
    memset(at, FILLING, size);
}

static bool is_filled(const void *at, size_t size)
{
    for (const uint8_t *byte = at; size > 0; size--)
        if (*byte++ != FILLING)
            return false;
    return true;
}

/* Memory of exactly that size, so that a byte read or written beyond it is seen. */
static void *exactly(size_t size)
{
    void *at = malloc(size ? size : 1);
    if (!at)
        exit(2);
    fill(at, size);
    return at;
}

/* As much of the grid as the call says. */
static uint8_t *grid_of(const call *with)
{
    return memcpy(exactly(with->length), of.grid, with->length);
}

static bool is_zero_fault(const nrpdcch_fault *fault)
{
    bool is_zero = !fault->part && !fault->count;
    for (int i = 0; i < 6; i++)
        is_zero = is_zero && !fault->steps[i].value && !fault->steps[i].element;
    return is_zero;
}

static void plan_with(const call *with, uint32_t wanted)
{
    nrpdcch_watch *watches = exactly(with->room * sizeof *watches);
    size_t count;
    fill(&count, sizeof count);
    uint32_t status = nrpdcch_plan(with->cell, with->handset, with->frame, with->slot, watches, with->room, &count);
    CHECK(status == wanted, "the plan answers %u, wanted %u", status, wanted);
    CHECK(count == with->place, "the plan counts %zu, wanted %zu", count, with->place);
    CHECK(wanted == NRPDCCH_DONE || is_filled(watches, with->room * sizeof *watches), "a refused plan wrote watches: %u", wanted);
    free(watches);
}

static void hear_with(const call *with, uint32_t wanted)
{
    nrpdcch_heard heard;
    nrpdcch_silence silence;
    fill(&heard, sizeof heard);
    fill(&silence, sizeof silence);
    uint8_t *grid = grid_of(with);
    uint32_t status =
        nrpdcch_hear(with->cell, with->handset, with->frame, with->slot, with->watch, grid, with->length, &heard, &silence);
    CHECK(status == wanted, "hearing answers %u, wanted %u", status, wanted);
    CHECK(!memcmp(grid, of.grid, with->length), "hearing wrote to the grid: %u", wanted);
    free(grid);
    if (wanted == NRPDCCH_DONE) {
        CHECK(is_filled(&silence, sizeof silence), "hearing wrote a silence");
        return;
    }
    CHECK(is_filled(&heard, sizeof heard), "hearing wrote what it did not hear: %u", wanted);
    CHECK(silence.at == with->place, "the silence is at %zu, wanted %zu", silence.at, with->place);
    CHECK(wanted == NRPDCCH_SILENT || (!silence.stage && !silence.symbol && !silence.subcarrier && !silence.flaw),
          "a silence with the status %u", wanted);
}

static void search_with(const call *with, uint32_t wanted)
{
    nrpdcch_heard *found = exactly(with->room * sizeof *found);
    uint8_t *grid = grid_of(with);
    size_t count;
    fill(&count, sizeof count);
    uint32_t status =
        nrpdcch_search(with->cell, with->handset, with->frame, with->slot, grid, with->length, found, with->room, &count);
    CHECK(status == wanted, "the search answers %u, wanted %u", status, wanted);
    CHECK(count == with->place, "the search counts %zu, wanted %zu", count, with->place);
    CHECK(wanted == NRPDCCH_DONE || is_filled(found, with->room * sizeof *found), "a refused search wrote: %u", wanted);
    CHECK(!memcmp(grid, of.grid, with->length), "the search wrote to the grid: %u", wanted);
    free(found);
    free(grid);
}

static void spell_with(const call *with, uint32_t wanted)
{
    nrpdcch_fault fault;
    nrpdcch_field none[1];
    uint8_t *grid = grid_of(with);
    fill(&fault, sizeof fault);
    uint32_t status = nrpdcch_spell(with->cell, with->handset, with->frame, with->slot, with->watch, with->format,
                                    with->fields ? with->fields : none, with->fields_length, grid, with->length, &fault);
    CHECK(status == wanted, "spelling answers %u, wanted %u", status, wanted);
    if (wanted == NRPDCCH_DONE)
        memcpy(of.grid, grid, with->length);
    bool is_as_before = !memcmp(grid, of.grid, with->length);
    free(grid);
    CHECK(is_as_before, "refused spelling wrote to the grid: %u", wanted);
    if (wanted == NRPDCCH_DONE)
        CHECK(is_filled(&fault, sizeof fault), "spelling wrote a fault");
    else
        CHECK(is_zero_fault(&fault) && fault.at == with->place && fault.reason == with->reason && fault.value == with->value,
              "spelling: reason %u value %u at %zu with the status %u", fault.reason, fault.value, fault.at, wanted);
}

/* The causes that all calls of a slot have, in order; at the end the cell, the handset and the slot are right. */
static call right_slot(void (*with)(const call *, uint32_t))
{
    static const uint32_t high[] = {1, 2, 255, 256, 65535, 65536, 65537, 0x7FFFFFFF, 0x80000000, UINT32_MAX};
    call now = all_wrong;
    with(&now, NRPDCCH_CLOSED);
    now.cell = &over.cell;
    for (int i = 0; i < 10; i++)
        now.handset = high[i], with(&now, NRPDCCH_NO_HANDSET);
    now.handset = 0;
    with(&now, NRPDCCH_ARGUMENT);
    for (int i = 4; i < 10; i++)
        now.frame = high[i], with(&now, NRPDCCH_ARGUMENT);
    now.frame = 1023;
    with(&now, NRPDCCH_ARGUMENT);
    for (int i = 2; i < 10; i++)
        now.slot = high[i], with(&now, NRPDCCH_ARGUMENT);
    now.slot = 79;
    with(&now, NRPDCCH_OVER);
    now.cell = &of.cell;
    with(&now, NRPDCCH_ARGUMENT);
    now.slot = 20;
    with(&now, NRPDCCH_ARGUMENT);
    now.frame = 1024, now.slot = 0;
    with(&now, NRPDCCH_ARGUMENT);
    now.frame = 0;
    return now;
}

/* A byte of the grid that is no point: its place is told, also where later ones are none either. */
static void wrong_byte(call *now, void (*with)(const call *, uint32_t), size_t at, uint8_t byte)
{
    uint8_t kept = of.grid[at];
    of.grid[at] = byte;
    now->place = at;
    with(now, NRPDCCH_GRID_BYTE);
    of.grid[at] = kept;
}

/* Lengths of the grid, and bytes that are no points, up to a right grid. */
static void right_grid(call *now, void (*with)(const call *, uint32_t), uint32_t wanted)
{
    const size_t lengths[] = {0, 1, of.points - 1, of.points + 1, 2 * of.points};
    size_t place = now->place;
    now->place = 0;
    for (int i = 0; i < 5; i++)
        now->length = lengths[i], with(now, NRPDCCH_GRID_LENGTH);
    now->length = of.points;
    wrong_byte(now, with, 0, 5);
    wrong_byte(now, with, of.points - 1, 5);
    uint8_t last = of.grid[of.points - 1];
    of.grid[of.points - 1] = 255;
    for (unsigned byte = 5; byte < 256; byte += STEP)
        wrong_byte(now, with, byte * 31 % of.points, (uint8_t)byte);
    of.grid[of.points - 1] = last;
    now->place = place;
    with(now, wanted);
}

static void no_such_watch(call *now, void (*with)(const call *, uint32_t))
{
    static const uint32_t high[] = {1, 255, 256, 65535, 65536, 0x80000000, UINT32_MAX};
    for (int i = 0; i < 7; i++)
        now->watch = high[i], with(now, NRPDCCH_NO_WATCH);
    now->watch = 0;
}

static void try_plan(void)
{
    call now = right_slot(plan_with);
    now.place = 1;
    plan_with(&now, NRPDCCH_SMALL);
    now.room = 1;
    plan_with(&now, NRPDCCH_DONE);
    now.room = 3;
    plan_with(&now, NRPDCCH_DONE);
}

static void try_hear(void)
{
    call now = right_slot(hear_with);
    no_such_watch(&now, hear_with);
    right_grid(&now, hear_with, NRPDCCH_DONE);
    uint8_t kept = of.grid[0];
    of.grid[0] = NRPDCCH_EMPTY;
    hear_with(&now, NRPDCCH_SILENT);
    of.grid[0] = kept;
    now.frame = 1023, now.slot = 19;
    hear_with(&now, NRPDCCH_SILENT);
}

static void try_search(void)
{
    call now = right_slot(search_with);
    now.place = 1;
    right_grid(&now, search_with, NRPDCCH_SMALL);
    now.room = 1;
    search_with(&now, NRPDCCH_DONE);
    now.room = 3;
    search_with(&now, NRPDCCH_DONE);
    now.frame = 1023, now.slot = 19, now.room = 0, now.place = 0;
    search_with(&now, NRPDCCH_DONE);
}

/* The answers that the fields decide. The widths are those of format 1_0 on 51 blocks. */
static void try_fields(call *now)
{
    static const uint32_t no_names[] = {
        NRPDCCH_IDENTIFIER, NRPDCCH_HOPPING, NRPDCCH_BWP, NRPDCCH_ULSCH, 38, 255, 256, 257, 65536, 65537, 0x80000001, UINT32_MAX};
    static const uint32_t wide[] = {32, 255, 256, 65536, 0x80000000, UINT32_MAX};
    nrpdcch_field given[3] = {{NRPDCCH_MCS, 31}, {NRPDCCH_MCS, 0}, {NRPDCCH_MCS, 32}};
    now->fields = given, now->fields_length = 2, now->reason = NRPDCCH_NO_FIELD, now->place = 1;
    for (int i = 0; i < 12; i++)
        given[1].name = no_names[i], spell_with(now, NRPDCCH_FIELD);
    given[1].name = NRPDCCH_MCS, now->fields_length = 3;
    now->reason = NRPDCCH_TOO_WIDE, now->place = 2, now->value = 5;
    for (int i = 0; i < 6; i++)
        given[2].value = wide[i], spell_with(now, NRPDCCH_FIELD);
    given[2] = (nrpdcch_field){NRPDCCH_FDRA, 2047};
    now->reason = NRPDCCH_ALL_ONES, now->place = now->value = 0;
    spell_with(now, NRPDCCH_FIELD);
    given[2].value = 2046, now->reason = 0;
    spell_with(now, NRPDCCH_DONE);
}

/* As many fields as one likes: of a name that stands twice the last counts. */
static void try_long_list(call *now)
{
    enum { MANY = 100000 };
    nrpdcch_field *many = calloc(MANY, sizeof *many);
    nrpdcch_heard heard;
    nrpdcch_silence silence;
    for (uint32_t i = 0; i < MANY; i++)
        many[i] = (nrpdcch_field){NRPDCCH_HARQ, i % 15};
    many[MANY - 1].value = 15;
    now->fields = many, now->fields_length = MANY;
    spell_with(now, NRPDCCH_DONE);
    uint32_t status = nrpdcch_hear(&of.cell, 0, 0, 0, 0, of.grid, of.points, &heard, &silence);
    CHECK(status == NRPDCCH_DONE && heard.fields[6].name == NRPDCCH_HARQ && heard.fields[6].value == 15,
          "another value is heard");
    free(many);
}

static void try_spell(void)
{
    static const uint32_t no_formats[] = {5, 6, 255, 256, 257, 65536, 0x80000000, UINT32_MAX};
    static uint8_t kept[MOST_POINTS];
    call now = right_slot(spell_with);
    memcpy(kept, of.grid, sizeof kept);
    no_such_watch(&now, spell_with);
    for (int i = 0; i < 8; i++)
        now.format = no_formats[i], spell_with(&now, NRPDCCH_NO_FORMAT);
    now.format = NRPDCCH_F01;
    spell_with(&now, NRPDCCH_NOT_CARRIED);
    now.format = NRPDCCH_F11;
    spell_with(&now, NRPDCCH_NOT_CARRIED);
    now.format = NRPDCCH_F10, now.fields = &(nrpdcch_field){NRPDCCH_BWP, 0}, now.fields_length = 1;
    now.length = 0;
    spell_with(&now, NRPDCCH_GRID_LENGTH);
    now.fields_length = 0;
    right_grid(&now, spell_with, NRPDCCH_DONE);
    try_fields(&now);
    try_long_list(&now);
    memcpy(of.grid, kept, sizeof kept);
}

/* The text of a grid, of numbers at their limits and beyond. */
static void text_with(const uint32_t numbers[4], size_t length, size_t room, uint32_t wanted, size_t wanted_written)
{
    uint8_t *made = exactly(room), *grid = grid_of(&(call){.length = length});
    size_t written;
    fill(&written, sizeof written);
    uint32_t status = nrpdcch_grid_text(numbers[0], numbers[1], numbers[2], numbers[3], grid, length, made, room, &written);
    CHECK(status == wanted && written == wanted_written, "the text of a grid answers %u with %zu, wanted %u with %zu", status,
          written, wanted, wanted_written);
    CHECK(wanted == NRPDCCH_DONE ? is_filled(made + written, room - written) : is_filled(made, room),
          "more than the text was written");
    free(made);
    free(grid);
}

static void try_text(void)
{
    static const uint32_t wrong[][4] = {
        {4, 0, 0, 51},          {256, 0, 0, 51},        {UINT32_MAX, 0, 0, 51}, {1, 1024, 0, 51}, {1, 65536, 0, 51},
        {1, UINT32_MAX, 0, 51}, {0, 0, 10, 51},         {1, 0, 20, 51},         {2, 0, 40, 51},   {3, 0, 80, 51},
        {1, 0, 65536, 51},      {1, 0, UINT32_MAX, 51}, {1, 0, 0, 5},           {1, 0, 0, 276},   {1, 0, 0, 0},
        {1, 0, 0, 65536 + 51},  {1, 0, 0, UINT32_MAX}};
    static const uint32_t right[][4] = {{0, 1023, 9, 6}, {1, 0, 0, 51}, {1, 1023, 19, 51}, {2, 5, 39, 6}, {3, 1023, 79, 275}};
    for (size_t i = 0; i < sizeof wrong / sizeof *wrong; i++)
        text_with(wrong[i], 0, 0, NRPDCCH_ARGUMENT, 0);
    for (size_t i = 0; i < sizeof right / sizeof *right; i++) {
        char head[100];
        size_t points = 14 * 12 * (size_t)right[i][3];
        int around = snprintf(head, sizeof head, "nrpdcch grid 1\nmu %u frame %u slot %u blocks %u\nend\n", right[i][0],
                              right[i][1], right[i][2], right[i][3]);
        size_t size = (size_t)around + points + 14;
        text_with(right[i], 0, 0, NRPDCCH_GRID_LENGTH, 0);
        text_with(right[i], points - 1, size, NRPDCCH_GRID_LENGTH, 0);
        text_with(right[i], points + 1, size, NRPDCCH_GRID_LENGTH, 0);
        of.grid[points - 1] += 5;
        text_with(right[i], points, 0, NRPDCCH_GRID_BYTE, points - 1);
        of.grid[points - 1] -= 5;
        text_with(right[i], points, 0, NRPDCCH_SMALL, size);
        text_with(right[i], points, size - 1, NRPDCCH_SMALL, size);
        text_with(right[i], points, size, NRPDCCH_DONE, size);
        text_with(right[i], points, size + 7, NRPDCCH_DONE, size);
    }
}

static void read_with(const uint8_t *text_at, size_t size, size_t room, uint32_t wanted, size_t wanted_at)
{
    uint8_t *points = exactly(room);
    nrpdcch_head head;
    nrpdcch_fault fault;
    fill(&head, sizeof head);
    fill(&fault, sizeof fault);
    uint32_t status = nrpdcch_grid_read(text_at, size, points, room, &head, &fault);
    CHECK(status == wanted, "reading a grid answers %u, wanted %u", status, wanted);
    if (wanted == NRPDCCH_DONE)
        CHECK(is_filled(&fault, sizeof fault) && is_filled(points + of.points, room - of.points),
              "more than the grid was written");
    else
        CHECK(is_filled(points, room) && is_filled(&head, sizeof head) && is_zero_fault(&fault) && fault.at == wanted_at &&
                  !fault.reason && !fault.value,
              "a refused grid: at %zu, wanted %zu", fault.at, wanted_at);
    free(points);
}

/* A grid's text that is cut after each byte, and that has another byte at each place. */
static void try_read(void)
{
    bytes whole = of.grid_text;
    for (size_t cut = 0; cut < whole.size; cut += STEP) {
        uint8_t *some = memcpy(exactly(cut), whole.at, cut);
        read_with(some, cut, of.points, NRPDCCH_GRID_TEXT, cut);
        free(some);
    }
    for (size_t at = 0; at < whole.size; at += STEP) {
        uint8_t kept = whole.at[at];
        whole.at[at] = (uint8_t)(at % 2 ? 'x' : 0xFF);
        read_with(whole.at, whole.size, of.points, NRPDCCH_GRID_TEXT, at);
        whole.at[at] = kept;
    }
    read_with(whole.at, whole.size + 1, of.points, NRPDCCH_GRID_TEXT, whole.size);
    read_with(whole.at, whole.size, 0, NRPDCCH_SMALL, of.points);
    read_with(whole.at, whole.size, of.points - 1, NRPDCCH_SMALL, of.points);
    read_with(whole.at, whole.size, of.points, NRPDCCH_DONE, 0);
    read_with(whole.at, whole.size, of.points + 9, NRPDCCH_DONE, 0);
}

/* Opens with these files, for a refusal: the handle is closed as before, and all of the fault is written. */
static uint32_t refused(bytes settings, bytes reliability, bytes input_order, nrpdcch_fault *fault)
{
    nrpdcch_cell cell = {0};
    fill(fault, sizeof *fault);
    uint32_t status = nrpdcch_cell_open(settings.at, settings.size, reliability.at, reliability.size, input_order.at,
                                        input_order.size, &cell, fault);
    CHECK(!cell.full && !cell.at, "a refused cell is open: %u", status);
    CHECK(fault->count <= 6, "a fault of %u steps", fault->count);
    for (uint32_t i = fault->count; i < 6; i++)
        CHECK(!fault->steps[i].value && !fault->steps[i].element, "a step behind the last one");
    return status;
}

static void try_open(void)
{
    nrpdcch_fault fault;
    bytes settings = of.settings, empty = {of.settings.at, 0};
    for (size_t cut = 0; cut + 2 < settings.size; cut += STEP) {
        bytes some = {memcpy(exactly(cut), settings.at, cut), cut};
        uint32_t status = refused(some, empty, empty, &fault);
        CHECK(status == NRPDCCH_SETTINGS && fault.reason == NRPDCCH_NOT_JSON && fault.count == 0 && !fault.part && !fault.at &&
                  !fault.value,
              "settings cut after %zu bytes: %u", cut, status);
        free(some.at);
    }
    uint32_t status = refused(settings, empty, empty, &fault);
    CHECK(status == NRPDCCH_TABLE && fault.part == NRPDCCH_RELIABILITY && fault.reason == NRPDCCH_COUNT && fault.value == 0,
          "no reliability: %u", status);
    status = refused(settings, of.reliability, empty, &fault);
    CHECK(status == NRPDCCH_TABLE && fault.part == NRPDCCH_INPUT_ORDER && fault.reason == NRPDCCH_COUNT && fault.value == 0 &&
              fault.count == 0 && fault.at == 0,
          "no input order: %u", status);
}

/* A byte of the settings that is another one: whatever comes of it, it is one of the answers, and a cell that opens is closed. */
static void try_damaged_settings(void)
{
    static const uint8_t others[] = {0, '"', '{', '9', 0xC3};
    nrpdcch_fault fault;
    for (size_t at = 0; at < of.settings.size; at += STEP)
        for (int i = 0; i < 5; i++) {
            nrpdcch_cell cell = {0};
            uint8_t kept = of.settings.at[at];
            of.settings.at[at] = others[i];
            uint32_t status = nrpdcch_cell_open(of.settings.at, of.settings.size, of.reliability.at, of.reliability.size,
                                                of.input_order.at, of.input_order.size, &cell, &fault);
            of.settings.at[at] = kept;
            CHECK(status == NRPDCCH_DONE || (status == NRPDCCH_SETTINGS && fault.reason >= 1 && fault.reason <= 6),
                  "byte %u at %zu of the settings: %u", others[i], at, status);
            CHECK(nrpdcch_cell_close(&cell) == (status ? NRPDCCH_CLOSED : NRPDCCH_DONE), "closing it");
        }
}

/* Names that no handset has: empty, longer than any, one letter more or fewer, with a zero in it. */
static void try_names(void)
{
    static uint8_t long_name[1 << 16];
    const struct {
        const void *at;
        size_t size;
    } names[] = {
        {"alpha", 0}, {"alpha", 4}, {"alphaa", 6}, {"alpha", 6}, {"Alpha", 5}, {"\xFF\xFE", 2}, {long_name, sizeof long_name}};
    uint32_t handset = 77;
    memset(long_name, 'a', sizeof long_name);
    for (int i = 0; i < 7; i++) {
        uint32_t status = nrpdcch_cell_handset(&of.cell, names[i].at, names[i].size, &handset);
        CHECK(status == NRPDCCH_NO_HANDSET && handset == 77, "name %d: %u", i, status);
    }
    CHECK(nrpdcch_cell_handset(&closed, (const uint8_t *)"alpha", 5, &handset) == NRPDCCH_CLOSED && handset == 77,
          "a closed cell");
    CHECK(nrpdcch_cell_handset(&of.cell, (const uint8_t *)"alpha", 5, &handset) == NRPDCCH_DONE && handset == 0, "alpha");
}

/* A handle that is opened twice, closed twice, used after it was closed, and opened again. */
static void try_handle(void)
{
    nrpdcch_carrier carrier, filled;
    nrpdcch_fault fault;
    fill(&fault, sizeof fault);
    fill(&carrier, sizeof carrier);
    filled = carrier;
    CHECK(nrpdcch_cell_close(&closed) == NRPDCCH_CLOSED && !closed.full, "closing what was never open");
    CHECK(nrpdcch_cell_carrier(&closed, &carrier) == NRPDCCH_CLOSED && !memcmp(&carrier, &filled, sizeof carrier),
          "a closed carrier");
    for (int turn = 0; turn < 3; turn++) {
        void *at = of.cell.at;
        size_t size = of.settings.size;
        of.settings.size = 0;
        CHECK(open_cell(&of, &fault) == NRPDCCH_OPEN && of.cell.at == at && of.cell.full, "opening what is open");
        of.settings.size = size;
        CHECK(nrpdcch_cell_carrier(&of.cell, &carrier) == NRPDCCH_DONE && carrier.blocks == 51, "the cell is another one");
        CHECK(nrpdcch_cell_close(&of.cell) == NRPDCCH_DONE && !of.cell.full, "closing");
        CHECK(nrpdcch_cell_close(&of.cell) == NRPDCCH_CLOSED && !of.cell.full, "closing twice");
        CHECK(nrpdcch_cell_carrier(&of.cell, &carrier) == NRPDCCH_CLOSED, "using what was closed");
        hear_with(&(call){.cell = &of.cell, .length = of.points}, NRPDCCH_CLOSED);
        spell_with(&(call){.cell = &of.cell, .length = of.points, .format = NRPDCCH_F10}, NRPDCCH_CLOSED);
        plan_with(&(call){.cell = &of.cell, .room = 4}, NRPDCCH_CLOSED);
        search_with(&(call){.cell = &of.cell, .length = of.points, .room = 4}, NRPDCCH_CLOSED);
        fill(&fault, sizeof fault);
        CHECK(open_cell(&of, &fault) == NRPDCCH_DONE && of.cell.full && is_filled(&fault, sizeof fault), "opening again");
    }
}

/* A handset of several watches that hears several things: each room that is too small, and each that is enough. */
static void try_rooms(const char *top)
{
    size_t planned = 0, heard = 0;
    nrpdcch_watch none;
    nrpdcch_heard nothing;
    open_example(&of, top, "own_cell");
    uint32_t statuses[2] = {nrpdcch_plan(&of.cell, 0, of.head.frame, of.head.slot, &none, 0, &planned),
                            nrpdcch_search(&of.cell, 0, of.head.frame, of.head.slot, of.grid, of.points, &nothing, 0, &heard)};
    CHECK(statuses[0] == NRPDCCH_SMALL && planned == 15, "the plan: %u, %zu watches", statuses[0], planned);
    CHECK(statuses[1] == NRPDCCH_SMALL && heard == 3, "the search: %u, %zu heard", statuses[1], heard);
    call now = {.cell = &of.cell, .frame = of.head.frame, .slot = of.head.slot, .length = of.points};
    for (now.room = 0; now.room < 18; now.room++) {
        now.place = planned;
        plan_with(&now, now.room < planned ? NRPDCCH_SMALL : NRPDCCH_DONE);
        now.place = heard;
        search_with(&now, now.room < heard ? NRPDCCH_SMALL : NRPDCCH_DONE);
    }
    close_slot(&of);
}

int main(int count, char **given)
{
    const char *top = count > 1 ? given[1] : ".";
    nrpdcch_fault fault;
    try_rooms(top);
    open_example(&of, top, "one_grant");
    read_case(&over, top, "slot_over");
    CHECK(open_cell(&over, &fault) == NRPDCCH_DONE, "the cell over the budget");
    try_handle();
    try_names();
    try_plan();
    try_hear();
    try_search();
    try_spell();
    try_text();
    try_read();
    try_open();
    try_damaged_settings();
    close_slot(&over);
    close_slot(&of);
    return report("try_hostile");
}

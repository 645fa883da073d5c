/* Every allocation of every call fails in turn, alone and with all later ones: the call answers that there was no memory,
 * everything is as before, nothing is lost, and the same call is right afterwards. The library runs over the heap of this
 * file, which counts. The word is the repository's top. */
#define _DEFAULT_SOURCE
#include "slots.h"

/* ---- the heap -------------------------------------------------------------------------------------------------------------- */

enum { ALIGNMENT = 16, MARK = 0x600DF00D, GONE = 0xDD };

/* What stands before each piece of memory. */
typedef struct {
    size_t size, mark;
} piece;

typedef struct {
    bool found;
    void *at;
} memory;

memory rattle_alloc(size_t size, size_t alignment);
memory rattle_realloc(void *old, size_t kept, size_t size, size_t alignment);
void rattle_dealloc(void *old);

static struct {
    long made, failing; /* how many were asked for, and the number of the one that fails */
    bool also_later;
    size_t pieces, live, most, largest;
} heap;

static bool fails(size_t alignment)
{
    heap.made++;
    if (alignment > ALIGNMENT)
        CHECK(false, "an alignment of %zu", alignment);
    return heap.failing && (heap.made == heap.failing || (heap.also_later && heap.made > heap.failing));
}

memory rattle_alloc(size_t size, size_t alignment)
{
    piece *made = fails(alignment) ? NULL : malloc(sizeof *made + size);
    if (!made)
        return (memory){false, &heap};
    *made = (piece){size, MARK};
    memset(made + 1, GONE, size);
    heap.pieces++;
    heap.live += size;
    heap.most = heap.live > heap.most ? heap.live : heap.most;
    heap.largest = size > heap.largest ? size : heap.largest;
    return (memory){true, made + 1};
}

void rattle_dealloc(void *old)
{
    piece *made = (piece *)old - 1;
    if (made->mark != MARK) {
        CHECK(false, "memory is given back that is not there");
        return;
    }
    heap.pieces--;
    heap.live -= made->size;
    memset(made, GONE, sizeof *made + made->size);
    free(made);
}

memory rattle_realloc(void *old, size_t kept, size_t size, size_t alignment)
{
    piece *made = (piece *)old - 1;
    memory other = rattle_alloc(size, alignment);
    if (kept > made->size)
        CHECK(false, "%zu bytes are kept of %zu", kept, made->size);
    if (other.found) {
        memcpy(other.at, old, made->size < size ? made->size : size);
        rattle_dealloc(old);
    }
    return other;
}

/* ---- the calls ------------------------------------------------------------------------------------------------------------- */

enum { FILLING = 0xA5, ROOM = 200 };

/* All that a call may write. What a refusal writes stands first. */
typedef struct {
    size_t count;
    nrpdcch_silence silence;
    nrpdcch_fault fault;
    nrpdcch_cell cell;
    nrpdcch_watch watches[ROOM];
    nrpdcch_heard heard, found[ROOM];
    nrpdcch_head head;
    uint8_t grid[MOST_POINTS], text[MOST_TEXT];
} written;

static slot of;
static nrpdcch_cell closed, *on = &of.cell; /* what the calls of a cell are made on */
static written now, before, right;

static uint32_t opens(void)
{
    return nrpdcch_cell_open(of.settings.at, of.settings.size, of.reliability.at, of.reliability.size, of.input_order.at,
                             of.input_order.size, &now.cell, &now.fault);
}

/* Opens with an input order that is cut, which is the last thing that is judged. */
static uint32_t refuses(void)
{
    uint32_t status = nrpdcch_cell_open(of.settings.at, of.settings.size, of.reliability.at, of.reliability.size,
                                        of.input_order.at, of.input_order.size / 2, &now.cell, &now.fault);
    return status == NRPDCCH_TABLE ? NRPDCCH_DONE : status;
}

static uint32_t plans(void)
{
    return nrpdcch_plan(on, 0, of.head.frame, of.head.slot, now.watches, ROOM, &now.count);
}

static uint32_t hears(void)
{
    return nrpdcch_hear(on, 0, of.head.frame, of.head.slot, right.found[0].watch, of.grid, of.points, &now.heard,
                        &now.silence);
}

static uint32_t searches(void)
{
    return nrpdcch_search(on, 0, of.head.frame, of.head.slot, of.grid, of.points, now.found, ROOM, &now.count);
}

static uint32_t spells(void)
{
    const nrpdcch_heard *again = &right.found[0];
    return nrpdcch_spell(on, 0, of.head.frame, of.head.slot, again->watch, again->format, again->fields, again->count,
                         now.grid, of.points, &now.fault);
}

static uint32_t prints(void)
{
    return nrpdcch_grid_text(of.head.mu, of.head.frame, of.head.slot, of.head.blocks, of.grid, of.points, now.text, MOST_TEXT,
                             &now.count);
}

static uint32_t reads(void)
{
    return nrpdcch_grid_read(of.grid_text.at, of.grid_text.size, now.grid, MOST_POINTS, &now.head, &now.fault);
}

static uint32_t finds(void)
{
    uint32_t handset;
    uint32_t status = nrpdcch_cell_handset(on, (const uint8_t *)"nobody", 6, &handset);
    return status == NRPDCCH_NO_HANDSET ? NRPDCCH_DONE : status;
}

static uint32_t tells(void)
{
    nrpdcch_carrier carrier;
    return nrpdcch_cell_carrier(on, &carrier);
}

static const struct {
    const char *name;
    uint32_t (*run)(void);
} calls[] = {{"search", searches}, {"open", opens},       {"open, refused", refuses}, {"plan", plans},    {"hear", hears},
             {"spell", spells},    {"grid_text", prints}, {"grid_read", reads},       {"handset", finds}, {"carrier", tells}};

/* ---- the trials ------------------------------------------------------------------------------------------------------------ */

/* Runs a call with its allocation of that number failing. Its outputs are filled before: a handle with zeros, a grid with
 * none. */
static uint32_t run(uint32_t (*call)(void), long failing, bool also_later)
{
    memset(&now, FILLING, sizeof now);
    memset(&now.cell, 0, sizeof now.cell);
    memset(now.grid, 0, sizeof now.grid);
    before = now;
    heap.made = 0;
    heap.failing = failing;
    heap.also_later = also_later;
    uint32_t status = call();
    heap.failing = 0;
    return status;
}

static bool is_all(const void *at, size_t size, int value)
{
    for (const uint8_t *byte = at; size > 0; size--)
        if (*byte++ != value)
            return false;
    return true;
}

static bool has_no_fault(void)
{
    bool has_none = !now.fault.part && !now.fault.reason && !now.fault.value && !now.fault.count && !now.fault.at;
    for (int i = 0; i < 6; i++)
        has_none = has_none && !now.fault.steps[i].value && !now.fault.steps[i].element;
    return has_none || is_all(&now.fault, sizeof now.fault, FILLING);
}

/* What a refusal for want of memory leaves. */
static void check_refused(const char *name, uint32_t status, size_t pieces)
{
    const size_t rest = offsetof(written, cell);
    const nrpdcch_silence *told = &now.silence;
    bool is_silent = !told->stage && !told->symbol && !told->subcarrier && !told->flaw && !told->at;
    CHECK(status == NRPDCCH_NO_MEMORY, "%s answers %u without memory", name, status);
    CHECK(!memcmp((uint8_t *)&now + rest, (uint8_t *)&before + rest, sizeof now - rest), "%s wrote without memory", name);
    CHECK(now.count == 0 || is_all(&now.count, sizeof now.count, FILLING), "%s counts %zu without memory", name, now.count);
    CHECK(is_silent || is_all(told, sizeof *told, FILLING), "%s tells a stage without memory", name);
    CHECK(has_no_fault(), "%s tells a fault without memory", name);
    CHECK(heap.pieces == pieces, "%s keeps %zu pieces of memory that were %zu", name, heap.pieces, pieces);
}

/* What a call leaves that went well, beside what it left at first. */
static void check_right(const char *name, uint32_t status, const written *wanted, size_t pieces)
{
    const size_t cell = offsetof(written, cell), behind = offsetof(written, watches);
    bool is_same =
        !memcmp(&now, wanted, cell) && !memcmp((uint8_t *)&now + behind, (uint8_t *)wanted + behind, sizeof now - behind);
    CHECK(status == NRPDCCH_DONE && is_same, "%s answers %u, or writes something else than before", name, status);
    if (now.cell.full)
        CHECK(nrpdcch_cell_close(&now.cell) == NRPDCCH_DONE, "closing");
    CHECK(heap.pieces == pieces, "%s keeps %zu pieces of memory that were %zu", name, heap.pieces, pieces);
}

static void try_call(const char *example, const char *name, uint32_t (*call)(void))
{
    static written first;
    size_t pieces = heap.pieces, live = heap.live;
    heap.most = heap.live;
    heap.largest = 0;
    uint32_t status = run(call, 0, false);
    long made = heap.made;
    printf("%s: %s takes memory %ld times, at most %zu bytes at once, the largest %zu\n", example, name, made, heap.most - live,
           heap.largest);
    first = now;
    if (call == searches)
        memcpy(right.found, now.found, sizeof right.found);
    check_right(name, status, &first, pieces);
    for (int also_later = 0; also_later < 2; also_later++)
        for (long failing = 1; failing <= made; failing++) {
            status = run(call, failing, also_later);
            check_refused(name, status, pieces);
            status = run(call, 0, false);
            check_right(name, status, &first, pieces);
        }
    status = run(call, made + 1, true);
    check_right(name, status, &first, pieces);
}

/* That a handle is open, or that it is closed, is told also where there is no memory at all. */
static void try_handles(void)
{
    uint32_t (*const on_a_slot[])(void) = {plans, hears, searches, spells};
    heap.failing = 1;
    heap.also_later = true;
    heap.made = 0;
    uint32_t status = open_cell(&of, &now.fault);
    CHECK(status == NRPDCCH_OPEN && of.cell.full, "opening what is open: %u", status);
    on = &closed;
    for (int i = 0; i < 4; i++) {
        status = on_a_slot[i]();
        CHECK(status == NRPDCCH_CLOSED, "call %d of a closed handle: %u", i, status);
    }
    status = nrpdcch_cell_close(&closed);
    CHECK(status == NRPDCCH_CLOSED && heap.made == 0, "closing what is closed: %u, and %ld allocations", status, heap.made);
    on = &of.cell;
    heap.failing = 0;
}

/* All calls on an example, over one handle that stays open throughout. */
static void try_example(const char *top, const char *name)
{
    CHECK(heap.pieces == 0, "memory is left");
    open_example(&of, top, name);
    for (size_t i = 0; i < sizeof calls / sizeof *calls; i++)
        try_call(name, calls[i].name, calls[i].run);
    try_handles();
    close_slot(&of);
    CHECK(heap.pieces == 0 && heap.live == 0, "%zu pieces of memory are lost", heap.pieces);
}

int main(int count, char **given)
{
    const char *top = count > 1 ? given[1] : ".";
    try_example(top, "one_grant");
    try_example(top, "own_cell");
#ifndef SLOWLY
    try_example(top, "wide_30khz");
#endif
    return report("try_memory");
}

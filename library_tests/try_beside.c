/* The library beside the program of bench/yardstick, which was written apart from it: on the cells of the examples and the cases,
 * in random slots, with random fields spelled at random watches and points damaged at random. All that both answer has to be the
 * same. The words are the repository's top, and a number that the random ones begin with. */
#define _DEFAULT_SOURCE
#include "slots.h"
#include "yardstick.h"
#include <dirent.h>

#ifdef SLOWLY
enum { SLOTS = 1, EVERY = 9 };
#else
enum { SLOTS = 40, EVERY = 1 };
#endif

enum { MOST_GIVEN = 8, LOOKS = 12 };

static slot of;
static uint64_t seed = 38212;
static nrpdcch_watch watches[MOST_WATCHES], wanted_watches[MOST_WATCHES];
static nrpdcch_heard found[MOST_WATCHES];
static uint8_t grid[MOST_POINTS], wanted_grid[MOST_POINTS];
static long planned, spelled, heard, silent[6];

/* A number below the limit. */
static uint32_t any(uint32_t limit)
{
    seed ^= seed << 13;
    seed ^= seed >> 7;
    seed ^= seed << 17;
    return (uint32_t)(seed >> 20) % limit;
}

/* Where the next call is made. */
typedef struct {
    uint32_t handset, frame, slot;
    size_t watches;
} place;

static bool is_same_watch(const nrpdcch_watch *a, const nrpdcch_watch *b)
{
    return a->set == b->set && a->kind == b->kind && a->symbol == b->symbol && a->level == b->level &&
           a->candidate == b->candidate && a->size == b->size && a->rnti == b->rnti && a->uplink == b->uplink &&
           a->downlink == b->downlink;
}

/* The plan of both; false where there is none, or where no watch is in it. */
static bool plan_both(place *at)
{
    size_t wanted = 0;
    uint32_t status = nrpdcch_plan(&of.cell, at->handset, at->frame, at->slot, watches, MOST_WATCHES, &at->watches);
    uint32_t wanted_status = yardstick_plan(at->handset, at->frame, at->slot, wanted_watches, &wanted);
    bool same = status == wanted_status && at->watches == wanted;
    for (size_t i = 0; same && i < wanted; i++)
        same = is_same_watch(&watches[i], &wanted_watches[i]);
    CHECK(same, "the plan of handset %u in frame %u slot %u: %u, wanted %u", at->handset, at->frame, at->slot, status,
          wanted_status);
    planned += (long)wanted;
    return same && wanted > 0;
}

/* A format at random: mostly one of the kind of the watch's set. */
static uint32_t any_format(const nrpdcch_watch *watch)
{
    return any(8) == 0 ? any(5) : watch->kind == NRPDCCH_SPECIFIC ? NRPDCCH_F01 + any(2) : any(3);
}

/* Fields at random: none, or some, mostly of the first names, with small values. */
static size_t any_fields(nrpdcch_field *fields)
{
    size_t count = any(2) ? any(MOST_GIVEN) : 0;
    for (size_t i = 0; i < count; i++)
        fields[i] = (nrpdcch_field){any(any(4) ? 12 : 39), any(any(8) ? 4 : 1 << 20)};
    return count;
}

/* One DCI, spelled on both grids. */
static void spell_both(const place *at)
{
    nrpdcch_field fields[MOST_GIVEN];
    nrpdcch_fault fault = {0}, wanted = {0};
    uint32_t watch = any((uint32_t)at->watches), format = any_format(&watches[watch]);
    size_t count = any_fields(fields);
    uint32_t status =
        nrpdcch_spell(&of.cell, at->handset, at->frame, at->slot, watch, format, fields, count, grid, of.points, &fault);
    uint32_t wanted_status = yardstick_spell(watch, format, fields, count, wanted_grid, &wanted);
    bool same = fault.reason == wanted.reason && fault.at == wanted.at && fault.value == wanted.value;
    CHECK(status == wanted_status && same && !memcmp(grid, wanted_grid, of.points),
          "spelling at watch %u of handset %u in frame %u slot %u: %u, wanted %u", watch, at->handset, at->frame, at->slot,
          status, wanted_status);
    spelled += status == NRPDCCH_DONE;
}

/* Damages the grid: not at all, a point or a few, or a bit of one in a hundred. */
static void damage(void)
{
    uint32_t kind = any(4), points = (uint32_t)of.points;
    for (uint32_t i = kind < 3 ? kind : 0; i > 0; i--)
        grid[any(points)] = (uint8_t)any(5);
    for (uint32_t at = 0; kind == 3 && at < points; at++)
        if (grid[at] && any(100) == 0)
            grid[at] = (uint8_t)(1 + ((grid[at] - 1) ^ (1 + any(3))));
}

static bool is_same_silence(const nrpdcch_silence *a, const nrpdcch_silence *b)
{
    return a->stage == b->stage && a->symbol == b->symbol && a->subcarrier == b->subcarrier && a->flaw == b->flaw &&
           a->at == b->at;
}

/* What both hear at a watch. */
static void hear_both(const place *at, uint32_t watch)
{
    nrpdcch_heard here = {0}, wanted = {0};
    nrpdcch_silence silence = {0}, wanted_silence = {0};
    uint32_t status = nrpdcch_hear(&of.cell, at->handset, at->frame, at->slot, watch, grid, of.points, &here, &silence);
    uint32_t wanted_status = yardstick_hear(watch, grid, &wanted, &wanted_silence);
    CHECK(status == wanted_status && !memcmp(&here, &wanted, sizeof here) && is_same_silence(&silence, &wanted_silence),
          "hearing at watch %u of handset %u in frame %u slot %u: %u at stage %u, wanted %u at stage %u", watch, at->handset,
          at->frame, at->slot, status, silence.stage, wanted_status, wanted_silence.stage);
    silent[silence.stage % 6] += status == NRPDCCH_SILENT;
}

/* A search, each watch of which is heard by the other program. */
static void search_both(const place *at)
{
    size_t count = 0, next = 0;
    uint32_t status = nrpdcch_search(&of.cell, at->handset, at->frame, at->slot, grid, of.points, found, MOST_WATCHES, &count);
    CHECK(status == NRPDCCH_DONE, "the search of handset %u in frame %u slot %u: %u", at->handset, at->frame, at->slot, status);
    for (uint32_t watch = 0; watch < at->watches; watch++) {
        nrpdcch_heard wanted;
        nrpdcch_silence silence;
        if (yardstick_hear(watch, grid, &wanted, &silence) == NRPDCCH_DONE && next++ < count)
            CHECK(!memcmp(&found[next - 1], &wanted, sizeof wanted), "the search hears something else at watch %u", watch);
    }
    CHECK(next == count, "the search of handset %u finds %zu, wanted %zu", at->handset, count, next);
    heard += (long)count;
}

static void try_slot(void)
{
    place at = {any(of.carrier.handsets), any(1024), any(10u << of.carrier.mu), 0};
    if (!plan_both(&at))
        return;
    memset(grid, 0, of.points);
    memset(wanted_grid, 0, of.points);
    for (uint32_t i = any(6); i > 0; i--)
        spell_both(&at);
    damage();
    search_both(&at);
    for (int i = 0; i < LOOKS; i++)
        hear_both(&at, any((uint32_t)at.watches));
}

/* Random slots of a cell whose files were read, where it is one. */
static void try_cell(void)
{
    nrpdcch_fault fault;
    if (open_cell(&of, &fault) == NRPDCCH_DONE) {
        bool is_open = yardstick_open(of.settings.at, of.settings.size, of.reliability.at, of.reliability.size, of.input_order.at,
                                      of.input_order.size);
        CHECK(is_open, "the yardstick refuses a cell");
        CHECK(nrpdcch_cell_carrier(&of.cell, &of.carrier) == NRPDCCH_DONE, "no carrier");
        of.points = 14 * 12 * (size_t)of.carrier.blocks;
        for (int i = 0; is_open && i < SLOTS; i++)
            try_slot();
        yardstick_close();
        nrpdcch_cell_close(&of.cell);
    }
    free_files(&of);
}

/* The cells of all cases that have settings of their own, with the tables of the standard. */
static void try_cases(const char *top)
{
    char cases[PATH], folder[PATH], own[PATH];
    join(cases, top, "cases");
    DIR *all = opendir(cases);
    CHECK(all, "%s cannot be read", cases);
    long number = 0;
    for (const struct dirent *entry; all && (entry = readdir(all));) {
        join(folder, cases, entry->d_name);
        join(own, folder, "settings.json");
        if (entry->d_name[0] == '.' || access(own, R_OK) || number++ % EVERY)
            continue;
        read_case(&of, top, entry->d_name);
        free(of.reliability.at);
        free(of.input_order.at);
        of.reliability = read_below(top, "examples/tables", "reliability.txt");
        of.input_order = read_below(top, "examples/tables", "input_order.txt");
        try_cell();
    }
    if (all)
        closedir(all);
}

int main(int count, char **given)
{
    const char *top = count > 1 ? given[1] : ".";
    seed = count > 2 ? strtoull(given[2], NULL, 10) + seed : seed;
    for (int i = 0; i < EXAMPLES; i++) {
        open_example(&of, top, examples[i]);
        nrpdcch_cell_close(&of.cell);
        try_cell();
    }
    try_cases(top);
    printf("watches planned %ld, DCIs spelled %ld and heard %ld; silent at stages 1 to 5: %ld %ld %ld %ld %ld\n", planned,
           spelled, heard, silent[1], silent[2], silent[3], silent[4], silent[5]);
    return report("try_beside");
}

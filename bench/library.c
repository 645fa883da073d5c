/* For bench/library: what `hear` and `spell` of the library take beside the yardstick's own functions, on one of the examples.
 *
 *   library EXAMPLE TABLES TURNS
 *
 * EXAMPLE is the folder of the settings and the grid, TABLES that of the two tables. The first thing that the first handset hears
 * is heard and spelled again, CALLS times for each kind in each turn. First it compares what both heard and wrote, and ends with
 * status 1 where they differ. Then it prints a line for each kind: its name and the nanoseconds of a call, the median of the
 * turns.
 *
 * `hear` and `spell` of the yardstick are its functions alone: the plan of the slot is there, and the grid is in its own
 * words. Those `over bytes` have what a call of the library also does: the plan is made, each byte of the grid is looked at,
 * and the candidate's points are those of the caller's bytes.
 */
#define main yardstick_main
#include "pdcch.c"
#undef main
#include "nrpdcch.h"
#include "points.h"

enum { CALLS = 200, MOST_TURNS = 1001, MOST_POINTS = 14 * 12 * 275, ROOM = 64 };

static Cell cell;
static Worker worker;
static Grid grid;
static const Watch *watch;
static Answer answer;
static nrpdcch_cell handle;
static nrpdcch_heard found[ROOM], heard;
static uint8_t points[MOST_POINTS], rewritten[MOST_POINTS];
static size_t size;

static void stop(const char *why)
{
    fprintf(stderr, "library: %s\n", why);
    exit(1);
}

static u8 *bytes_of(const char *folder, const char *name, size_t *length)
{
    char path[1024];
    u8 *bytes;
    if (snprintf(path, sizeof path, "%s/%s", folder, name) >= (int)sizeof path || fetch(path, &bytes, length))
        stop(name);
    return bytes;
}

/* Whether each byte is a point: the greatest of all is at most 4. */
static void check_points(const uint8_t *from)
{
    uint8_t greatest = 0;
    for (size_t i = 0; i < size; i++)
        greatest = from[i] > greatest ? from[i] : greatest;
    if (greatest > 4)
        stop("a byte is no point");
}

/* The block of a REG of the watch, counted over the whole grid. */
static size_t block_of(unsigned reg)
{
    return (watch->symbol + (watch->regs[reg] >> 9)) * (size_t)grid.blocks + (watch->regs[reg] & 511);
}

/* The payload that was heard, without its parity. */
static Bits payload_of(void)
{
    return answer.payload >> (128 - watch->size) << (128 - watch->size);
}

static void plan_anew(void)
{
    plan_make(&worker, 0, monitored(&cell, &cell.handsets[0], grid.frame, grid.slot), &worker.plans[0]);
    watch = &worker.plans[0].watches[found[0].watch];
}

/* ---- what is timed -------------------------------------------------------------------------------------------------------- */

static void yardstick_hears(void)
{
    if (!hear(&worker, watch, &grid, &answer))
        stop("the yardstick hears nothing");
}

static void yardstick_hears_bytes(void)
{
    plan_anew();
    check_points(points);
    for (unsigned reg = 0; reg < 6u << watch->level; reg++)
        grid.cells[block_of(reg)] = word_of(points + 12 * block_of(reg));
    yardstick_hears();
}

static void library_hears(void)
{
    nrpdcch_silence silence;
    if (nrpdcch_hear(&handle, 0, (u32)grid.frame, (u32)grid.slot, found[0].watch, points, size, &heard, &silence))
        stop("the library hears nothing");
}

static void yardstick_spells(void)
{
    put_signal(&worker, watch, payload_of(), &grid);
}

static void yardstick_spells_bytes(void)
{
    plan_anew();
    check_points(rewritten);
    yardstick_spells();
    for (unsigned reg = 0; reg < 6u << watch->level; reg++)
        bytes_of_word(grid.cells[block_of(reg)], rewritten + 12 * block_of(reg));
}

static void library_spells(void)
{
    nrpdcch_fault fault;
    if (nrpdcch_spell(&handle, 0, (u32)grid.frame, (u32)grid.slot, found[0].watch, found[0].format, found[0].fields,
                      found[0].count, rewritten, size, &fault))
        stop("the library spells nothing");
}

static void library_searches(void)
{
    size_t count;
    if (nrpdcch_search(&handle, 0, (u32)grid.frame, (u32)grid.slot, points, size, found, ROOM, &count) || count == 0)
        stop("the library finds nothing");
}

static void library_opens_and_closes(void);

static const struct {
    const char *name;
    void (*run)(void);
} timed[] = {{"yardstick hear", yardstick_hears},
             {"yardstick hear over bytes", yardstick_hears_bytes},
             {"library hear", library_hears},
             {"yardstick spell", yardstick_spells},
             {"yardstick spell over bytes", yardstick_spells_bytes},
             {"library spell", library_spells},
             {"library search", library_searches},
             {"library open and close", library_opens_and_closes}};
enum { TIMED = COUNT(timed) };

/* ---- files, and the comparison --------------------------------------------------------------------------------------------- */

static u8 *settings, *tables[2];
static size_t settings_size, table_sizes[2];

static void open_handle(nrpdcch_cell *at)
{
    nrpdcch_fault fault;
    if (nrpdcch_cell_open(settings, settings_size, tables[0], table_sizes[0], tables[1], table_sizes[1], at, &fault))
        stop("the library opens no cell");
}

static void library_opens_and_closes(void)
{
    nrpdcch_cell other = {0};
    open_handle(&other);
    nrpdcch_cell_close(&other);
}

static void open_both(const char *example, const char *tables_at)
{
    size_t length;
    settings = bytes_of(example, "settings.json", &settings_size);
    tables[0] = bytes_of(tables_at, "reliability.txt", &table_sizes[0]);
    tables[1] = bytes_of(tables_at, "input_order.txt", &table_sizes[1]);
    Scan scan = {bytes_of(example, "grid.txt", &length), 0, 0};
    scan.n = length;
    open_handle(&handle);
    crc_tables();
    gold_tables();
    if (!cell_read(&cell, settings, settings_size) || !table_read("", tables[0], table_sizes[0], 1024, reliability) ||
        !table_read("", tables[1], table_sizes[1], 164, input_order) || !scan_grid(&scan, &grid))
        stop("the yardstick refuses a file");
    Prepared *prepared = arena_zero((size_t)cell.handset_count * sizeof *prepared);
    prepared[0] = prepare(&cell, 0, NULL);
    worker_open(&worker, &cell, prepared);
    size = 14 * 12 * (size_t)grid.blocks;
    unpack_all(&grid, points);
}

/* Both hear the same bits of the same format, and what each spells on a blank grid is the same. */
static void compare(void)
{
    static uint8_t other[MOST_POINTS];
    static const u8 formats[] = {F00, F10, ORDER, F01, F11};
    library_searches();
    plan_anew();
    yardstick_hears();
    library_hears();
    const List *list = list_for(watch, answer.format);
    Bits left = answer.payload << 1;
    if (answer.format != formats[heard.format] || memcmp(&heard, &found[0], sizeof heard))
        stop("another format is heard");
    u32 at = 0;
    for (int i = 1; i < list->count; left <<= list->width[i++])
        if (list->width[i] && !(answer.format == ORDER && list->name[i] == FIELD_FDRA) &&
            (at == heard.count || heard.fields[at++].value != (u32)(left >> (128 - list->width[i]))))
            stop("another value is heard");
    memset(grid.cells, 0, 14 * (size_t)grid.blocks * sizeof *grid.cells);
    yardstick_spells();
    unpack_all(&grid, other);
    library_spells();
    if (at != heard.count || memcmp(other, rewritten, size))
        stop("other points are spelled");
    pack_all(points, &grid);
}

static int by_size(const void *a, const void *b)
{
    double x = *(const double *)a, y = *(const double *)b;
    return (x > y) - (x < y);
}

/* The nanoseconds of this thread on a processor. */
static double now_ns(void)
{
    struct timespec t;
    clock_gettime(CLOCK_THREAD_CPUTIME_ID, &t);
    return (double)t.tv_sec * 1e9 + (double)t.tv_nsec;
}

int main(int count, char **given)
{
    static double took[TIMED][MOST_TURNS];
    int turns = count == 4 ? atoi(given[3]) : 0;
    if (turns < 1 || turns > MOST_TURNS)
        stop("usage: library EXAMPLE TABLES TURNS");
    open_both(given[1], given[2]);
    compare();
    for (int turn = 0; turn < turns; turn++)
        for (unsigned kind = 0; kind < TIMED; kind++) {
            double begun = now_ns();
            for (int i = 0; i < CALLS; i++)
                timed[kind].run();
            took[kind][turn] = (now_ns() - begun) / CALLS;
        }
    for (unsigned kind = 0; kind < TIMED; kind++) {
        qsort(took[kind], (size_t)turns, sizeof *took[kind], by_size);
        printf("%s: %.0f\n", timed[kind].name, took[kind][turns / 2]);
    }
    nrpdcch_cell_close(&handle);
    return 0;
}

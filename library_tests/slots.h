/* For the programs beside it: a slot of the repository, which is a cell with its tables and a grid, open behind a handle. */
#ifndef SLOTS_H
#define SLOTS_H
#include "words.h"
#include <unistd.h>

enum { MOST_POINTS = 14 * 12 * 275, MOST_WATCHES = 2240, MOST_TEXT = 50000 };

/* The folders of examples/ that have a grid and its report. */
static const char *const examples[] = {"one_grant", "own_cell", "narrow_15khz", "wide_30khz", "wide_120khz", "crowded"};
enum { EXAMPLES = 6 };

typedef struct {
    bytes settings, reliability, input_order, grid_text;
    nrpdcch_cell cell;
    nrpdcch_carrier carrier;
    nrpdcch_head head;
    uint8_t grid[MOST_POINTS];
    size_t points; /* how many bytes of `grid` are its own */
} slot;

static inline bytes read_below(const char *top, const char *folder, const char *name)
{
    char path[PATH];
    join(path, top, folder);
    return read_file(path, name);
}

/* The file of a case: its own, or the one that all cases share. */
static inline bytes read_of_case(const char *top, const char *name, const char *file)
{
    char cases[PATH], folder[PATH], own[PATH];
    join(cases, top, "cases");
    join(folder, cases, name);
    join(own, folder, file);
    return access(own, R_OK) ? read_below(cases, "shared", file) : read_file(folder, file);
}

static inline uint32_t open_cell(slot *of, nrpdcch_fault *fault)
{
    return nrpdcch_cell_open(of->settings.at, of->settings.size, of->reliability.at, of->reliability.size, of->input_order.at,
                             of->input_order.size, &of->cell, fault);
}

/* Opens the cell whose files were read, and reads the grid. */
static inline void open_slot(slot *of, const char *name)
{
    nrpdcch_fault fault;
    uint32_t opened = open_cell(of, &fault);
    CHECK(opened == NRPDCCH_DONE, "%s: opening it answers %u", name, opened);
    if (opened)
        return;
    CHECK(nrpdcch_cell_carrier(&of->cell, &of->carrier) == NRPDCCH_DONE, "%s: no carrier", name);
    uint32_t read = nrpdcch_grid_read(of->grid_text.at, of->grid_text.size, of->grid, sizeof of->grid, &of->head, &fault);
    CHECK(read == NRPDCCH_DONE && of->head.mu == of->carrier.mu && of->head.blocks == of->carrier.blocks,
          "%s: reading its grid answers %u", name, read);
    of->points = 14 * 12 * (size_t)of->carrier.blocks;
}

static inline void open_example(slot *of, const char *top, const char *name)
{
    char folder[PATH];
    join(folder, "examples", name);
    memset(of, 0, sizeof *of);
    of->settings = read_below(top, folder, "settings.json");
    of->reliability = read_below(top, "examples/tables", "reliability.txt");
    of->input_order = read_below(top, "examples/tables", "input_order.txt");
    of->grid_text = read_below(top, folder, "grid.txt");
    open_slot(of, name);
}

/* Reads the files of a case, and opens nothing. */
static inline void read_case(slot *of, const char *top, const char *name)
{
    memset(of, 0, sizeof *of);
    of->settings = read_of_case(top, name, "settings.json");
    of->reliability = read_of_case(top, name, "reliability.txt");
    of->input_order = read_of_case(top, name, "input_order.txt");
    of->grid_text = read_of_case(top, name, "grid.txt");
}

static inline void free_files(slot *of)
{
    free(of->settings.at);
    free(of->reliability.at);
    free(of->input_order.at);
    free(of->grid_text.at);
}

static inline void close_slot(slot *of)
{
    uint32_t status = nrpdcch_cell_close(&of->cell);
    CHECK(status == NRPDCCH_DONE && !of->cell.full, "closing answers %u", status);
    free_files(of);
}

/* The number of the handset of that name. */
static inline uint32_t handset_named(slot *of, const char *name)
{
    uint32_t handset = 0;
    uint32_t status = nrpdcch_cell_handset(&of->cell, (const uint8_t *)name, strlen(name), &handset);
    CHECK(status == NRPDCCH_DONE, "the handset %s: %u", name, status);
    return handset;
}

#endif

/* Four threads at once, each with a cell, a handle and buffers of its own: all do what one thread did before. The word is the
 * repository's top. */
#define _DEFAULT_SOURCE
#include "slots.h"
#include <pthread.h>

#ifdef SLOWLY
enum { TURNS = 2 };
#else
enum { TURNS = 50 };
#endif

enum { THREADS = 4, ROOM = 200 };

/* What a thread works with, and how often something came out otherwise. */
typedef struct {
    slot of;
    const char *top, *name;
    nrpdcch_heard found[ROOM], wanted[ROOM];
    size_t count, wanted_count;
    uint8_t grid[MOST_POINTS], text[MOST_TEXT];
    size_t written;
    long turns, wrong;
} work;

static uint32_t search_into(work *by, nrpdcch_heard *found, size_t *count)
{
    slot *of = &by->of;
    return nrpdcch_search(&of->cell, 0, of->head.frame, of->head.slot, of->grid, of->points, found, ROOM, count);
}

/* Opens, searches, spells what it found on a blank grid, prints it and closes. */
static bool turn(work *by)
{
    slot *of = &by->of;
    nrpdcch_fault fault;
    bool right = open_cell(of, &fault) == NRPDCCH_DONE;
    memset(by->grid, 0, of->points);
    memset(by->found, 0, sizeof by->found);
    right = right && search_into(by, by->found, &by->count) == NRPDCCH_DONE && by->count == by->wanted_count &&
            !memcmp(by->found, by->wanted, by->count * sizeof *by->found);
    for (size_t i = 0; right && i < by->count; i++)
        right = nrpdcch_spell(&of->cell, 0, of->head.frame, of->head.slot, by->found[i].watch, by->found[i].format,
                              by->found[i].fields, by->found[i].count, by->grid, of->points, &fault) == NRPDCCH_DONE;
    for (size_t i = 0; right && i < of->points; i++)
        right = by->grid[i] == NRPDCCH_EMPTY || by->grid[i] == of->grid[i];
    right = right &&
            nrpdcch_grid_text(of->head.mu, of->head.frame, of->head.slot, of->head.blocks, of->grid, of->points, by->text,
                              sizeof by->text, &by->written) == NRPDCCH_DONE &&
            by->written == of->grid_text.size && !memcmp(by->text, of->grid_text.at, by->written);
    return nrpdcch_cell_close(&of->cell) == NRPDCCH_DONE && right;
}

static void *do_work(void *given)
{
    work *by = given;
    for (by->turns = 0; by->turns < TURNS; by->turns++)
        by->wrong += !turn(by);
    return NULL;
}

int main(int count, char **given)
{
    static const char *const names[THREADS] = {"one_grant", "own_cell", "wide_120khz", "wide_30khz"};
    static work works[THREADS];
    pthread_t threads[THREADS];
    for (int i = 0; i < THREADS; i++) {
        open_example(&works[i].of, count > 1 ? given[1] : ".", names[i]);
        CHECK(search_into(&works[i], works[i].wanted, &works[i].wanted_count) == NRPDCCH_DONE && works[i].wanted_count > 0,
              "%s: nothing is heard", names[i]);
        CHECK(nrpdcch_cell_close(&works[i].of.cell) == NRPDCCH_DONE, "closing");
    }
    for (int i = 0; i < THREADS; i++)
        CHECK(pthread_create(&threads[i], NULL, do_work, &works[i]) == 0, "no thread");
    for (int i = 0; i < THREADS; i++) {
        pthread_join(threads[i], NULL);
        CHECK(works[i].turns == TURNS && works[i].wrong == 0, "%s: %ld of %ld turns went wrong", names[i], works[i].wrong,
              works[i].turns);
        nrpdcch_fault fault;
        CHECK(open_cell(&works[i].of, &fault) == NRPDCCH_DONE, "opening again");
        close_slot(&works[i].of);
    }
    return report("try_threads");
}

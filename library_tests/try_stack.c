/* How much stack each call takes, over the examples: printed, and held below a limit. A call runs in a thread whose stack was
 * filled before; what is no longer as it was filled was used. The word is the repository's top. */
#define _GNU_SOURCE
#include "slots.h"
#include <pthread.h>
#include <sys/mman.h>

enum { STACK = 1 << 20, FILLING = 0xA5, ROOM = MOST_WATCHES, CALLS = 11, DEEPEST = 127 };

static slot of;
static uint32_t status, handset;
static uint8_t grid[MOST_POINTS], printed[MOST_TEXT];
static nrpdcch_watch watches[ROOM];
static nrpdcch_heard heard, found[ROOM];
static nrpdcch_silence silence;
static nrpdcch_fault fault;
static nrpdcch_head head;
static size_t many, size;

static void *nothing(void *unused)
{
    return unused;
}

static void *opens(void *unused)
{
    nrpdcch_cell_close(&of.cell);
    status = open_cell(&of, &fault);
    return unused;
}

static void *refuses(void *unused)
{
    nrpdcch_cell other = {0};
    status = nrpdcch_cell_open(of.settings.at, of.settings.size / 2, of.reliability.at, 0, of.input_order.at, 0, &other, &fault);
    status = status == NRPDCCH_SETTINGS ? NRPDCCH_DONE : NRPDCCH_ARGUMENT;
    return unused;
}

/* Settings that are nested as deep as JSON may be here: the reader goes down level by level. */
static void *nests(void *unused)
{
    static char nested[6 * DEEPEST + 2];
    nrpdcch_cell other = {0};
    for (size_t level = 0; level < DEEPEST; level++) {
        memcpy(nested + 5 * level, "{\"a\":", 5);
        nested[5 * DEEPEST + 1 + level] = '}';
    }
    nested[5 * DEEPEST] = '1';
    status = nrpdcch_cell_open((uint8_t *)nested, 6 * DEEPEST + 1, of.reliability.at, 0, of.input_order.at, 0, &other, &fault);
    status = status == NRPDCCH_SETTINGS && fault.reason == NRPDCCH_UNKNOWN ? NRPDCCH_DONE : NRPDCCH_ARGUMENT;
    return unused;
}

static void *finds(void *unused)
{
    nrpdcch_carrier carrier;
    uint32_t none, found_none = nrpdcch_cell_handset(&of.cell, (const uint8_t *)"nobody", 6, &none);
    status = nrpdcch_cell_carrier(&of.cell, &carrier);
    status = found_none == NRPDCCH_NO_HANDSET ? status : found_none;
    return unused;
}

static void *plans(void *unused)
{
    status = nrpdcch_plan(&of.cell, handset, of.head.frame, of.head.slot, watches, ROOM, &many);
    return unused;
}

static void *searches(void *unused)
{
    status = nrpdcch_search(&of.cell, handset, of.head.frame, of.head.slot, of.grid, of.points, found, ROOM, &many);
    return unused;
}

static void *hears(void *unused)
{
    status = nrpdcch_hear(&of.cell, handset, of.head.frame, of.head.slot, found[0].watch, of.grid, of.points, &heard, &silence);
    return unused;
}

static void *spells(void *unused)
{
    status = nrpdcch_spell(&of.cell, handset, of.head.frame, of.head.slot, found[0].watch, found[0].format, found[0].fields,
                           found[0].count, grid, of.points, &fault);
    return unused;
}

static void *prints(void *unused)
{
    status = nrpdcch_grid_text(of.head.mu, of.head.frame, of.head.slot, of.head.blocks, of.grid, of.points, printed,
                               sizeof printed, &size);
    return unused;
}

static void *reads(void *unused)
{
    status = nrpdcch_grid_read(of.grid_text.at, of.grid_text.size, grid, sizeof grid, &head, &fault);
    return unused;
}

/* `hear` and `spell` stand behind `search`, which finds the watch. Limits are in KiB. */
static const struct {
    const char *name;
    void *(*run)(void *);
    size_t limit;
} calls[CALLS] = {{"nothing", nothing, 64},
                  {"open", opens, 64},
                  {"open, refused", refuses, 64},
                  {"open, 127 deep", nests, 128},
                  {"handset, carrier", finds, 64},
                  {"plan", plans, 64},
                  {"search", searches, 64},
                  {"hear", hears, 64},
                  {"spell", spells, 64},
                  {"grid_text", prints, 64},
                  {"grid_read", reads, 64}};
static size_t most[CALLS];

/* How many bytes of a stack of its own a function used in a thread. */
static size_t used_by(void *(*run)(void *))
{
    uint8_t *stack = mmap(NULL, STACK, PROT_READ | PROT_WRITE, MAP_PRIVATE | MAP_ANONYMOUS, -1, 0);
    pthread_attr_t attributes;
    pthread_t thread;
    if (stack == MAP_FAILED)
        exit(2);
    memset(stack, FILLING, STACK);
    pthread_attr_init(&attributes);
    pthread_attr_setstack(&attributes, stack, STACK);
    status = NRPDCCH_DONE;
    if (pthread_create(&thread, &attributes, run, NULL))
        exit(2);
    pthread_join(thread, NULL);
    size_t left = 0;
    while (left < STACK && stack[left] == FILLING)
        left++;
    munmap(stack, STACK);
    pthread_attr_destroy(&attributes);
    return STACK - left;
}

static void try_example(const char *top, const char *name)
{
    open_example(&of, top, name);
    for (handset = 0; handset < of.carrier.handsets; handset++)
        for (int i = 0; i < CALLS; i++) {
            if ((calls[i].run == hears || calls[i].run == spells) && many == 0)
                continue;
            size_t used = used_by(calls[i].run);
            CHECK(status == NRPDCCH_DONE, "%s: %s of handset %u answers %u", name, calls[i].name, handset, status);
            most[i] = used > most[i] ? used : most[i];
        }
    close_slot(&of);
}

int main(int count, char **given)
{
    for (int i = 0; i < EXAMPLES; i++)
        try_example(count > 1 ? given[1] : ".", examples[i]);
    for (int i = 0; i < CALLS; i++) {
        size_t used = most[i] - (i ? most[0] : 0);
        printf("%-16s %6zu bytes of stack%s\n", calls[i].name, used, i ? "" : ", which every thread takes");
        CHECK(used <= calls[i].limit * 1024, "%s takes more than %zu KiB of stack", calls[i].name, calls[i].limit);
    }
    return report("try_stack");
}

/* The calls of nrpdcch.h from C: on the examples and the cases of the repository, byte for byte. The word is the repository's
 * top. */
#define _DEFAULT_SOURCE
#include "slots.h"
#include <dirent.h>

static nrpdcch_watch watches[MOST_WATCHES];
static nrpdcch_heard found[MOST_WATCHES];
static uint8_t rewritten[MOST_POINTS], printed[MOST_TEXT];

static bool is_text(const text *made, bytes wanted)
{
    return made->size == wanted.size && !memcmp(made->at, wanted.at, wanted.size);
}

/* Plans and searches, for one handset; the counts are those of both. */
static void look(slot *of, uint32_t handset, size_t *planned, size_t *heard)
{
    uint32_t status = nrpdcch_plan(&of->cell, handset, of->head.frame, of->head.slot, watches, MOST_WATCHES, planned);
    CHECK(status == NRPDCCH_DONE, "the plan of %u: %u", handset, status);
    status = nrpdcch_search(&of->cell, handset, of->head.frame, of->head.slot, of->grid, of->points, found, MOST_WATCHES, heard);
    CHECK(status == NRPDCCH_DONE, "the search of %u: %u", handset, status);
}

/* The lines of a handset in a report. */
static void add_report(text *to, slot *of, const char *name)
{
    size_t planned, heard;
    look(of, handset_named(of, name), &planned, &heard);
    add(to, "handset %s watches %zu heard %zu\n", name, planned, heard);
    for (size_t i = 0; i < heard; i++) {
        const nrpdcch_watch *watch = &watches[found[i].watch];
        add_watch(to, watch);
        add(to, " rnti %04x ", watch->rnti);
        add_heard(to, &found[i]);
        add(to, "\n");
    }
}

/* Spells all that a handset hears on another grid. */
static void spell_again(slot *of, uint32_t handset)
{
    size_t planned, heard;
    nrpdcch_fault fault;
    look(of, handset, &planned, &heard);
    for (size_t i = 0; i < heard; i++) {
        uint32_t status = nrpdcch_spell(&of->cell, handset, of->head.frame, of->head.slot, found[i].watch, found[i].format,
                                        found[i].fields, found[i].count, rewritten, of->points, &fault);
        CHECK(status == NRPDCCH_DONE, "spelling at watch %u of %u: %u", found[i].watch, handset, status);
    }
}

/* One watch after the other: what is heard there is what the search found, and silence everywhere else. */
static void hear_each(slot *of, uint32_t handset)
{
    size_t planned, heard, next = 0;
    look(of, handset, &planned, &heard);
    for (uint32_t watch = 0; watch < planned; watch++) {
        nrpdcch_heard here;
        nrpdcch_silence silence;
        uint32_t status =
            nrpdcch_hear(&of->cell, handset, of->head.frame, of->head.slot, watch, of->grid, of->points, &here, &silence);
        bool is_found = next < heard && found[next].watch == watch;
        CHECK(status == (is_found ? NRPDCCH_DONE : NRPDCCH_SILENT), "watch %u of %u: %u", watch, handset, status);
        if (is_found)
            CHECK(!memcmp(&here, &found[next++], sizeof here), "watch %u of %u hears something else than the search", watch,
                  handset);
    }
}

/* The text of the grid, from the points of which it was read. */
static void print_again(slot *of, const uint8_t *grid, const char *name)
{
    size_t written = 0;
    uint32_t status = nrpdcch_grid_text(of->head.mu, of->head.frame, of->head.slot, of->head.blocks, grid, of->points, printed,
                                        sizeof printed, &written);
    CHECK(status == NRPDCCH_DONE && written == of->grid_text.size && !memcmp(printed, of->grid_text.at, written),
          "%s: the text of its grid is another one", name);
}

/* An example: its report, its grid written anew out of what is heard on it, and each watch by itself. */
static void try_example(const char *top, const char *name)
{
    static slot of;
    static text report_made;
    char folder[PATH], handset[32];
    open_example(&of, top, name);
    join(folder, "examples", name);
    bytes wanted = read_below(top, folder, "report.txt");
    memset(rewritten, 0, sizeof rewritten);
    report_made.size = 0;
    add(&report_made, "frame %u slot %u\n", of.head.frame, of.head.slot);
    for (const char *line = (const char *)wanted.at; line; line = strchr(line, '\n'), line = line ? line + 1 : NULL)
        if (sscanf(line, "handset %31s ", handset) == 1 && !strncmp(line, "handset ", 8))
            add_report(&report_made, &of, handset);
    CHECK(is_text(&report_made, wanted), "%s: the report is another one", name);
    for (uint32_t number = 0; number < of.carrier.handsets; number++) {
        spell_again(&of, number);
        hear_each(&of, number);
    }
    print_again(&of, of.grid, name);
    print_again(&of, rewritten, name);
    CHECK(!memcmp(rewritten, of.grid, of.points), "%s: the grid that is spelled is another one", name);
    free(wanted.at);
    close_slot(&of);
}

/* The first example by its numbers: the grant as its file gives it, the points of its first block, and what is heard. */
static void try_first_example(const char *top)
{
    static slot of;
    static const nrpdcch_field given[] = {{NRPDCCH_FDRA, 101}, {NRPDCCH_TDRA, 2}, {NRPDCCH_MCS, 10},  {NRPDCCH_NDI, 1},
                                          {NRPDCCH_HARQ, 3},   {NRPDCCH_TPC, 1},  {NRPDCCH_PUCCH, 5}, {NRPDCCH_TIMING, 3}};
    static const nrpdcch_watch only = {1, NRPDCCH_COMMON, 0, 8, 0, 39, 17, true, true};
    static const uint8_t first_block[12] = {2, 2, 4, 4, 1, 2, 2, 1, 4, 1, 1, 1};
    nrpdcch_fault fault;
    size_t planned, heard;
    open_example(&of, top, "one_grant");
    CHECK(of.carrier.mu == 1 && of.carrier.blocks == 51 && of.carrier.handsets == 1, "another carrier");
    memset(rewritten, 0, sizeof rewritten);
    uint32_t status = nrpdcch_spell(&of.cell, 0, 0, 0, 0, NRPDCCH_F10, given, 8, rewritten, of.points, &fault);
    CHECK(status == NRPDCCH_DONE && !memcmp(rewritten, of.grid, of.points), "the grant is written otherwise");
    CHECK(!memcmp(rewritten, first_block, sizeof first_block), "the first block has other points");
    print_again(&of, rewritten, "one_grant");
    look(&of, 0, &planned, &heard);
    CHECK(planned == 1 && watches[0].set == only.set && watches[0].kind == only.kind && watches[0].symbol == only.symbol &&
              watches[0].level == only.level && watches[0].candidate == only.candidate && watches[0].size == only.size &&
              watches[0].rnti == only.rnti && watches[0].uplink && watches[0].downlink,
          "another watch");
    CHECK(heard == 1 && found[0].format == NRPDCCH_F10 && found[0].count == 11, "something else is heard");
    for (uint32_t i = 0; i < 32; i++)
        CHECK(i < found[0].count || (found[0].fields[i].name == 0 && found[0].fields[i].value == 0), "entry %u is not zero", i);
    close_slot(&of);
}

/* The text that `explain` prints of a watch. */
static void add_explained(text *to, slot *of, const char *handset, unsigned watch)
{
    nrpdcch_heard here = {0};
    nrpdcch_silence silence = {0};
    size_t planned, heard;
    uint32_t number = handset_named(of, handset);
    look(of, number, &planned, &heard);
    uint32_t status =
        nrpdcch_hear(&of->cell, number, of->head.frame, of->head.slot, watch, of->grid, of->points, &here, &silence);
    CHECK(status == NRPDCCH_DONE || status == NRPDCCH_SILENT, "hearing at watch %u answers %u", watch, status);
    add(to, "watch %u ", watch);
    add_watch(to, &watches[watch]);
    add(to, status ? "\nsilent: " : "\nheard: ");
    if (status)
        add_silence(to, &silence);
    else
        add_heard(to, &here);
    add(to, "\n");
}

/* A case of `explain` that ends well, and whose words are those of most such cases. */
static void try_explained(const char *top, const char *name)
{
    static const char words_of[] = "explain settings.json reliability.txt input_order.txt grid.txt --handset %31s --watch %u";
    static slot of;
    static text made;
    char handset[32];
    unsigned watch;
    bytes words = read_of_case(top, name, "args"), wanted = read_of_case(top, name, "stdout");
    if (wanted.size && sscanf((char *)words.at, words_of, handset, &watch) == 2) {
        read_case(&of, top, name);
        open_slot(&of, name);
        made.size = 0;
        add_explained(&made, &of, handset, watch);
        CHECK(is_text(&made, wanted), "%s: %.*s", name, (int)made.size, made.at);
        close_slot(&of);
    }
    free(words.at);
    free(wanted.at);
}

/* Whether an error line is about a file that the library reads. */
static bool is_of_files(const char *line)
{
    static const char *const begin[] = {
        "error: settings: ", "error: reliability: ", "error: input order: ", "error: grid: byte "};
    for (int i = 0; i < 4; i++)
        if (!strncmp(line, begin[i], strlen(begin[i])))
            return true;
    return false;
}

/* A refused file: the error line of the program, made of what the fault says. A case that is about nothing else has none. */
static void try_refused(const char *top, const char *name)
{
    static slot of;
    static text made;
    nrpdcch_fault fault;
    bytes wanted = read_of_case(top, name, "stderr");
    read_case(&of, top, name);
    made.size = 0;
    uint32_t status = open_cell(&of, &fault);
    if (status == NRPDCCH_SETTINGS)
        add_settings_fault(&made, &fault);
    else if (status == NRPDCCH_TABLE)
        add_table_fault(&made, &fault);
    else if (nrpdcch_grid_read(of.grid_text.at, of.grid_text.size, of.grid, sizeof of.grid, &of.head, &fault) ==
             NRPDCCH_GRID_TEXT)
        add(&made, "error: grid: byte %zu\n", fault.at);
    bool is_right = is_of_files((char *)wanted.at) ? is_text(&made, wanted) : made.size == 0;
    CHECK(is_right, "%s: %.*s", name, (int)made.size, made.at);
    if (status == NRPDCCH_DONE)
        nrpdcch_cell_close(&of.cell);
    free_files(&of);
    free(wanted.at);
}

static bool begins(const char *name, const char *with)
{
    return !strncmp(name, with, strlen(with));
}

/* Whether the files of a case are those that it has, and not filled up or taken from elsewhere. */
static bool is_plain(const char *top, const char *name)
{
    char cases[PATH], folder[PATH], sizes[PATH], links[PATH];
    join(cases, top, "cases");
    join(folder, cases, name);
    join(sizes, folder, "sizes");
    join(links, folder, "links");
    return access(sizes, F_OK) && access(links, F_OK);
}

static void try_cases(const char *top)
{
    char path[PATH];
    join(path, top, "cases");
    DIR *cases = opendir(path);
    CHECK(cases, "%s cannot be read", path);
    for (const struct dirent *entry; cases && (entry = readdir(cases));) {
        const char *name = entry->d_name;
        if (begins(name, "explain_") && is_plain(top, name))
            try_explained(top, name);
        if ((begins(name, "settings_") || begins(name, "table_") || begins(name, "grid_")) && is_plain(top, name))
            try_refused(top, name);
    }
    if (cases)
        closedir(cases);
}

int main(int count, char **given)
{
    const char *top = count > 1 ? given[1] : ".";
    for (int i = 0; i < EXAMPLES; i++)
        try_example(top, examples[i]);
    try_first_example(top);
    try_cases(top);
    return report("try_library");
}

/* The calls of nrpdcch.h from C++, by a class that closes what it opened: the examples are searched and written again byte for
 * byte, and each call gives each of its answers. The word is the repository's top. */
#include "words.h"
#include <fstream>
#include <iterator>
#include <stdexcept>
#include <string>
#include <utility>
#include <vector>

namespace {

using points = std::vector<uint8_t>;

std::string file(const std::string &path)
{
    std::ifstream from(path, std::ios::binary);
    if (!from)
        throw std::runtime_error(path + " cannot be read");
    return {std::istreambuf_iterator<char>(from), {}};
}

const uint8_t *bytes_of(const std::string &text)
{
    return reinterpret_cast<const uint8_t *>(text.data());
}

/* What a call refused. */
struct refusal : std::runtime_error {
    uint32_t status;
    explicit refusal(uint32_t given) : std::runtime_error("status " + std::to_string(given)), status(given) {}
};

void done(uint32_t status)
{
    if (status != NRPDCCH_DONE)
        throw refusal(status);
}

/* The slot that a call is about. */
struct place {
    uint32_t handset, frame, slot;
};

/* A cell, from its opening to the end of its life. The handle stays where it is, so the class can neither be copied nor moved. */
class cell {
    nrpdcch_cell handle = {};

public:
    cell(const std::string &settings, const std::string &reliability, const std::string &input_order)
    {
        nrpdcch_fault fault;
        done(nrpdcch_cell_open(bytes_of(settings), settings.size(), bytes_of(reliability), reliability.size(),
                               bytes_of(input_order), input_order.size(), &handle, &fault));
    }
    cell(const cell &) = delete;
    cell &operator=(const cell &) = delete;
    ~cell() { nrpdcch_cell_close(&handle); }

    uint32_t close() { return nrpdcch_cell_close(&handle); }

    nrpdcch_carrier carrier()
    {
        nrpdcch_carrier on;
        done(nrpdcch_cell_carrier(&handle, &on));
        return on;
    }

    uint32_t handset(const std::string &name)
    {
        uint32_t number;
        done(nrpdcch_cell_handset(&handle, bytes_of(name), name.size(), &number));
        return number;
    }

    std::vector<nrpdcch_watch> plan(place at)
    {
        std::vector<nrpdcch_watch> watches(1);
        size_t count;
        uint32_t status = nrpdcch_plan(&handle, at.handset, at.frame, at.slot, watches.data(), watches.size(), &count);
        if (status == NRPDCCH_SMALL) {
            watches.resize(count);
            status = nrpdcch_plan(&handle, at.handset, at.frame, at.slot, watches.data(), watches.size(), &count);
        }
        done(status);
        watches.resize(count);
        return watches;
    }

    std::vector<nrpdcch_heard> search(place at, const points &grid)
    {
        std::vector<nrpdcch_heard> found(1);
        size_t count;
        uint32_t status =
            nrpdcch_search(&handle, at.handset, at.frame, at.slot, grid.data(), grid.size(), found.data(), found.size(), &count);
        if (status == NRPDCCH_SMALL) {
            found.resize(count);
            status = nrpdcch_search(&handle, at.handset, at.frame, at.slot, grid.data(), grid.size(), found.data(), found.size(),
                                    &count);
        }
        done(status);
        found.resize(count);
        return found;
    }

    nrpdcch_heard hear(place at, uint32_t watch, const points &grid)
    {
        nrpdcch_heard heard;
        nrpdcch_silence silence;
        done(nrpdcch_hear(&handle, at.handset, at.frame, at.slot, watch, grid.data(), grid.size(), &heard, &silence));
        return heard;
    }

    void spell(place at, uint32_t watch, uint32_t format, const std::vector<nrpdcch_field> &fields, points &grid)
    {
        nrpdcch_fault fault;
        const nrpdcch_field none = {};
        done(nrpdcch_spell(&handle, at.handset, at.frame, at.slot, watch, format, fields.empty() ? &none : fields.data(),
                           fields.size(), grid.data(), grid.size(), &fault));
    }
};

std::pair<nrpdcch_head, points> read_grid(const std::string &from)
{
    points grid(14 * 12 * 275);
    nrpdcch_head head;
    nrpdcch_fault fault;
    done(nrpdcch_grid_read(bytes_of(from), from.size(), grid.data(), grid.size(), &head, &fault));
    grid.resize(14 * 12 * head.blocks);
    return {head, grid};
}

std::string grid_text(const nrpdcch_head &head, const points &grid)
{
    std::string made(50000, ' ');
    size_t written;
    done(nrpdcch_grid_text(head.mu, head.frame, head.slot, head.blocks, grid.data(), grid.size(),
                           reinterpret_cast<uint8_t *>(&made[0]), made.size(), &written));
    made.resize(written);
    return made;
}

/* The status with which something is refused, or that all went well. */
template <typename call> uint32_t status_of(call made)
{
    try {
        made();
        return NRPDCCH_DONE;
    } catch (const refusal &why) {
        return why.status;
    }
}

/* The lines of a handset in a report; what it hears is also spelled on the other grid. */
void add_report(text *to, cell &of, place at, const std::string &name, const points &grid, points &other)
{
    const std::vector<nrpdcch_watch> watches = of.plan(at);
    const std::vector<nrpdcch_heard> found = of.search(at, grid);
    add(to, "handset %s watches %zu heard %zu\n", name.c_str(), watches.size(), found.size());
    for (const nrpdcch_heard &heard : found) {
        add_watch(to, &watches[heard.watch]);
        add(to, " rnti %04x ", watches[heard.watch].rnti);
        add_heard(to, &heard);
        add(to, "\n");
        of.spell(at, heard.watch, heard.format, {heard.fields, heard.fields + heard.count}, other);
        CHECK(of.hear(at, heard.watch, grid).count == heard.count, "%s hears something else", name.c_str());
    }
}

void try_example(const std::string &top, const std::string &name)
{
    static text made;
    const std::string folder = top + "/examples/" + name + "/", tables = top + "/examples/tables/",
                      wanted = file(folder + "report.txt");
    cell of(file(folder + "settings.json"), file(tables + "reliability.txt"), file(tables + "input_order.txt"));
    const std::pair<nrpdcch_head, points> read = read_grid(file(folder + "grid.txt"));
    points other(read.second.size());
    made.size = 0;
    add(&made, "frame %u slot %u\n", read.first.frame, read.first.slot);
    for (size_t at = 0; (at = wanted.find("handset ", at)) != std::string::npos; at++) {
        const std::string handset = wanted.substr(at + 8, wanted.find(' ', at + 8) - at - 8);
        add_report(&made, of, {of.handset(handset), read.first.frame, read.first.slot}, handset, read.second, other);
    }
    CHECK(std::string(made.at, made.size) == wanted, "%s: the report is another one", name.c_str());
    CHECK(grid_text(read.first, other) == file(folder + "grid.txt"), "%s: the grid that is written is another one", name.c_str());
}

/* The files of the first example, its grid, and grids that are not as they should be. */
struct material {
    std::string settings, reliability, input_order, over;
    points grid, blank, cut, damaged;

    explicit material(const std::string &top)
        : settings(file(top + "/examples/one_grant/settings.json")), reliability(file(top + "/examples/tables/reliability.txt")),
          input_order(file(top + "/examples/tables/input_order.txt")), over(file(top + "/cases/slot_over/settings.json")),
          grid(read_grid(file(top + "/examples/one_grant/grid.txt")).second), blank(grid.size()), cut(grid.size() - 1),
          damaged(grid)
    {
        damaged[7] = 5;
    }
};

/* Checks that a call is refused with that status. */
template <typename call> void is(uint32_t wanted, const char *what, call made)
{
    uint32_t status = status_of(made);
    CHECK(status == wanted, "%s answers %u, wanted %u", what, status, wanted);
}

/* What the four calls of a slot answer, whatever the grid is. */
void slot_is(uint32_t wanted, cell &of, place at, points &grid)
{
    is(wanted, "the plan", [&] { of.plan(at); });
    is(wanted, "hearing", [&] { of.hear(at, 0, grid); });
    is(wanted, "the search", [&] { of.search(at, grid); });
    is(wanted, "spelling", [&] { of.spell(at, 0, NRPDCCH_F10, {}, grid); });
}

/* What the three calls that read a grid answer. */
void grid_is(uint32_t wanted, cell &of, points &grid)
{
    is(wanted, "hearing", [&] { of.hear({0, 0, 0}, 0, grid); });
    is(wanted, "the search", [&] { of.search({0, 0, 0}, grid); });
    is(wanted, "spelling", [&] { of.spell({0, 0, 0}, 0, NRPDCCH_F10, {}, grid); });
}

/* What spelling answers at the first watch, which leaves the grid as it was. */
void spelling_is(uint32_t wanted, cell &of, uint32_t watch, uint32_t format, const std::vector<nrpdcch_field> &fields,
                 points &grid)
{
    const points before = grid;
    is(wanted, "spelling", [&] { of.spell({0, 0, 0}, watch, format, fields, grid); });
    CHECK(grid == before, "refused spelling wrote to the grid");
}

/* Each answer of each call but want of memory. */
void try_answers(material with)
{
    const std::string &settings = with.settings, &reliability = with.reliability, &input_order = with.input_order;
    cell of(settings, reliability, input_order), over(with.over, reliability, input_order);
    points grid = with.grid;
    is(NRPDCCH_SETTINGS, "opening without settings", [&] { cell("{}", reliability, input_order); });
    is(NRPDCCH_TABLE, "opening with another reliability", [&] { cell(settings, input_order, input_order); });
    is(NRPDCCH_TABLE, "opening with another input order", [&] { cell(settings, reliability, reliability); });
    is(NRPDCCH_NO_HANDSET, "the handset", [&] { of.handset("beta"); });
    slot_is(NRPDCCH_NO_HANDSET, of, {1, 0, 0}, grid);
    slot_is(NRPDCCH_ARGUMENT, of, {0, 1024, 0}, grid);
    slot_is(NRPDCCH_ARGUMENT, of, {0, 0, 20}, grid);
    slot_is(NRPDCCH_OVER, over, {0, 0, 0}, grid);
    is(NRPDCCH_NO_WATCH, "hearing", [&] { of.hear({0, 0, 0}, 1, grid); });
    spelling_is(NRPDCCH_NO_WATCH, of, 1, NRPDCCH_F10, {}, grid);
    spelling_is(NRPDCCH_NO_FORMAT, of, 0, 5, {}, grid);
    spelling_is(NRPDCCH_NOT_CARRIED, of, 0, NRPDCCH_F11, {}, grid);
    grid_is(NRPDCCH_GRID_LENGTH, of, with.cut);
    grid_is(NRPDCCH_GRID_BYTE, of, with.damaged);
    spelling_is(NRPDCCH_FIELD, of, 0, NRPDCCH_F10, {{NRPDCCH_MCS, 32}}, grid);
    spelling_is(NRPDCCH_FIELD, of, 0, NRPDCCH_F10, {{NRPDCCH_BWP, 0}}, grid);
    spelling_is(NRPDCCH_FIELD, of, 0, NRPDCCH_F10, {{NRPDCCH_FDRA, 2047}}, grid);
    is(NRPDCCH_SILENT, "hearing", [&] { of.hear({0, 0, 0}, 0, with.blank); });
    is(NRPDCCH_ARGUMENT, "the text", [&] { grid_text({4, 0, 0, 51}, grid); });
    is(NRPDCCH_GRID_LENGTH, "the text", [&] { grid_text({1, 0, 0, 52}, grid); });
    is(NRPDCCH_GRID_BYTE, "the text", [&] { grid_text({1, 0, 0, 51}, with.damaged); });
    is(NRPDCCH_GRID_TEXT, "reading", [&] { read_grid("nrpdcch grid 2\n"); });
    CHECK(of.search({0, 0, 0}, with.blank).empty() && of.search({0, 0, 0}, grid).size() == 1, "the searches of both grids");
    CHECK(of.close() == NRPDCCH_DONE && of.close() == NRPDCCH_CLOSED, "closing twice");
    is(NRPDCCH_CLOSED, "the carrier", [&] { of.carrier(); });
    is(NRPDCCH_CLOSED, "the handset", [&] { of.handset("alpha"); });
    slot_is(NRPDCCH_CLOSED, of, {0, 0, 0}, grid);
}

}

int main(int count, char **given)
{
    const std::string top = count > 1 ? given[1] : ".";
    for (const char *name : {"one_grant", "own_cell", "narrow_15khz", "wide_30khz", "wide_120khz", "crowded"})
        try_example(top, name);
    try_answers(material(top));
    return report("try_library_cpp");
}

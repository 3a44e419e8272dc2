// nanoflann's tree of halved boxes, from Debian's libnanoflann. Its distances are sums over coordinates, so it has the city block and
// no other measure here, and it has no far order. Coordinates are doubles, in which every distance here is exact. Claims at equal
// distances come in its own order.
#include "contestant.h"

#include <algorithm>
#include <memory>
#include <nanoflann.hpp>
#include <vector>

namespace {

struct Points {
    std::size_t count, d;
    std::vector<double> coordinates;

    std::size_t kdtree_get_point_count() const { return count; }
    double kdtree_get_pt(std::size_t k, std::size_t j) const { return coordinates[k * d + j]; }
    template <class Box> bool kdtree_get_bbox(Box &) const { return false; }
};

// A tree for any d behind one face; d itself is fixed when it is compiled, as its authors advise.
struct Tree {
    virtual ~Tree() = default;
    virtual std::size_t first(const double *probe, std::size_t count, uint32_t *numbers, double *distances) const = 0;
};

template <int D> struct FixedTree : Tree {
    using Metric = nanoflann::L1_Adaptor<double, Points, double, uint32_t>;
    nanoflann::KDTreeSingleIndexAdaptor<Metric, Points, D, uint32_t> index;

    explicit FixedTree(const Points &points) : index(D, points) {}

    std::size_t first(const double *probe, std::size_t count, uint32_t *numbers, double *distances) const override
    {
        return index.knnSearch(probe, static_cast<uint32_t>(count), numbers, distances);
    }
};

struct Table {
    Points points;
    const uint32_t *references;
    std::unique_ptr<Tree> tree;
};

std::unique_ptr<Tree> tree_of(const Points &points)
{
    switch (points.d) {
    case 1: return std::make_unique<FixedTree<1>>(points);
    case 2: return std::make_unique<FixedTree<2>>(points);
    case 3: return std::make_unique<FixedTree<3>>(points);
    default: return std::make_unique<FixedTree<8>>(points);
    }
}

void *enter(const cell *cell)
{
    auto *t = new Table{{cell->n, cell->d, {}}, cell->references, nullptr};
    t->points.coordinates.assign(cell->coordinates, cell->coordinates + cell->n * cell->d);
    t->tree = tree_of(t->points);
    return t;
}

void leave(void *table)
{
    delete static_cast<Table *>(table);
}

// For the fifth page it finds five and drops four. It finds one claim more, which tells that the page is not the last.
void page(const Table &t, const double *probe, const uint64_t *place, uint64_t *outcome, uint64_t *items)
{
    const std::size_t skipped = place[FROM] != 0 ? 4 * NEARBY_MOST_PAGE : 0, end = skipped + NEARBY_MOST_PAGE;
    uint32_t numbers[5 * NEARBY_MOST_PAGE + 1];
    double distances[5 * NEARBY_MOST_PAGE + 1];
    const std::size_t all = t.tree->first(probe, end + 1, numbers, distances);
    std::size_t count = 0;
    for (std::size_t i = skipped; i < std::min(all, end); i++, count++) {
        *items++ = numbers[i];
        *items++ = t.references[numbers[i]];
        *items++ = static_cast<uint64_t>(distances[i]);
    }
    outcome[0] = 0;
    outcome[1] = count;
    outcome[2] = all <= end;
}

void nearest(const Table &t, const double *probe, uint64_t *row)
{
    uint32_t number;
    double distance;
    row[0] = t.tree->first(probe, 1, &number, &distance);
    row[1] = number;
    row[2] = t.references[number];
    row[3] = static_cast<uint64_t>(distance);
}

void ask(void *table, const cell *cell, question question, std::size_t count, answers *answers)
{
    const Table &t = *static_cast<const Table *>(table);
    for (std::size_t i = 0; i < count; i++) {
        double probe[NEARBY_MOST_COORDINATES];
        for (std::size_t j = 0; j < cell->d; j++)
            probe[j] = cell->probes[i * cell->d + j];
        if (question == NEAREST)
            nearest(t, probe, &answers->found[i * FOUND]);
        else
            page(t, probe, &cell->places[question][i * NEARBY_PLACE], &answers->outcomes[i * OUTCOME], &answers->items[i * ITEMS]);
    }
}

int can(const cell *cell, question question)
{
    return cell->measure == NEARBY_CITY_BLOCK && (question == NEAREST || question == FIRST_PAGE || question == FIFTH_PAGE);
}

} // namespace

extern "C" const contestant nanoflann_peer = {"nanoflann", 0, can, enter, leave, ask};

// NearTree itself, from Debian's libcneartree: the C++ template, because the k nearest of the C library of the same version are
// not the nearest. Coordinates are doubles, in which every distance here is exact. Claims at equal distances come in its own order.
#include "contestant.h"

#include <TNear.h>
#include <algorithm>
#include <memory>
#include <vector>

namespace {

// A claim for the template: it measures with `-` and `Norm`, which are the measure M.
template <int D, int M> struct Point {
    double coordinates[D];
    uint32_t number;

    Point operator-(const Point &other) const
    {
        Point p;
        p.number = 0;
        for (int j = 0; j < D; j++)
            p.coordinates[j] = coordinates[j] - other.coordinates[j];
        return p;
    }

    double Norm() const
    {
        double norm = 0;
        for (double c : coordinates) {
            if (M == NEARBY_CITY_BLOCK)
                norm += std::fabs(c);
            else if (M == NEARBY_MAXIMUM)
                norm = std::max(norm, std::fabs(c));
            else
                norm += c != 0;
        }
        return norm;
    }
};

// A tree of any d and measure behind one face.
struct Tree {
    virtual ~Tree() = default;
    virtual void ask(const cell *cell, question question, std::size_t count, answers *answers) = 0;
};

template <int D, int M> class FixedTree : public Tree {
    using P = Point<D, M>;

    CNearTree<P> tree;
    const uint32_t *references;

    static P point(const int32_t *coordinates, std::size_t number)
    {
        P p;
        p.number = static_cast<uint32_t>(number);
        std::copy(coordinates, coordinates + D, p.coordinates);
        return p;
    }

    void put(const P &found, const P &probe, uint64_t *item) const
    {
        item[0] = found.number;
        item[1] = references[found.number];
        item[2] = static_cast<uint64_t>((found - probe).Norm());
    }

    // It has no places to go on from: for the fifth page it finds five and drops four. It finds one claim more, which tells that the page
    // is not the last.
    void page(const P &probe, const uint64_t *place, std::vector<P> &found, uint64_t *outcome, uint64_t *items)
    {
        const std::size_t skipped = place[FROM] != 0 ? 4 * NEARBY_MOST_PAGE : 0, end = skipped + NEARBY_MOST_PAGE;
        if (place[ORDER] == NEARBY_NEAR)
            tree.FindK_NearestNeighbors(end + 1, DBL_MAX, found, probe);
        else
            tree.FindK_FarthestNeighbors(end + 1, found, probe);
        std::size_t count = 0;
        for (std::size_t i = skipped; i < std::min(found.size(), end); i++)
            put(found[i], probe, &items[NEARBY_ITEM * count++]);
        outcome[0] = 0;
        outcome[1] = count;
        outcome[2] = found.size() <= end;
    }

public:
    explicit FixedTree(const cell *cell) : references(cell->references)
    {
        // Whole spheres without a cache of distances: the fastest of its searches here.
        const long flags = CNearTree<P>::NTF_SphericalKNN | CNearTree<P>::NTF_NoDistanceCache;
        tree.SetFlags(flags, flags | CNearTree<P>::NTF_AnnularKNN);
        for (std::size_t k = 0; k < cell->n; k++)
            tree.insert(point(&cell->coordinates[k * D], k));
        tree.CompleteDelayedInsert();
    }

    void ask(const cell *cell, question question, std::size_t count, answers *answers) override
    {
        std::vector<P> found;
        for (std::size_t i = 0; i < count; i++) {
            const P probe = point(&cell->probes[i * D], 0);
            uint64_t *row = &answers->found[i * FOUND];
            P one = probe;
            if (question == NEAREST)
                row[0] = tree.NearestNeighbor(DBL_MAX, one, probe);
            else if (question == FARTHEST)
                row[0] = tree.FarthestNeighbor(one, probe);
            else
                page(probe, &cell->places[question][i * NEARBY_PLACE], found, &answers->outcomes[i * OUTCOME],
                     &answers->items[i * ITEMS]);
            if (question == NEAREST || question == FARTHEST)
                put(one, probe, row + 1);
        }
    }
};

template <int D> std::unique_ptr<Tree> tree_in(const cell *cell)
{
    switch (cell->measure) {
    case NEARBY_CITY_BLOCK: return std::make_unique<FixedTree<D, NEARBY_CITY_BLOCK>>(cell);
    case NEARBY_MAXIMUM: return std::make_unique<FixedTree<D, NEARBY_MAXIMUM>>(cell);
    default: return std::make_unique<FixedTree<D, NEARBY_HAMMING>>(cell);
    }
}

void *enter(const cell *cell)
{
    switch (cell->d) {
    case 1: return tree_in<1>(cell).release();
    case 2: return tree_in<2>(cell).release();
    case 3: return tree_in<3>(cell).release();
    default: return tree_in<8>(cell).release();
    }
}

void leave(void *table)
{
    delete static_cast<Tree *>(table);
}

void ask(void *table, const cell *cell, question question, std::size_t count, answers *answers)
{
    static_cast<Tree *>(table)->ask(cell, question, count, answers);
}

int can(const cell *, question question)
{
    return question != OFFICE;
}

} // namespace

extern "C" const contestant neartree_peer = {"NearTree", 0, can, enter, leave, ask};

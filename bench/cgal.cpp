// (c) CGAL's combinatorial map: beta 1 is the face-next, beta 2 the partner, so that a vertex's darts are those of its vertex there.
#include "cgal.h"

#include <CGAL/Combinatorial_map.h>

#include <cstdlib>
#include <tuple>
#include <vector>

namespace {

// Each dart carries its number; no cell carries anything.
struct Items {
    template <class Map>
    struct Dart_wrapper {
        typedef uint32_t Dart_info;
        typedef std::tuple<> Attributes;
    };
};

typedef CGAL::Combinatorial_map<2, Items> Map;

} // namespace

struct cgal_map {
    Map map;
    std::vector<Map::Dart_handle> darts; // by number, null where gone
};

// CGAL's own check of a map: its links go both ways.
static void check(const cgal_map *map) {
    if (!map->map.is_valid()) std::abort();
}

// One dart for each number, then the links.
cgal_map *cgal_build(const uint32_t *table, uint32_t darts) {
    cgal_map *built = new cgal_map;
    built->darts.reserve(darts);
    for (uint32_t d = 0; d < darts; d++) built->darts.push_back(built->map.create_dart(d));
    for (uint32_t d = 0; d < darts; d++) built->map.link_beta<1>(built->darts[d], built->darts[table[d ^ 1]]);
    for (uint32_t d = 0; d < darts; d += 2) built->map.link_beta<2>(built->darts[d], built->darts[d + 1]);
    check(built);
    return built;
}

// The kernel's edges one after another. Nothing is judged: CGAL would have to walk the vertex.
void cgal_contract(cgal_map *map, const uint32_t *kernel, size_t length) {
    check(map);
    for (size_t i = 0; i < length; i++) {
        uint32_t p = 2 * kernel[i];
        map->map.contract_cell<1>(map->darts[p]);
        map->darts[p] = map->darts[p + 1] = nullptr;
    }
}

// One pass by rising edge over the empty loops, which have a face of one dart at one side.
void cgal_sweep(cgal_map *map) {
    check(map);
    for (uint32_t p = 0; p < map->darts.size(); p += 2) {
        Map::Dart_handle a = map->darts[p], b = map->darts[p + 1];
        if (a == nullptr || (map->map.beta<1>(a) == a) == (map->map.beta<1>(b) == b)) continue;
        map->map.remove_cell<1>(a);
        map->darts[p] = map->darts[p + 1] = nullptr;
    }
}

void cgal_count(cgal_map *map, uint32_t counts[3]) {
    check(map);
    counts[0] = map->map.number_of_darts();
    counts[1] = map->map.one_dart_per_cell<0>().size();
    counts[2] = map->map.one_dart_per_cell<2>().size();
}

// The successor is the face-next of the partner.
void cgal_successors(cgal_map *map, uint32_t *successors) {
    uint32_t darts = map->darts.size();
    for (uint32_t d = 0; d < darts; d++) successors[d] = darts;
    for (Map::Dart_handle d : map->darts)
        if (d != nullptr) successors[map->map.info(d)] = map->map.info(map->map.beta<2, 1>(d));
}

void cgal_free(cgal_map *map) {
    delete map;
}

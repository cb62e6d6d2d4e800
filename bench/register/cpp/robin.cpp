// tsl::robin_map, Debian's robin-map-dev.
#include <initializer_list>
#include <tsl/robin_map.h>

#include "batches.hpp"

using Map = tsl::robin_map<std::uint64_t, std::uint64_t, Hash>;

extern "C" {
void *robin_new(std::size_t slots, std::uint64_t salt, bool hashed)
{
    auto *map = new Map(0, Hash{salt, hashed});
    map->max_load_factor(0.95f);
    map->rehash(slots);
    return map;
}
void robin_free(void *map) { delete static_cast<Map *>(map); }
std::size_t robin_buckets(const void *map) { return static_cast<const Map *>(map)->bucket_count(); }
std::uint64_t robin_find_all(const void *map, const std::uint64_t *keys, std::size_t n) { return find_all(*static_cast<const Map *>(map), keys, n); }
std::uint64_t robin_store_all(void *map, const std::uint64_t *keys, std::size_t n) { return store_all(*static_cast<Map *>(map), keys, n); }
std::uint64_t robin_remove_all(void *map, const std::uint64_t *keys, std::size_t n) { return remove_all(*static_cast<Map *>(map), keys, n); }
std::uint64_t robin_change_all(void *map, const std::uint64_t *keys, std::size_t n, std::uint64_t turn)
{
    std::uint64_t done = 0;
    for (std::size_t i = 0; i < n; i++) {
        auto at = static_cast<Map *>(map)->find(keys[i]);
        if (at != static_cast<Map *>(map)->end()) {
            at.value() = ~keys[i] ^ turn;
            done++;
        }
    }
    return done;
}
}

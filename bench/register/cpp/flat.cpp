// boost::unordered_flat_map, Debian's libboost1.81-dev.
#include <boost/unordered/unordered_flat_map.hpp>
#include <initializer_list>

#include "batches.hpp"

using Map = boost::unordered_flat_map<std::uint64_t, std::uint64_t, Hash>;

extern "C" {
// As many buckets as slots, or the next number below that it offers.
void *flat_new(std::size_t slots, std::uint64_t salt, bool hashed) { return new Map(slots / 2 + 1, Hash{salt, hashed}); }
void flat_free(void *map) { delete static_cast<Map *>(map); }
std::size_t flat_buckets(const void *map) { return static_cast<const Map *>(map)->bucket_count(); }
std::uint64_t flat_find_all(const void *map, const std::uint64_t *keys, std::size_t n) { return find_all(*static_cast<const Map *>(map), keys, n); }
std::uint64_t flat_store_all(void *map, const std::uint64_t *keys, std::size_t n) { return store_all(*static_cast<Map *>(map), keys, n); }
std::uint64_t flat_remove_all(void *map, const std::uint64_t *keys, std::size_t n) { return remove_all(*static_cast<Map *>(map), keys, n); }
std::uint64_t flat_change_all(void *map, const std::uint64_t *keys, std::size_t n, std::uint64_t turn)
{
    std::uint64_t done = 0;
    for (std::size_t i = 0; i < n; i++) {
        auto at = static_cast<Map *>(map)->find(keys[i]);
        if (at != static_cast<Map *>(map)->end()) {
            at->second = ~keys[i] ^ turn;
            done++;
        }
    }
    return done;
}
}

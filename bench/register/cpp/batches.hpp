// Batches of calls over a C++ table, each in one loop with the table's own code inlined.
#pragma once
#include <cstddef>
#include <cstdint>

// The register's two home numbers: the identifier, or FNV-1a of the salt and the identifier.
struct Hash {
    std::uint64_t salt;
    bool hashed;

    std::size_t operator()(std::uint64_t x) const
    {
        if (!hashed)
            return x;
        std::uint64_t h = 0xcbf29ce484222325u;
        for (std::uint64_t word : {salt, x})
            for (int i = 0; i < 64; i += 8)
                h = (h ^ (word >> i & 255)) * 0x100000001b3u;
        return h;
    }
};

// Adds the entry of each found identifier, and 1 for each absent one.
template <class Map> std::uint64_t find_all(const Map &map, const std::uint64_t *keys, std::size_t n)
{
    std::uint64_t sum = 0;
    for (std::size_t i = 0; i < n; i++) {
        auto at = map.find(keys[i]);
        sum += at == map.end() ? 1 : at->second;
    }
    return sum;
}

template <class Map> std::uint64_t store_all(Map &map, const std::uint64_t *keys, std::size_t n)
{
    std::uint64_t done = 0;
    for (std::size_t i = 0; i < n; i++)
        done += map.try_emplace(keys[i], ~keys[i]).second;
    return done;
}

template <class Map> std::uint64_t remove_all(Map &map, const std::uint64_t *keys, std::size_t n)
{
    std::uint64_t done = 0;
    for (std::size_t i = 0; i < n; i++)
        done += map.erase(keys[i]);
    return done;
}

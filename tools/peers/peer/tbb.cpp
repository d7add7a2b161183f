// TBB's concurrent_hash_map.
#include <tbb/concurrent_hash_map.h>

#include "../loops.hpp"

namespace {

struct Tbb {
    using Map = tbb::concurrent_hash_map<uint64_t, uint64_t>;

    struct Session : peers::Plain {
        explicit Session(Map &map) : map(map) {}
        bool get(uint64_t key, uint64_t &value) {
            Map::const_accessor found;
            if (!map.find(found, key)) return false;
            value = found->second;
            return true;
        }
        void upsert(uint64_t key, uint64_t value) {
            Map::accessor place;
            map.insert(place, key);
            place->second = value;
        }
        void add(uint64_t key, uint64_t number) {
            Map::accessor place;
            map.insert(place, key);
            place->second += number;
        }
        Map &map;
    };

    Tbb(const peers::Room &room, bool) : map(room.keys) {}
    std::unique_ptr<Session> session(unsigned) { return std::make_unique<Session>(map); }
    void commit(bool) {}

    Map map;
};

const peers::Registered here({31, "TBB concurrent_hash_map", false, false, false, peers::opened<Tbb>});

}  // namespace

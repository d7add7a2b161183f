// libcuckoo's concurrent hash map.
#include <libcuckoo/cuckoohash_map.hh>

#include "../loops.hpp"

namespace {

struct Cuckoo {
    using Map = libcuckoo::cuckoohash_map<uint64_t, uint64_t>;

    struct Session : peers::Plain {
        explicit Session(Map &map) : map(map) {}
        bool get(uint64_t key, uint64_t &value) { return map.find(key, value); }
        void upsert(uint64_t key, uint64_t value) { map.insert_or_assign(key, value); }
        void add(uint64_t key, uint64_t number) {
            map.upsert(key, [number](uint64_t &value) { value += number; }, number);
        }
        Map &map;
    };

    Cuckoo(const peers::Room &room, bool) : map(2 * room.keys) {}
    std::unique_ptr<Session> session(unsigned) { return std::make_unique<Session>(map); }
    void commit(bool) {}

    Map map;
};

const peers::Registered here({30, "libcuckoo", false, false, false, peers::opened<Cuckoo>});

}  // namespace

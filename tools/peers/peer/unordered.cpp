// std::unordered_map behind one std::mutex, and 64 of them behind one each.
#include <mutex>
#include <unordered_map>

#include "../loops.hpp"

namespace {

using peers::Room;

struct alignas(128) Shard {
    std::mutex lock;
    std::unordered_map<uint64_t, uint64_t> map;

    bool get(uint64_t key, uint64_t &value) {
        std::lock_guard held(lock);
        const auto found = map.find(key);
        if (found == map.end()) return false;
        value = found->second;
        return true;
    }

    void upsert(uint64_t key, uint64_t value) {
        std::lock_guard held(lock);
        map[key] = value;
    }

    void add(uint64_t key, uint64_t number) {
        std::lock_guard held(lock);
        map[key] += number;
    }
};

// The shard is taken from the key's high bits, since the map goes by the low ones.
template <unsigned shard_bits>
struct Sharded {
    static constexpr size_t shards = size_t{1} << shard_bits;

    struct Session : peers::Plain {
        explicit Session(Shard *all) : all(all) {}
        Shard &of(uint64_t key) {
            if constexpr (shard_bits == 0) return all[0];
            else return all[key >> (64 - shard_bits)];
        }
        bool get(uint64_t key, uint64_t &value) { return of(key).get(key, value); }
        void upsert(uint64_t key, uint64_t value) { of(key).upsert(key, value); }
        void add(uint64_t key, uint64_t number) { of(key).add(key, number); }
        Shard *all;
    };

    Sharded(const Room &room, bool) : all(new Shard[shards]) {
        for (size_t i = 0; i < shards; i++) all[i].map.reserve(room.keys / shards);
    }
    std::unique_ptr<Session> session(unsigned) { return std::make_unique<Session>(all.get()); }
    void commit(bool) {}

    std::unique_ptr<Shard[]> all;
};

const peers::Registered one({20, "unordered_map + mutex", false, false, false, peers::opened<Sharded<0>>});
const peers::Registered many({21, "unordered_map in 64 shards", false, false, false, peers::opened<Sharded<6>>});

}  // namespace

// Rust's dashmap, called through C: as it comes, and with 512 shards and the key itself as its hash.
#include "../loops.hpp"

extern "C" {
struct PlainDash;
PlainDash *plain_dash_new(size_t keys);
int plain_dash_get(const PlainDash *, uint64_t key, uint64_t *value);
void plain_dash_upsert(const PlainDash *, uint64_t key, uint64_t value);
void plain_dash_add(const PlainDash *, uint64_t key, uint64_t number);
void plain_dash_free(PlainDash *);
struct FastDash;
FastDash *fast_dash_new(size_t keys);
int fast_dash_get(const FastDash *, uint64_t key, uint64_t *value);
void fast_dash_upsert(const FastDash *, uint64_t key, uint64_t value);
void fast_dash_add(const FastDash *, uint64_t key, uint64_t number);
void fast_dash_free(FastDash *);
}

namespace {

template <class Map, auto make, auto get_, auto upsert_, auto add_, auto free_>
struct Dash {
    struct Session : peers::Plain {
        explicit Session(Map *map) : map(map) {}
        bool get(uint64_t key, uint64_t &value) { return get_(map, key, &value); }
        void upsert(uint64_t key, uint64_t value) { upsert_(map, key, value); }
        void add(uint64_t key, uint64_t number) { add_(map, key, number); }
        Map *map;
    };

    Dash(const peers::Room &room, bool) : map(make(room.keys)) {}
    Dash(const Dash &) = delete;
    ~Dash() { free_(map); }
    std::unique_ptr<Session> session(unsigned) { return std::make_unique<Session>(map); }
    void commit(bool) {}

    Map *map;
};

using PlainMap = Dash<PlainDash, plain_dash_new, plain_dash_get, plain_dash_upsert, plain_dash_add, plain_dash_free>;
using FastMap = Dash<FastDash, fast_dash_new, fast_dash_get, fast_dash_upsert, fast_dash_add, fast_dash_free>;

const peers::Registered plain({40, "dashmap", false, false, false, peers::opened<PlainMap>});
const peers::Registered fast({41, "dashmap (512 shards)", false, false, false, peers::opened<FastMap>});

}  // namespace

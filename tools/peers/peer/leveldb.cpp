// LevelDB: writes aren't synced, and a commit is an empty write that is.
#include <leveldb/db.h>
#include <leveldb/env.h>
#include <leveldb/write_batch.h>

#include <cstring>

#include "../loops.hpp"
#include "stripes.hpp"

namespace {

void must(const leveldb::Status &status, const char *what) {
    if (!status.ok() && !status.IsNotFound()) peers::fail(std::string("LevelDB: ") + what + ": " + status.ToString());
}

leveldb::Slice slice(const uint64_t &word) { return {reinterpret_cast<const char *>(&word), sizeof word}; }

struct Level {
    struct Session : peers::Plain {
        explicit Session(Level &store) : store(store) {}

        bool get(uint64_t key, uint64_t &value) {
            const leveldb::Status status = store.db->Get({}, slice(key), &found);
            must(status, "get");
            if (!status.ok()) return false;
            std::memcpy(&value, found.data(), sizeof value);
            return true;
        }

        void upsert(uint64_t key, uint64_t value) { must(store.db->Put({}, slice(key), slice(value)), "put"); }

        void add(uint64_t key, uint64_t number) {
            std::lock_guard held(store.stripes.of(key));
            uint64_t value = 0;
            get(key, value);
            upsert(key, value + number);
        }

        Level &store;
        std::string found;
    };

    Level(const peers::Room &room, bool) {
        leveldb::Options options;
        options.create_if_missing = true;
        options.compression = leveldb::kNoCompression;
        options.write_buffer_size = 64 << 20;  // as RocksDB's
        leveldb::DB *opened;
        must(leveldb::DB::Open(options, room.folder, &opened), "open");
        db.reset(opened);
        // Its thread for work beside begins here. Else a bound thread would begin it, on its own processor alone.
        leveldb::Env::Default()->Schedule([](void *) {}, nullptr);
    }
    std::unique_ptr<Session> session(unsigned) { return std::make_unique<Session>(*this); }

    void commit(bool) {
        leveldb::WriteOptions synced;
        synced.sync = true;
        leveldb::WriteBatch nothing;
        must(db->Write(synced, &nothing), "sync");
    }

    std::unique_ptr<leveldb::DB> db;
    peers::Stripes stripes;
};

const peers::Registered here({53, "LevelDB", true, false, false, peers::opened<Level>});

}  // namespace

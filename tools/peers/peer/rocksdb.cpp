// RocksDB: its log is written into memory, and a commit writes and syncs it.
#include <rocksdb/db.h>
#include <rocksdb/options.h>

#include <cstring>

#include "../loops.hpp"
#include "stripes.hpp"

namespace {

void must(const rocksdb::Status &status, const char *what) {
    if (!status.ok() && !status.IsNotFound()) peers::fail(std::string("RocksDB: ") + what + ": " + status.ToString());
}

rocksdb::Slice slice(const uint64_t &word) { return {reinterpret_cast<const char *>(&word), sizeof word}; }

struct Rocks {
    struct Session : peers::Plain {
        explicit Session(Rocks &store) : store(store) {}

        bool get(uint64_t key, uint64_t &value) {
            found.Reset();
            const rocksdb::Status status = store.db->Get({}, store.db->DefaultColumnFamily(), slice(key), &found);
            must(status, "get");
            if (!status.ok()) return false;
            std::memcpy(&value, found.data(), sizeof value);
            return true;
        }

        void upsert(uint64_t key, uint64_t value) { must(store.db->Put({}, slice(key), slice(value)), "put"); }

        void add(uint64_t key, uint64_t number) {
            std::lock_guard held(store.stripes.of(key));
            uint64_t value = 0;
            get(key, value);
            upsert(key, value + number);
        }

        Rocks &store;
        rocksdb::PinnableSlice found;
    };

    Rocks(const peers::Room &room, bool) {
        rocksdb::Options options;
        options.create_if_missing = true;
        options.compression = rocksdb::kNoCompression;
        options.manual_wal_flush = true;
        rocksdb::DB *opened;
        must(rocksdb::DB::Open(options, room.folder, &opened), "open");
        db.reset(opened);
    }
    std::unique_ptr<Session> session(unsigned) { return std::make_unique<Session>(*this); }
    void commit(bool) { must(db->FlushWAL(true), "sync"); }

    std::unique_ptr<rocksdb::DB> db;
    peers::Stripes stripes;
};

const peers::Registered here({52, "RocksDB", true, false, false, peers::opened<Rocks>});

}  // namespace

// LMDB in two forms. In one each update is a transaction of its own, which isn't synced (MDB_NOSYNC), and a commit syncs the file. In
// the other all calls are made in one transaction behind a mutex, and a commit ends it.
#include <lmdb.h>

#include <cstring>
#include <mutex>

#include "../loops.hpp"

namespace {

int must(int result, const char *what) {
    if (result != 0 && result != MDB_NOTFOUND) peers::fail(std::string("LMDB: ") + what + ": " + mdb_strerror(result));
    return result;
}

struct Table {
    Table(const peers::Room &room, unsigned flags) {
        must(mdb_env_create(&env), "create");
        must(mdb_env_set_mapsize(env, size_t{4} << 30), "size");
        must(mdb_env_open(env, room.folder.c_str(), flags, 0644), "open");
        MDB_txn *txn = begin();
        must(mdb_dbi_open(txn, nullptr, MDB_INTEGERKEY, &table), "table");
        must(mdb_txn_commit(txn), "commit");
    }
    Table(const Table &) = delete;
    ~Table() { mdb_env_close(env); }

    MDB_txn *begin(unsigned flags = 0) const {
        MDB_txn *txn;
        must(mdb_txn_begin(env, nullptr, flags, &txn), "begin");
        return txn;
    }

    bool get(MDB_txn *txn, uint64_t key, uint64_t &value) const {
        MDB_val name{sizeof key, &key}, found;
        if (must(mdb_get(txn, table, &name, &found), "get") == MDB_NOTFOUND) return false;
        std::memcpy(&value, found.mv_data, sizeof value);
        return true;
    }

    void put(MDB_txn *txn, uint64_t key, uint64_t value) const {
        MDB_val name{sizeof key, &key}, data{sizeof value, &value};
        must(mdb_put(txn, table, &name, &data, 0), "put");
    }

    void add(MDB_txn *txn, uint64_t key, uint64_t number) const {
        uint64_t value = 0;
        get(txn, key, value);
        put(txn, key, value + number);
    }

    MDB_env *env;
    MDB_dbi table;
};

struct Many {
    struct Session : peers::Plain {
        explicit Session(const Table &table) : table(table), reader(table.begin(MDB_RDONLY)) { mdb_txn_reset(reader); }
        Session(const Session &) = delete;
        ~Session() { mdb_txn_abort(reader); }

        bool get(uint64_t key, uint64_t &value) {
            must(mdb_txn_renew(reader), "renew");
            const bool found = table.get(reader, key, value);
            mdb_txn_reset(reader);
            return found;
        }

        void upsert(uint64_t key, uint64_t value) {
            MDB_txn *writer = table.begin();
            table.put(writer, key, value);
            must(mdb_txn_commit(writer), "commit");
        }

        void add(uint64_t key, uint64_t number) {
            MDB_txn *writer = table.begin();
            table.add(writer, key, number);
            must(mdb_txn_commit(writer), "commit");
        }

        const Table &table;
        MDB_txn *reader;
    };

    Many(const peers::Room &room, bool) : table(room, MDB_NOSYNC | MDB_NOTLS) {}
    std::unique_ptr<Session> session(unsigned) { return std::make_unique<Session>(table); }
    void commit(bool) { must(mdb_env_sync(table.env, 1), "sync"); }

    Table table;
};

struct One {
    struct Session : peers::Plain {
        explicit Session(One &store) : store(store) {}

        bool get(uint64_t key, uint64_t &value) {
            std::lock_guard held(store.lock);
            return store.table.get(store.txn, key, value);
        }

        void upsert(uint64_t key, uint64_t value) {
            std::lock_guard held(store.lock);
            store.table.put(store.txn, key, value);
        }

        void add(uint64_t key, uint64_t number) {
            std::lock_guard held(store.lock);
            store.table.add(store.txn, key, number);
        }

        One &store;
    };

    // LMDB's own lock belongs to the thread that began a transaction. The mutex stands for it.
    One(const peers::Room &room, bool) : table(room, MDB_NOLOCK), txn(table.begin()) {}
    One(const One &) = delete;
    ~One() { mdb_txn_abort(txn); }
    std::unique_ptr<Session> session(unsigned) { return std::make_unique<Session>(*this); }

    void commit(bool) {
        std::lock_guard held(lock);
        must(mdb_txn_commit(txn), "commit");
        txn = table.begin();
    }

    Table table;
    MDB_txn *txn;
    std::mutex lock;
};

const peers::Registered one({50, "LMDB", true, false, false, peers::opened<One>});
const peers::Registered many({51, "LMDB (by call)", true, false, false, peers::opened<Many>});

}  // namespace

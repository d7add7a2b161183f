// SQLite with a write-ahead log: one connection behind a mutex, whose transaction a commit ends.
//
// A transaction for each update would cost ten times as much, and readers of their own would see no update before its commit.
#include <sqlite3.h>

#include <mutex>

#include "../loops.hpp"

namespace {

struct Sqlite {
    struct Session : peers::Plain {
        explicit Session(Sqlite &store) : store(store) {}

        bool get(uint64_t key, uint64_t &value) {
            std::lock_guard held(store.lock);
            sqlite3_bind_int64(store.select, 1, key);
            const bool found = store.step(store.select) == SQLITE_ROW;
            if (found) value = sqlite3_column_int64(store.select, 0);
            sqlite3_reset(store.select);
            return found;
        }

        void upsert(uint64_t key, uint64_t value) { update(store.replace, key, value); }
        void add(uint64_t key, uint64_t number) { update(store.increase, key, number); }

        void update(sqlite3_stmt *statement, uint64_t key, uint64_t number) {
            std::lock_guard held(store.lock);
            sqlite3_bind_int64(statement, 1, key);
            sqlite3_bind_int64(statement, 2, number);
            store.step(statement);
            sqlite3_reset(statement);
        }

        Sqlite &store;
    };

    Sqlite(const peers::Room &room, bool) {
        must(sqlite3_open_v2((room.folder + "/store.sqlite").c_str(), &db, SQLITE_OPEN_READWRITE | SQLITE_OPEN_CREATE | SQLITE_OPEN_NOMUTEX, nullptr));
        run("PRAGMA journal_mode = WAL");
        run("PRAGMA synchronous = FULL");
        run("PRAGMA cache_size = -262144");  // 256 MiB
        run("CREATE TABLE IF NOT EXISTS pairs (key INTEGER PRIMARY KEY, value INTEGER NOT NULL)");
        select = prepared("SELECT value FROM pairs WHERE key = ?1");
        replace = prepared("INSERT OR REPLACE INTO pairs VALUES (?1, ?2)");
        increase = prepared("INSERT INTO pairs VALUES (?1, ?2) ON CONFLICT (key) DO UPDATE SET value = value + ?2");
        run("BEGIN");
    }
    Sqlite(const Sqlite &) = delete;

    ~Sqlite() {
        run("COMMIT");
        for (sqlite3_stmt *statement : {select, replace, increase}) sqlite3_finalize(statement);
        sqlite3_close(db);
    }

    std::unique_ptr<Session> session(unsigned) { return std::make_unique<Session>(*this); }

    void commit(bool) {
        std::lock_guard held(lock);
        run("COMMIT");
        run("BEGIN");
    }

    void must(int result) {
        if (result != SQLITE_OK) peers::fail(std::string("SQLite: ") + sqlite3_errmsg(db));
    }

    void run(const char *words) { must(sqlite3_exec(db, words, nullptr, nullptr, nullptr)); }

    sqlite3_stmt *prepared(const char *words) {
        sqlite3_stmt *statement;
        must(sqlite3_prepare_v2(db, words, -1, &statement, nullptr));
        return statement;
    }

    int step(sqlite3_stmt *statement) {
        const int result = sqlite3_step(statement);
        if (result != SQLITE_ROW && result != SQLITE_DONE) must(result);
        return result;
    }

    sqlite3 *db = nullptr;
    std::mutex lock;
    sqlite3_stmt *select, *replace, *increase;
};

const peers::Registered here({54, "SQLite", true, false, false, peers::opened<Sqlite>});

}  // namespace

// fkv, through its C library: a store in a file, its keeper in the library's thread, commits on the driver's request.
#include <fkv_posix.h>

#include <algorithm>

#include "../loops.hpp"

namespace {

int32_t must(int32_t result, const char *what) {
    if (result < 0) peers::fail(std::string("fkv: ") + what + ": " + fkv_name_of(result));
    return result;
}

// Room for all keys in place, and for what commits 50 ms apart append meanwhile: eight records of memory for each key, and 2^20 for
// each thread at least. Pages are as large as they may be: behind a commit sessions append fast, and one page is opened ahead.
// An entry of the index stands for a key, seven of them make a bucket: a bucket for each four keys.
fkv_shape shape_for(const peers::Room &room) {
    unsigned bits = 0;
    while (uint64_t{4} << bits < room.keys) bits++;
    const uint64_t records = std::max(8 * room.keys, uint64_t{room.sessions} << 20), page = 65536, frames = records / page;
    return {bits, page, frames, frames * 3 / 4, room.sessions, uint64_t{1} << bits, 1 << 20};
}

struct Fkv {
    // A line of its own: the driver makes these one after another, and each thread writes its own.
    struct alignas(128) Session {
        explicit Session(fkv_file *file) : file(file) {}

        void enter() { must(fkv_join(file, FKV_ANY_SESSION, &handle), "join"); }

        void leave() {
            must(fkv_settle(file, handle, nullptr, nullptr), "settle");
            waiting = 0;
            must(fkv_leave(file, handle), "leave");
        }

        // Behind 64 calls: a refresh, but where the last one has seen no commit, one in four of them.
        void idle() {
            if (seen.phase == FKV_REST && waiting == 0 && ++blocks % 4 != 0) return;
            refresh();
        }

        // Before each call: until all sessions have gone over to a commit's next version new records take long, so there each eighth
        // call has a refresh.
        void go_over() {
            if (seen.phase != FKV_REST && seen.phase != FKV_WAIT_FLUSH && ++calls % 8 == 0) [[unlikely]] refresh();
        }

        void refresh() {
            // (with nothing pending a refresh takes a tenth of the time)
            if (waiting != 0) poll();
            must(fkv_refresh(handle, &seen), "refresh");
        }

        bool get(uint64_t key, uint64_t &value) {
            go_over();
            const int32_t result = fkv_get(handle, key, &value);
            if (result == FKV_FOUND || result == FKV_NONE) [[likely]] return result == FKV_FOUND;
            return get_later(result, key, value);
        }

        void upsert(uint64_t key, uint64_t value) {
            fkv_update told;
            int32_t result;
            go_over();
            while ((result = fkv_upsert(handle, key, value, &told)) != FKV_DONE) [[unlikely]]
                if (is_updated(result, told, "upsert")) break;
        }

        void add(uint64_t key, uint64_t number) {
            fkv_update told;
            int32_t result;
            go_over();
            while ((result = fkv_add(handle, key, number, &told)) != FKV_DONE) [[unlikely]]
                if (is_updated(result, told, "add")) break;
        }

        void settle() {
            if (waiting == 0) return;
            must(fkv_settle(file, handle, nullptr, nullptr), "settle");
            waiting = 0;
        }

        // Whether a call that isn't done is pending. Where too much is pending it is made again, behind a refresh and a poll.
        bool is_taken(int32_t result, const char *what) {
            if (result == FKV_PENDING) {
                waiting++;
                return true;
            }
            if (result != -FKV_PENDING_FULL) must(result, what);
            fkv_nudge(file);
            refresh();
            return false;
        }

        // The same of an update. One that lost to another session is mostly finished by a poll at once.
        bool is_updated(int32_t result, const fkv_update &told, const char *what) {
            if (!is_taken(result, what)) return false;
            if (told.reason == FKV_CONTENDED) poll();
            return true;
        }

        bool get_later(int32_t result, uint64_t key, uint64_t &value) {
            for (; result == -FKV_PENDING_FULL; result = fkv_get(handle, key, &value)) is_taken(result, "get");
            if (must(result, "get") != FKV_PENDING) return result == FKV_FOUND;
            Ticket wanted{value, 0, false};
            must(fkv_settle(file, handle, found, &wanted), "settle");
            waiting = 0;
            value = wanted.value;
            return wanted.found;
        }

        void poll() {
            fkv_finished finished[FKV_MOST_PENDING];
            uint64_t count;
            waiting = must(fkv_poll(handle, finished, FKV_MOST_PENDING, &count), "poll");
        }

        struct Ticket {
            uint64_t name, value;
            bool found;
        };

        static void found(void *user, const fkv_finished *finished) {
            Ticket &wanted = *static_cast<Ticket *>(user);
            if (finished->kind == FKV_READ_FOUND && finished->name == wanted.name) wanted.value = finished->value, wanted.found = true;
        }

        fkv_file *file;
        fkv_session *handle = nullptr;
        fkv_seen seen{};
        unsigned waiting = 0;  // requests that may be pending
        unsigned blocks = 0;   // of 64 calls
        unsigned calls = 0;    // while a commit waits for sessions
    };

    Fkv(const peers::Room &room, bool fresh) {
        const std::string path = room.folder + "/store.fkv";
        shape = shape_for(room);
        if (fresh) must(fkv_make_file(path.c_str(), &shape), "make");
        fkv_how how{};
        if (room.cold) how.warm = FKV_COLD;
        must(fkv_open_file(path.c_str(), &how, &file), "open");
        keep(false);
    }

    Fkv(const Fkv &) = delete;

    ~Fkv() {
        pause();
        fkv_close_file(file);
    }

    void pause() {
        if (runs) must(fkv_stop(file, 0), "stop");
        runs = false;
    }

    void resume() {
        if (!runs) keep(false);
    }

    // Behind a commit each update makes a new record.
    uint64_t loads_in_memory(uint64_t keys) const { return shape.page * shape.frames / keys + 1; }

    std::unique_ptr<Session> session(unsigned) { return std::make_unique<Session>(file); }

    void commit(bool full) {
        if (full != is_full) {
            pause();
            keep(full);
        }
        uint64_t ticket;
        must(fkv_ask_commit(file, &ticket), "ask for a commit");
        must(fkv_wait_commit(file, ticket, nullptr), "commit");
    }

    void keep(bool full) {
        is_full = full;
        fkv_keeping keeping{};
        keeping.log_commits = full ? 0 : UINT32_MAX;
        must(fkv_start(file, &keeping), "start");
        runs = true;
    }

    fkv_shape shape{};
    fkv_file *file = nullptr;
    bool runs = false, is_full = false;  // the keeper's thread, and whether it makes full commits
};

const peers::Registered here({10, "fkv", true, true, true, peers::opened<Fkv>});

}  // namespace

/*
 * fkv.hpp: a store in a file, for C++17. It has handles that give themselves back over the calls of fkv_posix.h, and nothing to link more.
 *
 *     fkv::Store store = fkv::Store::open_or_make("counts", fkv::Wish{1000});
 *     fkv::Keeper keeper = store.start();
 *     fkv::Session session = store.join();
 *     session.increment(7, 5);
 *     session.tick();
 *     session.commit();
 *     std::optional<std::uint64_t> value = session.read(7);
 *
 * Handles move, and aren't copied. A keeper and a session hold their store open, and the last handle that goes closes it. What a session
 * has done is kept by the last commit that the keeper makes as it goes, if no session is out then. So declare the keeper before sessions.
 * A handle that was moved from takes no call.
 *
 * A refusal is an fkv::Error, with the fault; a pending request is none, since these calls wait. The refusals of each call, units and ranges
 * are those of the call of its name in fkv_posix.h and fkv.h. So is what they say of threads. For other calls take the handles of C:
 * Store::get and Session::get.
 */
#ifndef FKV_HPP
#define FKV_HPP

#include "fkv_posix.h"

#include <cerrno>
#include <chrono>
#include <cstdint>
#include <functional>
#include <memory>
#include <optional>
#include <stdexcept>
#include <string>
#include <utility>
#include <vector>

namespace fkv {

using Shape = fkv_shape;
using Size = fkv_size;
using Stats = fkv_stats;
using Opened = fkv_opened;
using Progress = fkv_progress;

/* A call was refused. */
class Error : public std::runtime_error {
public:
    explicit Error(std::int32_t result, int system = errno)
        : std::runtime_error(fkv_text_of(result)), fault_(-result), system_(-result == FKV_DEVICE ? system : 0) {}
    /* FKV_ASLEEP .. */
    std::int32_t fault() const noexcept { return fault_; }
    /* As "Asleep". */
    const char *name() const noexcept { return fkv_name_of(fault_); }
    /* After FKV_DEVICE what the system has refused: ENOENT .. . Else 0. */
    int system() const noexcept { return system_; }

private:
    std::int32_t fault_;
    int system_;
};

/* What a program wants of a new store. A 0 takes the default, see fkv_wish. */
struct Wish {
    std::uint64_t keys = 0;
    std::uint64_t sessions = 0;
    std::uint64_t memory_bytes = 0;
    std::uint64_t updates_between_commits = 0;

    fkv_wish in_c() const noexcept { return {keys, sessions, memory_bytes, updates_between_commits, 0}; }
};

/* The answer of a call, if it is no refusal. */
inline std::int32_t check(std::int32_t result) {
    if (result < 0) throw Error(result);
    return result;
}

inline Shape shape_for(const Wish &wish) {
    Shape shape;
    fkv_wish its = wish.in_c();
    check(fkv_shape_for(&its, &shape));
    return shape;
}

inline Size size_of(const Shape &shape) {
    Size size;
    check(fkv_size_of(&shape, &size));
    return size;
}

/* The number of the last finished commit, and each session's last serial that it keeps. */
struct Commit {
    std::uint64_t number;
    std::vector<std::uint64_t> points;
};

/* How the keeper's thread goes. Its hooks are called in that thread: they throw nothing, and make no call of the store. */
struct Keeping {
    std::chrono::milliseconds commit_each{0}; /* a commit at this interval while a session is joined; 0: on request alone */
    std::uint32_t log_commits = 0;            /* so many log commits between two full ones */
    std::chrono::microseconds turn_each{0};   /* how long the keeper rests when nothing is to be done; 0: 500 microseconds */
    std::function<void(const Commit &)> committed{};
    std::function<void(const Progress &)> progress{};
    std::function<void(std::int32_t fault)> stopped{}; /* once, as commits end for good, or the log is full: FKV_LOG_FULL */
    std::function<void()> unwarmed{};                  /* once, if memory can't be kept warm in this store */
    bool warms = true;                                 /* memory is kept warm, if it can be */
    std::uint64_t log_bytes = 0;                       /* the log's front is given back if it is longer; 0: than twice the records of all keys, or a megabyte */
    std::function<void(int why)> untrimmed{};          /* once, if it can't be: errno, or 0 where the store has no session for it; EAGAIN: if the log grows faster */
};

/* What an update has done. */
struct Made {
    std::uint64_t serial; /* the session's updates count from 1, in all of the store's life */
    std::uint64_t value;  /* what an increment, a raise or a merge has left */
};

namespace detail {

/* A file that was opened, with what the library calls while it is open. */
struct File {
    fkv_file *at = nullptr;
    std::shared_ptr<const Keeping> keeping;
    File() = default;
    File(const File &) = delete;
    File &operator=(const File &) = delete;
    ~File() {
        if (at) fkv_close_file(at);
    }
};

inline void tell_progress(void *user, const fkv_progress *progress) {
    (*static_cast<const std::function<void(const Progress &)> *>(user))(*progress);
}

} // namespace detail

/* Reads and updates of a store, in one thread at a time. Store::join makes one. */
class Session {
public:
    Session(Session &&other) noexcept : file_(std::move(other.file_)), at_(std::exchange(other.at_, nullptr)) {}
    Session &operator=(Session &&other) noexcept {
        if (this != &other) give_back(), file_ = std::move(other.file_), at_ = std::exchange(other.at_, nullptr);
        return *this;
    }
    /* What is pending, if a call was refused while it waited, is left to the keeper. */
    ~Session() { give_back(); }

    std::optional<std::uint64_t> read(std::uint64_t key) {
        std::uint64_t value;
        if (check(fkv_read(file_->at, at_, key, &value)) == FKV_FOUND) return value;
        return std::nullopt;
    }
    Made put(std::uint64_t key, std::uint64_t value) { return update(fkv_put, key, value); }
    Made increment(std::uint64_t key, std::uint64_t number = 1) { return update(fkv_increment, key, number); }
    Made raise(std::uint64_t key, std::uint64_t number) { return update(fkv_raise, key, number); }
    /* Merges: each but keep leaves a new value, see fkv_merge. */
    Made min(std::uint64_t key, std::uint64_t number) { return merge(FKV_MIN, key, number); }
    Made sub(std::uint64_t key, std::uint64_t number) { return merge(FKV_SUB, key, number); }
    Made and_(std::uint64_t key, std::uint64_t number) { return merge(FKV_AND, key, number); }
    Made or_(std::uint64_t key, std::uint64_t number) { return merge(FKV_OR, key, number); }
    Made first(std::uint64_t key, std::uint64_t number) { return merge(FKV_FIRST, key, number); }
    /* An update that leaves the key's value as it is, or leaves it without one, and tells that. */
    std::optional<std::uint64_t> keep(std::uint64_t key) {
        Made made = merge(FKV_KEEP, key, 0);
        if (made.value == FKV_ABSENT) return std::nullopt;
        return made.value;
    }
    Made remove(std::uint64_t key) {
        fkv_update told;
        check(fkv_remove(file_->at, at_, key, &told));
        return {told.serial, 0};
    }
    std::vector<std::optional<std::uint64_t>> read_many(const std::vector<std::uint64_t> &keys) {
        std::vector<fkv_each_read> told(keys.size() + 1); /* (never NULL) */
        const std::uint64_t none = 0;
        check(fkv_read_many(file_->at, at_, keys.empty() ? &none : keys.data(), keys.size(), told.data(), keys.size()));
        std::vector<std::optional<std::uint64_t>> values(keys.size());
        for (std::size_t at = 0; at < keys.size(); at++)
            if (check(told[at].result) == FKV_FOUND) values[at] = told[at].value;
        return values;
    }

    /* Between calls: lets the store go on, and throws why no commit follows any more. */
    void tick() { check(fkv_tick(file_->at, at_)); }
    /* All that the session has done survives a crash from then on. */
    void commit() { check(fkv_commit_and_wait(file_->at, at_)); }
    void settle() { check(fkv_settle(file_->at, at_, nullptr, nullptr)); }
    void sleep() { check(fkv_sleep(at_)); }
    void wake() {
        fkv_seen seen;
        check(fkv_wake(at_, &seen));
    }
    /* The two have then seen what either had seen: what the one was told as done is in force for the other's later calls. Throws std::invalid_argument
       if the other isn't another session of the same opening. */
    void meet(Session &other) {
        if (file_ != other.file_ || at_ == other.at_) throw std::invalid_argument("the session isn't another one of this opening");
        check(fkv_meet(at_, other.at_));
    }
    /* The serial of the session's last update. */
    std::uint64_t serial() const { return told_by(fkv_serial); }
    /* The serial up to which a crash from now on keeps the session's updates. */
    std::uint64_t durable() const { return told_by(fkv_durable); }
    fkv_session *get() const noexcept { return at_; }

private:
    friend class Store;
    Session(std::shared_ptr<detail::File> file, fkv_session *at) : file_(std::move(file)), at_(at) {}
    void give_back() noexcept {
        if (at_ && fkv_leave(file_->at, at_) < 0) fkv_abandon(file_->at, at_);
        at_ = nullptr;
        file_.reset();
    }
    template <typename Call> Made update(Call call, std::uint64_t key, std::uint64_t number) {
        fkv_update told;
        check(call(file_->at, at_, key, number, &told));
        return {told.serial, told.value};
    }
    Made merge(std::uint32_t which, std::uint64_t key, std::uint64_t number) {
        fkv_update told;
        check(fkv_merge_now(file_->at, at_, key, which, number, &told));
        return {told.serial, told.value};
    }
    template <typename Call> std::uint64_t told_by(Call call) const {
        std::uint64_t serial;
        check(call(at_, &serial));
        return serial;
    }

    std::shared_ptr<detail::File> file_;
    fkv_session *at_;
};

/* The keeper's thread, which writes the log and makes commits. It ends with this handle. Store::start makes one. */
class Keeper {
public:
    Keeper(Keeper &&) noexcept = default;
    Keeper &operator=(Keeper &&other) noexcept {
        if (this != &other) end(), file_ = std::move(other.file_);
        return *this;
    }
    /* With a last commit, if something isn't kept and no session is out. Who wants to know how that went calls stop. */
    ~Keeper() { end(); }
    /* Ends the thread, after a last commit if that is wanted. That waits for sessions of other threads that are awake. Those of this
       thread have to sleep or be given back: else FKV_HANDLE_OUT after a second, and the thread goes on. */
    void stop(bool with_commit = true) {
        check(fkv_stop(file_->at, with_commit ? FKV_STOP_COMMIT : FKV_STOP_NOW));
        file_.reset();
    }
    /* Why there are no turns or commits any more, 0 while there are: FKV_DEVICE .. */
    std::int32_t fault() const noexcept { return -fkv_keeper_fault(file_->at); }

private:
    friend class Store;
    explicit Keeper(std::shared_ptr<detail::File> file) : file_(std::move(file)) {}
    void end() noexcept {
        if (file_) fkv_stop(file_->at, FKV_STOP_KEEP);
        file_.reset();
    }

    std::shared_ptr<detail::File> file_;
};

/* An open store, which no other process can open. Its calls may be made by any thread. */
class Store {
public:
    Store(Store &&) noexcept = default;
    Store &operator=(Store &&) noexcept = default;

    static void make(const std::string &path, const Shape &shape) { check(fkv_make_file(path.c_str(), &shape)); }
    /*
     * `opened`, if it isn't null, says what was found, after FKV_DAMAGED too. `warm` is how many of the newest records memory gets at most, 0 for as
     * many as fit, and FKV_COLD for none.
     */
    static Store open(const std::string &path, std::uint32_t keys = FKV_SPREAD, Opened *opened = nullptr, std::uint64_t warm = 0) {
        fkv_how how{};
        how.keys = keys, how.opened = opened, how.warm = warm;
        Store store;
        check(fkv_open_file(path.c_str(), &how, &store.file_->at));
        return store;
    }
    static Store open_or_make(const std::string &path, const Wish &wish = Wish{}) {
        Store store;
        fkv_wish its = wish.in_c();
        check(fkv_open_or_make(path.c_str(), &its, &store.file_->at));
        return store;
    }

    Keeper start(const Keeping &keeping = Keeping{}) {
        auto kept = std::make_shared<const Keeping>(keeping);
        fkv_keeping how{};
        how.commit_ms = static_cast<std::uint32_t>(keeping.commit_each.count());
        how.log_commits = keeping.log_commits;
        how.turn_us = static_cast<std::uint32_t>(keeping.turn_each.count());
        how.no_warmer = !keeping.warms;
        how.log_bytes = keeping.log_bytes;
        how.user = const_cast<Keeping *>(kept.get());
        if (keeping.committed)
            how.committed = [](void *user, std::uint64_t number, const std::uint64_t *points, std::size_t sessions) {
                static_cast<const Keeping *>(user)->committed({number, {points, points + sessions}});
            };
        if (keeping.progress)
            how.progress = [](void *user, const fkv_progress *its) { static_cast<const Keeping *>(user)->progress(*its); };
        if (keeping.stopped)
            how.stopped = [](void *user, std::int32_t result) { static_cast<const Keeping *>(user)->stopped(-result); };
        if (keeping.untrimmed) how.untrimmed = [](void *user, int why) { static_cast<const Keeping *>(user)->untrimmed(why); };
        if (keeping.unwarmed) how.unwarmed = [](void *user) { static_cast<const Keeping *>(user)->unwarmed(); };
        check(fkv_start(get(), &how));
        file_->keeping = std::move(kept);
        return Keeper(file_);
    }
    /* Session `number`, from 0, or the first that nobody has; awake. */
    Session join(std::uint64_t number = FKV_ANY_SESSION) {
        fkv_session *at;
        check(fkv_join(get(), number, &at));
        return Session(file_, at);
    }
    /* Commits, for a thread that has no session, or whose session sleeps. */
    void commit() { check(fkv_commit_and_wait(get(), nullptr)); }
    Commit last_commit() const {
        Commit commit{0, std::vector<std::uint64_t>(FKV_MOST_SESSIONS)};
        commit.number = fkv_last_commit(get(), commit.points.data());
        commit.points.resize(shape().sessions);
        return commit;
    }
    Shape shape() const { return fkv_shape_of(get()); }
    Stats stats() const {
        Stats stats;
        check(fkv_stats_of(get(), &stats));
        return stats;
    }
    /* The pairs of the last finished commit, each key once, in no order. */
    std::vector<std::pair<std::uint64_t, std::uint64_t>> pairs() const {
        std::vector<std::pair<std::uint64_t, std::uint64_t>> pairs;
        check(fkv_each(get(), [](void *user, std::uint64_t key, std::uint64_t value) -> std::int32_t {
            try {
                return static_cast<decltype(pairs) *>(user)->emplace_back(key, value), 0;
            } catch (const std::exception &) {
                return -FKV_MEMORY;
            }
        }, &pairs));
        return pairs;
    }
    /* A backup in a new file. `progress` throws nothing. */
    void save(const std::string &path, const std::function<void(const Progress &)> &progress = {}) {
        auto *user = const_cast<std::function<void(const Progress &)> *>(&progress);
        check(fkv_save(get(), path.c_str(), progress ? detail::tell_progress : nullptr, user));
    }
    /* Renews the store in place, in its own shape or another: no session is out meanwhile. */
    void renew(const Shape &shape = Shape{}) { check(fkv_renew_here(get(), &shape, nullptr)); }
    /* Closes the file, and throws how its last commit went. FKV_HANDLE_OUT while a session or a keeper is out: then it stays open. */
    void close() {
        if (file_.use_count() > 1) throw Error(-FKV_HANDLE_OUT);
        fkv_file *at = std::exchange(file_->at, nullptr);
        check(fkv_close_file(at));
    }
    fkv_file *get() const noexcept { return file_->at; }

private:
    Store() : file_(std::make_shared<detail::File>()) {}

    std::shared_ptr<detail::File> file_;
};

} // namespace fkv

#endif

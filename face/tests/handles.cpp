// The handles of fkv.hpp: handles FOLDER.
#include "fkv.hpp"

#include <atomic>
#include <chrono>
#include <cstdio>
#include <cstdlib>
#include <thread>
#include <type_traits>

#define WANT(holds) \
    if (!(holds)) std::fprintf(stderr, "line %d: %s\n", __LINE__, #holds), std::exit(1)

static_assert(!std::is_copy_constructible_v<fkv::Store> && std::is_nothrow_move_constructible_v<fkv::Store>);
static_assert(!std::is_copy_constructible_v<fkv::Session> && std::is_nothrow_move_constructible_v<fkv::Session>);
static_assert(!std::is_copy_constructible_v<fkv::Keeper> && std::is_nothrow_move_constructible_v<fkv::Keeper>);

template <typename Call> static fkv::Error refused(Call call) {
    try {
        call();
    } catch (const fkv::Error &error) {
        return error;
    }
    return fkv::Error(0);
}

static void use_merges(fkv::Session &session) {
    WANT(!session.keep(9) && session.min(9, 20).value == 20 && session.min(9, 12).value == 12 && session.keep(9) == 12u);
    WANT(session.or_(9, 5).value == 13 && session.and_(9, 6).value == 4 && session.first(9, 7).value == 4);
    WANT(session.sub(9, 3).value == 1 && session.sub(9, 3).value == 0 && session.keep(9) == 0u);
    WANT(session.sub(10, 3).value == 0 && session.remove(10).serial == 18 && session.remove(9).serial == 19);
    WANT(!session.keep(9));
    WANT(refused([&] { session.or_(9, UINT64_MAX); }).fault() == FKV_VALUE_RESERVED);
}

static void use_keys(fkv::Session &session) {
    WANT(!session.read(7));
    WANT(session.put(7, 10).serial == 1 && session.read(7) == 10u);
    WANT(session.increment(7).value == 11 && session.raise(7, 20).value == 20 && session.raise(7, 3).value == 20);
    WANT(session.remove(7).serial == 5 && !session.read(7));
    WANT(session.increment(8, 3).value == 3);
    use_merges(session);
    auto values = session.read_many({7, 8});
    WANT(values.size() == 2 && !values[0] && values[1] == 3u && session.read_many({}).empty());
    WANT(refused([&] { session.put(1, UINT64_MAX); }).fault() == FKV_VALUE_RESERVED);
    session.tick();
    session.commit();
    WANT(session.serial() == 20 && session.durable() == 20);
    session.sleep();
    fkv::Error asleep = refused([&] { session.tick(), session.read(7); });
    WANT(asleep.fault() == FKV_ASLEEP && std::string(asleep.name()) == "Asleep" && asleep.system() == 0);
    session.wake();
}

/* A session does what the other then finds, in a thread that ends before they meet. */
static void use_two(fkv::Store &store) {
    fkv::Session first = store.join(0), second = store.join(3);
    std::uint64_t left = 0;
    std::thread([&] { left = first.increment(11, 5).value; }).join();
    second.meet(first);
    WANT(left == 5 && second.read(11) == 5u);
    WANT(second.remove(11).serial > 0);
    first.meet(second);
    WANT(!first.read(11));
    bool is_refused = false;
    try {
        first.meet(first);
    } catch (const std::invalid_argument &) {
        is_refused = true;
    }
    WANT(is_refused);
}

static void use_store(const std::string &path) {
    fkv::Store store = fkv::Store::open_or_make(path, fkv::Wish{1000, 4});
    WANT(refused([&] { fkv::Store::open(path); }).system() == EWOULDBLOCK);
    WANT(store.shape().sessions == 4 && fkv::size_of(store.shape()).keys >= 1000);
    std::vector<fkv::Commit> commits;
    fkv::Keeping keeping;
    keeping.committed = [&](const fkv::Commit &commit) { commits.push_back(commit); };
    fkv::Keeper keeper = store.start(keeping);
    WANT(refused([&] { store.start(); }).fault() == FKV_HANDLE_TAKEN);
    {
        fkv::Session session = store.join(1);
        WANT(refused([&] { store.join(1); }).fault() == FKV_HANDLE_TAKEN && refused([&] { store.join(4); }).fault() == FKV_NO_SESSION);
        use_keys(session);
        fkv::Session moved = std::move(session);
        WANT(moved.read(8) == 3u && session.get() == nullptr);
        session = std::move(moved);
        WANT(session.read(8) == 3u);
        std::thread([its = std::move(session)]() mutable { its.increment(8); }).join();
        WANT(store.stats().begin == 1 && store.stats().head <= store.stats().tail);
        WANT(store.stats().joined == 0 && refused([&] { store.close(); }).fault() == FKV_HANDLE_OUT);
    }
    store.commit();
    auto pairs = store.pairs();
    WANT(pairs.size() == 1 && pairs[0].first == 8 && pairs[0].second == 4);
    std::uint64_t copied = 0;
    store.save(path + ".saved", [&](const fkv::Progress &its) { copied = its.done; });
    WANT(copied > 0 && refused([&] { store.save(path + ".saved"); }).system() == EEXIST);
    WANT(store.last_commit().points == (std::vector<std::uint64_t>{0, 21, 0, 0}) && keeper.fault() == 0);
    store.renew();
    WANT(store.join(1).serial() == 21);
    {
        /* a session that is assigned to was given back, and one that was moved from has no handle */
        fkv::Session first = store.join(2), second = store.join(3);
        fkv_session *its = second.get();
        first = std::move(second);
        WANT(first.get() == its && second.get() == nullptr && store.join(2).get() != its);
    }
    use_two(store);
    {
        fkv::Session session = store.join(2);
        WANT(refused([&] { store.renew(); }).fault() == FKV_HANDLE_OUT && session.read(8) == 4u);
        session.put(9, 1);
    }
    keeper.stop();
    WANT(commits.back().number == store.last_commit().number && commits.back().points[2] == 1);
    store.close();
}

/* Waits for what a hook of the keeper's thread notes, for some seconds. */
template <typename Holds> static bool comes(Holds holds) {
    for (int i = 0; i < 10000 && !holds(); i++) std::this_thread::sleep_for(std::chrono::milliseconds(1));
    return holds();
}

/* A commit at each interval, without being asked for. */
static void commit_each(const std::string &path) {
    fkv::Store store = fkv::Store::open_or_make(path, fkv::Wish{10, 2});
    std::atomic<std::uint64_t> number{0}, point{0};
    fkv::Keeping keeping;
    keeping.commit_each = std::chrono::milliseconds(5);
    keeping.committed = [&](const fkv::Commit &its) { point = its.points[0], number = its.number; };
    fkv::Keeper keeper = store.start(keeping);
    fkv::Session session = store.join(0);
    std::uint64_t made = session.put(7, 1).serial;
    WANT(comes([&] { return session.tick(), point == made; }));
    std::uint64_t seen = number;
    WANT(comes([&] { return session.tick(), number > seen + 2; }));
    WANT(session.durable() == made && store.last_commit().number >= seen + 2);
}

/* A store has as many sessions as were asked for, and no more; of one without one for the library a hook says so, once. */
static void sessions(const std::string &path) {
    fkv::Shape shape = fkv::shape_for(fkv::Wish{100, 3});
    WANT(shape.sessions == 3 && refused([] { fkv::shape_for(fkv::Wish{100, FKV_MOST_JOINED + 1}); }).fault() == FKV_BAD_SHAPE);
    fkv::Store::make(path, shape);
    std::atomic<int> told{0};
    fkv::Keeping keeping;
    keeping.unwarmed = [&] { told++; };
    {
        fkv::Store store = fkv::Store::open(path);
        fkv::Keeper keeper = store.start(keeping);
        std::vector<fkv::Session> all;
        for (int i = 0; i < 3; i++) all.push_back(store.join());
        WANT(refused([&] { store.join(); }).fault() == FKV_NO_SESSION && refused([&] { store.join(3); }).fault() == FKV_NO_SESSION);
        WANT(store.shape().sessions == 3 && store.last_commit().points.size() == 3 && store.stats().joined == 7 && store.stats().kept == 0);
        all.clear();
        store.renew(fkv::shape_for(fkv::Wish{200, 5}));
        WANT(store.shape().sessions == 5 && store.last_commit().points.size() == 5);
        keeper.stop();
        WANT(told == 0);
    }
    std::uint8_t image[FKV_IMAGE_SIZE];
    shape.sessions = 1;
    fkv::check(fkv_image(&shape, image, sizeof image));
    std::FILE *file = std::fopen((path + ".one").c_str(), "wb");
    WANT(file && std::fwrite(image, sizeof image, 1, file) == 1 && std::fclose(file) == 0);
    fkv::Store store = fkv::Store::open(path + ".one");
    for (bool warms : {false, true, true}) {
        int before = told;
        keeping.warms = warms;
        store.start(keeping).stop();
        WANT(store.shape().sessions == 1 && told == (warms ? 1 : before));
    }
}

/* The log is full: the hook says so, once. */
static void stopped(const std::string &path) {
    fkv::Store::make(path, fkv::Shape{8, 4, 4, 1, 2, 64, 163});
    fkv::Store store = fkv::Store::open(path);
    std::atomic<int> told{0};
    std::atomic<std::int32_t> why{0};
    fkv::Keeping keeping;
    keeping.stopped = [&](std::int32_t fault) { why = fault, told++; };
    fkv::Keeper keeper = store.start(keeping);
    fkv::Session session = store.join();
    fkv::Error error = refused([&] {
        for (std::uint64_t key = 0; key < 1000; key++) session.put(key, key);
    });
    WANT(error.fault() == FKV_LOG_FULL && comes([&] { return told > 0; }) && why == FKV_LOG_FULL);
    WANT(refused([&] { session.tick(); }).fault() == FKV_LOG_FULL && told == 1);
}

/* A last commit isn't waited for past this thread's own session, if that is awake: the keeper goes on. */
static void stop_past_own(const std::string &path) {
    fkv::Store store = fkv::Store::open_or_make(path, fkv::Wish{10, 2});
    fkv::Keeper keeper = store.start();
    fkv::Session session = store.join();
    session.put(7, 1);
    WANT(refused([&] { keeper.stop(); }).fault() == FKV_HANDLE_OUT);
    session.commit();
    session.put(7, 2);
    session.sleep();
    keeper.stop();
    WANT(session.durable() == 2);
}

int main(int count, char **words) {
    if (count != 2) return 1;
    std::string path = std::string(words[1]) + "/counts";
    WANT(refused([&] { fkv::Store::open(path); }).system() == ENOENT);
    WANT(refused([&] { fkv::Store::make(path, fkv::Shape{}); }).fault() == FKV_BAD_SHAPE);
    WANT(fkv::shape_for(fkv::Wish{}).sessions == 8);
    use_store(path);
    commit_each(path + ".each");
    sessions(path + ".sessions");
    stopped(path + ".full");
    stop_past_own(path + ".own");
    {
        /* the handles go in any order, and what was done is kept */
        fkv::Store store = fkv::Store::open(path);
        fkv::Keeper keeper = store.start();
        fkv::Session session = store.join();
        WANT(session.read(8) == 4u && session.read(9) == 1u);
        fkv::Store other = std::move(store);
        session.put(9, 2);
    }
    fkv::Opened opened{};
    fkv::Store store = fkv::Store::open(path, FKV_SPREAD, &opened);
    fkv::Keeper keeper = store.start();
    WANT(opened.number == store.last_commit().number && store.join().read(9) == 2u);
}

// The loop of calls, made anew for each peer's own types, so that a map that is a header is inlined as in a program that uses it.
//
// A Store has a type Session, session(n) and commit(full); pause() and resume() where a thread of its own goes on, and
// loads_in_memory(keys) where it has a log. A Session has get,
// upsert and add; enter() and leave(), by the thread that uses it then; idle(), after each 64 calls; and settle(), which waits until
// the last call has taken effect.
#pragma once
#include <time.h>

#include "peer.hpp"

namespace peers {

inline double seconds_of(clockid_t clock) {
    timespec now;
    clock_gettime(clock, &now);
    return now.tv_sec + 1e-9 * now.tv_nsec;
}

// The defaults of sessions that have nothing to do beside their calls.
struct Plain {
    void enter() {}
    void leave() {}
    void idle() {}
    void settle() {}
};

template <class Store>
class PeerOf final : public Peer {
  public:
    PeerOf(const Room &room, bool fresh) : store_(room, fresh) {
        for (unsigned n = 0; n < room.sessions; n++) sessions_.emplace_back(store_.session(n));
    }

    void load(uint64_t keys) override {
        Session &session = *sessions_[0];
        session.enter();
        for (uint64_t number = 0; number < keys; number++) {
            session.upsert(key_of(number), number);
            if (number % block == block - 1) session.idle();
        }
        session.leave();
    }

    uint64_t sum(uint64_t keys) override {
        Session &session = *sessions_[0];
        uint64_t sum = 0;
        session.enter();
        for (uint64_t number = 0; number < keys; number++) {
            uint64_t value;
            if (!session.get(key_of(number), value)) fail("a key is missing");
            sum += value;
            if (number % block == block - 1) session.idle();
        }
        session.leave();
        return sum;
    }

    uint64_t first() override { return sum(1); }

    void play(const Plan &plan, uint64_t calls) override {
        Session &session = *sessions_[0];
        const std::atomic<bool> stop = false;
        Tally tally;
        session.enter();
        call(session, plan, stop, tally, calls);
        session.leave();
    }

    void run(unsigned n, const Plan &plan, Gate &gate, Tally &tally) override {
        Session &session = *sessions_[n];
        session.enter();
        touch(session, plan.touched);
        gate.ready++;
        while (!gate.open) {
        }
        Tally warming;
        Plan rest = plan;
        rest.from = call(session, plan, gate.warm, warming);
        tally.warming = warming.updates, tally.seen = warming.seen;
        const double wall = seconds_of(CLOCK_MONOTONIC), processor = seconds_of(CLOCK_THREAD_CPUTIME_ID);
        const uint64_t end = plan.timed ? call_timed(session, rest, gate, tally) : call(session, rest, gate.stop, tally);
        session.leave();
        tally.calls = end - rest.from;
        tally.wall = seconds_of(CLOCK_MONOTONIC) - wall;
        tally.processor = seconds_of(CLOCK_THREAD_CPUTIME_ID) - processor;
    }

    void commit(bool full) override { store_.commit(full); }

    void go_round(uint64_t keys) override {
        if constexpr (requires { store_.loads_in_memory(keys); })
            for (uint64_t n = store_.loads_in_memory(keys); n > 0; n--) {
                load(keys);
                store_.commit(false);
            }
    }

    void pause() override {
        if constexpr (requires { store_.pause(); }) store_.pause();
    }

    void resume() override {
        if constexpr (requires { store_.resume(); }) store_.resume();
    }

  private:
    using Session = typename Store::Session;
    static constexpr unsigned block = 64;

    // Gets each key once, so that a cell of many keys doesn't time the first call of each.
    static void touch(Session &session, uint64_t keys) {
        for (uint64_t number = 0; number < keys; number++) {
            uint64_t value;
            session.get(key_of(number), value);
            if (number % block == block - 1) session.idle();
        }
    }

    // Calls, in blocks, until it is to stop or so many are made; at least a block, however busy the machine is. It tells the first
    // draw that it left.
    static uint64_t call(Session &session, const Plan &plan, const std::atomic<bool> &stop, Tally &tally, uint64_t most = UINT64_MAX) {
        const Draws &draws = *plan.draws;
        uint64_t updates = 0, seen = 0, place = plan.from;
        do {
            const uint64_t shift = draws.shift(place / block);
            for (unsigned i = 0; i < block; i++, place++) {
                const uint32_t drawn = draws.at(place);
                const uint64_t key = key_of(draws.number(drawn, shift));
                if (Draws::chance(drawn) < plan.mix.updates) {
                    plan.mix.update == Update::add ? session.add(key, 1) : session.upsert(key, place);
                    updates++;
                } else {
                    uint64_t value = 0;
                    session.get(key, value);
                    seen += value;
                }
            }
            session.idle();
        } while (place - plan.from < most && !stop.load(std::memory_order_relaxed));
        tally.updates = updates, tally.seen += seen;
        return place;
    }

    // The same, each call timed until it has taken effect. What a session does after a block of calls counts to the call after it.
    static uint64_t call_timed(Session &session, const Plan &plan, const Gate &gate, Tally &tally) {
        const Draws &draws = *plan.draws;
        uint64_t place = plan.from;
        do {
            const uint64_t shift = draws.shift(place / block);
            for (unsigned i = 0; i < block; i++, place++) {
                const uint32_t drawn = draws.at(place);
                const uint64_t key = key_of(draws.number(drawn, shift));
                const bool in_commit = gate.committing.load(std::memory_order_relaxed);
                const uint64_t begun = ticks();
                if (i == 0) session.idle();
                if (Draws::chance(drawn) < plan.mix.updates) {
                    plan.mix.update == Update::add ? session.add(key, 1) : session.upsert(key, place);
                    session.settle();
                    tally.updates++;
                } else {
                    uint64_t value = 0;
                    session.get(key, value);
                    tally.seen += value;
                }
                const uint64_t length = ticks() - begun;
                tally.all.add(length);
                if (in_commit || gate.committing.load(std::memory_order_relaxed)) tally.in_commit.add(length);
            }
        } while (!gate.stop.load(std::memory_order_relaxed));
        return place;
    }

    Store store_;
    std::vector<std::unique_ptr<Session>> sessions_;
};

template <class Store>
std::unique_ptr<Peer> opened(const Room &room, bool fresh) {
    return std::make_unique<PeerOf<Store>>(room, fresh);
}

}  // namespace peers

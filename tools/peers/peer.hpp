// What the driver wants of a peer, and the list of those that were built in.
#pragma once
#include <atomic>
#include <cstdint>
#include <memory>
#include <string>
#include <vector>

#include "delays.hpp"
#include "draws.hpp"

namespace peers {

// What is to be made room for. A store on the device has the folder for itself.
struct Room {
    uint64_t keys;
    unsigned sessions;
    std::string folder;
    bool cold = false;  // memory begins without a record, where the peer has the choice
};

// What the threads of a cell share. Calls begin when it opens, and count from `warm` to `stop`.
struct Gate {
    std::atomic<unsigned> ready{0};
    std::atomic<bool> open{false}, warm{false}, stop{false}, committing{false};
};

struct Plan {
    const Draws *draws;
    Mix mix;
    uint64_t from;  // the first draw, the first of a block
    bool timed;     // each call by itself
    uint64_t touched;  // so many keys are got once before the calls begin, 0 in a cell that begins cold
};

// What one thread has done in a cell.
struct Tally {
    uint64_t calls = 0, updates = 0;
    uint64_t warming = 0;  // updates before it counted
    uint64_t seen = 0;  // the sum of all values that were got, so that no get can be left out
    double wall = 0, processor = 0;
    Delays all, in_commit;
};

class Peer {
  public:
    virtual ~Peer() = default;
    // Gives each key its number as its value.
    virtual void load(uint64_t keys) = 0;
    virtual uint64_t sum(uint64_t keys) = 0;
    virtual uint64_t first() = 0;  // the first key's value
    // So many calls of the first session, untimed.
    virtual void play(const Plan &plan, uint64_t calls) = 0;
    // Calls of one session until the gate says stop. Two threads never have the same session.
    virtual void run(unsigned session, const Plan &plan, Gate &gate, Tally &tally) = 0;
    // Returns when all calls that ended before it began survive a crash. It is called beside the sessions.
    virtual void commit(bool full) = 0;
    // A store with a log goes round its memory once: until then each new page of memory is given by the system.
    virtual void go_round(uint64_t) {}
    // Between its cells a peer takes no processor time from the others.
    virtual void pause() {}
    virtual void resume() {}
};

struct Kind {
    int rank;  // the order of columns
    const char *name;
    bool durable;      // it has commits
    bool two_commits;  // log commits and full ones
    bool opens_cold;   // it can open a store with no record in memory
    std::unique_ptr<Peer> (*open)(const Room &, bool fresh);
};

std::vector<Kind> &kinds();

struct Registered {
    explicit Registered(const Kind &kind) { kinds().push_back(kind); }
};

// Ends the program: a peer that fails has no figures.
[[noreturn]] void fail(const std::string &what);

}  // namespace peers

// One cell: threads that call one peer for a while, with commits beside them or without.
#pragma once
#include <string>

#include "peer.hpp"

namespace peers {

enum class Commits { none, log, full };

struct Cell {
    uint64_t keys;
    bool zipf;
    Mix mix;
    unsigned threads;
    Commits commits;
    bool timed;
    double seconds;
    bool cold = false;  // no key is touched before the calls begin
};

// What came of a cell. Times are in seconds.
struct Outcome {
    uint64_t calls = 0;
    uint64_t updates = 0;    // those before it counted too
    double rate = 0;         // calls a second by the clock, all threads together
    double wall = 0;         // of the cell
    double processor = 0;    // of the threads that call
    double process = 0;      // of the whole process
    double busy = 0;         // of all processors, for anybody
    uint64_t bytes = 0;      // that were handed to the system to be written, up to a last commit
    unsigned commits = 0;
    double committing = 0;   // of all commits together
    Delays all, in_commit;   // in ticks
};

// The threads run on processors by the round, so cells of a round run on the same ones. The turn says where the draws begin.
Outcome measure(Peer &peer, const Cell &cell, const Draws &draws, unsigned turn, unsigned round);

// As one line of JSON, behind the words that say which cell it is of.
std::string spelled(const Outcome &outcome, const Cell &cell, double ticks_a_second);

double measured_ticks_a_second();

}  // namespace peers

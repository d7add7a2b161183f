#include "cell.hpp"

#include <sched.h>

#include <chrono>
#include <cstdio>
#include <fstream>
#include <sstream>
#include <thread>
#include <unistd.h>

#include "loops.hpp"

namespace peers {
namespace {

using Clock = std::chrono::steady_clock;
using Seconds = std::chrono::duration<double>;

constexpr double between_commits = 0.05;

// Bytes that this process has handed to the system by calls that write.
uint64_t written() {
    std::ifstream io("/proc/self/io");
    std::string name;
    uint64_t count = 0;
    while (io >> name >> count)
        if (name == "wchar:") return count;
    return 0;
}

// Processor time that anybody took on this machine, to a hundredth of a second.
double busy() {
    std::ifstream stat("/proc/stat");
    std::string cpu;
    uint64_t user = 0, nice = 0, system = 0, idle = 0, wait = 0, hard = 0, soft = 0, stolen = 0;
    stat >> cpu >> user >> nice >> system >> idle >> wait >> hard >> soft >> stolen;
    return double(user + nice + system + hard + soft + stolen) / sysconf(_SC_CLK_TCK);
}

// Binds this thread to one of the processors that the program may use. On a machine that others use too, one processor may be half as fast as
// another.
void bind_to(unsigned place) {
    cpu_set_t all, one;
    if (sched_getaffinity(0, sizeof all, &all) != 0) fail("no processors are told");
    unsigned left = place % CPU_COUNT(&all), processor = 0;
    while (!CPU_ISSET(processor, &all) || left-- > 0) processor++;
    CPU_ZERO(&one);
    CPU_SET(processor, &one);
    if (sched_setaffinity(0, sizeof one, &one) != 0) fail("a thread isn't bound");
}

// A commit each 50 ms until the cell's end, the first after 25 ms. One that takes longer is followed by the next at once.
void commit_on(Peer &peer, const Cell &cell, Gate &gate, Outcome &outcome) {
    while (!gate.warm) std::this_thread::yield();
    const auto begun = Clock::now();
    double next = between_commits / 2;
    while (next < cell.seconds) {
        std::this_thread::sleep_until(begun + std::chrono::duration_cast<Clock::duration>(Seconds(next)));
        if (gate.stop) break;
        const double from = Seconds(Clock::now() - begun).count();
        gate.committing = true;
        peer.commit(cell.commits == Commits::full);
        gate.committing = false;
        const double to = Seconds(Clock::now() - begun).count();
        outcome.commits++;
        outcome.committing += to - from;
        next = std::max(next + between_commits, to);
    }
}

void gather(Outcome &outcome, const std::vector<Tally> &tallies) {
    for (const Tally &tally : tallies) {
        outcome.calls += tally.calls;
        outcome.updates += tally.updates + tally.warming;
        outcome.rate += tally.calls / tally.wall;
        outcome.processor += tally.processor;
        outcome.all.join(tally.all);
        outcome.in_commit.join(tally.in_commit);
    }
}

void put_delays(std::ostringstream &out, const char *name, const Delays &delays, double ticks_a_second) {
    const double nanoseconds = 1e9 / ticks_a_second;
    out << ", \"" << name << "\": [" << delays.total();
    for (double share : {0.5, 0.9, 0.99, 0.999, 0.9999}) out << ", " << delays.at(share) * nanoseconds;
    out << ", " << delays.most() * nanoseconds << "]";
}

}  // namespace

Outcome measure(Peer &peer, const Cell &cell, const Draws &draws, unsigned turn, unsigned round) {
    Outcome outcome;
    Gate gate;
    std::vector<Tally> tallies(cell.threads);
    std::vector<std::thread> threads;
    // (each store commits once first: fkv's keeper begins with a full commit, which isn't for a cell with commits of the log)
    if (cell.commits != Commits::none) peer.commit(cell.commits == Commits::full);
    for (unsigned n = 0; n < cell.threads; n++) {
        const uint64_t from = (Draws::count / 4 * n + 4096 * turn) % Draws::count;
        const Plan plan{&draws, cell.mix, from, cell.timed, cell.cold ? 0 : cell.keys};
        threads.emplace_back([&peer, &gate, &tallies, n, plan, round] {
            bind_to(n + round);
            peer.run(n, plan, gate, tallies[n]);
        });
    }
    std::thread committer;
    if (cell.commits != Commits::none) committer = std::thread([&] { commit_on(peer, cell, gate, outcome); });
    while (gate.ready < cell.threads) std::this_thread::yield();
    const uint64_t bytes = written();
    gate.open = true;
    std::this_thread::sleep_for(Seconds(cell.seconds / 8));
    const double process = seconds_of(CLOCK_PROCESS_CPUTIME_ID), all = busy(), begun = seconds_of(CLOCK_MONOTONIC);
    gate.warm = true;
    std::this_thread::sleep_for(Seconds(cell.seconds));
    gate.stop = true;
    for (std::thread &thread : threads) thread.join();
    outcome.process = seconds_of(CLOCK_PROCESS_CPUTIME_ID) - process;
    outcome.wall = seconds_of(CLOCK_MONOTONIC) - begun;
    outcome.busy = busy() - all;
    if (committer.joinable()) {
        committer.join();
        peer.commit(cell.commits == Commits::full);
    }
    outcome.bytes = written() - bytes;
    gather(outcome, tallies);
    return outcome;
}

std::string spelled(const Outcome &outcome, const Cell &cell, double ticks_a_second) {
    constexpr const char *names[] = {"none", "log", "full"};
    std::ostringstream out;
    out << "\"keys\": " << cell.keys << ", \"zipf\": " << (cell.zipf ? "true" : "false") << ", \"mix\": \"" << cell.mix.name << "\", \"threads\": " << cell.threads
        << ", \"commits\": \"" << names[int(cell.commits)] << "\", \"calls\": " << outcome.calls << ", \"updates\": " << outcome.updates << ", \"rate\": " << outcome.rate
        << ", \"wall\": " << outcome.wall << ", \"processor\": " << outcome.processor << ", \"process\": " << outcome.process << ", \"busy\": " << outcome.busy
        << ", \"bytes\": " << outcome.bytes << ", \"finished\": " << outcome.commits << ", \"committing\": " << outcome.committing;
    if (cell.timed) {
        put_delays(out, "all", outcome.all, ticks_a_second);
        put_delays(out, "in_commit", outcome.in_commit, ticks_a_second);
    }
    return out.str();
}

double measured_ticks_a_second() {
    const auto begun = Clock::now();
    const uint64_t from = ticks();
    std::this_thread::sleep_for(std::chrono::milliseconds(20));
    return (ticks() - from) / Seconds(Clock::now() - begun).count();
}

}  // namespace peers

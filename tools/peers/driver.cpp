// The driver of `make bench-peers`: the same keys and the same calls for every peer. It writes a line of JSON for each cell.
//
//     driver peers                                        names the peers that were built in
//     driver measure FOLDER NAME=VALUE..                  plays all cells; the names are those of Settings
//     driver fill PEER KEYS UPDATES FOLDER COMMITS        leaves a store as a crash does: no close, a last commit finished
//     driver recover PEER KEYS FOLDER usual|cold          times the opening of such a store, up to the first value, and the gets after it
#include <algorithm>
#include <array>
#include <cstdio>
#include <cstdlib>
#include <filesystem>
#include <functional>
#include <iostream>
#include <map>
#include <sstream>
#include <thread>
#include <unistd.h>

#include "cell.hpp"
#include "loops.hpp"

namespace peers {

std::vector<Kind> &kinds() {
    static std::vector<Kind> all;
    return all;
}

void fail(const std::string &what) {
    std::cerr << what << std::endl;
    std::_Exit(1);
}

namespace {

using Words = std::vector<std::string>;

// Up to how many keys sums are compared: behind loading, and behind each cell of adds and each recovery.
constexpr uint64_t most_checked = 65536, least_checked = 4096;

// What is measured. Lists stand between commas; times are in seconds.
struct Settings {
    Words sizes{"4096", "65536", "1048576"}, mixes{"get", "upsert", "add", "A", "B", "F"}, spreads{"uniform", "zipf"}, threads{"1", "2", "4"};
    Words commit_threads = threads, commit_mixes = mixes;  // cells with commits
    Words full_mixes{"upsert", "A"}, full_threads{"2"};    // with full ones
    Words timed_mixes = mixes, timed_threads = threads;    // cells of single calls, of fkv
    Words beside_mixes{"A"}, beside_threads{"2"};          // and of the others
    Words own_sizes;                                       // sizes of which fkv's cells with commits, and of single calls, are played; all where nothing is said
    Words cold_mixes{"get", "upsert"}, cold_threads{"1"};  // cells that begin cold, in the first round
    Words only;                                            // the peers that take part; all where nothing is said
    double cell = 0.03, commit_cell = 0.13, timed_cell = 0.13, until = 470;
    unsigned rounds = 3, commit_rounds = 3, timed_rounds = 3;
};

Words split(const std::string &text) {
    Words words;
    std::istringstream in(text);
    for (std::string word; std::getline(in, word, ',');) words.push_back(word);
    return words;
}

bool has(const Words &words, const std::string &word) { return std::find(words.begin(), words.end(), word) != words.end(); }

Settings read(const Words &words) {
    Settings settings;
    std::map<std::string, Words *> lists{
        {"sizes", &settings.sizes}, {"mixes", &settings.mixes}, {"spreads", &settings.spreads}, {"threads", &settings.threads}, {"commit_threads", &settings.commit_threads},
        {"commit_mixes", &settings.commit_mixes}, {"full_mixes", &settings.full_mixes}, {"full_threads", &settings.full_threads}, {"timed_mixes", &settings.timed_mixes},
        {"timed_threads", &settings.timed_threads}, {"beside_mixes", &settings.beside_mixes}, {"beside_threads", &settings.beside_threads}, {"own_sizes", &settings.own_sizes},
        {"cold_mixes", &settings.cold_mixes}, {"cold_threads", &settings.cold_threads},
        {"only", &settings.only}};
    std::map<std::string, double *> numbers{{"cell", &settings.cell}, {"commit_cell", &settings.commit_cell}, {"timed_cell", &settings.timed_cell}, {"until", &settings.until}};
    std::map<std::string, unsigned *> counts{{"rounds", &settings.rounds}, {"commit_rounds", &settings.commit_rounds}, {"timed_rounds", &settings.timed_rounds}};
    for (const std::string &word : words) {
        const size_t sign = word.find('=');
        const std::string name = word.substr(0, sign), value = sign == word.npos ? "" : word.substr(sign + 1);
        if (lists.count(name)) *lists[name] = split(value);
        else if (numbers.count(name)) *numbers[name] = std::atof(value.c_str());
        else if (counts.count(name)) *counts[name] = std::atoi(value.c_str());
        else fail("no setting: " + word);
    }
    return settings;
}

const Mix &mix_of(const std::string &name) {
    for (const Mix &mix : mixes)
        if (name == mix.name) return mix;
    fail("no mix: " + name);
}

const Kind &kind_of(const std::string &name) {
    for (const Kind &kind : kinds())
        if (name == kind.name) return kind;
    fail("no peer: " + name);
}

// A peer that takes part. fkv has a second store for cells with commits: a commit makes records read-only, and the first
// updates behind it copy them, which would be counted in cells without commits.
struct Guest {
    const Kind *kind;
    std::unique_ptr<Peer> plain, second;

    Peer &committed() const { return second ? *second : *plain; }
};

// All peers with so many keys, and what is drawn of these keys, uniform and by Zipf.
struct Board {
    uint64_t keys;
    std::vector<Guest> guests;
    std::array<Draws, 2> draws;
};

class Run {
  public:
    Run(Settings settings, std::string folder) : settings_(std::move(settings)), folder_(std::move(folder)), begun_(seconds_of(CLOCK_MONOTONIC)), ticks_(measured_ticks_a_second()) {}

    // Round by round, so that a machine that is too busy costs rounds, and not sizes.
    void play() {
        std::vector<Board> boards;
        for (const std::string &size : settings_.sizes) boards.push_back(laid(std::stoull(size)));
        for (unsigned round = 0; round < std::max({settings_.rounds, settings_.commit_rounds, settings_.timed_rounds}); round++)
            for (Board &board : boards)
                for (const std::string &spread : settings_.spreads) play(board, spread == "zipf", round);
        std::cout << "{\"skipped\": " << skipped_ << ", \"seconds\": " << seconds_of(CLOCK_MONOTONIC) - begun_ << "}" << std::endl;
    }

  private:
    std::unique_ptr<Peer> made(const Kind &kind, uint64_t keys, const char *of, bool goes_round) {
        const std::string folder = folder_ + "/" + std::to_string(kind.rank) + "-" + std::to_string(keys) + "-" + of;
        std::filesystem::remove_all(folder);
        std::filesystem::create_directories(folder);
        const double begun = seconds_of(CLOCK_MONOTONIC);
        std::unique_ptr<Peer> peer = kind.open({keys, most_threads, folder}, true);
        peer->load(keys);
        if (goes_round) peer->go_round(keys);
        if (keys <= most_checked && peer->sum(keys) != keys * (keys - 1) / 2) fail(std::string(kind.name) + ": what was loaded isn't there");
        peer->pause();
        std::cout << "{\"loaded\": \"" << kind.name << "\", \"keys\": " << keys << ", \"seconds\": " << seconds_of(CLOCK_MONOTONIC) - begun << "}" << std::endl;
        return peer;
    }

    Board laid(uint64_t keys) {
        Board board{keys, {}, {Draws(keys, false), Draws(keys, true)}};
        for (const Kind &kind : kinds()) {
            if (!settings_.only.empty() && !has(settings_.only, kind.name)) continue;
            board.guests.push_back({&kind, made(kind, keys, "plain", false), kind.two_commits ? made(kind, keys, "committed", true) : nullptr});
        }
        return board;
    }

    void play(Board &board, bool zipf, unsigned round) {
        if (round < settings_.rounds) play_plain(board, zipf, round);
        if (round == 0 && settings_.rounds > 0 && !zipf) play_cold(board);
        if (round < settings_.commit_rounds) play_committed(board, zipf, round);
        if (round < settings_.timed_rounds) play_timed(board, zipf, round);
    }

    // What follows each other in time are the peers of one cell.
    static void each(const Words &mixes, const Words &threads, const std::function<void(const Mix &, unsigned)> &play) {
        for (const std::string &mix : mixes)
            for (const std::string &count : threads) play(mix_of(mix), std::stoul(count));
    }

    void play_plain(Board &board, bool zipf, unsigned round) {
        each(settings_.mixes, settings_.threads, [&](const Mix &mix, unsigned threads) {
            for (size_t i = 0; i < board.guests.size(); i++) {
                const Guest &guest = board.guests[(i + round) % board.guests.size()];
                cell("plain", guest, *guest.plain, {board.keys, zipf, mix, threads, Commits::none, false, settings_.cell}, board, round);
            }
        });
    }

    // Cells of which no key is touched before the calls begin. Behind another peer's cells each key is far from the processor.
    void play_cold(Board &board) {
        each(settings_.cold_mixes, settings_.cold_threads, [&](const Mix &mix, unsigned threads) {
            for (const Guest &guest : board.guests) cell("cold", guest, *guest.plain, {board.keys, false, mix, threads, Commits::none, false, settings_.cell, true}, board, 0);
        });
    }

    bool plays_own(const Board &board) const { return settings_.own_sizes.empty() || has(settings_.own_sizes, std::to_string(board.keys)); }

    // Cells with commits. Of fkv each stands beside one without, of the same length.
    void play_committed(Board &board, bool zipf, unsigned round) {
        const auto play = [&](const Mix &mix, unsigned threads, Commits commits) {
            for (const Guest &guest : board.guests) {
                const bool own = guest.kind->two_commits;
                if (!guest.kind->durable || (own ? !plays_own(board) : round > 0 || commits == Commits::full)) continue;
                if (own) cell("pair", guest, *guest.plain, {board.keys, zipf, mix, threads, Commits::none, false, settings_.commit_cell}, board, round);
                cell("pair", guest, guest.committed(), {board.keys, zipf, mix, threads, commits, false, settings_.commit_cell}, board, round);
            }
        };
        each(settings_.commit_mixes, settings_.commit_threads, [&](const Mix &mix, unsigned threads) { play(mix, threads, Commits::log); });
        if (round == 0) each(settings_.full_mixes, settings_.full_threads, [&](const Mix &mix, unsigned threads) { play(mix, threads, Commits::full); });
    }

    // Cells whose calls are timed one by one.
    void play_timed(Board &board, bool zipf, unsigned round) {
        const auto play = [&](const Mix &mix, unsigned threads, bool own) {
            for (const Guest &guest : board.guests) {
                if (guest.kind->two_commits != own || (own && !plays_own(board))) continue;
                cell("timed", guest, *guest.plain, {board.keys, zipf, mix, threads, Commits::none, true, settings_.timed_cell}, board, round);
                if (guest.kind->durable) cell("timed", guest, guest.committed(), {board.keys, zipf, mix, threads, Commits::log, true, settings_.timed_cell}, board, round);
            }
        };
        each(settings_.timed_mixes, settings_.timed_threads, [&](const Mix &mix, unsigned threads) { play(mix, threads, true); });
        if (round == 0) each(settings_.beside_mixes, settings_.beside_threads, [&](const Mix &mix, unsigned threads) { play(mix, threads, false); });
    }

    void cell(const char *part, const Guest &guest, Peer &peer, const Cell &cell, const Board &board, unsigned round) {
        if (seconds_of(CLOCK_MONOTONIC) - begun_ > settings_.until) {
            skipped_++;
            return;
        }
        peer.resume();
        const bool checked = cell.mix.updates == 1024 && cell.mix.update == Update::add && cell.keys <= least_checked;
        const uint64_t before = checked ? peer.sum(cell.keys) : 0;
        const Outcome outcome = measure(peer, cell, board.draws[cell.zipf], turn_++, round);
        if (checked && peer.sum(cell.keys) != before + outcome.updates) fail(std::string(guest.kind->name) + ": an add is lost");
        peer.pause();
        std::cout << "{\"part\": \"" << part << "\", \"round\": " << round << ", \"peer\": \"" << guest.kind->name << "\", " << spelled(outcome, cell, ticks_) << "}" << std::endl;
    }

    static constexpr unsigned most_threads = 4;

    Settings settings_;
    std::string folder_;
    double begun_, ticks_;
    unsigned turn_ = 0;
    uint64_t skipped_ = 0;
};

// Loads a store, adds to its keys by Zipf, with a commit behind each fourth of the calls, and ends as by a crash.
void fill(const Kind &kind, uint64_t keys, uint64_t calls, const std::string &folder, bool full) {
    std::unique_ptr<Peer> peer = kind.open({keys, 1, folder}, true);
    peer->load(keys);
    const Draws draws(keys, true);
    for (unsigned part = 0; part < 4; part++) {
        peer->play({&draws, mix_of("add"), Draws::count / 4 * part, false, 0}, calls / 4);
        peer->commit(full);
    }
    std::_Exit(0);
}

void recover(const Kind &kind, uint64_t keys, const std::string &folder, bool cold) {
    const double begun = seconds_of(CLOCK_MONOTONIC), before = seconds_of(CLOCK_PROCESS_CPUTIME_ID);
    std::unique_ptr<Peer> peer = kind.open({keys, 1, folder, cold}, false);
    peer->first();
    const double opened = seconds_of(CLOCK_MONOTONIC), processor = seconds_of(CLOCK_PROCESS_CPUTIME_ID) - before;
    const uint64_t read = std::min(keys, least_checked), sum = peer->sum(read);
    const double each = (seconds_of(CLOCK_MONOTONIC) - opened) / read;
    std::cout << "{\"recovered\": \"" << kind.name << "\", \"keys\": " << keys << ", \"seconds\": " << opened - begun << ", \"processor\": " << processor
              << ", \"read\": " << read << ", \"each\": " << each << ", \"sum\": " << sum << "}" << std::endl;
}

int start(const Words &words) {
    std::sort(kinds().begin(), kinds().end(), [](const Kind &a, const Kind &b) { return a.rank < b.rank; });
    if (words.size() == 1 && words[0] == "peers") {
        for (const Kind &kind : kinds()) std::cout << kind.name << (kind.durable ? "\tdurable" : "\t") << (kind.two_commits ? "\tlog,full" : "\tlog") << (kind.opens_cold ? ",cold" : "") << "\n";
        return 0;
    }
    if (words.size() >= 2 && words[0] == "measure") {
        Run(read(Words(words.begin() + 2, words.end())), words[1]).play();
        return 0;
    }
    if (words.size() == 6 && words[0] == "fill") fill(kind_of(words[1]), std::stoull(words[2]), std::stoull(words[3]), words[4], words[5] == "full");
    if (words.size() == 5 && words[0] == "recover") {
        recover(kind_of(words[1]), std::stoull(words[2]), words[3], words[4] == "cold");
        return 0;
    }
    std::cerr << "usage: driver peers | measure FOLDER NAME=VALUE.. | fill PEER KEYS UPDATES FOLDER COMMITS | recover PEER KEYS FOLDER usual|cold" << std::endl;
    return 2;
}

}  // namespace
}  // namespace peers

int main(int count, char **words) { return peers::start({words + 1, words + count}); }

// The keys that every peer is given, and in which order: drawn before anything is timed, the same for all peers of a run.
#pragma once
#include <algorithm>
#include <cmath>
#include <cstdint>
#include <random>
#include <vector>

namespace peers {

// A key of the store. Programs seldom have keys in a row, so numbers are spread by a bijection of 64-bit words.
inline uint64_t key_of(uint64_t number) {
    number += 0x9e3779b97f4a7c15;
    number = (number ^ (number >> 30)) * 0xbf58476d1ce4e5b9;
    number = (number ^ (number >> 27)) * 0x94d049bb133111eb;
    return number ^ (number >> 31);
}

// What a call does where it isn't a get.
enum class Update { upsert, add };

struct Mix {
    const char *name;
    unsigned updates;  // of 1,024 calls
    Update update;
};

constexpr Mix mixes[] = {
    {"get", 0, Update::upsert},    {"upsert", 1024, Update::upsert}, {"add", 1024, Update::add},
    {"A", 512, Update::upsert},    {"B", 51, Update::upsert},        {"F", 512, Update::add},
};

// A row of numbers of keys, each with a chance of 10 bits above it that says whether its call updates.
class Draws {
  public:
    static constexpr unsigned count = 1 << 20, number_bits = 20, chance_bits = 10;

    Draws(uint64_t keys, bool zipf) : keys_(keys), zipf_(zipf), drawn_(count) {
        std::mt19937_64 random(keys + zipf);
        const std::vector<double> below = zipf ? shares(keys) : std::vector<double>();
        std::uniform_real_distribution<double> unit(0, 1);
        for (uint32_t &drawn : drawn_) {
            const uint64_t number = zipf ? std::min<uint64_t>(std::lower_bound(below.begin(), below.end(), unit(random)) - below.begin(), keys - 1) : random() % keys;
            drawn = (zipf ? scattered(number) : number) | (random() % (1 << chance_bits)) << number_bits;
        }
    }

    uint32_t at(uint64_t place) const { return drawn_[place % count]; }
    static unsigned chance(uint32_t drawn) { return drawn >> number_bits; }

    // Uniform numbers are moved on in each block of calls, so that a row of 2^20 draws still meets every key.
    uint64_t shift(uint64_t block) const { return zipf_ ? 0 : block * 0x9e3779b1; }
    uint64_t number(uint32_t drawn, uint64_t shift) const { return ((drawn & ((1u << number_bits) - 1)) + shift) & (keys_ - 1); }

  private:
    // A key's number by its rank, one to one. YCSB scatters its ranks too, by a hash. Else the keys that are drawn most would be those that were
    // loaded first, and lie side by side.
    uint64_t scattered(uint64_t rank) const { return rank * 0x9e3779b1 & (keys_ - 1); }

    // YCSB's exponent. The n-th share is the chance of a number up to n.
    static std::vector<double> shares(uint64_t keys) {
        std::vector<double> below(keys);
        double sum = 0;
        for (uint64_t n = 0; n < keys; n++) below[n] = sum += std::pow(n + 1, -0.99);
        for (double &share : below) share /= sum;
        return below;
    }

    uint64_t keys_;  // a power of two
    bool zipf_;
    std::vector<uint32_t> drawn_;
};

}  // namespace peers

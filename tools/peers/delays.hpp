// How long single calls took: counts by length, each length to 3 %.
#pragma once
#include <bit>
#include <chrono>
#include <cstdint>
#include <vector>
#if defined(__x86_64__)
#include <x86intrin.h>
#endif

namespace peers {

// A clock for single calls. The fences keep a call's loads between its two readings.
inline uint64_t ticks() {
#if defined(__x86_64__)
    _mm_lfence();
    const uint64_t now = __rdtsc();
    _mm_lfence();
    return now;
#else
    return std::chrono::steady_clock::now().time_since_epoch().count();
#endif
}

class Delays {
  public:
    Delays() : counts_(64 * parts) {}

    void add(uint64_t length) {
        counts_[slot(length)]++;
        total_++;
        if (length > most_) most_ = length;
    }

    void join(const Delays &other) {
        for (size_t i = 0; i < counts_.size(); i++) counts_[i] += other.counts_[i];
        total_ += other.total_;
        if (other.most_ > most_) most_ = other.most_;
    }

    uint64_t total() const { return total_; }
    uint64_t most() const { return most_; }

    // The length that this share of the calls didn't exceed.
    uint64_t at(double share) const {
        uint64_t left = share * total_;
        for (size_t i = 0; i < counts_.size(); i++) {
            if (counts_[i] > left) return length(i);
            left -= counts_[i];
        }
        return most_;
    }

  private:
    static constexpr unsigned bits = 5, parts = 1 << bits;

    static size_t slot(uint64_t length) {
        if (length < parts) return length;
        const unsigned high = std::bit_width(length) - 1 - bits;
        return (high + 1) * parts + ((length >> high) & (parts - 1));
    }

    static uint64_t length(size_t slot) {
        if (slot < parts) return slot;
        return (parts + slot % parts) << (slot / parts - 1);
    }

    std::vector<uint64_t> counts_;
    uint64_t total_ = 0, most_ = 0;
};

}  // namespace peers

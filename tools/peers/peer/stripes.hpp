// Locks for adds of stores that have none of their own: a get and a put under the lock of the key's stripe.
#pragma once
#include <array>
#include <cstdint>
#include <mutex>

namespace peers {

class Stripes {
  public:
    std::mutex &of(uint64_t key) { return stripes_[key % stripes_.size()].lock; }

  private:
    struct alignas(128) Stripe {
        std::mutex lock;
    };
    std::array<Stripe, 512> stripes_;
};

}  // namespace peers

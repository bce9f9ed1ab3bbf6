// What the programs that run loops share: the numbers that they draw, and the clock.
#pragma once
#include <cstdint>
#include <ctime>
#include <string>

struct Random {
    std::uint64_t state = 1;

    std::uint64_t below(std::uint64_t n) {
        state = state * 6364136223846793005u + 1442695040888963407u;
        return (state >> 33) % (n ? n : 1);
    }
};

/// Nanoseconds of the processor.
inline std::uint64_t on_processor() {
    timespec now;
    clock_gettime(CLOCK_PROCESS_CPUTIME_ID, &now);
    return static_cast<std::uint64_t>(now.tv_sec) * 1000000000u + static_cast<std::uint64_t>(now.tv_nsec);
}

inline std::string owner(std::int64_t n) { return "owner " + std::to_string(n); }

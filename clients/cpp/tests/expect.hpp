// What the tests share: a program ends at the first line that differs, and prints it.
#ifndef EXPECT_HPP
#define EXPECT_HPP

#include <cstdio>
#include <cstdlib>
#include <string>

#include <weltiyo.hpp>

inline void expect(bool holds, int line, const char *what) {
    if (!holds) {
        std::printf("line %d: %s\n", line, what);
        std::exit(1);
    }
}

#define EXPECT(it) expect((it), __LINE__, #it)

// The word of a refusal, or none where nothing is refused.
template <class Call> std::string refused(Call call) {
    try {
        call();
    } catch (const weltiyo::Refused &it) {
        return it.word();
    }
    return "";
}

#endif

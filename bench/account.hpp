// A row of the table `accounts`, as the peers copy it. The stamps say when it came to its key.
#pragma once
#include <cstdint>
#include <string>

struct Account {
    std::int64_t id;
    std::string owner;
    std::int64_t balance;
    bool vip;
    std::int64_t balance_at, vip_at, class_at;
};

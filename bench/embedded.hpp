// What a system is to the loops of `embedded.cpp`: the calls that they make.
#pragma once
#include "account.hpp"

#include <array>
#include <cstdint>
#include <cstdio>
#include <cstdlib>
#include <memory>
#include <string>

[[noreturn]] inline void stop(const std::string &why) {
    std::fprintf(stderr, "%s\n", why.c_str());
    std::exit(1);
}

class System {
public:
    virtual ~System() = default;
    /// Called once the table is filled.
    virtual void settle() {}
    /// Whether it walks over rows to answer `rank` and `nth`.
    virtual bool walks() const { return false; }

    /// Ids are 0, 1 and so on.
    virtual void insert(const std::string &owner, std::int64_t balance, bool vip) = 0;
    virtual void erase(std::int64_t id) = 0;
    virtual void add(std::int64_t id, std::int64_t more) = 0;
    virtual void add_undone(std::int64_t id, std::int64_t more) = 0;
    virtual void add_squashed(std::int64_t id, std::int64_t more) = 0;
    virtual void start_and_undo() = 0;

    /// The balance of a row, by its id and by its owner.
    virtual std::int64_t balance(std::int64_t id) = 0;
    virtual std::int64_t find(const std::string &owner) = 0;
    /// The id of the first row with a balance, or ABSENT.
    virtual std::int64_t find_sorted(std::int64_t balance) = 0;
    virtual std::int64_t count(std::int64_t balance) = 0;
    virtual std::int64_t rank(std::int64_t id) = 0;
    /// The id of the row before which so many stand, by the balances.
    virtual std::int64_t nth(std::int64_t n) = 0;

    /// The sums of pages: from a balance on, from one to below another, below one and downward, behind a row of the list.
    virtual std::uint64_t ten_from(std::int64_t balance) = 0;
    virtual std::uint64_t between(std::int64_t lower, std::int64_t upper) = 0;
    virtual std::uint64_t ten_below(std::int64_t balance) = 0;
    virtual std::uint64_t ten_behind(std::int64_t id) = 0;
};

constexpr std::int64_t ABSENT = -1;
/// The rows of a page that is asked for, and of one that is bounded on both sides at most.
constexpr std::size_t TEN = 10, MOST = 64;

/// What is seen of a page: the rows in their order.
class Sum {
public:
    void add(std::int64_t id, std::int64_t balance, bool vip, std::size_t owner_length) {
        value_ = 31 * value_ + 7 * static_cast<std::uint64_t>(id) + static_cast<std::uint64_t>(balance) + vip + owner_length;
    }
    std::uint64_t value() const { return value_; }

private:
    std::uint64_t value_ = 0;
};

/// Copies of the rows of a page.
class Page {
public:
    void clear() { count_ = 0; }
    std::size_t count() const { return count_; }
    Account &next() { return rows_[count_++]; }

    std::uint64_t sum() const {
        Sum sum;
        for (std::size_t n = 0; n < count_; n++) {
            sum.add(rows_[n].id, rows_[n].balance, rows_[n].vip, rows_[n].owner.size());
        }
        return sum.value();
    }

private:
    std::array<Account, MOST> rows_;
    std::size_t count_ = 0;
};

/// What each program of a system has: the system of this name, and what it is.
std::unique_ptr<System> made(const std::string &name, const char *schema);
std::string version();

// The loops of `embedded.py` over one system in this process: embedded SYSTEM LOOP[,LOOP..] ROWS CALLS SCHEMA.
//
// SYSTEM is ours or lines in the program with `embedded_ours.cpp`, boost, sqlite or lmdb in those with `embedded_SYSTEM.cpp`. `ours` makes the
// calls with values, `lines` asks lines of JSON. The table of `accounts.toml` is filled with ROWS rows, and then each LOOP is called CALLS times;
// all systems draw the same numbers. Of each loop it prints the nanoseconds of the processor that a call took, how many calls were made, and a
// sum of what was seen, which is the same for all. A LOOP is one of
//     get          the balance of a row by its id
//     find         the balance of a row by its owner, in a hashed index
//     find_sorted  the id of a row by its balance, in a ranked index; half of the balances no row has
//     count        how many rows have a balance, in a ranked index
//     rank         how many rows stand before a row, in a ranked index
//     nth          the row before which so many stand, in a ranked index
//     range        ten rows from a balance on, in a ranked index, each whole: theirs are copied from iterators
//     between      the rows from a balance to below another, ten in the mean
//     below        ten rows below a balance, downward
//     list         ten rows behind a row of the list
//     modify       adds a number to the balance of a row: it moves in two indexes
//     keep         the same, but no row moves
//     undone       start, the same as modify, undo: Boost's by a copy of the row, SQLite's by a savepoint, LMDB's by a nested transaction
//     squashed     start, the same, squash
//     sessions     start, undo
//     insert       adds a row
//     erase        erases a row that was added for it
//
// `find_sorted` and `keep` have a table of their own, whose balances are spread evenly over a billion. Where one system walks over rows to
// answer, it makes a hundredth of the calls, and the sums are those of a hundredth.
#include "embedded.hpp"
#include "loops.hpp"

#include <algorithm>
#include <cstring>
#include <numeric>
#include <optional>
#include <sstream>
#include <string_view>
#include <utility>
#include <vector>

namespace {

/// The balances of rows are below this, and those that are spread below the other.
constexpr std::int64_t HIGHEST = 1000003, SPREAD = 1000000000;
constexpr std::int64_t FEWER = 100;

struct Table {
    std::unique_ptr<System> system;
    std::int64_t rows = 0; // which the loops draw of
    std::int64_t added = 0; // with those that the loops have added
    std::int64_t apart = 0; // how far balances are from one another where they are spread
};

void fill(Table &table, std::int64_t more, Random &random) {
    for (const std::int64_t end = table.added + more; table.added < end; table.added++) {
        const auto balance = static_cast<std::int64_t>(random.below(HIGHEST));
        table.system->insert(owner(table.added), balance, random.below(10) < 3);
    }
}

void fill_spread(Table &table, std::int64_t rows, Random &random) {
    table.apart = SPREAD / rows;
    std::vector<std::int64_t> places(static_cast<std::size_t>(rows));
    std::iota(places.begin(), places.end(), 0);
    for (std::size_t n = places.size(); n > 1; n--) {
        std::swap(places[n - 1], places[random.below(n)]);
    }
    for (const std::int64_t place : places) {
        table.system->insert(owner(table.added++), place * table.apart, random.below(10) < 3);
    }
}

Table filled(const char *system, const char *schema, std::int64_t rows, bool is_spread) {
    Table table{made(system, schema), rows};
    Random random;
    if (is_spread) {
        fill_spread(table, rows, random);
    } else {
        fill(table, rows, random);
    }
    table.system->settle();
    return table;
}

/// What a loop draws over a table.
class Drawn {
public:
    explicit Drawn(const Table &table) : rows_(table.rows), apart_(table.apart), width_(std::max<std::int64_t>(1, TEN * HIGHEST / table.rows)) {}

    std::int64_t id() { return below(rows_); }
    std::int64_t balance() { return below(HIGHEST); }
    std::int64_t spread() {
        const std::int64_t place = id() * apart_;
        return place + below(2) * (apart_ / 2);
    }
    std::int64_t width() const { return width_; }
    std::int64_t more() { return below(101) - 50; }

private:
    std::int64_t below(std::int64_t n) { return static_cast<std::int64_t>(random_.below(static_cast<std::uint64_t>(n))); }

    Random random_{7};
    std::int64_t rows_, apart_, width_;
};

template <class Call>
std::uint64_t each(std::int64_t calls, Call call) {
    std::uint64_t sum = 0;
    for (std::int64_t n = 0; n < calls; n++) {
        sum += static_cast<std::uint64_t>(call());
    }
    return sum;
}

/// The sum of a loop that changes nothing, if it is one.
std::optional<std::uint64_t> looked_up(System &system, std::string_view loop, Drawn draw, std::int64_t calls) {
    if (loop == "get") return each(calls, [&] { return system.balance(draw.id()); });
    if (loop == "find") return each(calls, [&] { return system.find(owner(draw.id())); });
    if (loop == "find_sorted") return each(calls, [&] { return system.find_sorted(draw.spread()); });
    if (loop == "count") return each(calls, [&] { return system.count(draw.balance()); });
    if (loop == "rank") return each(calls, [&] { return system.rank(draw.id()); });
    if (loop == "nth") return each(calls, [&] { return system.nth(draw.id()); });
    if (loop == "range") return each(calls, [&] { return system.ten_from(draw.balance()); });
    if (loop == "below") return each(calls, [&] { return system.ten_below(draw.balance()); });
    if (loop == "list") return each(calls, [&] { return system.ten_behind(draw.id()); });
    if (loop == "between") {
        return each(calls, [&] {
            const std::int64_t lower = draw.balance();
            return system.between(lower, lower + draw.width());
        });
    }
    return {};
}

/// Calls with a row that is drawn and with what is added to its balance.
template <class Call>
void each_add(Drawn &draw, std::int64_t calls, Call call) {
    for (std::int64_t n = 0; n < calls; n++) {
        const std::int64_t id = draw.id();
        call(id, draw.more());
    }
}

/// Erases the rows from this one on, in an order that jumps.
void erase_all(System &system, std::int64_t first, std::int64_t count) {
    std::int64_t step = count / 3 * 2 + 1;
    while (std::gcd(step, count) != 1) {
        step++;
    }
    for (std::int64_t n = 0, at = 0; n < count; n++, at = (at + step) % count) {
        system.erase(first + at);
    }
}

void change(Table &table, std::string_view loop, Drawn draw, std::int64_t calls) {
    System &system = *table.system;
    if (loop == "modify" || loop == "keep") {
        each_add(draw, calls, [&](auto id, auto more) { system.add(id, more); });
    } else if (loop == "undone") {
        each_add(draw, calls, [&](auto id, auto more) { system.add_undone(id, more); });
    } else if (loop == "squashed") {
        each_add(draw, calls, [&](auto id, auto more) { system.add_squashed(id, more); });
    } else if (loop == "sessions") {
        each(calls, [&] { return system.start_and_undo(), 0; });
    } else if (loop == "insert") {
        Random random{7};
        fill(table, calls, random);
    } else if (loop == "erase") {
        erase_all(system, table.added - calls, calls);
    } else {
        stop("no loop has this name: " + std::string(loop));
    }
}

/// The balances of some rows, and the orders from the first balance on and from the first row of the list on.
std::uint64_t checked(const Table &table) {
    std::uint64_t sum = 0;
    for (std::int64_t id = 0; id < table.rows; id += table.rows / 100 + 1) {
        sum = sum * 31 + static_cast<std::uint64_t>(table.system->balance(id));
        sum = sum * 31 + table.system->ten_from(table.system->balance(id)) + table.system->ten_behind(id);
    }
    return sum;
}

} // namespace

// What callgrind counts alone (--toggle-collect=measured).
extern "C" __attribute__((noinline)) std::uint64_t measured(Table &table, const char *loop, std::int64_t calls) {
    const auto sum = looked_up(*table.system, loop, Drawn(table), calls);
    if (!sum) {
        change(table, loop, Drawn(table), calls);
    }
    return sum.value_or(0);
}

namespace {

struct Timed {
    double nanoseconds;
    std::int64_t calls;
    std::uint64_t sum;
};

Timed timed(Table &table, const char *loop, std::int64_t calls) {
    const std::uint64_t began = on_processor();
    const std::uint64_t sum = measured(table, loop, calls);
    return {static_cast<double>(on_processor() - began) / static_cast<double>(calls), calls, sum};
}

/// A loop and what comes before it. Where some systems walk over rows, the others are asked a hundredth too, for the sum alone.
Timed run(Table &table, const std::string &loop, std::int64_t calls) {
    if (loop == "rank" || loop == "nth") {
        const Timed few = timed(table, loop.c_str(), std::max<std::int64_t>(1, calls / FEWER));
        if (table.system->walks()) {
            return few;
        }
        const Timed all = timed(table, loop.c_str(), calls);
        return {all.nanoseconds, few.calls + all.calls, few.sum};
    }
    if (loop == "erase") {
        Random random{9};
        fill(table, calls, random);
    }
    return timed(table, loop.c_str(), calls);
}

} // namespace

int main(int count, char **words) {
    if (count == 2 && std::strcmp(words[1], "--version") == 0) {
        std::printf("%s\n", version().c_str());
        return 0;
    }
    if (count != 6) {
        stop("embedded SYSTEM LOOP[,LOOP..] ROWS CALLS SCHEMA");
    }
    const std::int64_t rows = std::atoll(words[3]), calls = std::atoll(words[4]);
    std::optional<Table> tables[2]; // the usual one and that whose balances are spread, each filled where a loop needs it
    std::istringstream loops(words[2]);
    for (std::string loop; std::getline(loops, loop, ',');) {
        const bool is_spread = loop == "find_sorted" || loop == "keep";
        std::optional<Table> &table = tables[is_spread];
        if (!table) {
            table = filled(words[1], words[5], rows, is_spread);
        }
        const Timed it = run(*table, loop, calls);
        std::printf("%.1f %lld %llu\n", it.nanoseconds, static_cast<long long>(it.calls), static_cast<unsigned long long>(it.sum * 31 + checked(*table)));
    }
    return 0;
}

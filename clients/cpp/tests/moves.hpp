// Databases and pages that are moved and exchanged, and what is no value. It asks no more of the built-in table than stand_in.cpp does.
#ifndef MOVES_HPP
#define MOVES_HPP

#include <cstdint>
#include <optional>
#include <string>
#include <type_traits>
#include <utility>
#include <vector>

#include "expect.hpp"

namespace moves {

using weltiyo::Database;
using weltiyo::Page;
using weltiyo::Refused;
using weltiyo::Session;
using weltiyo::Value;

constexpr std::size_t line = 5;

inline void add(Database &db, const std::string &owner) { db.insert(0, {owner, 1, true}); }

// A session undoes what was done in it wherever its database is by then, and where that is gone too.
inline void moved_in_a_session() {
    Database db("", 1);
    {
        auto session = db.start_undo_session();
        const Database shorter_lived = std::move(db);
    }
    db = Database("", 1);
    std::optional<Database> kept;
    {
        auto session = db.start_undo_session();
        add(db, "ann");
        kept.emplace(std::move(db));
        add(*kept, "bob");
    }
    EXPECT(kept->size(0) == 0 && refused([&] { kept->undo(); }) == "session");
    auto outer = kept->start_undo_session(), inner = kept->start_undo_session();
    add(*kept, "ann");
    db = std::move(*kept);
    inner.squash();
    inner.undo();
    EXPECT(db.size(0) == 1);
    outer.undo();
    outer.squash();
    EXPECT(db.size(0) == 0 && refused([&] { db.undo(); }) == "session");
}

inline void exchanged_in_a_session() {
    Database one("", 1), two("", 2);
    two.start_undo_session().push();
    add(two, "kept");
    {
        auto session = one.start_undo_session();
        add(one, "tried");
        std::swap(one, two);
    }
    EXPECT(two.size(0) == 0 && refused([&] { two.undo(); }) == "session");
    EXPECT(one.size(0) == 1 && one.undo_all() == 1);
}

inline void in_a_vector_that_grows() {
    std::vector<Database> many;
    many.emplace_back("", 1);
    {
        auto session = many[0].start_undo_session();
        add(many[0], "ann");
        many.reserve(2 * many.capacity());
        many.emplace_back("", 2);
        EXPECT(many[0].size(0) == 1);
    }
    EXPECT(many[0].size(0) == 0 && many[1].size(0) == 0);
}

// A session that the database has ended is refused once, and does nothing more.
inline void ended_before() {
    Database db("", 1);
    auto session = db.start_undo_session();
    EXPECT(db.undo_all() == 1);
    EXPECT(refused([&] { session.squash(); }) == "session");
    auto other = db.start_undo_session();
    session.squash();
    session.undo();
    EXPECT(db.undo_all() == 1);
    EXPECT(refused([&] { other.undo(); }) == "session");
    other.undo();
}

// A session of a block ends its own alone: not the pushed one below where its own has ended, and not the pushed one above.
inline void only_its_own() {
    Database db("", 1);
    db.start_undo_session().push();
    add(db, "kept");
    void (*const steps[])(Database &) = {
        [](Database &it) { it.undo(); },
        [](Database &it) { it.squash(); },
        [](Database &it) { it.ask(R"({"cmd":"undo"})"); },
    };
    for (const auto step : steps) {
        auto session = db.start_undo_session();
        step(db);
    }
    EXPECT(db.revision() == 1 && db.size(0) == 1);
    {
        auto session = db.start_undo_session();
        db.start_undo_session().push();
    }
    EXPECT(db.revision() == 3 && db.undo_all() == 3);
}

inline std::string listed(Database &db, Page &page) {
    std::string owners;
    db.list(page, 0, line);
    for (const auto row : page)
        owners += std::string(row.text(0)) + ' ';
    return owners + (page.more() ? ".." : "");
}

// A page that was moved from is empty, and is filled again as one of its size.
inline void moved_pages() {
    Database db("", 1);
    for (const char *owner : {"ann", "bob", "cid"})
        add(db, owner);
    Page page(2);
    EXPECT(listed(db, page) == "ann bob ..");
    Page other = std::move(page);
    EXPECT(other.size() == 2 && other.more() && other.back().text(0) == "bob");
    EXPECT(page.empty() && page.size() == 0 && !page.more() && page.begin() == page.end());
    const Page copy = page;
    EXPECT(copy.empty());
    EXPECT(listed(db, page) == "ann bob .." && other[0].text(0) == "ann");
    Page larger(3);
    EXPECT(listed(db, larger) == "ann bob cid ");
    larger = std::move(other);
    EXPECT(larger.size() == 2 && larger.more() && other.empty() && !other.more());
    EXPECT(listed(db, larger) == "ann bob .." && listed(db, other) == "ann bob ..");
    std::swap(larger, page);
    EXPECT(page.size() == 2 && page[1].text(0) == "bob" && larger.size() == 2);
}

inline void largest_pages() {
    Database db("", 1);
    for (int n = 0; n <= WELTIYO_MOST_ROWS; n++)
        add(db, std::to_string(n));
    for (const std::size_t most : {SIZE_MAX, std::size_t{WELTIYO_MOST_ROWS} + 1, std::size_t{WELTIYO_MOST_ROWS}}) {
        Page page(most);
        db.list(page, 0, line);
        EXPECT(page.size() == WELTIYO_MOST_ROWS && page.more() && page.back().text(0) == "999");
    }
    Page none(0);
    db.list(none, 0, line);
    EXPECT(none.empty());
}

// Of what converts to true and false, only these are a flag.
enum Tier { silver, gold };
enum class Color { red };

template <class T> constexpr bool is_value = std::is_constructible_v<Value, T>;
static_assert(is_value<bool> && is_value<bool &> && is_value<char> && is_value<std::uint64_t> && is_value<const char *> && is_value<std::string>);
static_assert(!is_value<double> && !is_value<float> && !is_value<Tier> && !is_value<Color> && !is_value<std::nullptr_t>);
static_assert(!is_value<void *> && !is_value<const unsigned char *> && !is_value<char **> && !is_value<int (*)()>);

// Whether another's `laid` would be an overload beside one that the header has for itself.
template <class T, class = void> struct HasLaid : std::false_type {};
template <class T>
struct HasLaid<T, std::void_t<decltype(laid(std::declval<const T &>(), std::declval<std::string &>()))>> : std::true_type {};
static_assert(!HasLaid<Value>::value);

inline void refusals() {
    Database db("", 1);
    add(db, "ann");
    try {
        add(db, "ann");
        EXPECT(false);
    } catch (const Refused &it) {
        EXPECT(it.reply() == R"({"error":"unique","id":0,"index":1,"ok":false})" && it.told().index == 1 && it.told().number == 0);
    }
    try {
        db.insert(0, {"bob", true, true});
        EXPECT(false);
    } catch (const Refused &it) {
        EXPECT(it.reply() == R"({"error":"row","column":1,"ok":false})" && it.column() == 1u);
    }
    EXPECT(Refused("busy").word().empty() && Refused(R"({"error":"busy")").word() == "busy");
}

// Names have the numbers that calls go by.
inline void names() {
    Database db("", 1);
    const auto accounts = db.table("accounts");
    EXPECT(accounts == 0 && db.index(accounts, "id") == 0 && db.index(accounts, "by_owner") == 1 && db.column(accounts, "vip") == 2);
    EXPECT(refused([&] { db.table(""); }) == "table" && refused([&] { db.index(1, "id"); }) == "table");
    EXPECT(refused([&] { db.index(accounts, "owner"); }) == "index" && refused([&] { db.column(accounts, "id"); }) == "row");
    const std::string text = db.schema();
    EXPECT(Database(text, 1).schema() == text);
}

inline void all() {
    names();
    moved_in_a_session();
    exchanged_in_a_session();
    in_a_vector_that_grows();
    ended_before();
    only_its_own();
    moved_pages();
    largest_pages();
    refusals();
}

} // namespace moves

#endif

// Tables as containers over the library itself: ranges, keys of several values, edits by name, and walks while rows change. It prints `ok`, or the
// line of what differs.
#include "tables.hpp"

using weltiyo::add, weltiyo::ge, weltiyo::gt, weltiyo::le, weltiyo::lt, weltiyo::put;

struct Move {
    std::string_view from, to;
    std::int64_t amount;
};

static const char *const moves = R"(
table = "move"
column = [{ name = "from", type = "text" }, { name = "to", type = "text" }, { name = "amount", type = "int" }]
index = [
    { name = "by_both", kind = "ordered", key = ["from", "to"] },
    { name = "by_amount", kind = "ranked", unique = true, key = ["amount"] },
    { name = "line", kind = "sequenced" },
]
)";

template <class Range> static std::string amounts(const Range &range) {
    std::string said;
    for (const auto row : range)
        said += std::to_string(row->amount) + ' ';
    return said;
}

static void ranges() {
    weltiyo::Database db(moves);
    auto table = db.table<Move>("move", {"from", "to", "amount"});
    auto by_both = table.ordered<std::string_view, std::string_view>("by_both");
    auto by_amount = table.ranked<std::int64_t>("by_amount");
    auto line = table.sequenced("line");
    for (const auto &it : {Move{"b", "a", 5}, Move{"a", "c", 4}, Move{"a", "b", 9}, Move{"c", "", 1}, Move{"a", "b", 7}})
        table.insert(it);
    EXPECT(amounts(by_amount.range(ge(4), lt(9))) == "4 5 7 " && amounts(by_amount.range(gt(4), le(9))) == "5 7 9 ");
    EXPECT(amounts(by_amount.range(ge(9))) == "9 " && amounts(by_amount.range(lt(5))) == "1 4 " && amounts(by_amount.range()) == "1 4 5 7 9 ");
    EXPECT(amounts(by_amount.range(ge(9), lt(4))).empty() && by_amount.range(gt(9), lt(100)).empty());
    EXPECT(amounts(by_both.range(ge("a"), le("a"))) == "9 7 4 " && amounts(by_both.range(gt("a", "b"), lt("c"))) == "4 5 ");
    EXPECT(amounts(by_both.equal_range("a", "b")) == "9 7 " && by_both.count("a") == 3 && by_both.find("c", "")->amount == 1);
    EXPECT(amounts(line) == "5 4 9 1 7 " && by_amount.lower_rank(5) == 2 && by_amount.upper_rank(5) == 3 && by_amount.nth(4)->amount == 9);
    EXPECT(by_amount.rank(by_amount.find(7)) == 3 && by_amount.end().rank() == 5);
    EXPECT(std::prev(by_amount.end())->amount == 9 && std::next(by_amount.begin(), 2)->amount == 5);
    EXPECT(refused([&] { table.ranked<std::int64_t>("by_both"); }) == "key");
    EXPECT(refused([&] { table.ranked<std::string_view, std::string_view>("by_both"); }) == "kind");
    EXPECT(refused([&] { table.ordered<std::int64_t>("line"); }) == "kind");
}

static void edits() {
    weltiyo::Database db(moves);
    auto table = db.table<Move>("move", {"from", "to", "amount"});
    const auto one = table.insert({"a", "b", 1}), two = table.insert({"c", "d", 2});
    table.modify(one, add("amount", 4), put("to", "z"), put("from", std::string("y")));
    EXPECT(table[one]->amount == 5 && table[one]->to == "z" && table[one]->from == "y");
    EXPECT(tables::named([&] { table.modify(two, put("to", 7)); }) == "to");
    EXPECT(tables::named([&] { table.modify(two, put("to", "x"), add("amount", INT64_MAX)); }) == "amount");
    EXPECT(tables::named([&] { table.modify(two, add("amount", 3)); }) == "by_amount" && table[two]->amount == 2);
    EXPECT(tables::named([&] { table.modify(two, add("sum", 3)); }) == "sum");
    table.replace(two, {"e", "f", 3});
    EXPECT(table[two]->from == "e" && refused([&] { table.replace(99, {"e", "f", 4}); }) == "id");
    try {
        table.insert({"g", "h", 3});
        EXPECT(false);
    } catch (const weltiyo::Refused &it) {
        EXPECT(it.told().number == two && it.reply() == "{\"error\":\"unique\",\"id\":" + std::to_string(two) + ",\"index\":\"by_amount\",\"ok\":false}");
    }
}

// Rows that come and go while they are walked.
static void changes() {
    weltiyo::Database db(moves);
    auto table = db.table<Move>("move", {"from", "to", "amount"});
    auto by_amount = table.ranked<std::int64_t>("by_amount");
    for (std::int64_t n = 0; n < 20; n++)
        table.insert({"a", "b", n});
    for (auto it = by_amount.begin(); it != by_amount.end();) {
        const auto at = it++;
        if (at->amount % 2 == 0)
            table.erase(at.id());
    }
    EXPECT(amounts(by_amount.range(lt(8))) == "1 3 5 7 " && table.size() == 10);
    // (the row where a range ends goes: the walk ends with the index)
    std::string said;
    const auto range = by_amount.range(ge(13), lt(17));
    table.erase(by_amount.find(17).id());
    EXPECT(amounts(range) == "13 15 19 ");
}

int main() {
    tables::all();
    ranges();
    edits();
    changes();
    std::puts("ok");
}

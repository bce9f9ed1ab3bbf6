// Tables as containers, in what every library has: the index of ids, and the unique one of owners.
#ifndef TABLES_HPP
#define TABLES_HPP

#include "expect.hpp"

#include <iterator>
#include <string>
#include <string_view>
#include <utility>

#include <weltiyo_tables.hpp>

namespace tables {

struct Account {
    std::string_view owner;
    std::int64_t balance;
    bool vip;
};

// (the members may stand in another order than the columns)
struct Turned {
    bool vip;
    std::string owner;
    std::int64_t balance;
};

struct Other {
    std::string_view owner;
    bool balance, vip;
};

struct Short {
    std::string_view owner;
    std::int64_t balance;
};

#if __cplusplus >= 202002L
static_assert(std::bidirectional_iterator<weltiyo::IteratorOf<Account>>);
static_assert(std::ranges::input_range<weltiyo::RangeOf<Account>>);
#endif

// The name of the column or of the index that a refusal tells.
template <class Call> std::string named(Call call) {
    try {
        call();
    } catch (const weltiyo::Refused &it) {
        return it.column_name() + it.index_name();
    }
    return "nothing is refused";
}

inline void are_checked(weltiyo::Database &db) {
    EXPECT(refused([&] { db.table<Account>("others", {"owner", "balance", "vip"}); }) == "table");
    EXPECT(named([&] { db.table<Account>("accounts", {"owner", "balances", "vip"}); }) == "balances");
    EXPECT(named([&] { db.table<Other>("accounts", {"owner", "balance", "vip"}); }) == "balance");
    EXPECT(named([&] { db.table<Account>("accounts", {"owner", "balance", "balance"}); }) == "balance");
    EXPECT(named([&] { db.table<Short>("accounts", {"owner", "balance"}); }) == "2");
    auto accounts = db.table<Account>("accounts", {"owner", "balance", "vip"});
    EXPECT(named([&] { accounts.ordered<std::int64_t>("nowhere"); }) == "nowhere");
    EXPECT(named([&] { accounts.hashed<std::int64_t>("id"); }) == "id");
    EXPECT(named([&] { accounts.sequenced("by_owner"); }) == "by_owner");
    EXPECT(named([&] { accounts.column<bool>("balance"); }) == "balance");
}

inline void all() {
    weltiyo::Database db;
    are_checked(db);
    auto accounts = db.table<Account>("accounts", {"owner", "balance", "vip"});
    auto turned = db.table<Turned>("accounts", {"vip", "owner", "balance"});
    auto by_owner = accounts.hashed<std::string_view>("by_owner");
    auto by_id = accounts.ranked<std::int64_t>("id");
    EXPECT(by_id.begin() == by_id.end());
    const auto ann = accounts.insert({"ann", 50, false}), bob = turned.insert({true, "bob", -7});
    const std::string_view long_name = "a name that is longer than what a row has room for without memory: it goes on and on and on, and on and on and on and on, "
                                       "and on and on and on and on and on and on and on and on and on and on, to its end";
    const auto far = accounts.insert({long_name, 1, false});
    EXPECT(accounts.size() == 3);
    EXPECT(accounts[ann]->owner == "ann" && accounts[bob]->balance == -7 && accounts[bob]->vip);
    EXPECT(turned[ann]->owner == "ann" && turned[far]->owner == long_name && !turned[ann]->vip);
    const auto row = accounts[far], copy = row;
    EXPECT(row->owner == long_name && copy->owner == long_name && copy.id() == far);
    const auto owner = accounts.column<std::string>("owner");
    const auto balance = accounts.column<std::int64_t>("balance");
    const auto vip = accounts.column<bool>("vip");
    EXPECT(row[owner] == long_name && row[balance] == 1 && !row[vip] && accounts[bob][vip]);
    EXPECT(named([&] { accounts.insert({"ann", 1, true}); }) == "by_owner");
    EXPECT(by_owner.find("bob").id() == bob && by_owner.find("cid") == by_owner.end());
    EXPECT(std::distance(by_id.begin(), by_id.end()) == 3);
    auto it = by_id.end();
    EXPECT((--it).id() == far && (--it)->owner == "bob" && it.rank() == 1 && (*it--).id() == bob && it++.id() == ann);
    EXPECT(by_id.lower_bound(bob).id() == bob && by_id.upper_bound(far) == by_id.end() && by_id.nth(2).id() == far && by_id.nth(3) == by_id.end());
    EXPECT(by_id.iterator_to(ann) == by_id.begin() && by_id.iterator_to(99) == by_id.end());
    std::string owners;
    for (const auto account : by_id.range(weltiyo::ge(0), weltiyo::le(bob)))
        owners += account->owner;
    EXPECT(owners == "annbob");
    const auto kept = accounts[bob];
    it = by_id.iterator_to(bob);
    accounts.erase(bob);
    EXPECT(refused([&] { ++it; }) == "id" && refused([&] { static_cast<void>(kept->owner); }) == "id" && refused([&] { static_cast<void>(kept[vip]); }) == "id");
    EXPECT(!accounts.find(bob) && accounts.find(ann) && refused([&] { static_cast<void>(accounts[bob]); }) == "id");
    {
        auto session = db.start_undo_session();
        accounts.erase(ann);
        EXPECT(accounts.size() == 1);
    }
    EXPECT(accounts[ann]->owner == "ann");
}

} // namespace tables

#endif

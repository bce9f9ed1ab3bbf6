#include <iostream>
#include <weltiyo_tables.hpp>

using weltiyo::add, weltiyo::ge, weltiyo::lt;

struct Account {
    std::string_view owner;
    std::int64_t balance;
};

int main() {
    weltiyo::Database db(R"(
table = "account"
column = [{ name = "owner", type = "text" }, { name = "balance", type = "int" }]
index = [
    { name = "by_owner", kind = "hashed", unique = true, key = ["owner"] },
    { name = "by_balance", kind = "ranked", key = ["balance"] },
]
)");
    auto accounts = db.table<Account>("account", {"owner", "balance"});
    const auto by_balance = accounts.ranked<std::int64_t>("by_balance");
    const auto ann = accounts.insert({"ann", 50}), bob = accounts.insert({"bob", 7});

    {
        auto session = db.start_undo_session();
        accounts.modify(ann, add("balance", -20));
        accounts.modify(bob, add("balance", 20));
        session.squash();
    }
    try {
        auto session = db.start_undo_session();
        accounts.modify(ann, add("balance", -30));
        accounts.insert({"bob", 30});
        session.squash();
    } catch (const weltiyo::Refused &refused) {
        std::cout << "undone: " << refused.word() << " by " << refused.index_name() << '\n';
    }
    for (const auto it : by_balance)
        std::cout << it->owner << ' ' << it->balance << '\n';
    std::cout << "rank " << by_balance.iterator_to(ann).rank() << '\n';
    if (const auto found = by_balance.find(27); found != by_balance.end())
        std::cout << "27: " << found->owner << '\n';
    std::cout << by_balance.count(30) << " with 30\n";
    for (const auto it : by_balance.range(ge(28), lt(100)))
        std::cout << "28 to 99: " << it->owner << '\n';
}

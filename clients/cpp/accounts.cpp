#include <iostream>
#include <weltiyo.hpp>

int main() {
    weltiyo::Database db(R"(
table = "account"
column = [{ name = "owner", type = "text" }, { name = "balance", type = "int" }]
index = [
    { name = "by_owner", kind = "hashed", unique = true, key = ["owner"] },
    { name = "by_balance", kind = "ranked", key = ["balance"] },
]
)");
    const auto accounts = db.table("account"), balance = db.column(accounts, "balance");
    const auto ann = db.insert(accounts, {"ann", 50}), bob = db.insert(accounts, {"bob", 7});

    {
        auto session = db.start_undo_session();
        db.add(accounts, ann, balance, -20);
        db.add(accounts, bob, balance, 20);
        session.squash();
    }
    try {
        auto session = db.start_undo_session();
        db.add(accounts, ann, balance, -30);
        db.insert(accounts, {"bob", 30});
        session.squash();
    } catch (const weltiyo::Refused &refused) {
        std::cout << "undone: " << refused.word() << '\n';
    }
    const auto by_balance = db.index(accounts, "by_balance");
    weltiyo::Page page;
    db.range(page, accounts, by_balance);
    for (const auto it : page)
        std::cout << it.text(0) << ' ' << it.number(balance) << '\n';
    std::cout << "rank " << db.rank(accounts, by_balance, ann) << '\n';
    if (const auto found = db.find(accounts, by_balance, {27}))
        std::cout << "27: " << found->row[0].text() << '\n';
    std::cout << db.count(accounts, by_balance, {30}) << " with 30\n";
    db.range(page, accounts, by_balance, weltiyo::Lower::from({28}), weltiyo::Upper::below({100}));
    for (const auto it : page)
        std::cout << "28 to 99: " << it.text(0) << '\n';
}

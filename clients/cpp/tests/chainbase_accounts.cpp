#include <boost/multi_index/hashed_index.hpp>
#include <boost/multi_index/member.hpp>
#include <boost/multi_index/ordered_index.hpp>
#include <boost/multi_index/ranked_index.hpp>
#include <chainbase/chainbase.hpp>
#include <iostream>

using namespace boost::multi_index;

enum tables { account_table };

struct account : public chainbase::object<account_table, account> {
    template <class Constructor, class Allocator>
    account(Constructor &&fill, chainbase::allocator<Allocator> memory) : owner(memory) {
        fill(*this);
    }

    id_type id;
    chainbase::shared_string owner;
    std::int64_t balance = 0;
};

struct by_id;
struct by_owner;
struct by_balance;

using account_index = multi_index_container<
    account,
    indexed_by<
        ordered_unique<tag<by_id>, member<account, account::id_type, &account::id>>,
        hashed_unique<tag<by_owner>, member<account, chainbase::shared_string, &account::owner>>,
        ranked_non_unique<tag<by_balance>, member<account, std::int64_t, &account::balance>>>,
    chainbase::allocator<account>>;

CHAINBASE_SET_INDEX_TYPE(account, account_index)

int main() {
    chainbase::database db("accounts", chainbase::database::read_write, 64 << 20);
    db.add_index<account_index>();
    const auto &ann = db.create<account>([] (account &it) { it.owner = "ann"; it.balance = 50; });
    const auto &bob = db.create<account>([] (account &it) { it.owner = "bob"; it.balance = 7; });

    {
        auto session = db.start_undo_session(true);
        db.modify(ann, [] (account &it) { it.balance -= 20; });
        db.modify(bob, [] (account &it) { it.balance += 20; });
        session.squash();
    }
    try {
        auto session = db.start_undo_session(true);
        db.modify(ann, [] (account &it) { it.balance -= 30; });
        db.create<account>([] (account &it) { it.owner = "bob"; it.balance = 30; });
        session.squash();
    } catch (const std::exception &refused) {
        std::cout << "undone: " << refused.what() << '\n';
    }
    const auto &index = db.get_index<account_index>().indices().get<by_balance>();
    for (const auto &it : index)
        std::cout << it.owner.c_str() << ' ' << it.balance << '\n';
    std::cout << "rank " << index.rank(index.iterator_to(ann)) << '\n';
    if (const auto found = index.find(27); found != index.end())
        std::cout << "27: " << found->owner.c_str() << '\n';
    std::cout << index.count(30) << " with 30\n";
    for (auto it = index.lower_bound(28), end = index.lower_bound(100); it != end; ++it)
        std::cout << "28 to 99: " << it->owner.c_str() << '\n';
}

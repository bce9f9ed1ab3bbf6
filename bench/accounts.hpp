// The table `accounts` as a Boost.MultiIndex container with the same six indexes, and a hash of the ids beside them, by which a record
// is found from its id, where ours has pages of ids.
//
// Equals stand in the order in which they came to their key, and what takes a change back puts them back there. Boost promises
// neither for an element whose key is changed, so each key has a stamp as its last part.
//
// `by_vip` is ordered here and not hashed: a hashed index of Boost walks the records of one key whenever one of them is modified,
// and most of the table has one key.
#pragma once
#include "account.hpp"

#include <functional>

#include <boost/multi_index/composite_key.hpp>
#include <boost/multi_index/hashed_index.hpp>
#include <boost/multi_index/key.hpp>
#include <boost/multi_index/ordered_index.hpp>
#include <boost/multi_index/ranked_index.hpp>
#include <boost/multi_index/sequenced_index.hpp>
#include <boost/multi_index_container.hpp>

namespace mi = boost::multi_index;

struct ById {};
struct ByHashedId {};
struct ByOwner {};
struct ByBalance {};
struct ByVip {};
struct ByClass {};
struct Line {};

using Accounts = mi::multi_index_container<
    Account,
    mi::indexed_by<
        mi::ranked_unique<mi::tag<ById>, mi::key<&Account::id>>,
        mi::hashed_unique<mi::tag<ByHashedId>, mi::key<&Account::id>>,
        mi::hashed_unique<mi::tag<ByOwner>, mi::key<&Account::owner>>,
        mi::ranked_unique<mi::tag<ByBalance>, mi::key<&Account::balance, &Account::balance_at>>,
        mi::ordered_unique<mi::tag<ByVip>, mi::key<&Account::vip, &Account::vip_at>>,
        mi::ordered_unique<mi::tag<ByClass>, mi::key<&Account::vip, &Account::balance, &Account::class_at>,
                           mi::composite_key_compare<std::greater<bool>, std::less<std::int64_t>, std::less<std::int64_t>>>,
        mi::sequenced<mi::tag<Line>>>>;

/// Where the record with an id is in the ranked index, by the hash; the end where there is none.
template <class Container>
auto place_of(Container &accounts, std::int64_t id) {
    return accounts.template project<ById>(accounts.template get<ByHashedId>().find(id));
}

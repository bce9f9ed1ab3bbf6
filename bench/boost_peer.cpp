// The table `accounts` as a Boost.MultiIndex container, and sessions as in chainbase: a change inside a session keeps the old value of
// the record, and an undo puts the old values back, the newest first.
//
// The list remembers before whom an erased or moved record stood; `accounts.hpp` says how the other indexes keep their places.
#include "accounts.hpp"
#include "front.hpp"

#include <algorithm>
#include <cstdio>

#include <boost/tuple/tuple.hpp>
#include <boost/version.hpp>

RowView view(const Account &it) { return {it.id, it.owner, it.balance, it.vip}; }

constexpr std::int64_t AT_END = -1;

/// How a change is taken back. `old` is the record before; of one that was inserted or moved its id alone.
struct Change {
    enum class Kind { Inserted, Changed, Erased, Moved } kind;
    Account old;
    std::int64_t behind = AT_END; // of an erased or moved one: who stood behind it in the list
};

struct Session {
    std::size_t begin; // the changes before it
    std::int64_t next_id, arrivals;
};

class Table {
public:
    static constexpr bool HAS_ALL = true;
    static bool has_range(const Range &it) { return it.index == Index::Id || it.index == Index::ByBalance || it.index == Index::ByClass; }
    static bool has_rank(Index it) { return it == Index::Id || it == Index::ByBalance; }
    static bool has_key(Index it) { return it != Index::Line; }

    Outcome insert(const RowView &row, std::optional<std::int64_t> before) {
        auto &by_id = accounts_.get<ById>();
        auto place = by_id.end();
        if (before && (place = place_of(accounts_, *before)) == by_id.end()) {
            return Outcome::refused("id");
        }
        auto [it, is_new] = by_id.insert(Account{next_id_, std::string(row.owner), row.balance, row.vip, arrivals_, arrivals_, arrivals_});
        if (!is_new) {
            return Outcome::conflict(it->id);
        }
        if (before) {
            accounts_.get<Line>().relocate(accounts_.project<Line>(place), accounts_.project<Line>(it));
        }
        note({Change::Kind::Inserted, {next_id_, {}, 0, false, 0, 0, 0}});
        arrivals_++;
        return Outcome::of(next_id_++);
    }

    Outcome replace(const RowView &row) {
        auto it = place_of(accounts_, row.id);
        if (it == accounts_.get<ById>().end()) {
            return Outcome::refused("id");
        }
        auto other = accounts_.get<ByOwner>().find(std::string(row.owner));
        if (other != accounts_.get<ByOwner>().end() && other->id != row.id) {
            return Outcome::conflict(other->id);
        }
        put(it, &row.owner, row.balance, row.vip);
        return {};
    }

    Outcome modify(std::int64_t id, const Edits &edits, bool rollback) {
        auto it = place_of(accounts_, id);
        if (it == accounts_.get<ById>().end()) {
            return Outcome::refused("id");
        }
        std::int64_t balance = edits.balance.value_or(it->balance);
        if (edits.more_balance && __builtin_add_overflow(balance, *edits.more_balance, &balance)) {
            return Outcome::refused("range");
        }
        if (edits.owner) {
            auto other = accounts_.get<ByOwner>().find(std::string(*edits.owner));
            if (other != accounts_.get<ByOwner>().end() && other->id != id) {
                const std::int64_t in_the_way = other->id;
                if (!rollback) {
                    erase_at(it);
                }
                return Outcome::conflict(in_the_way, !rollback);
            }
        }
        put(it, edits.owner ? &*edits.owner : nullptr, balance, edits.vip.value_or(it->vip));
        return {};
    }

    Outcome erase(std::int64_t id) {
        auto it = place_of(accounts_, id);
        if (it == accounts_.get<ById>().end()) {
            return Outcome::refused("id");
        }
        erase_at(it);
        return {};
    }

    std::int64_t erase_key(Index index, const Key &key) {
        std::vector<std::int64_t> ids;
        equals(index, key, [&](auto first, auto last) {
            for (; first != last; ++first) {
                ids.push_back(first->id);
            }
        });
        for (std::int64_t id : ids) {
            erase(id);
        }
        return static_cast<std::int64_t>(ids.size());
    }

    Outcome relocate(std::int64_t id, std::optional<std::int64_t> before) {
        auto &by_id = accounts_.get<ById>();
        auto it = place_of(accounts_, id), place = before ? place_of(accounts_, *before) : by_id.end();
        if (it == by_id.end() || (before && place == by_id.end())) {
            return Outcome::refused("id");
        }
        if (before != id) {
            note({Change::Kind::Moved, {id, {}, 0, false, 0, 0, 0}, behind(it)});
            move(it, before ? accounts_.project<Line>(place) : accounts_.get<Line>().end());
        }
        return {};
    }

    Outcome start() {
        if (sessions_.size() == MOST_SESSIONS) {
            return Outcome::refused("depth");
        }
        sessions_.push_back({changes_.size(), next_id_, arrivals_});
        return Outcome::of(++revision_);
    }

    Outcome undo() {
        if (sessions_.empty()) {
            return Outcome::refused("session");
        }
        const Session session = sessions_.back();
        sessions_.pop_back();
        while (changes_.size() > session.begin) {
            take_back(changes_.back());
            changes_.pop_back();
        }
        next_id_ = session.next_id;
        arrivals_ = session.arrivals;
        return Outcome::of(--revision_);
    }

    Outcome squash() {
        if (sessions_.empty()) {
            return Outcome::refused("session");
        }
        sessions_.pop_back();
        if (sessions_.empty()) {
            changes_.clear();
        }
        return Outcome::of(--revision_);
    }

    Outcome commit(std::int64_t revision) {
        const auto depth = static_cast<std::int64_t>(sessions_.size());
        const std::int64_t ended = std::clamp<std::int64_t>(revision - (revision_ - depth), 0, depth);
        sessions_.erase(sessions_.begin(), sessions_.begin() + ended);
        const std::size_t settled = sessions_.empty() ? changes_.size() : sessions_.front().begin;
        changes_.erase(changes_.begin(), changes_.begin() + static_cast<std::ptrdiff_t>(settled));
        for (Session &it : sessions_) {
            it.begin -= settled;
        }
        return Outcome::of(ended);
    }

    Outcome undo_all() {
        const auto open = static_cast<std::int64_t>(sessions_.size());
        while (!sessions_.empty()) {
            undo();
        }
        return Outcome::of(open);
    }

    std::int64_t size() const { return static_cast<std::int64_t>(accounts_.size()); }

    template <class Emit>
    bool get(std::int64_t id, Emit emit) const {
        auto it = place_of(accounts_, id);
        return show(it != accounts_.get<ById>().end(), it, emit);
    }

    template <class Emit>
    bool find(Index index, const Key &key, Emit emit) const {
        bool found = false;
        equals(index, key, [&](auto first, auto last) {
            found = show(first != last, first, emit);
        });
        return found;
    }

    std::int64_t count(Index index, const Key &key) const {
        if (index == Index::ByBalance) {
            return upper_rank(index, key) - lower_rank(index, key);
        }
        std::int64_t found = 0;
        equals(index, key, [&](auto first, auto last) { found = std::distance(first, last); });
        return found;
    }

    template <class Emit>
    bool nth(Index index, std::int64_t n, Emit emit) const {
        bool found = false;
        ranked(index, [&](const auto &in) {
            auto it = in.nth(static_cast<std::size_t>(n));
            found = show(it != in.end(), it, emit);
        });
        return found;
    }

    Outcome rank(Index index, std::int64_t id) const {
        auto it = place_of(accounts_, id);
        if (it == accounts_.get<ById>().end()) {
            return Outcome::refused("id");
        }
        const std::size_t found = index == Index::Id ? accounts_.get<ById>().rank(it) : accounts_.get<ByBalance>().rank(accounts_.project<ByBalance>(it));
        return Outcome::of(static_cast<std::int64_t>(found));
    }

    std::int64_t lower_rank(Index index, const Key &key) const {
        const std::size_t found = index == Index::Id ? accounts_.get<ById>().lower_bound_rank(key.number)
                                                     : accounts_.get<ByBalance>().lower_bound_rank(boost::make_tuple(key.number));
        return static_cast<std::int64_t>(found);
    }

    std::int64_t upper_rank(Index index, const Key &key) const {
        const std::size_t found = index == Index::Id ? accounts_.get<ById>().upper_bound_rank(key.number)
                                                     : accounts_.get<ByBalance>().upper_bound_rank(boost::make_tuple(key.number));
        return static_cast<std::int64_t>(found);
    }

    template <class Emit>
    bool range(const Range &range, Emit emit) const {
        switch (range.index) {
        case Index::Id:
            return range_of(accounts_.get<ById>(), range, [](const Key &it, auto use) { use(it.number); }, emit);
        case Index::ByBalance:
            return range_of(accounts_.get<ByBalance>(), range, [](const Key &it, auto use) { use(boost::make_tuple(it.number)); }, emit);
        default:
            return range_of(accounts_.get<ByClass>(), range, [](const Key &it, auto use) { class_key(it, use); }, emit);
        }
    }

    /// Whether records remain, or nothing where `after` isn't there.
    template <class Emit>
    std::optional<bool> list(std::optional<std::int64_t> after, std::int64_t limit, Emit emit) const {
        auto it = accounts_.get<Line>().begin();
        if (after) {
            auto found = place_of(accounts_, *after);
            if (found == accounts_.get<ById>().end()) {
                return {};
            }
            it = std::next(accounts_.project<Line>(found));
        }
        return walk(it, accounts_.get<Line>().end(), limit, emit);
    }

private:
    using IdPlace = Accounts::index<ById>::type::iterator;
    using LinePlace = Accounts::index<Line>::type::iterator;

    void note(Change &&it) {
        if (!sessions_.empty()) {
            changes_.push_back(std::move(it));
        }
    }

    /// Who stands behind this record in the list.
    std::int64_t behind(IdPlace it) const {
        auto next = std::next(accounts_.project<Line>(it));
        return next == accounts_.get<Line>().end() ? AT_END : next->id;
    }

    void move(IdPlace it, LinePlace place) { accounts_.get<Line>().relocate(place, accounts_.project<Line>(it)); }

    void move_before(IdPlace it, std::int64_t behind) {
        move(it, behind == AT_END ? accounts_.get<Line>().end() : accounts_.project<Line>(place_of(accounts_, behind)));
    }

    void put(IdPlace it, const std::string_view *owner, std::int64_t balance, bool vip) {
        if (!sessions_.empty()) {
            note({Change::Kind::Changed, *it});
        }
        const std::int64_t now = arrivals_++;
        accounts_.get<ById>().modify(it, [&](Account &account) {
            const bool other_balance = account.balance != balance, other_vip = account.vip != vip;
            account.balance_at = other_balance ? now : account.balance_at;
            account.vip_at = other_vip ? now : account.vip_at;
            account.class_at = other_balance || other_vip ? now : account.class_at;
            account.balance = balance;
            account.vip = vip;
            if (owner) {
                account.owner = *owner;
            }
        });
    }

    void erase_at(IdPlace it) {
        if (!sessions_.empty()) {
            note({Change::Kind::Erased, *it, behind(it)});
        }
        accounts_.get<ById>().erase(it);
    }

    void take_back(Change &change) {
        auto &by_id = accounts_.get<ById>();
        switch (change.kind) {
        case Change::Kind::Inserted:
            by_id.erase(place_of(accounts_, change.old.id));
            break;
        case Change::Kind::Changed:
            by_id.modify(place_of(accounts_, change.old.id), [&](Account &it) { it = std::move(change.old); });
            break;
        case Change::Kind::Erased:
            move_before(by_id.insert(std::move(change.old)).first, change.behind);
            break;
        case Change::Kind::Moved:
            move_before(place_of(accounts_, change.old.id), change.behind);
            break;
        }
    }

    template <class Use>
    static void class_key(const Key &key, Use use) {
        if (key.parts == 1) {
            use(boost::make_tuple(key.vip));
        } else {
            use(boost::make_tuple(key.vip, key.number));
        }
    }

    template <class Place, class Emit>
    static bool show(bool is_there, Place it, Emit &emit) {
        if (is_there) {
            emit(view(*it));
        }
        return is_there;
    }

    template <class Place, class Emit>
    static bool walk(Place it, Place end, std::int64_t limit, Emit &emit) {
        for (; it != end && limit > 0; ++it, --limit) {
            emit(view(*it));
        }
        return it != end;
    }

    template <class Use>
    void ranked(Index index, Use use) const {
        if (index == Index::Id) {
            use(accounts_.get<ById>());
        } else {
            use(accounts_.get<ByBalance>());
        }
    }

    /// Calls `use` with the records of a key.
    template <class Use>
    void equals(Index index, const Key &key, Use use) const {
        auto of = [&](const auto &in, const auto &key) {
            auto [first, last] = in.equal_range(key);
            use(first, last);
        };
        switch (index) {
        case Index::Id:
            return of(accounts_.get<ById>(), key.number);
        case Index::ByOwner:
            return of(accounts_.get<ByOwner>(), std::string(key.owner));
        case Index::ByBalance:
            return of(accounts_.get<ByBalance>(), boost::make_tuple(key.number));
        case Index::ByVip:
            return of(accounts_.get<ByVip>(), boost::make_tuple(key.vip));
        default:
            class_key(key, [&](const auto &key) { of(accounts_.get<ByClass>(), key); });
        }
    }

    template <class In, class WithKey, class Emit>
    static bool range_of(const In &in, const Range &range, WithKey with_key, Emit &emit) {
        auto first = in.begin(), last = in.end();
        if (range.lower) {
            with_key(range.lower->key, [&](const auto &key) { first = range.lower->with_equals ? in.lower_bound(key) : in.upper_bound(key); });
        }
        if (range.upper) {
            with_key(range.upper->key, [&](const auto &key) { last = range.upper->with_equals ? in.upper_bound(key) : in.lower_bound(key); });
        }
        if (first == in.end() || (last != in.end() && in.value_comp()(*last, *first))) {
            return false;
        }
        if (range.reverse) {
            return walk(std::make_reverse_iterator(last), std::make_reverse_iterator(first), range.limit, emit);
        }
        return walk(first, last, range.limit, emit);
    }

    Accounts accounts_;
    std::vector<Change> changes_;
    std::vector<Session> sessions_;
    std::int64_t next_id_ = 0, arrivals_ = 0, revision_ = 0;
};

int main(int count, char **words) {
    if (count > 1 && std::strcmp(words[1], "--version") == 0) {
        std::printf("Boost %d.%d, %s\n", BOOST_VERSION / 100000, BOOST_VERSION / 100 % 1000, simdjson_version().c_str());
        return 0;
    }
    Table table;
    return Front(table).serve();
}

// The table `accounts` in SQLite, in memory, by prepared statements; a session is a savepoint.
//
// SQL has no `commit` of the oldest savepoints, and no index that knows ranks: a rank is counted, and the rows before the n-th
// are walked. All is in one transaction, so that no change is one of its own.
#include "front.hpp"
#include "sqlite.hpp"

#include <cstdio>
#include <limits>

/// The counters, which an undo puts back.
struct Counters {
    std::int64_t next_id = 0, arrivals = 0, last_place = 0;
};

class Table {
public:
    Table() = default;
    Table(const Table &) = delete;
    ~Table() { sqlite3_close_v2(base_); }

    static constexpr bool HAS_ALL = false;
    static bool has_range(const Range &it) {
        const bool from = it.lower && it.lower->with_equals, below = it.upper && !it.upper->with_equals;
        return it.index == Index::ByBalance && (it.reverse ? !it.lower && below : from && (!it.upper || below));
    }
    static bool has_rank(Index it) { return it == Index::ByBalance; }
    static bool has_key(Index it) { return it == Index::ByOwner || it == Index::ByBalance; }

    Outcome insert(const RowView &row, std::optional<std::int64_t> before) {
        if (before) {
            return Outcome::refused("form");
        }
        const std::int64_t now = counters_.arrivals;
        if (!insert_.with(counters_.next_id, row.owner, row.balance, row.vip, now, counters_.last_place + STEP).done()) {
            return Outcome::conflict(owner_of(row.owner));
        }
        counters_.last_place += STEP;
        counters_.arrivals++;
        return Outcome::of(counters_.next_id++);
    }

    Outcome replace(const RowView &row) { return put(row.id, true, row.owner, row); }

    Outcome modify(std::int64_t id, const Edits &edits, bool rollback) {
        if (edits.more_balance && *edits.more_balance != 0 && !edits.owner && !edits.vip && add(id, *edits.more_balance)) {
            return {};
        }
        if (!row_.with(id).row()) {
            return Outcome::refused("id");
        }
        RowView row{id, {}, edits.balance.value_or(row_.number(1)), edits.vip.value_or(row_.number(2) != 0)};
        row_.end();
        if (edits.more_balance && __builtin_add_overflow(row.balance, *edits.more_balance, &row.balance)) {
            return Outcome::refused("range");
        }
        Outcome found = put(id, edits.owner.has_value(), edits.owner.value_or(""), row);
        if (found.refusal) {
            found.lost = !rollback;
            if (!rollback) {
                erase(id);
            }
        }
        return found;
    }

    Outcome erase(std::int64_t id) {
        erase_.with(id).done();
        return sqlite3_changes(base_) == 1 ? Outcome{} : Outcome::refused("id");
    }

    Outcome relocate(std::int64_t id, std::optional<std::int64_t> before) {
        if (!is_there(id) || (before && !is_there(*before))) {
            return Outcome::refused("id");
        }
        if (before != id) {
            place_.with(before ? place_before(*before) : counters_.last_place += STEP, id).done();
        }
        return {};
    }

    Outcome start() {
        if (sessions_.size() == MOST_SESSIONS) {
            return Outcome::refused("depth");
        }
        savepoint_.with().done();
        sessions_.push_back(counters_);
        return Outcome::of(++revision_);
    }

    Outcome undo() {
        if (sessions_.empty()) {
            return Outcome::refused("session");
        }
        rollback_.with().done();
        release_.with().done();
        counters_ = sessions_.back();
        sessions_.pop_back();
        return Outcome::of(--revision_);
    }

    Outcome squash() {
        if (sessions_.empty()) {
            return Outcome::refused("session");
        }
        release_.with().done();
        sessions_.pop_back();
        return Outcome::of(--revision_);
    }

    Outcome commit(std::int64_t) { return Outcome::refused("form"); }

    Outcome undo_all() {
        const auto open = static_cast<std::int64_t>(sessions_.size());
        while (!sessions_.empty()) {
            undo();
        }
        return Outcome::of(open);
    }

    std::int64_t size() {
        size_.with().row();
        const std::int64_t found = size_.number(0);
        size_.end();
        return found;
    }

    template <class Emit>
    bool get(std::int64_t id, Emit emit) {
        const bool found = row_.with(id).row();
        if (found) {
            emit(RowView{id, row_.text(0), row_.number(1), row_.number(2) != 0});
        }
        row_.end();
        return found;
    }

    template <class Emit>
    bool find(Index index, const Key &key, Emit emit) {
        return one(index == Index::ByOwner ? find_owner_.with(key.owner) : find_balance_.with(key.number), emit);
    }

    std::int64_t count(Index index, const Key &key) {
        Statement &counted = index == Index::ByOwner ? count_owner_.with(key.owner) : count_balance_.with(key.number);
        counted.row();
        const std::int64_t found = counted.number(0);
        counted.end();
        return found;
    }

    template <class Emit>
    bool nth(Index, std::int64_t n, Emit emit) {
        return one(nth_.with(n), emit);
    }

    template <class Emit>
    bool range(const Range &range, Emit emit) {
        if (range.reverse) {
            return walk(below_.with(range.upper->key.number, range.limit + 1), range.limit, emit);
        }
        if (range.upper) {
            return walk(between_.with(range.lower->key.number, range.upper->key.number, range.limit + 1), range.limit, emit);
        }
        return walk(range_.with(range.lower->key.number, range.limit + 1), range.limit, emit);
    }

    /// Whether records remain, or nothing where `after` isn't there.
    template <class Emit>
    std::optional<bool> list(std::optional<std::int64_t> after, std::int64_t limit, Emit emit) {
        std::int64_t place = std::numeric_limits<std::int64_t>::min();
        if (after) {
            if (!place_of_.with(*after).row()) {
                return {};
            }
            place = place_of_.number(0);
            place_of_.end();
        }
        return walk(list_.with(place, limit + 1), limit, emit);
    }

    Outcome rank(Index, std::int64_t id) {
        if (!rank_.with(id).row()) {
            return Outcome::refused("id");
        }
        const std::int64_t found = rank_.number(0);
        rank_.end();
        return Outcome::of(found);
    }

private:
    static RowView record(Statement &it) { return {it.number(0), it.text(1), it.number(2), it.number(3) != 0}; }

    /// Shows the first record that a statement finds, if there is one.
    template <class Emit>
    static bool one(Statement &it, Emit &emit) {
        const bool found = it.row();
        if (found) {
            emit(record(it));
        }
        it.end();
        return found;
    }

    /// Shows the records that a statement finds, at most so many; whether others remain.
    template <class Emit>
    static bool walk(Statement &it, std::int64_t left, Emit &emit) {
        bool is_row = it.row();
        for (; is_row && left > 0; left--) {
            emit(record(it));
            is_row = it.row();
        }
        it.end();
        return is_row;
    }

    std::int64_t owner_of(std::string_view owner) {
        owner_.with(owner).row();
        const std::int64_t found = owner_.number(0);
        owner_.end();
        return found;
    }

    bool is_there(std::int64_t id) {
        const bool found = row_.with(id).row();
        row_.end();
        return found;
    }

    /// One statement for the commonest edit. False where there is no such record or the sum isn't a number of 64 bits.
    bool add(std::int64_t id, std::int64_t more) {
        using Numbers = std::numeric_limits<std::int64_t>;
        const std::int64_t least = more < 0 ? Numbers::min() - more : Numbers::min();
        const std::int64_t most = more > 0 ? Numbers::max() - more : Numbers::max();
        add_.with(id, more, counters_.arrivals, least, most).done();
        const bool well = sqlite3_changes(base_) == 1;
        counters_.arrivals += well;
        return well;
    }

    Outcome put(std::int64_t id, bool with_owner, std::string_view owner, const RowView &row) {
        const std::int64_t now = counters_.arrivals;
        const bool well = with_owner ? replace_.with(id, row.balance, row.vip, now, owner).done() : edit_.with(id, row.balance, row.vip, now).done();
        if (!well) {
            return Outcome::conflict(owner_of(owner));
        }
        if (sqlite3_changes(base_) == 0) {
            return Outcome::refused("id");
        }
        counters_.arrivals++;
        return {};
    }

    /// A place directly before this record; where none is left all get new ones.
    std::int64_t place_before(std::int64_t id) {
        for (;;) {
            neighbours_.with(id).row();
            const std::int64_t here = neighbours_.number(0), last = neighbours_.number(1);
            neighbours_.end();
            if (here - last > 1) {
                return last + (here - last) / 2;
            }
            renumber_.with(STEP).done();
            counters_.last_place = size() * STEP;
        }
    }

    sqlite3 *base_ = opened();
    Counters counters_;
    std::vector<Counters> sessions_;
    std::int64_t revision_ = 0;

    Statement insert_{base_, "INSERT INTO accounts VALUES(?1, ?2, ?3, ?4, ?5, ?5, ?5, ?6)"};
    Statement row_{base_, "SELECT owner, balance, vip FROM accounts WHERE id = ?1"};
    Statement owner_{base_, "SELECT id FROM accounts WHERE owner = ?1"};
    Statement add_{base_, "UPDATE accounts SET balance = balance + ?2, balance_at = ?3, class_at = ?3 WHERE id = ?1 AND balance BETWEEN ?4 AND ?5"};
    Statement edit_{base_, "UPDATE accounts SET balance = ?2, vip = ?3, balance_at = iif(balance = ?2, balance_at, ?4), vip_at = iif(vip = ?3, vip_at, ?4),"
                           " class_at = iif(balance = ?2 AND vip = ?3, class_at, ?4) WHERE id = ?1"};
    Statement replace_{base_, "UPDATE accounts SET owner = ?5, balance = ?2, vip = ?3, balance_at = iif(balance = ?2, balance_at, ?4),"
                              " vip_at = iif(vip = ?3, vip_at, ?4), class_at = iif(balance = ?2 AND vip = ?3, class_at, ?4) WHERE id = ?1"};
    Statement erase_{base_, "DELETE FROM accounts WHERE id = ?1"};
    Statement place_{base_, "UPDATE accounts SET line = ?1 WHERE id = ?2"};
    Statement neighbours_{base_, "SELECT a.line, coalesce((SELECT max(b.line) FROM accounts b WHERE b.line < a.line), 0) FROM accounts a WHERE a.id = ?1"};
    Statement renumber_{base_, "UPDATE accounts SET line = n.place * ?1 FROM (SELECT id, row_number() OVER (ORDER BY line) AS place FROM accounts) n"
                               " WHERE n.id = accounts.id"};
    Statement size_{base_, "SELECT count(*) FROM accounts"};
    Statement range_{base_, "SELECT id, owner, balance, vip FROM accounts WHERE balance >= ?1 ORDER BY balance, balance_at LIMIT ?2"};
    Statement between_{base_, "SELECT id, owner, balance, vip FROM accounts WHERE balance >= ?1 AND balance < ?2 ORDER BY balance, balance_at LIMIT ?3"};
    Statement below_{base_, "SELECT id, owner, balance, vip FROM accounts WHERE balance < ?1 ORDER BY balance DESC, balance_at DESC LIMIT ?2"};
    Statement find_owner_{base_, "SELECT id, owner, balance, vip FROM accounts WHERE owner = ?1"};
    Statement find_balance_{base_, "SELECT id, owner, balance, vip FROM accounts WHERE balance = ?1 ORDER BY balance_at LIMIT 1"};
    Statement count_owner_{base_, "SELECT count(*) FROM accounts WHERE owner = ?1"};
    Statement count_balance_{base_, "SELECT count(*) FROM accounts WHERE balance = ?1"};
    Statement nth_{base_, "SELECT id, owner, balance, vip FROM accounts ORDER BY balance, balance_at LIMIT 1 OFFSET ?1"};
    Statement place_of_{base_, "SELECT line FROM accounts WHERE id = ?1"};
    Statement list_{base_, "SELECT id, owner, balance, vip FROM accounts WHERE line > ?1 ORDER BY line LIMIT ?2"};
    Statement rank_{base_, "SELECT (SELECT count(*) FROM accounts b WHERE (b.balance, b.balance_at) < (a.balance, a.balance_at))"
                           " FROM accounts a WHERE a.id = ?1"};
    Statement savepoint_{base_, "SAVEPOINT session"};
    Statement rollback_{base_, "ROLLBACK TO session"};
    Statement release_{base_, "RELEASE session"};
};

int main(int count, char **words) {
    if (count > 1 && std::strcmp(words[1], "--version") == 0) {
        std::printf("SQLite %s, %s\n", sqlite3_libversion(), simdjson_version().c_str());
        return 0;
    }
    Table table;
    return Front(table).serve();
}

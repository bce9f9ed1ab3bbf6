// SQLite's prepared statements in the loops of `embedded.cpp`. A session is a savepoint; a rank is counted.
#include "embedded.hpp"
#include "sqlite.hpp"

namespace {

struct Close {
    void operator()(sqlite3 *it) const { sqlite3_close_v2(it); }
};

class Sqlite : public System {
public:
    bool walks() const override { return true; }

    void insert(const std::string &owner, std::int64_t balance, bool vip) override {
        done(insert_.with(next_, std::string_view(owner), balance, vip, arrivals_, next_ * STEP));
        next_++, arrivals_++;
    }

    void erase(std::int64_t id) override { changed(erase_.with(id)); }

    void add(std::int64_t id, std::int64_t more) override {
        changed(add_.with(id, more, arrivals_));
        arrivals_++;
    }

    void add_undone(std::int64_t id, std::int64_t more) override {
        done(start_.with());
        add(id, more);
        done(undo_.with());
        done(release_.with());
        arrivals_--;
    }

    void add_squashed(std::int64_t id, std::int64_t more) override {
        done(start_.with());
        add(id, more);
        done(release_.with());
    }

    void start_and_undo() override {
        done(start_.with());
        done(undo_.with());
        done(release_.with());
    }

    std::int64_t balance(std::int64_t id) override { return first(get_.with(id), 1); }
    std::int64_t find(const std::string &owner) override { return first(find_.with(std::string_view(owner)), 1); }

    std::int64_t find_sorted(std::int64_t balance) override {
        Statement &found = find_sorted_.with(balance);
        const std::int64_t id = found.row() ? found.number(0) : ABSENT;
        found.end();
        return id;
    }

    std::int64_t count(std::int64_t balance) override { return first(count_.with(balance), 0); }
    std::int64_t rank(std::int64_t id) override { return first(rank_.with(id), 0); }
    std::int64_t nth(std::int64_t n) override { return first(nth_.with(n), 0); }

    std::uint64_t ten_from(std::int64_t balance) override { return copied(from_.with(balance)); }
    std::uint64_t between(std::int64_t lower, std::int64_t upper) override { return copied(between_.with(lower, upper)); }
    std::uint64_t ten_below(std::int64_t balance) override { return copied(below_.with(balance)); }
    std::uint64_t ten_behind(std::int64_t id) override { return copied(list_.with(id)); }

private:
    static void done(Statement &it) {
        if (!it.done()) {
            stop("unique");
        }
    }

    void changed(Statement &it) {
        done(it);
        if (sqlite3_changes(base_.get()) != 1) {
            stop("id");
        }
    }

    /// This column of the first row, which there must be.
    static std::int64_t first(Statement &it, int column) {
        if (!it.row()) {
            stop("id");
        }
        const std::int64_t found = it.number(column);
        it.end();
        return found;
    }

    std::uint64_t copied(Statement &it) {
        page_.clear();
        while (it.row()) {
            Account &to = page_.next();
            to.id = it.number(0);
            to.owner.assign(it.text(1));
            to.balance = it.number(2);
            to.vip = it.number(3) != 0;
        }
        return page_.sum();
    }

    std::unique_ptr<sqlite3, Close> base_{opened()};
    Page page_;
    std::int64_t next_ = 0, arrivals_ = 0;

    Statement insert_{base_.get(), "INSERT INTO accounts VALUES(?1, ?2, ?3, ?4, ?5, ?5, ?5, ?6)"};
    Statement erase_{base_.get(), "DELETE FROM accounts WHERE id = ?1"};
    Statement add_{base_.get(), "UPDATE accounts SET balance = balance + ?2, balance_at = iif(?2, ?3, balance_at), class_at = iif(?2, ?3, class_at) WHERE id = ?1"};
    Statement get_{base_.get(), "SELECT owner, balance, vip FROM accounts WHERE id = ?1"};
    Statement find_{base_.get(), "SELECT owner, balance, vip FROM accounts WHERE owner = ?1"};
    Statement find_sorted_{base_.get(), "SELECT id, owner, balance, vip FROM accounts WHERE balance = ?1 ORDER BY balance_at LIMIT 1"};
    Statement count_{base_.get(), "SELECT count(*) FROM accounts WHERE balance = ?1"};
    Statement rank_{base_.get(), "SELECT (SELECT count(*) FROM accounts b WHERE (b.balance, b.balance_at) < (a.balance, a.balance_at))"
                                 " FROM accounts a WHERE a.id = ?1"};
    Statement nth_{base_.get(), "SELECT id, owner, balance, vip FROM accounts ORDER BY balance, balance_at LIMIT 1 OFFSET ?1"};
    Statement from_{base_.get(), "SELECT id, owner, balance, vip FROM accounts WHERE balance >= ?1 ORDER BY balance, balance_at LIMIT 10"};
    Statement between_{base_.get(), "SELECT id, owner, balance, vip FROM accounts WHERE balance >= ?1 AND balance < ?2 ORDER BY balance, balance_at LIMIT 64"};
    Statement below_{base_.get(), "SELECT id, owner, balance, vip FROM accounts WHERE balance < ?1 ORDER BY balance DESC, balance_at DESC LIMIT 10"};
    Statement list_{base_.get(), "SELECT id, owner, balance, vip FROM accounts WHERE line > (SELECT line FROM accounts WHERE id = ?1) ORDER BY line LIMIT 10"};
    Statement start_{base_.get(), "SAVEPOINT session"};
    Statement undo_{base_.get(), "ROLLBACK TO session"};
    Statement release_{base_.get(), "RELEASE session"};
};

} // namespace

std::unique_ptr<System> made(const std::string &name, const char *) {
    if (name != "sqlite") {
        stop("a system: sqlite");
    }
    return std::make_unique<Sqlite>();
}

std::string version() { return std::string("SQLite ") + sqlite3_libversion(); }

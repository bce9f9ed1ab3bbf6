// LMDB in the loops of `embedded.cpp`, in memory: a database for the records by their ids, and one for each index that the others have. A session
// is a nested transaction: it is begun inside the open one, an undo aborts it, and a squash commits it into that.
//
// The key of a record in an index that isn't unique ends with the stamp of its arrival there, so that equals stand in that order. No database
// knows ranks: for `rank` and `nth` a cursor walks from the first record on.
#include "embedded.hpp"
#include "lmdb.hpp"

#include <vector>

namespace {

constexpr std::size_t MOST_BYTES = std::size_t{8} << 30, LONGEST_OWNER = 1024;

/// What stands before the owner in a record.
struct Head {
    std::int64_t balance, balance_at, vip_at, class_at, line;
    bool vip;
};

/// A copy of a record: what it was read from may move when something is written.
class Record {
public:
    Record(const Head &head, std::string_view owner) : head(head), size_(owner.size()) { std::memcpy(owner_.data(), owner.data(), size_); }
    explicit Record(const MDB_val &it) : Record(value_of<Head>(it), text_of(it).substr(sizeof(Head))) {}

    std::string_view owner() const { return {owner_.data(), size_}; }

    Head head;

private:
    std::size_t size_;
    std::array<char, LONGEST_OWNER> owner_;
};

Key by_balance(const Head &it) { return Key().number(it.balance).number(it.balance_at); }
Key by_vip(const Head &it) { return Key().flag(it.vip).number(it.vip_at); }
Key by_class(const Head &it) { return Key().flag(!it.vip).number(it.balance).number(it.class_at); }
Key by_line(const Head &it) { return Key().number(it.line); }

class Lmdb : public System {
public:
    Lmdb() { open_.emplace_back(env_.get()), open_databases(); }

    ~Lmdb() override {
        // (the newest first: a transaction ends those that were begun in it)
        while (!open_.empty()) {
            open_.pop_back();
        }
    }

    bool walks() const override { return true; }

    /// What was filled is committed, so that it is read from the pages of the file.
    void settle() override {
        open_.back().commit();
        open_.back() = Transaction(env_.get());
    }

    void insert(const std::string &owner, std::int64_t balance, bool vip) override {
        const Record record({balance, arrivals_, arrivals_, arrivals_, next_, vip}, owner);
        put(owner_, bytes_of(std::string_view(owner)), bytes_of(next_), MDB_NOOVERWRITE);
        write(next_, record, MDB_APPEND);
        put(balance_, by_balance(record.head), next_);
        put(vip_, by_vip(record.head), next_);
        put(class_, by_class(record.head), next_);
        put(line_, by_line(record.head), next_, MDB_APPEND);
        next_++, arrivals_++;
    }

    void erase(std::int64_t id) override {
        const Record record = read(id);
        erase(records_, bytes_of(id));
        erase(owner_, bytes_of(record.owner()));
        erase(balance_, bytes_of(by_balance(record.head).view()));
        erase(vip_, bytes_of(by_vip(record.head).view()));
        erase(class_, bytes_of(by_class(record.head).view()));
        erase(line_, bytes_of(by_line(record.head).view()));
    }

    void add(std::int64_t id, std::int64_t more) override {
        Record record = read(id);
        const Head old = record.head;
        if (__builtin_add_overflow(old.balance, more, &record.head.balance)) {
            stop("range");
        }
        const std::int64_t now = arrivals_++;
        if (more == 0) {
            return;
        }
        record.head.balance_at = record.head.class_at = now;
        write(id, record);
        erase(balance_, bytes_of(by_balance(old).view()));
        put(balance_, by_balance(record.head), id);
        erase(class_, bytes_of(by_class(old).view()));
        put(class_, by_class(record.head), id);
    }

    void add_undone(std::int64_t id, std::int64_t more) override {
        start();
        add(id, more);
        undo();
        arrivals_--;
    }

    void add_squashed(std::int64_t id, std::int64_t more) override {
        start();
        add(id, more);
        squash();
    }

    void start_and_undo() override {
        start();
        undo();
    }

    std::int64_t balance(std::int64_t id) override { return value_of<Head>(found(id)).balance; }

    std::int64_t find(const std::string &owner) override {
        MDB_val key = bytes_of(std::string_view(owner)), value;
        well(mdb_get(txn(), owner_, &key, &value));
        return balance(value_of<std::int64_t>(value));
    }

    std::int64_t find_sorted(std::int64_t balance) override {
        const Key key = Key().number(balance);
        Cursor it(txn(), balance_);
        return it.seek(key.view()) && begins(it, key) ? it.number() : ABSENT;
    }

    std::int64_t count(std::int64_t balance) override {
        const Key key = Key().number(balance);
        Cursor it(txn(), balance_);
        std::int64_t count = 0;
        for (bool is_there = it.seek(key.view()); is_there && begins(it, key); is_there = it.next()) {
            count++;
        }
        return count;
    }

    std::int64_t rank(std::int64_t id) override {
        const Key key = by_balance(value_of<Head>(found(id)));
        Cursor it(txn(), balance_);
        std::int64_t rank = 0;
        for (bool is_there = it.first(); is_there && it.key() != key.view(); is_there = it.next()) {
            rank++;
        }
        return rank;
    }

    std::int64_t nth(std::int64_t n) override {
        Cursor it(txn(), balance_);
        bool is_there = it.first();
        for (; is_there && n > 0; n--) {
            is_there = it.next();
        }
        if (!is_there) {
            stop("id");
        }
        return it.number();
    }

    std::uint64_t ten_from(std::int64_t balance) override {
        Cursor it(txn(), balance_);
        return copied(it, it.seek(Key().number(balance).view()), TEN, [&] { return it.next(); });
    }

    std::uint64_t between(std::int64_t lower, std::int64_t upper) override {
        const Key end = Key().number(upper);
        Cursor it(txn(), balance_);
        const auto is_below = [&](bool is_there) { return is_there && it.key() < end.view(); };
        return copied(it, is_below(it.seek(Key().number(lower).view())), MOST, [&] { return is_below(it.next()); });
    }

    std::uint64_t ten_below(std::int64_t balance) override {
        Cursor it(txn(), balance_);
        return copied(it, it.seek_below(Key().number(balance).view()), TEN, [&] { return it.previous(); });
    }

    std::uint64_t ten_behind(std::int64_t id) override {
        Cursor it(txn(), line_);
        it.seek(by_line(value_of<Head>(found(id))).view());
        return copied(it, it.next(), TEN, [&] { return it.next(); });
    }

private:
    static constexpr unsigned DATABASES = 6;

    MDB_txn *txn() const { return open_.back().get(); }

    void start() { open_.emplace_back(env_.get(), txn()); }
    void undo() { open_.pop_back(); }
    void squash() {
        open_.back().commit();
        open_.pop_back();
    }

    void open_databases() {
        well(mdb_dbi_open(txn(), "records", MDB_CREATE | MDB_INTEGERKEY, &records_));
        well(mdb_dbi_open(txn(), "by_owner", MDB_CREATE, &owner_));
        well(mdb_dbi_open(txn(), "by_balance", MDB_CREATE, &balance_));
        well(mdb_dbi_open(txn(), "by_vip", MDB_CREATE, &vip_));
        well(mdb_dbi_open(txn(), "by_class", MDB_CREATE, &class_));
        well(mdb_dbi_open(txn(), "line", MDB_CREATE, &line_));
    }

    void put(MDB_dbi to, MDB_val key, MDB_val value, unsigned how = 0) { well(mdb_put(txn(), to, &key, &value, how)); }
    void put(MDB_dbi to, const Key &key, std::int64_t id, unsigned how = 0) { put(to, bytes_of(key.view()), bytes_of(id), how); }
    void erase(MDB_dbi from, MDB_val key) { well(mdb_del(txn(), from, &key, nullptr)); }

    /// Where the record of an id stands, until something is written.
    MDB_val found(std::int64_t id) const {
        MDB_val key = bytes_of(id), value;
        well(mdb_get(txn(), records_, &key, &value));
        return value;
    }

    Record read(std::int64_t id) const { return Record(found(id)); }

    void write(std::int64_t id, const Record &record, unsigned how = 0) {
        const std::string_view owner = record.owner();
        MDB_val key = bytes_of(id), value{sizeof(Head) + owner.size(), nullptr};
        well(mdb_put(txn(), records_, &key, &value, how | MDB_RESERVE));
        std::memcpy(value.mv_data, &record.head, sizeof(Head));
        std::memcpy(static_cast<char *>(value.mv_data) + sizeof(Head), owner.data(), owner.size());
    }

    /// Whether the key where a cursor stands begins with this one.
    static bool begins(const Cursor &it, const Key &key) { return it.key().substr(0, key.view().size()) == key.view(); }

    /// Copies the records from where a cursor stands on.
    template <class Step>
    std::uint64_t copied(const Cursor &it, bool is_there, std::size_t most, Step step) {
        page_.clear();
        while (is_there) {
            const MDB_val record = found(it.number());
            const Head head = value_of<Head>(record);
            Account &to = page_.next();
            to.id = it.number();
            to.owner.assign(text_of(record).substr(sizeof(Head)));
            to.balance = head.balance;
            to.vip = head.vip;
            is_there = page_.count() < most && step();
        }
        return page_.sum();
    }

    Environment env_ = opened(DATABASES, MOST_BYTES);
    std::vector<Transaction> open_;
    MDB_dbi records_, owner_, balance_, vip_, class_, line_;
    Page page_;
    std::int64_t next_ = 0, arrivals_ = 0;
};

} // namespace

std::unique_ptr<System> made(const std::string &name, const char *) {
    if (name != "lmdb") {
        stop("a system: lmdb");
    }
    return std::make_unique<Lmdb>();
}

std::string version() {
    int major = 0, minor = 0, patch = 0;
    mdb_version(&major, &minor, &patch);
    return "LMDB " + std::to_string(major) + "." + std::to_string(minor) + "." + std::to_string(patch);
}

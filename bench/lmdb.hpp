// LMDB's environment, transactions and cursors, which end themselves, and keys whose bytes compare as their values do.
#pragma once
#include <array>
#include <cstdint>
#include <cstdio>
#include <cstdlib>
#include <cstring>
#include <memory>
#include <string>
#include <string_view>
#include <type_traits>
#include <utility>

#include <lmdb.h>
#include <sys/mman.h>
#include <unistd.h>

inline void well(int status) {
    if (status != MDB_SUCCESS) {
        std::fprintf(stderr, "lmdb: %s\n", mdb_strerror(status));
        std::exit(4);
    }
}

inline MDB_val bytes_of(std::string_view it) { return {it.size(), const_cast<char *>(it.data())}; }
inline std::string_view text_of(const MDB_val &it) { return {static_cast<const char *>(it.mv_data), it.mv_size}; }

inline MDB_val bytes_of(const std::int64_t &it) { return {sizeof it, const_cast<std::int64_t *>(&it)}; }

/// What begins with these bytes.
template <class Value>
Value value_of(const MDB_val &it) {
    static_assert(std::is_trivially_copyable_v<Value>);
    Value value;
    std::memcpy(&value, it.mv_data, sizeof value);
    return value;
}

struct CloseEnvironment {
    void operator()(MDB_env *it) const { mdb_env_close(it); }
};
using Environment = std::unique_ptr<MDB_env, CloseEnvironment>;

/// An environment in memory: its file is one that has no name, and nothing waits for a disk.
inline Environment opened(unsigned databases, std::size_t most_bytes) {
    MDB_env *made = nullptr;
    well(mdb_env_create(&made));
    Environment env(made);
    well(mdb_env_set_maxdbs(env.get(), databases));
    well(mdb_env_set_mapsize(env.get(), most_bytes));
    const int file = memfd_create("lmdb", MFD_CLOEXEC);
    if (file < 0) {
        std::perror("lmdb: memfd_create");
        std::exit(4);
    }
    const std::string path = "/proc/self/fd/" + std::to_string(file);
    well(mdb_env_open(env.get(), path.c_str(), MDB_NOSUBDIR | MDB_NOLOCK | MDB_NOSYNC | MDB_NOMETASYNC | MDB_NORDAHEAD, 0600));
    close(file);
    return env;
}

/// A transaction that writes, alone or inside another one; what it did is lost unless it is committed.
class Transaction {
public:
    explicit Transaction(MDB_env *env, MDB_txn *parent = nullptr) { well(mdb_txn_begin(env, parent, 0, &txn_)); }
    Transaction(Transaction &&other) noexcept : txn_(std::exchange(other.txn_, nullptr)) {}
    Transaction &operator=(Transaction &&other) noexcept {
        std::swap(txn_, other.txn_);
        return *this;
    }
    ~Transaction() {
        if (txn_) {
            mdb_txn_abort(txn_);
        }
    }

    void commit() { well(mdb_txn_commit(std::exchange(txn_, nullptr))); }
    MDB_txn *get() const { return txn_; }

private:
    MDB_txn *txn_ = nullptr;
};

/// A place in a database. Each step says whether there is a record.
class Cursor {
public:
    Cursor(MDB_txn *txn, MDB_dbi database) { well(mdb_cursor_open(txn, database, &cursor_)); }
    Cursor(const Cursor &) = delete;
    Cursor &operator=(const Cursor &) = delete;
    ~Cursor() { mdb_cursor_close(cursor_); }

    bool first() { return step(MDB_FIRST); }
    bool last() { return step(MDB_LAST); }
    bool next() { return step(MDB_NEXT); }
    bool previous() { return step(MDB_PREV); }

    /// To the first record whose key isn't less.
    bool seek(std::string_view key) {
        key_ = bytes_of(key);
        return step(MDB_SET_RANGE);
    }

    /// To the last record whose key is less.
    bool seek_below(std::string_view key) { return seek(key) ? previous() : last(); }

    std::string_view key() const { return text_of(key_); }
    std::int64_t number() const { return value_of<std::int64_t>(value_); }

private:
    bool step(MDB_cursor_op how) {
        const int status = mdb_cursor_get(cursor_, &key_, &value_, how);
        if (status == MDB_NOTFOUND) {
            return false;
        }
        well(status);
        return true;
    }

    MDB_cursor *cursor_ = nullptr;
    MDB_val key_{}, value_{};
};

/// A key of several parts, of which the first compares first.
class Key {
public:
    Key &flag(bool it) {
        bytes_[size_++] = it;
        return *this;
    }

    Key &number(std::int64_t it) {
        // (the sign is turned, and the greatest byte stands in front)
        const std::uint64_t turned = __builtin_bswap64(static_cast<std::uint64_t>(it) ^ (std::uint64_t{1} << 63));
        std::memcpy(bytes_.data() + size_, &turned, sizeof turned);
        size_ += sizeof turned;
        return *this;
    }

    std::string_view view() const { return {bytes_.data(), size_}; }

private:
    std::array<char, 24> bytes_;
    std::size_t size_ = 0;
};

// The table `accounts` in SQLite, in memory, and a prepared statement, which ends itself.
//
// The columns that end in `_at` say when a record came to its key, so that equals stand in that order; `line` is its place in
// the list. All is in one transaction, so that no change is one of its own.
#pragma once
#include <cstdint>
#include <cstdio>
#include <cstdlib>
#include <string_view>

#include <sqlite3.h>

constexpr const char *SCHEMA = R"(
PRAGMA locking_mode = EXCLUSIVE;
PRAGMA temp_store = MEMORY;
CREATE TABLE accounts(
    id INTEGER PRIMARY KEY, owner TEXT NOT NULL UNIQUE, balance INTEGER NOT NULL, vip INTEGER NOT NULL,
    balance_at INTEGER NOT NULL, vip_at INTEGER NOT NULL, class_at INTEGER NOT NULL, line INTEGER NOT NULL);
CREATE INDEX by_balance ON accounts(balance, balance_at);
CREATE INDEX by_vip ON accounts(vip, vip_at);
CREATE INDEX by_class ON accounts(vip DESC, balance, class_at);
CREATE INDEX line ON accounts(line);
BEGIN;
)";

/// How far apart the places of new records are in the list.
constexpr std::int64_t STEP = std::int64_t{1} << 32;

[[noreturn]] inline void stop(sqlite3 *base) {
    std::fprintf(stderr, "sqlite: %s\n", sqlite3_errmsg(base));
    std::exit(4);
}

class Statement {
public:
    Statement(sqlite3 *base, const char *text) : base_(base) {
        if (sqlite3_prepare_v3(base, text, -1, SQLITE_PREPARE_PERSISTENT, &statement_, nullptr) != SQLITE_OK) {
            stop(base);
        }
    }
    Statement(const Statement &) = delete;
    Statement &operator=(const Statement &) = delete;
    ~Statement() { sqlite3_finalize(statement_); }

    template <class... Values>
    Statement &with(const Values &...values) {
        sqlite3_reset(statement_);
        int at = 0;
        (bind(++at, values), ...);
        return *this;
    }

    /// The next row, if there is one; the statement is reset behind the last.
    bool row() {
        switch (sqlite3_step(statement_)) {
        case SQLITE_ROW:
            return true;
        case SQLITE_DONE:
            sqlite3_reset(statement_);
            return false;
        default:
            stop(base_);
        }
    }

    /// False where a unique index refuses it.
    bool done() {
        const int found = sqlite3_step(statement_);
        sqlite3_reset(statement_);
        if (found != SQLITE_DONE && (found & 0xff) != SQLITE_CONSTRAINT) {
            stop(base_);
        }
        return found == SQLITE_DONE;
    }

    std::int64_t number(int column) { return sqlite3_column_int64(statement_, column); }
    std::string_view text(int column) {
        auto *bytes = reinterpret_cast<const char *>(sqlite3_column_text(statement_, column));
        return {bytes, static_cast<std::size_t>(sqlite3_column_bytes(statement_, column))};
    }
    void end() { sqlite3_reset(statement_); }

private:
    void bind(int at, std::int64_t value) { sqlite3_bind_int64(statement_, at, value); }
    void bind(int at, bool value) { sqlite3_bind_int(statement_, at, value); }
    void bind(int at, std::string_view value) { sqlite3_bind_text(statement_, at, value.data(), static_cast<int>(value.size()), SQLITE_STATIC); }

    sqlite3 *base_;
    sqlite3_stmt *statement_ = nullptr;
};

/// The table, empty.
inline sqlite3 *opened() {
    sqlite3 *base = nullptr;
    if (sqlite3_open_v2(":memory:", &base, SQLITE_OPEN_READWRITE | SQLITE_OPEN_CREATE | SQLITE_OPEN_NOMUTEX, nullptr) != SQLITE_OK ||
        sqlite3_extended_result_codes(base, 1) != SQLITE_OK || sqlite3_exec(base, SCHEMA, nullptr, nullptr, nullptr) != SQLITE_OK) {
        stop(base);
    }
    return base;
}

// Weltiyo in the process of its caller, for C++17: a `Database` that closes itself, and a `Session` that undoes what was done in it unless it
// is squashed or pushed, with the names of chainbase's. The calls are those of weltiyo.h, and so is what a caller owes: a database stays on
// the thread that opened it.
//
//     weltiyo::Database db;                               // the built-in table
//     db.ask(R"({"cmd":"insert","row":{"owner":"ann","balance":50,"vip":false}})");
//     {
//         auto session = db.start_undo_session();
//         db.ask(R"({"cmd":"modify","id":0,"add":{"balance":-20}})");
//         session.squash();                               // without this the block is undone
//     }
//     const auto id = db.insert(0, {"bob", 7, true});     // the same commands with values in place of a line
//     db.add(0, id, 1, -2);
//     weltiyo::RowBuffer bob;                             // (which takes row after row, and no memory for each)
//     db.get(bob, 0, id);
//     std::cout << bob.text(0) << ' ' << bob.number(1) << '\n';
//     weltiyo::Page page(10);
//     db.range(page, 0, db.index(0, "by_balance"), weltiyo::Lower::from({5}));
//     for (const auto row : page)
//         std::cout << row.id() << ' ' << row.text(0) << ' ' << row.number(1) << '\n';
#ifndef WELTIYO_HPP
#define WELTIYO_HPP

#include <algorithm>
#include <array>
#include <cstddef>
#include <cstdint>
#include <cstdlib>
#include <fstream>
#include <initializer_list>
#include <iterator>
#include <memory>
#include <new>
#include <optional>
#include <random>
#include <stdexcept>
#include <string>
#include <string_view>
#include <type_traits>
#include <utility>
#include <variant>
#include <vector>

#include <weltiyo.h>

namespace weltiyo {

// A schema that opens nothing. `what` is `schema: ` and its word.
class SchemaFault : public std::runtime_error {
public:
    explicit SchemaFault(std::uint32_t status) : std::runtime_error(std::string("schema: ") + weltiyo_word(status)), status_(status) {}

    std::uint32_t status() const noexcept { return status_; }

private:
    std::uint32_t status_;
};

// A command that was refused. `what` is the reply, `word` the reason in it. Of a call with values the reply is the line's, with the index by its
// number: {"error":"unique","id":0,"index":1,"ok":false}. Where one column of what was given is at fault, it is named besides, by its number:
// {"error":"row","column":1,"ok":false}.
class Refused : public std::runtime_error {
public:
    // (what is no refusal has no word)
    explicit Refused(std::string_view reply) : std::runtime_error(std::string(reply)) {
        if (is_one(reply))
            word_ = reply.substr(front().size(), reply.find('"', front().size()) - front().size());
    }

    // `is_modify` where the reply tells whether the record is lost.
    explicit Refused(weltiyo_told told, std::optional<std::size_t> column = {}, bool is_modify = false)
        : std::runtime_error(said(told, column, is_modify)), word_(weltiyo_refusal_word(told.status)), told_(told), column_(column) {}

    // The same of a table of weltiyo_tables.hpp, with the column or the index by its name.
    Refused(weltiyo_told told, std::string_view column, std::string_view index, bool is_modify = false)
        : std::runtime_error(named(told, column, index, is_modify)), word_(weltiyo_refusal_word(told.status)), told_(told), column_name_(column),
          index_name_(index) {}

    // The names of the column that is at fault and of the index that refuses, where a table of weltiyo_tables.hpp tells them; else empty.
    const std::string &column_name() const noexcept { return column_name_; }
    const std::string &index_name() const noexcept { return index_name_; }

    // What a call with values told; its status is 0 of a line.
    weltiyo_told told() const noexcept { return told_; }

    // The number of the column that is at fault: with `row` one whose value doesn't fit or is missing, with `range` one whose sum leaves 64 bits.
    std::optional<std::size_t> column() const noexcept { return column_; }

    std::string_view reply() const noexcept { return what(); }

    const std::string &word() const noexcept { return word_; }

    // Whether a reply is a refusal.
    static bool is_one(std::string_view reply) noexcept { return reply.substr(0, front().size()) == front(); }

private:
    // (a refusal begins so, and no other reply does)
    static constexpr std::string_view front() noexcept { return "{\"error\":\""; }

    static std::string said(weltiyo_told told, std::optional<std::size_t> column, bool is_modify) {
        std::string reply(front());
        reply.append(weltiyo_refusal_word(told.status)).append("\",");
        if (column)
            reply += "\"column\":" + std::to_string(*column) + ',';
        const bool is_lost = told.status == WELTIYO_REFUSED_LOST;
        if (is_lost || told.status == WELTIYO_REFUSED_UNIQUE) {
            reply += "\"id\":" + std::to_string(told.number) + ",\"index\":" + std::to_string(told.index) + ',';
            if (is_modify)
                reply.append("\"lost\":").append(is_lost ? "true," : "false,");
        }
        return reply + "\"ok\":false}";
    }

    static std::string named(weltiyo_told told, std::string_view column, std::string_view index, bool is_modify) {
        std::string reply(front());
        reply.append(weltiyo_refusal_word(told.status)).append("\",");
        if (!column.empty())
            reply.append("\"column\":\"").append(column).append("\",");
        const bool is_lost = told.status == WELTIYO_REFUSED_LOST, is_unique = is_lost || told.status == WELTIYO_REFUSED_UNIQUE;
        if (is_unique)
            reply += "\"id\":" + std::to_string(told.number) + ',';
        if (!index.empty())
            reply.append("\"index\":\"").append(index).append("\",");
        if (is_unique && is_modify)
            reply.append("\"lost\":").append(is_lost ? "true," : "false,");
        return reply + "\"ok\":false}";
    }

    std::string word_;
    weltiyo_told told_{};
    std::optional<std::size_t> column_;
    std::string column_name_, index_name_;
};

// A value of a row: a whole number, a text, true or false.
class Value : public std::variant<std::int64_t, bool, std::string> {
public:
    // A number of any width, an id too. Throws std::out_of_range where it is above 2^63 - 1.
    template <class Number, std::enable_if_t<std::is_integral_v<Number> && !std::is_same_v<Number, bool>, int> = 0>
    Value(Number number) : variant(whole(number)) {}

    // A flag is `bool` itself: a fraction, an enumerator or a pointer is no value.
    template <class Flag, std::enable_if_t<std::is_same_v<Flag, bool>, int> = 0> Value(Flag flag) : variant(flag) {}
    Value(std::string text) : variant(std::move(text)) {}
    Value(const char *text) : variant(std::string(text)) {}
    Value(std::nullptr_t) = delete;

    std::int64_t number() const { return std::get<std::int64_t>(*this); }
    bool flag() const { return std::get<bool>(*this); }
    const std::string &text() const { return std::get<std::string>(*this); }

private:
    template <class Number> static std::int64_t whole(Number number) {
        if (number > 0 && static_cast<std::uint64_t>(number) > static_cast<std::uint64_t>(INT64_MAX))
            throw std::out_of_range("a number is above 2^63 - 1");
        return static_cast<std::int64_t>(number);
    }
};

// A value for each column, in their order.
using Row = std::vector<Value>;

// A row that was looked for.
struct Found {
    std::uint64_t id;
    Row row;
};

// A place in the sequenced index of a number: directly before the row of an id.
struct Place {
    std::size_t index;
    std::uint64_t before;
};

// An edit of a column.
struct Edit {
    std::uint32_t kind;
    std::size_t column;
    Value value;

    // The column gets a value.
    static Edit put(std::size_t column, Value value) { return {WELTIYO_PUT, column, std::move(value)}; }

    // A number is added to a column of whole numbers.
    static Edit add(std::size_t column, std::int64_t number) { return {WELTIYO_ADD, column, number}; }
};

namespace detail {

// The value as C takes it; a text goes behind the others.
inline weltiyo_value laid(const Value &value, std::string &texts) {
    if (const auto *number = std::get_if<std::int64_t>(&value))
        return {WELTIYO_INT, *number, 0, 0};
    if (const auto *flag = std::get_if<bool>(&value))
        return {static_cast<std::uint32_t>(*flag ? WELTIYO_TRUE : WELTIYO_FALSE), 0, 0, 0};
    const std::size_t at = texts.size();
    texts += value.text();
    return {WELTIYO_TEXT, 0, at, value.text().size()};
}

// The sessions that are open in a database, the oldest first: of each the guard whose it is, by a number, or one of those below. Nothing that it is
// told takes memory, but for `make_room`.
class Sessions {
public:
    // Whose a session is that was pushed, and one that a line began.
    static constexpr std::uint64_t nobody = UINT64_MAX, a_line = 0;

    // Room for one more.
    void make_room() {
        if (owners_.size() == owners_.capacity())
            owners_.reserve(2 * owners_.size() + 8);
    }

    // A connection has begun one, which is of this revision.
    void begun(std::uint64_t connection, std::uint64_t revision, std::uint64_t owner = a_line) {
        owners_.push_back(owner);
        newest_ = revision;
        holder_ = connection;
        held_++;
    }

    // The newest one was undone or squashed, and this is the revision by now.
    void ended(std::uint64_t revision) noexcept {
        if (!owners_.empty())
            owners_.pop_back();
        newest_ = revision;
        held_ -= held_ > 0;
    }

    void all_ended() noexcept {
        owners_.clear();
        held_ = 0;
    }

    // So many of the oldest ones have ended.
    void committed(std::uint64_t count) noexcept {
        owners_.erase(owners_.begin(), owners_.begin() + static_cast<std::ptrdiff_t>(std::min<std::uint64_t>(count, owners_.size())));
        held_ = std::min(held_, owners_.size());
    }

    // So many of the newest ones were let go of, which are all that were held.
    void pushed(std::uint64_t count) noexcept {
        std::fill_n(owners_.rbegin(), std::min<std::uint64_t>(count, owners_.size()), nobody);
        held_ -= static_cast<std::size_t>(std::min<std::uint64_t>(count, held_));
    }

    // A connection has gone away, and what it held was undone.
    void released(std::uint64_t connection) noexcept {
        while (held_ > 0 && connection == holder_)
            ended(newest_ - 1);
    }

    void disown(std::uint64_t owner) noexcept { std::replace(owners_.begin(), owners_.end(), owner, nobody); }

    // How many of the newest ones are to be ended so that a guard's is, since those that began in it go with it. 0 where its own has ended, or where
    // one that is nobody's stands above.
    std::size_t down_to(std::uint64_t owner) const noexcept {
        const auto found = std::find_if(owners_.rbegin(), owners_.rend(), [&](std::uint64_t it) { return it == owner || it == nobody; });
        return found == owners_.rend() || *found != owner ? 0 : static_cast<std::size_t>(found - owners_.rbegin()) + 1;
    }

    // What the reply to a line says of sessions: those of the session steps begin as these, and no others do.
    void heard(std::uint64_t connection, std::string_view reply) {
        if (const auto revision = behind(reply, "{\"ok\":true,\"revision\":"))
            owners_.empty() || *revision > newest_ ? begun(connection, *revision) : ended(*revision);
        else if (const auto count = behind(reply, "{\"committed\":"))
            committed(*count);
        else if (behind(reply, "{\"ok\":true,\"undone\":"))
            all_ended();
        else if (const auto count = behind(reply, "{\"ok\":true,\"pushed\":"))
            pushed(*count);
    }

private:
    // The number that stands behind a front, where the reply has it.
    static std::optional<std::uint64_t> behind(std::string_view reply, std::string_view front) noexcept {
        if (reply.substr(0, front.size()) != front)
            return {};
        return std::strtoull(reply.data() + front.size(), nullptr, 10); // (a brace stands behind it)
    }

    std::vector<std::uint64_t> owners_;
    // The revision while one is open; the connection that holds the newest ones, and how many.
    std::uint64_t newest_ = 0, holder_ = 0;
    std::size_t held_ = 0;
};

// A handle that is open as long as a database or a session has it.
struct Opened {
    explicit Opened(weltiyo_db *given) noexcept : handle(given) {}
    ~Opened() { weltiyo_close(handle); }
    Opened(const Opened &) = delete;
    Opened &operator=(const Opened &) = delete;

    weltiyo_db *const handle;
    Sessions sessions;
    std::uint64_t last_guard = Sessions::a_line;
};

} // namespace detail

// The values of a key, or the first of them: `{"ann"}`, `{true, 50}`. It takes no memory beside that of long texts.
class Key {
public:
    Key() = default;
    Key(std::initializer_list<Value> values) { take(values); }
    Key(const Row &values) { take(values); }

private:
    friend class Database;

    // (an index has at most four parts, so a fifth value is refused like more of them)
    template <class Values> void take(const Values &values) {
        for (const Value &it : values)
            if (count_ < values_.size())
                values_[count_++] = detail::laid(it, texts_);
    }

    std::array<weltiyo_value, 5> values_{};
    std::size_t count_ = 0;
    std::string texts_;
};

// Where a range begins in the order of its index: at its front, or
struct Lower {
    std::uint32_t kind = WELTIYO_OPEN;
    Key key;

    // with the rows of a key, or
    static Lower from(Key key) { return {WELTIYO_INCLUDED, std::move(key)}; }

    // behind them.
    static Lower beyond(Key key) { return {WELTIYO_EXCLUDED, std::move(key)}; }
};

// Where a range ends in the order of its index: at its end, or
struct Upper {
    std::uint32_t kind = WELTIYO_OPEN;
    Key key;

    // with the rows of a key, or
    static Upper up_to(Key key) { return {WELTIYO_INCLUDED, std::move(key)}; }

    // before them.
    static Upper below(Key key) { return {WELTIYO_EXCLUDED, std::move(key)}; }
};

// A row of a page, which lends it until it is filled again.
class RowView {
public:
    RowView(std::uint64_t id, const weltiyo_value *values, std::size_t count, const char *texts) noexcept
        : id_(id), values_(values), count_(count), texts_(texts) {}

    std::uint64_t id() const noexcept { return id_; }

    // How many columns it has.
    std::size_t size() const noexcept { return count_; }

    // The value of a column. Each throws std::out_of_range where there is no such column, and std::bad_variant_access where it is of another type.
    std::int64_t number(std::size_t column) const { return of_kind(column, WELTIYO_INT, WELTIYO_INT).integer; }
    bool flag(std::size_t column) const { return of_kind(column, WELTIYO_FALSE, WELTIYO_TRUE).kind == WELTIYO_TRUE; }
    std::string_view text(std::size_t column) const {
        const weltiyo_value &it = of_kind(column, WELTIYO_TEXT, WELTIYO_TEXT);
        return {texts_ + it.at, it.length};
    }

    // A copy.
    Row row() const {
        Row row;
        row.reserve(count_);
        for (std::size_t n = 0; n < count_; n++) {
            if (values_[n].kind == WELTIYO_INT)
                row.emplace_back(values_[n].integer);
            else if (values_[n].kind == WELTIYO_TEXT)
                row.emplace_back(std::string(text(n)));
            else
                row.emplace_back(flag(n));
        }
        return row;
    }

private:
    const weltiyo_value &of_kind(std::size_t column, std::uint32_t least, std::uint32_t most) const {
        if (column >= count_)
            throw std::out_of_range("a row has no such column");
        if (values_[column].kind < least || values_[column].kind > most)
            throw std::bad_variant_access();
        return values_[column];
    }

    std::uint64_t id_;
    const weltiyo_value *values_;
    std::size_t count_;
    const char *texts_;
};

// Room for a row that is copied. It is filled by `Database::get`, `find` and `nth`, again and again: it keeps its memory, so this is the fastest way
// to read rows one by one. What it lends stays until it is filled again.
class RowBuffer {
public:
    std::uint64_t id() const noexcept { return id_; }

    // How many columns it has: none before it was filled, and where a call was refused.
    std::size_t size() const noexcept { return count_; }
    bool empty() const noexcept { return count_ == 0; }

    // The row, and what a `RowView` has: the value of a column, and a copy.
    RowView view() const noexcept { return {id_, values_.data(), count_, texts_.data()}; }
    std::int64_t number(std::size_t column) const { return view().number(column); }
    bool flag(std::size_t column) const { return view().flag(column); }
    std::string_view text(std::size_t column) const { return view().text(column); }
    Row row() const { return view().row(); }

private:
    friend class Database;

    // (room to begin with)
    static constexpr std::size_t usual_texts = 1024;

    std::uint64_t id_ = 0;
    std::size_t count_ = 0;
    std::array<weltiyo_value, WELTIYO_ROW_VALUES> values_{};
    std::vector<char> texts_;
};

// The first rows of a range or a list, copied. It is filled by `Database::range` and `Database::list`, again and again: it keeps its memory, and
// takes more only for a page that is larger than those before.
class Page {
public:
    // A page of at most so many rows, and at most WELTIYO_MOST_ROWS.
    explicit Page(std::size_t most = WELTIYO_MOST_ROWS) : most_(std::min<std::size_t>(most, WELTIYO_MOST_ROWS)) { make_room(); }

    Page(const Page &) = default;
    Page &operator=(const Page &) = default;

    // A page that was moved from is empty. It has as many rows at most as before, and takes memory again where it is filled.
    Page(Page &&other) noexcept : most_(other.most_) { take(other); }

    Page &operator=(Page &&other) noexcept {
        most_ = other.most_;
        if (this != &other)
            take(other);
        return *this;
    }

    std::size_t size() const noexcept { return count_; }
    bool empty() const noexcept { return count_ == 0; }

    // Whether others follow behind the last row.
    bool more() const noexcept { return more_; }

    // Row `n`, which must be there.
    RowView operator[](std::size_t n) const noexcept { return {ids_[n], values_.data() + n * columns_, columns_, texts_.data()}; }
    RowView back() const noexcept { return (*this)[count_ - 1]; }

    class Iterator {
    public:
        using iterator_category = std::input_iterator_tag;
        using value_type = RowView;
        using difference_type = std::ptrdiff_t;
        using pointer = void;
        using reference = RowView;

        Iterator(const Page &page, std::size_t n) noexcept : page_(&page), n_(n) {}
        RowView operator*() const noexcept { return (*page_)[n_]; }
        Iterator &operator++() noexcept { return n_++, *this; }
        Iterator operator++(int) noexcept { return Iterator(*page_, n_++); }
        bool operator==(const Iterator &other) const noexcept { return n_ == other.n_; }
        bool operator!=(const Iterator &other) const noexcept { return n_ != other.n_; }

    private:
        const Page *page_;
        std::size_t n_;
    };

    Iterator begin() const noexcept { return {*this, 0}; }
    Iterator end() const noexcept { return {*this, count_}; }

private:
    friend class Database;

    // (room to begin with; no pointer is null)
    static constexpr std::size_t usual_values = 64, usual_texts = 1024;

    void take(Page &other) noexcept {
        count_ = std::exchange(other.count_, 0);
        columns_ = other.columns_;
        more_ = std::exchange(other.more_, false);
        ids_ = std::move(other.ids_);
        values_ = std::move(other.values_);
        texts_ = std::move(other.texts_);
    }

    void make_room() {
        if (ids_.size() <= most_)
            ids_.resize(most_ + 1);
        grow(usual_values, usual_texts);
    }

    void grow(std::size_t values, std::size_t texts) {
        if (values > values_.size())
            values_.resize(std::max(values, 2 * values_.size()));
        if (texts > texts_.size())
            texts_.resize(std::max(texts, 2 * texts_.size()));
    }

    std::size_t most_, count_ = 0, columns_ = 0;
    bool more_ = false;
    std::vector<std::uint64_t> ids_;
    std::vector<weltiyo_value> values_;
    std::vector<char> texts_;
};

class Session;
template <class Struct> class Table;

class Database {
public:
    // Opens the tables of a schema in TOML; no text stands for the built-in table. Throws SchemaFault and std::bad_alloc.
    explicit Database(std::string_view schema = {}) : Database(schema, random_secret()) {}

    // The same with a secret of the caller's, which is mixed into the hashes of keys.
    Database(std::string_view schema, std::uint64_t secret) {
        weltiyo_db *handle = nullptr;
        const std::uint32_t status = weltiyo_open(schema.empty() ? "" : schema.data(), schema.size(), secret, &handle);
        if (status == WELTIYO_MEMORY)
            throw std::bad_alloc();
        if (status != WELTIYO_OK)
            throw SchemaFault(status);
        try {
            opened_ = std::make_shared<detail::Opened>(handle);
        } catch (...) {
            weltiyo_close(handle);
            throw;
        }
    }

    // Opens the tables of a schema's file. Throws also std::runtime_error where it can't be read.
    static Database from_file(const std::string &path) {
        std::ifstream file(path, std::ios::binary);
        std::string text{std::istreambuf_iterator<char>(file), {}};
        if (!file.good() && !file.eof())
            throw std::runtime_error(path + " can't be read");
        if (text.empty())
            text = "\n"; // (an empty file is no schema; no text at all would stand for the built-in one)
        return Database(text);
    }

    // A database that was moved from is only destroyed or assigned to.
    Database(Database &&other) noexcept = default;

    // The two are exchanged: what was assigned to is closed where the other ends.
    Database &operator=(Database &&other) noexcept {
        std::swap(opened_, other.opened_);
        std::swap(columns_, other.columns_);
        return *this;
    }

    // The reply to a line, whatever it says. Connections differ in what sessions they hold; the others here ask as connection 1.
    std::string answer(std::string_view line, std::uint64_t connection = own) {
        std::string reply(usual, '\0');
        const char *text = line.empty() ? "" : line.data();
        opened_->sessions.make_room();
        const std::size_t length = weltiyo_ask(handle(), connection, text, line.size(), reply.data(), reply.size());
        reply.resize(length);
        if (length > usual)
            weltiyo_reply(handle(), usual, reply.data() + usual, length - usual);
        opened_->sessions.heard(connection, reply);
        return reply;
    }

    // The reply to a line that is accepted. Throws Refused.
    std::string ask(std::string_view line, std::uint64_t connection = own) {
        std::string reply = answer(line, connection);
        if (Refused::is_one(reply))
            throw Refused(reply);
        return reply;
    }

    // The same commands with values in place of a line. Tables and columns go by their numbers, from 0 on; of the indexes the one of ids has the
    // number 0, and those of the schema follow. Each throws Refused.

    // Adds a row, and answers its id.
    std::uint64_t insert(std::size_t table, const Row &row, std::uint64_t connection = own) {
        const Laid laid(row);
        return fitting(weltiyo_insert(handle(), connection, table, laid.values.data(), row.size(), laid.texts.data(), laid.texts.size()), table, laid,
                       connection);
    }

    // The same, at a place of a sequenced index.
    std::uint64_t insert(std::size_t table, const Row &row, Place place, std::uint64_t connection = own) {
        const Laid laid(row);
        return fitting(weltiyo_insert_before(handle(), connection, table, laid.values.data(), row.size(), laid.texts.data(), laid.texts.size(),
                                             place.index, place.before),
                       table, laid, connection);
    }

    // Sets another row for an id.
    void replace(std::size_t table, std::uint64_t id, const Row &row, std::uint64_t connection = own) {
        const Laid laid(row);
        fitting(weltiyo_replace(handle(), connection, table, id, laid.values.data(), row.size(), laid.texts.data(), laid.texts.size()), table, laid,
                connection);
    }

    // Adds a number to a column. Where a unique index refuses the result, nothing changes.
    void add(std::size_t table, std::uint64_t id, std::size_t column, std::int64_t number, std::uint64_t connection = own) {
        const weltiyo_told told = weltiyo_modify_add(handle(), connection, table, id, column, number, 1);
        if (told.status != 0)
            throw Refused(told, is_of_column(told) ? std::optional(column) : std::nullopt, true);
    }

    // Makes edits, each of a column of its own. Where a unique index refuses the result, nothing changes; without `rollback` the row is erased then.
    void modify(std::size_t table, std::uint64_t id, const std::vector<Edit> &edits, bool rollback = true, std::uint64_t connection = own) {
        std::vector<weltiyo_edit> made;
        std::string texts;
        made.reserve(edits.size() + 1); // (no pointer is null)
        for (const Edit &it : edits)
            made.push_back({it.kind, it.column, detail::laid(it.value, texts)});
        const weltiyo_told told = weltiyo_modify(handle(), connection, table, id, made.data(), edits.size(), texts.data(), texts.size(), rollback);
        if (told.status == 0)
            return;
        if (told.status == WELTIYO_REFUSED_RANGE)
            throw Refused(told, overflown(table, id, edits), true);
        throw Refused(told, told.status == WELTIYO_REFUSED_ROW ? misfit(table, made, texts, connection) : std::nullopt, true);
    }

    // Erases a row.
    void erase(std::size_t table, std::uint64_t id, std::uint64_t connection = own) { well(weltiyo_erase(handle(), connection, table, id)); }

    // Erases every row of a whole key, and answers how many.
    std::uint64_t erase_key(std::size_t table, std::size_t index, const Key &key, std::uint64_t connection = own) {
        return well(weltiyo_erase_key(handle(), connection, table, index, key.values_.data(), key.count_, key.texts_.data(), key.texts_.size()));
    }

    // Moves a row of a sequenced index directly before another, or to its end.
    void relocate(std::size_t table, std::size_t index, std::uint64_t id, std::optional<std::uint64_t> before = {}, std::uint64_t connection = own) {
        well(weltiyo_relocate(handle(), connection, table, index, id, before.has_value(), before.value_or(0)));
    }

    // A table whose rows are a struct, with the name of a column for each member: weltiyo_tables.hpp defines it. Throws Refused, with the name of the
    // column that isn't there or is of another type.
    template <class Struct> Table<Struct> table(std::string_view name, std::initializer_list<std::string_view> columns);

    // The number of the table, of its index or its column of a name. Throws Refused, with the word `table`, `index` or `row`, where none has it.
    std::size_t table(std::string_view name) { return well(weltiyo_table(handle(), some(name), name.size())); }
    std::size_t index(std::size_t table, std::string_view name) { return well(weltiyo_index(handle(), table, some(name), name.size())); }
    std::size_t column(std::size_t table, std::string_view name) { return well(weltiyo_column(handle(), table, some(name), name.size())); }

    // The text of the schema: the one that was opened, and of the built-in table one that describes it.
    std::string schema() {
        char none;
        std::string text(weltiyo_schema(handle(), &none, 0).number, '\0');
        well(weltiyo_schema(handle(), text.data(), text.size()));
        return text;
    }

    // How many rows a table has.
    std::uint64_t size(std::size_t table) { return well(weltiyo_size(handle(), table)); }

    // The row of an id.
    Row get(std::size_t table, std::uint64_t id) {
        Row row;
        well(copied(row, table, Get{handle(), table, id}));
        return row;
    }

    // The same, into a buffer.
    void get(RowBuffer &row, std::size_t table, std::uint64_t id) { well(buffered(row, table, Get{handle(), table, id})); }

    // The first row of a key, or in an ordered or ranked index of the first values of one, if there is one.
    std::optional<Found> find(std::size_t table, std::size_t index, const Key &key) { return if_there(table, Find{handle(), table, index, key}); }

    // The same, into a buffer: whether there is one.
    bool find(RowBuffer &row, std::size_t table, std::size_t index, const Key &key) {
        return is_there(buffered(row, table, Find{handle(), table, index, key}));
    }

    // The row of a ranked index before which `n` others stand, if there is one.
    std::optional<Found> nth(std::size_t table, std::size_t index, std::uint64_t n) { return if_there(table, Nth{handle(), table, index, n}); }

    // The same, into a buffer: whether there is one.
    bool nth(RowBuffer &row, std::size_t table, std::size_t index, std::uint64_t n) {
        return is_there(buffered(row, table, Nth{handle(), table, index, n}));
    }

    // How many rows have a key, or in an ordered or ranked index the first values of one.
    std::uint64_t count(std::size_t table, std::size_t index, const Key &key) { return of_key(weltiyo_count, table, index, key); }

    // How many rows stand before the row of an id in a ranked index.
    std::uint64_t rank(std::size_t table, std::size_t index, std::uint64_t id) { return well(weltiyo_rank(handle(), table, index, id)); }

    // How many rows of a ranked index have a key that is less than this one, or not greater; the first values of one will do.
    std::uint64_t lower_rank(std::size_t table, std::size_t index, const Key &key) { return of_key(weltiyo_lower_rank, table, index, key); }
    std::uint64_t upper_rank(std::size_t table, std::size_t index, const Key &key) { return of_key(weltiyo_upper_rank, table, index, key); }

    // Fills a page with the first rows between two ends of an ordered or ranked index; in reverse, from its upper end down. Refused, it is empty.
    void range(Page &page, std::size_t table, std::size_t index, const Lower &lower = {}, const Upper &upper = {}, bool reverse = false) {
        // (the texts of both keys lie one behind another)
        const Key *last = &upper.key;
        Key both;
        if (!lower.key.texts_.empty() && !upper.key.texts_.empty()) {
            both = upper.key;
            both.texts_.insert(0, lower.key.texts_);
            for (weltiyo_value &it : both.values_)
                it.at += lower.key.texts_.size();
            last = &both;
        }
        const std::string &texts = last->texts_.empty() ? lower.key.texts_ : last->texts_;
        fill(page, table, [&] {
            return weltiyo_range(handle(), table, index, lower.kind, lower.key.values_.data(), lower.key.count_, upper.kind, last->values_.data(),
                                 last->count_, texts.data(), texts.size(), reverse, page.ids_.data(), page.most_, page.values_.data(),
                                 page.values_.size(), page.texts_.data(), page.texts_.size());
        });
    }

    // Fills a page with the first rows of a sequenced index, or of those behind a row. Refused, it is empty.
    void list(Page &page, std::size_t table, std::size_t index, std::optional<std::uint64_t> after = {}) {
        fill(page, table, [&] {
            return weltiyo_list(handle(), table, index, after.has_value(), after.value_or(0), page.ids_.data(), page.most_, page.values_.data(),
                                page.values_.size(), page.texts_.data(), page.texts_.size());
        });
    }

    // A session for a block: it is undone at the end of the block, unless it was squashed or pushed. Throws Refused.
    [[nodiscard]] Session start_undo_session();

    // Takes back all that was done since the newest session was started, and ends it. It takes no memory. Throws Refused.
    void undo() { opened_->sessions.ended(well(weltiyo_undo(handle(), own))); }

    // Ends the newest session, and leaves what was done in it to the one below. Throws Refused.
    void squash() { opened_->sessions.ended(well(weltiyo_squash(handle(), own))); }

    // Ends all sessions up to the one of this revision: what was done in them can't be undone any more. Throws Refused.
    void commit(std::uint64_t revision) { opened_->sessions.committed(well(weltiyo_commit(handle(), own, revision))); }

    // Undoes every open session, and answers how many. Throws Refused.
    std::uint64_t undo_all() {
        const std::uint64_t count = well(weltiyo_undo_all(handle(), own));
        opened_->sessions.all_ended();
        return count;
    }

    // Lets go of the sessions that are held, which stay open, those of blocks too, and answers how many. Throws Refused.
    std::uint64_t push() {
        const std::uint64_t count = well(weltiyo_push(handle(), own));
        opened_->sessions.pushed(count);
        return count;
    }

    // The number of the newest session. Throws Refused.
    std::uint64_t revision() { return number_in(ask(R"({"cmd":"revision"})"), "\"revision\":"); }

    // A connection goes away: the sessions that it holds are undone. It takes no memory.
    void release(std::uint64_t connection) noexcept {
        weltiyo_release(handle(), connection);
        opened_->sessions.released(connection);
    }

    // The handle, for the calls of weltiyo.h. Its session steps aren't made while a `Session` lives, which doesn't see them.
    weltiyo_db *handle() noexcept { return opened_ == nullptr ? nullptr : opened_->handle; }

    // The connection that is asked as where none is named.
    static constexpr std::uint64_t own = 1;

private:
    friend class Session;

    // The bytes of a reply that are fetched with it.
    static constexpr std::size_t usual = 256;

    static std::uint64_t random_secret() {
        std::random_device drawn;
        return (std::uint64_t{drawn()} << 32) ^ drawn();
    }

    // A row as C takes it, and its texts one behind another.
    struct Laid {
        explicit Laid(const Row &row) {
            values.reserve(row.size() + 1); // (no pointer is null)
            for (const Value &it : row)
                values.push_back(detail::laid(it, texts));
        }

        std::vector<weltiyo_value> values;
        std::string texts;
    };

    // What a call told that was given a row. Throws Refused.
    std::uint64_t fitting(weltiyo_told told, std::size_t table, const Laid &laid, std::uint64_t connection) {
        if (told.status != WELTIYO_REFUSED_ROW)
            return well(told);
        std::vector<weltiyo_edit> puts;
        for (const weltiyo_value &it : laid.values)
            puts.push_back({WELTIYO_PUT, puts.size(), it});
        throw Refused(told, misfit(table, puts, laid.texts, connection).value_or(puts.size())); // (where each fits, the next one is missing)
    }

    // Whether a column that is added to is at fault.
    static bool is_of_column(weltiyo_told told) noexcept { return told.status == WELTIYO_REFUSED_ROW || told.status == WELTIYO_REFUSED_RANGE; }

    // The column of the first edit that doesn't fit, or has the column of another. Each is tried alone on a record that can't be there, so nothing
    // changes, and only what doesn't fit is refused by `row`.
    std::optional<std::size_t> misfit(std::size_t table, const std::vector<weltiyo_edit> &edits, const std::string &texts, std::uint64_t connection) {
        for (auto it = edits.begin(); it != edits.end(); ++it) {
            const auto told = weltiyo_modify(handle(), connection, table, UINT64_MAX, &*it, 1, texts.data(), texts.size(), 1);
            const bool is_second = std::any_of(edits.begin(), it, [&](const weltiyo_edit &other) { return other.column == it->column; });
            if (told.status == WELTIYO_REFUSED_ROW || is_second)
                return it->column;
        }
        return {};
    }

    // The column of the first sum that leaves 64 bits.
    std::optional<std::size_t> overflown(std::size_t table, std::uint64_t id, const std::vector<Edit> &edits) {
        const Row row = get(table, id);
        for (const Edit &it : edits) {
            if (it.kind != WELTIYO_ADD)
                continue;
            const std::int64_t had = row[it.column].number(), more = it.value.number();
            if (more > 0 ? had > INT64_MAX - more : had < INT64_MIN - more)
                return it.column;
        }
        return {};
    }

    // The calls that copy a row, which are given room for it.
    struct Get {
        weltiyo_db *handle;
        std::size_t table;
        std::uint64_t id;

        weltiyo_told operator()(weltiyo_value *values, char *texts, std::size_t room) const {
            return weltiyo_get(handle, table, id, values, WELTIYO_ROW_VALUES, texts, room);
        }
    };

    struct Find {
        weltiyo_db *handle;
        std::size_t table, index;
        const Key &key;

        weltiyo_told operator()(weltiyo_value *values, char *texts, std::size_t room) const {
            return weltiyo_find(handle, table, index, key.values_.data(), key.count_, key.texts_.data(), key.texts_.size(), values,
                                WELTIYO_ROW_VALUES, texts, room);
        }
    };

    struct Nth {
        weltiyo_db *handle;
        std::size_t table, index;
        std::uint64_t n;

        weltiyo_told operator()(weltiyo_value *values, char *texts, std::size_t room) const {
            return weltiyo_nth(handle, table, index, n, values, WELTIYO_ROW_VALUES, texts, room);
        }
    };

    // What a call tells that copies a row, and the row where there is one.
    template <class Call> weltiyo_told copied(Row &row, std::size_t table, Call call) {
        weltiyo_value values[WELTIYO_ROW_VALUES];
        char texts[WELTIYO_ROW_TEXTS];
        const weltiyo_told told = call(values, texts, sizeof texts);
        if (told.status == 0)
            row = RowView(told.number, values, column_count(table, told.number), texts).row();
        return told;
    }

    // The same into a buffer, by a call that is made again where it wants more room.
    template <class Call> weltiyo_told buffered(RowBuffer &row, std::size_t table, Call call) {
        if (row.texts_.empty())
            row.texts_.resize(RowBuffer::usual_texts);
        row.count_ = 0;
        weltiyo_told told = call(row.values_.data(), row.texts_.data(), row.texts_.size());
        if (told.status == WELTIYO_NO_ROOM) {
            row.texts_.resize(WELTIYO_ROW_TEXTS);
            told = call(row.values_.data(), row.texts_.data(), row.texts_.size());
        }
        if (told.status == 0) {
            row.id_ = told.number;
            row.count_ = column_count(table, told.number);
        }
        return told;
    }

    // Whether a call has found a row. Throws Refused.
    static bool is_there(weltiyo_told told) { return told.status != WELTIYO_REFUSED_ID && (well(told), true); }

    // The row that a call copies, and its id, or none where there is no such row.
    template <class Call> std::optional<Found> if_there(std::size_t table, Call call) {
        Found found;
        const weltiyo_told told = copied(found.row, table, call);
        if (!is_there(told))
            return {};
        found.id = told.number;
        return found;
    }

    using OfKey = weltiyo_told(weltiyo_db *, std::size_t, std::size_t, const weltiyo_value *, std::size_t, const void *, std::size_t);

    std::uint64_t of_key(OfKey *call, std::size_t table, std::size_t index, const Key &key) {
        return well(call(handle(), table, index, key.values_.data(), key.count_, key.texts_.data(), key.texts_.size()));
    }

    // Fills a page by a call, which is made again where it wants more room.
    template <class Call> void fill(Page &page, std::size_t table, Call call) {
        page.count_ = 0;
        page.more_ = false;
        page.make_room();
        weltiyo_told told = call();
        if (told.status == WELTIYO_NO_ROOM) {
            page.grow(told.index, told.number);
            told = call();
        }
        const std::size_t count = well(told);
        page.columns_ = count == 0 ? 0 : column_count(table, page.ids_[0]);
        page.more_ = told.index != 0;
        page.count_ = count;
    }

    // How many columns a table has, which is asked once: the row of an id wants a value for each.
    std::size_t column_count(std::size_t table, std::uint64_t id) {
        std::uint32_t &count = columns_[table];
        if (count == 0) {
            weltiyo_value value;
            char text;
            count = weltiyo_get(handle(), table, id, &value, 0, &text, 0).index;
        }
        return count;
    }

    // (no pointer is null)
    static const char *some(std::string_view name) noexcept { return name.empty() ? "" : name.data(); }

    static std::uint64_t well(weltiyo_told told) {
        if (told.status != 0)
            throw Refused(told);
        return told.number;
    }

    static std::uint64_t number_in(const std::string &reply, std::string_view name) {
        return std::strtoull(reply.c_str() + reply.find(name) + name.size(), nullptr, 10);
    }

    std::shared_ptr<detail::Opened> opened_; // (a session has it too)
    std::array<std::uint32_t, 16> columns_{}; // (a catalog has at most 16 tables)
};

// A session of a block, of the connection `Database::own`. Its database may be moved meanwhile, and isn't closed before it has ended. It ends its own
// session, with those that were begun in it and are open still, and no other. Where a line or a call of the database has ended or pushed its own,
// it does nothing. Where one that was begun in it was pushed, its own stays open as if it had been pushed too.
class Session {
public:
    explicit Session(Database &db) : opened_(db.opened_), number_(opened_->last_guard + 1) {
        opened_->sessions.make_room();
        opened_->sessions.begun(Database::own, Database::well(weltiyo_start(opened_->handle, Database::own)), number_);
        opened_->last_guard = number_;
    }

    Session(Session &&other) noexcept = default;

    Session &operator=(Session &&) = delete;

    ~Session() {
        if (opened_ != nullptr)
            step(*opened_, weltiyo_undo);
    }

    // A session is squashed, undone or pushed once: a further call does nothing, nor does one of a session that was moved from.

    // What was done is left to the session below, or stays where there is none. Throws Refused, with the word `session` where it ends none.
    void squash() { end(weltiyo_squash); }

    // All of it is undone now. Throws Refused, with the word `session` where it ends none.
    void undo() { end(weltiyo_undo); }

    // The session stays open behind the block; the database's undo, squash and commit end it.
    void push() noexcept {
        if (opened_ != nullptr)
            opened_->sessions.disown(number_);
        opened_.reset();
    }

private:
    using Step = weltiyo_told(weltiyo_db *, std::uint64_t);

    void end(Step *call) {
        if (const auto opened = std::move(opened_))
            Database::well(step(*opened, call));
    }

    // Ends its own session, and ahead of it those that were begun in it. Neither undo nor squash takes memory.
    weltiyo_told step(detail::Opened &opened, Step *call) const noexcept {
        weltiyo_told told = {WELTIYO_REFUSED_SESSION, 0, 0};
        for (std::size_t count = opened.sessions.down_to(number_); count > 0; count--) {
            told = call(opened.handle, Database::own);
            if (told.status != 0)
                break;
            opened.sessions.ended(told.number);
        }
        opened.sessions.disown(number_);
        return told;
    }

    std::shared_ptr<detail::Opened> opened_; // (which its `Database` takes along where it is moved)
    std::uint64_t number_;
};

inline Session Database::start_undo_session() { return Session(*this); }

// A text as it stands in a line, in quotes.
inline std::string quoted(std::string_view text) {
    static constexpr char digits[] = "0123456789abcdef";
    std::string said = "\"";
    for (const char it : text) {
        if (it == '"' || it == '\\') {
            said += '\\';
            said += it;
        } else if (static_cast<unsigned char>(it) < 0x20) {
            said += "\\u00";
            said += digits[static_cast<unsigned char>(it) >> 4];
            said += digits[static_cast<unsigned char>(it) & 15];
        } else {
            said += it;
        }
    }
    return said + '"';
}

} // namespace weltiyo

#endif

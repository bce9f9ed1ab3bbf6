// Tables of Weltiyo as containers, for C++17: rows are structs, indexes have iterators and ranges, and columns go by their names. It stands on
// weltiyo.hpp, and what a caller owes is what weltiyo.h says.
//
//     struct Account { std::string_view owner; std::int64_t balance; bool vip; };
//
//     weltiyo::Database db;                                                              // the built-in table
//     auto accounts = db.table<Account>("accounts", {"owner", "balance", "vip"});        // checked against the schema, once
//     auto by_balance = accounts.ranked<std::int64_t>("by_balance");
//     auto ann = accounts.insert({"ann", 50, false});                                    // its id; Refused names the column or the index
//     for (auto row : by_balance.range(weltiyo::ge(10), weltiyo::lt(100)))
//         std::cout << row->owner << ' ' << row.id() << ' ' << row.rank() << '\n';
//     auto it = by_balance.lower_bound(10);
//     accounts.modify(ann, weltiyo::add("balance", -20));
//     {
//         auto session = db.start_undo_session();                                        // as chainbase's
//         session.push();
//     }
//
// A row and an iterator are an id under an index, and lend nothing of the database. Where a row is gone, reading it or stepping from it throws
// Refused with the word `id`. A look-up takes no memory, but for a
// key of several values or with a text, for a row of long texts, and for a range with two ends in an index that isn't ranked.
#ifndef WELTIYO_TABLES_HPP
#define WELTIYO_TABLES_HPP

#include <array>
#include <cstddef>
#include <cstdint>
#include <cstring>
#include <initializer_list>
#include <iterator>
#include <memory>
#include <optional>
#include <string>
#include <string_view>
#include <tuple>
#include <type_traits>
#include <utility>

#include <weltiyo.hpp>

namespace weltiyo {

namespace detail {

// What any member is made from, so that members are counted. (it is never made)
struct Anything {
    template <class It> operator It() const;
};

template <class Struct, class Numbers, class = void> struct Takes : std::false_type {};

template <class Struct, std::size_t... N>
struct Takes<Struct, std::index_sequence<N...>, std::void_t<decltype(Struct{(static_cast<void>(N), Anything{})...})>> : std::true_type {};

// How many members a struct has, which are 16 at most, as the columns of a table.
template <class Struct, std::size_t N = 16> constexpr std::size_t member_count() {
    if constexpr (N == 0 || Takes<Struct, std::make_index_sequence<N>>::value)
        return N;
    else
        return member_count<Struct, N - 1>();
}

// References to the members of a struct, in their order.
template <class Struct> auto members(Struct &it) {
    constexpr std::size_t count = member_count<std::remove_const_t<Struct>>();
    static_assert(count > 0, "a row is a struct of one to sixteen members, without a base or a constructor");
    if constexpr (count == 1) {
        auto &[a] = it;
        return std::tie(a);
    }    else if constexpr (count == 2) {
        auto &[a, b] = it;
        return std::tie(a, b);
    }    else if constexpr (count == 3) {
        auto &[a, b, c] = it;
        return std::tie(a, b, c);
    }    else if constexpr (count == 4) {
        auto &[a, b, c, d] = it;
        return std::tie(a, b, c, d);
    }    else if constexpr (count == 5) {
        auto &[a, b, c, d, e] = it;
        return std::tie(a, b, c, d, e);
    }    else if constexpr (count == 6) {
        auto &[a, b, c, d, e, f] = it;
        return std::tie(a, b, c, d, e, f);
    }    else if constexpr (count == 7) {
        auto &[a, b, c, d, e, f, g] = it;
        return std::tie(a, b, c, d, e, f, g);
    }    else if constexpr (count == 8) {
        auto &[a, b, c, d, e, f, g, h] = it;
        return std::tie(a, b, c, d, e, f, g, h);
    }    else if constexpr (count == 9) {
        auto &[a, b, c, d, e, f, g, h, i] = it;
        return std::tie(a, b, c, d, e, f, g, h, i);
    }    else if constexpr (count == 10) {
        auto &[a, b, c, d, e, f, g, h, i, j] = it;
        return std::tie(a, b, c, d, e, f, g, h, i, j);
    }    else if constexpr (count == 11) {
        auto &[a, b, c, d, e, f, g, h, i, j, k] = it;
        return std::tie(a, b, c, d, e, f, g, h, i, j, k);
    }    else if constexpr (count == 12) {
        auto &[a, b, c, d, e, f, g, h, i, j, k, l] = it;
        return std::tie(a, b, c, d, e, f, g, h, i, j, k, l);
    }    else if constexpr (count == 13) {
        auto &[a, b, c, d, e, f, g, h, i, j, k, l, m] = it;
        return std::tie(a, b, c, d, e, f, g, h, i, j, k, l, m);
    }    else if constexpr (count == 14) {
        auto &[a, b, c, d, e, f, g, h, i, j, k, l, m, n] = it;
        return std::tie(a, b, c, d, e, f, g, h, i, j, k, l, m, n);
    }    else if constexpr (count == 15) {
        auto &[a, b, c, d, e, f, g, h, i, j, k, l, m, n, o] = it;
        return std::tie(a, b, c, d, e, f, g, h, i, j, k, l, m, n, o);
    }    else if constexpr (count == 16) {
        auto &[a, b, c, d, e, f, g, h, i, j, k, l, m, n, o, p] = it;
        return std::tie(a, b, c, d, e, f, g, h, i, j, k, l, m, n, o, p);
    }
}

// The kind of a column of such values; what is false or true has that of false.
template <class It> constexpr std::uint32_t kind_of() {
    static_assert(std::is_same_v<It, std::int64_t> || std::is_same_v<It, bool> || std::is_same_v<It, std::string_view> || std::is_same_v<It, std::string>,
                  "a column is a std::int64_t, a bool, a std::string_view or a std::string");
    if constexpr (std::is_same_v<It, std::int64_t>)
        return WELTIYO_INT;
    else if constexpr (std::is_same_v<It, bool>)
        return WELTIYO_FALSE;
    else
        return WELTIYO_TEXT;
}

// Values as C takes them. One text is lent by its owner; of several the bytes are copied behind one another.
template <std::size_t Most> class Laid {
public:
    Laid() = default;

    template <class It> void add(const It &value) {
        if constexpr (std::is_same_v<It, bool>)
            put({static_cast<std::uint32_t>(value ? WELTIYO_TRUE : WELTIYO_FALSE), 0, 0, 0});
        else if constexpr (std::is_integral_v<It>)
            put({WELTIYO_INT, Value(value).number(), 0, 0});
        else
            text(std::string_view(value));
    }

    const weltiyo_value *values() const noexcept { return values_.data(); }
    weltiyo_value &operator[](std::size_t n) noexcept { return values_[n]; }
    std::size_t size() const noexcept { return count_; }
    const char *texts() const noexcept { return copies_.empty() ? one_ : copies_.data(); }
    std::size_t length() const noexcept { return copies_.empty() ? length_ : copies_.size(); }

private:
    void put(const weltiyo_value &value) noexcept { values_[count_++] = value; }

    void text(std::string_view text) {
        if (length_ == 0 && copies_.empty()) {
            put({WELTIYO_TEXT, 0, 0, text.size()});
            if (!text.empty()) {
                one_ = text.data();
                length_ = text.size();
            }
            return;
        }
        if (copies_.empty())
            copies_.assign(one_, length_);
        put({WELTIYO_TEXT, 0, copies_.size(), text.size()});
        copies_ += text;
    }

    std::array<weltiyo_value, Most> values_{}; // (all are set before they are read; no pointer is null)
    std::size_t count_ = 0, length_ = 0;
    const char *one_ = "";
    std::string copies_;
};

// A key; an index has at most four parts, and a fifth value is refused by the call.
using Parts = Laid<5>;

template <class... Part> Parts parts(const Part &...part) {
    static_assert(sizeof...(Part) > 0 && sizeof...(Part) <= 5, "a key has one to four values");
    Parts made;
    (made.add(part), ...);
    return made;
}

// A table that was checked: the database, its number, and of each member of the struct the column's number and name.
struct Shape {
    std::shared_ptr<Opened> opened;
    std::size_t table = 0, count = 0;
    std::array<std::size_t, WELTIYO_ROW_VALUES> columns{};
    std::array<std::string, WELTIYO_ROW_VALUES> names;

    weltiyo_db *handle() const noexcept { return opened->handle; }

    // What was refused, with the index by its name.
    [[noreturn]] void refuse(weltiyo_told told, std::string_view column = {}, bool is_modify = false) const {
        char name[256];
        std::size_t length = 0;
        if (told.status == WELTIYO_REFUSED_UNIQUE || told.status == WELTIYO_REFUSED_LOST) {
            const weltiyo_told named = weltiyo_index_name(handle(), table, told.index, name, sizeof name);
            length = named.status == 0 ? static_cast<std::size_t>(named.number) : 0;
        }
        throw Refused(told, column, std::string_view(name, length), is_modify);
    }

    std::uint64_t well(weltiyo_told told) const {
        if (told.status != 0)
            refuse(told);
        return told.number;
    }

    // Whether an edit alone fits, which is tried on a record that can't be there.
    bool fits(const weltiyo_edit &edit, const char *texts, std::size_t length) const {
        const weltiyo_told told = weltiyo_modify(handle(), Database::own, table, UINT64_MAX, &edit, 1, texts, length, 1);
        if (told.status != WELTIYO_REFUSED_ROW && told.status != WELTIYO_REFUSED_ID)
            refuse(told);
        return told.status == WELTIYO_REFUSED_ID;
    }

    // Whether a column is there, and of this kind.
    bool is_column(std::size_t column, std::uint32_t kind) const { return fits({WELTIYO_PUT, column, {kind, 0, 0, 0}}, "", 0); }

    // The number of the column of a name. Throws Refused, with the name.
    std::size_t column(std::string_view name) const {
        for (std::size_t n = 0; n < count; n++)
            if (names[n] == name)
                return columns[n];
        throw Refused(weltiyo_told{WELTIYO_REFUSED_ROW, 0, 0}, name, {});
    }

    // How many rows stand before a cursor in its ranked index, which the end does behind all.
    std::uint64_t rank(weltiyo_cursor at) const { return well(weltiyo_rank_of(handle(), at)); }
};

} // namespace detail

// A column of a table, which is asked for once by its name.
template <class It> struct Column {
    std::size_t number;
};

// An edit of a column by its name; a number is added to a column of whole numbers, and a value is put to any.
template <class It> struct NamedEdit {
    std::uint32_t kind;
    std::string_view column;
    It value;
};

inline NamedEdit<std::int64_t> add(std::string_view column, std::int64_t number) { return {WELTIYO_ADD, column, number}; }

template <class It> auto put(std::string_view column, const It &value) {
    if constexpr (std::is_same_v<It, bool>)
        return NamedEdit<bool>{WELTIYO_PUT, column, value};
    else if constexpr (std::is_integral_v<It>)
        return NamedEdit<std::int64_t>{WELTIYO_PUT, column, Value(value).number()};
    else
        return NamedEdit<std::string_view>{WELTIYO_PUT, column, std::string_view(value)};
}

// The lower end of a range: from the rows of a key on, or behind them. The first values of a key will do. A text is lent until the range is made.
struct Least {
    detail::Parts key;
    bool is_beyond;
};

// The upper end of a range: up to the rows of a key, or before them.
struct Most {
    detail::Parts key;
    bool is_beyond;
};

template <class... Part> Least ge(const Part &...key) { return {detail::parts(key...), false}; }
template <class... Part> Least gt(const Part &...key) { return {detail::parts(key...), true}; }
template <class... Part> Most le(const Part &...key) { return {detail::parts(key...), true}; }
template <class... Part> Most lt(const Part &...key) { return {detail::parts(key...), false}; }

// A row by its id, seen under an index. Its struct is read where it is asked for first, and kept; its texts are lent by the row itself.
template <class Struct> class RowOf {
public:
    RowOf(const detail::Shape &shape, weltiyo_cursor at) noexcept : shape_(&shape), at_(at) {}

    // (a copy reads anew)
    RowOf(const RowOf &other) noexcept : shape_(other.shape_), at_(other.at_) {}
    RowOf &operator=(const RowOf &other) noexcept {
        shape_ = other.shape_;
        at_ = other.at_;
        is_read_ = false;
        return *this;
    }

    std::uint64_t id() const noexcept { return weltiyo_id_of(at_); }

    // How many rows stand before it in its ranked index. Throws Refused.
    std::uint64_t rank() const { return shape_->rank(at_); }

    // Its members. Throws Refused, with the word `id` where it is gone.
    const Struct &operator*() const { return read(); }
    const Struct *operator->() const { return &read(); }

    // One column alone. Throws Refused.
    template <class It> It operator[](Column<It> column) const {
        if constexpr (detail::kind_of<It>() == WELTIYO_TEXT) {
            return text(column.number);
        } else {
            const weltiyo_field field = weltiyo_field_at(shape_->handle(), at_, column.number);
            if (field.status != 0)
                shape_->refuse({field.status, 0, 0});
            if constexpr (detail::kind_of<It>() == WELTIYO_INT)
                return field.integer;
            else
                return field.kind == WELTIYO_TRUE;
        }
    }

private:
    // (a row of short texts takes no memory)
    static constexpr std::size_t usual_texts = 192;

    std::string text(std::size_t column) const {
        std::string text(usual_texts, '\0');
        weltiyo_told told = weltiyo_text_of(shape_->handle(), at_, column, text.data(), text.size());
        if (told.status == WELTIYO_NO_ROOM) {
            text.resize(static_cast<std::size_t>(told.number));
            told = weltiyo_text_of(shape_->handle(), at_, column, text.data(), text.size());
        }
        text.resize(static_cast<std::size_t>(shape_->well(told)));
        return text;
    }

    const Struct &read() const {
        if (!is_read_) {
            weltiyo_value values[WELTIYO_ROW_VALUES];
            char *texts = near_.data();
            if (at_.status != 0)
                shape_->refuse(weltiyo_no_row(at_));
            weltiyo_told told = weltiyo_get(shape_->handle(), at_.table, at_.id, values, WELTIYO_ROW_VALUES, texts, near_.size());
            if (told.status == WELTIYO_NO_ROOM) {
                const std::size_t wanted = static_cast<std::size_t>(told.number);
                far_ = std::make_unique<char[]>(wanted);
                texts = far_.get();
                told = weltiyo_get(shape_->handle(), at_.table, at_.id, values, WELTIYO_ROW_VALUES, texts, wanted);
            }
            shape_->well(told);
            take(values, texts, std::make_index_sequence<detail::member_count<Struct>()>());
            is_read_ = true;
        }
        return it_;
    }

    template <std::size_t... N> void take(const weltiyo_value *values, const char *texts, std::index_sequence<N...>) const {
        auto members = detail::members(it_);
        (take(std::get<N>(members), values[shape_->columns[N]], texts), ...);
    }

    template <class It> static void take(It &member, const weltiyo_value &value, const char *texts) {
        if constexpr (std::is_same_v<It, std::int64_t>)
            member = value.integer;
        else if constexpr (std::is_same_v<It, bool>)
            member = value.kind == WELTIYO_TRUE;
        else
            member = It(texts + value.at, value.length);
    }

    const detail::Shape *shape_;
    weltiyo_cursor at_;
    mutable bool is_read_ = false;
    mutable Struct it_{};
    mutable std::array<char, usual_texts> near_;
    mutable std::unique_ptr<char[]> far_;
};

// A place in an index: a row, or the end behind the last one. It goes both ways. It stays what it is while rows change.
template <class Struct> class IteratorOf {
public:
    using iterator_category = std::bidirectional_iterator_tag; // (but that it gives rows by value)
    using value_type = RowOf<Struct>;
    using difference_type = std::ptrdiff_t;
    using pointer = RowOf<Struct>;
    using reference = RowOf<Struct>;

    IteratorOf() noexcept : at_{WELTIYO_END, 0, 0, 0} {}
    IteratorOf(const detail::Shape &shape, weltiyo_cursor at) noexcept : shape_(&shape), at_(at) {}

    RowOf<Struct> operator*() const noexcept { return {*shape_, at_}; }
    RowOf<Struct> operator->() const noexcept { return {*shape_, at_}; }

    // The id of its row, and how many rows stand before it in a ranked index: before the end all. Throws Refused.
    std::uint64_t id() const noexcept { return weltiyo_id_of(at_); }
    std::uint64_t rank() const { return shape_->rank(at_); }

    bool is_end() const noexcept { return at_.status == WELTIYO_END; }
    const weltiyo_cursor &cursor() const noexcept { return at_; }

    // Throws Refused, with the word `id` where its row is gone.
    IteratorOf &operator++() { return step(0); }
    IteratorOf &operator--() { return step(1); }

    IteratorOf operator++(int) {
        const IteratorOf before = *this;
        ++*this;
        return before;
    }

    IteratorOf operator--(int) {
        const IteratorOf before = *this;
        --*this;
        return before;
    }

    friend bool operator==(const IteratorOf &one, const IteratorOf &other) noexcept { return weltiyo_is_same(one.at_, other.at_) != 0; }
    friend bool operator!=(const IteratorOf &one, const IteratorOf &other) noexcept { return !(one == other); }

private:
    IteratorOf &step(std::uint32_t back) {
        const weltiyo_cursor next = weltiyo_step(shape_->handle(), at_, back);
        if (next.status != 0 && next.status != WELTIYO_END)
            shape_->refuse(weltiyo_no_row(next));
        at_ = next;
        return *this;
    }

    const detail::Shape *shape_ = nullptr;
    weltiyo_cursor at_;
};

// Rows between two places. A walk ends at the second one, or at the end of the index where that row is gone meanwhile.
template <class Struct> class RangeOf {
public:
    struct End {
        weltiyo_cursor at;

        friend bool operator==(const IteratorOf<Struct> &it, const End &end) noexcept { return it.is_end() || weltiyo_is_same(it.cursor(), end.at) != 0; }
        friend bool operator!=(const IteratorOf<Struct> &it, const End &end) noexcept { return !(it == end); }
    };

    RangeOf(std::shared_ptr<const detail::Shape> shape, weltiyo_cursor from, weltiyo_cursor to) noexcept
        : shape_(std::move(shape)), from_(from), to_(to) {}

    IteratorOf<Struct> begin() const noexcept { return {*shape_, from_}; }
    End end() const noexcept { return {to_}; }
    bool empty() const noexcept { return begin() == end(); }

private:
    std::shared_ptr<const detail::Shape> shape_;
    weltiyo_cursor from_, to_;
};

// What every index has. It is copied at will, and lives as long as it likes: its database isn't closed before.
template <class Struct> class IndexOf {
public:
    using iterator = IteratorOf<Struct>;

    // Its number.
    std::size_t number() const noexcept { return number_; }

    iterator end() const noexcept { return place({WELTIYO_END, static_cast<std::uint32_t>(shape_->table), static_cast<std::uint32_t>(number_), 0}); }

    // The row of an id, or the end.
    iterator iterator_to(std::uint64_t id) const { return there(weltiyo_of_id(handle(), shape_->table, number_, id)); }

protected:
    IndexOf(std::shared_ptr<const detail::Shape> shape, std::size_t number) noexcept : shape_(std::move(shape)), number_(number) {}

    weltiyo_db *handle() const noexcept { return shape_->handle(); }
    iterator place(weltiyo_cursor at) const noexcept { return {*shape_, at}; }

    // A cursor that stands at a row or at the end. Throws Refused, of any other.
    weltiyo_cursor stands(weltiyo_cursor at) const {
        if (at.status != 0 && at.status != WELTIYO_END)
            shape_->refuse(weltiyo_no_row(at));
        return at;
    }

    // A row that isn't there is the end.
    iterator there(weltiyo_cursor at) const {
        if (at.status == WELTIYO_GONE)
            return end();
        return place(stands(at));
    }

    iterator found(const detail::Parts &key) const {
        return place(stands(weltiyo_find_at(handle(), shape_->table, number_, key.values(), key.size(), key.texts(), key.length())));
    }

    std::uint64_t counted(const detail::Parts &key) const {
        return shape_->well(weltiyo_count(handle(), shape_->table, number_, key.values(), key.size(), key.texts(), key.length()));
    }

    std::shared_ptr<const detail::Shape> shape_;
    std::size_t number_;
};

// A hashed index: rows are found by a whole key.
template <class Struct, class... Key> class HashedOf : public IndexOf<Struct> {
public:
    HashedOf(std::shared_ptr<const detail::Shape> shape, std::size_t number) noexcept : IndexOf<Struct>(std::move(shape), number) {}

    // The first row of a key, or the end; and how many have it. Each throws Refused.
    IteratorOf<Struct> find(const Key &...key) const { return this->found(detail::parts(key...)); }
    std::uint64_t count(const Key &...key) const { return this->counted(detail::parts(key...)); }
};

// An index that lists its rows, from the first one to the last.
template <class Struct> class ListedOf : public IndexOf<Struct> {
public:
    ListedOf(std::shared_ptr<const detail::Shape> shape, std::size_t number) noexcept : IndexOf<Struct>(std::move(shape), number) {}

    IteratorOf<Struct> begin() const { return this->place(first()); }

protected:
    weltiyo_cursor first() const { return this->stands(weltiyo_first(this->handle(), this->shape_->table, this->number_)); }
};

// An ordered index: rows stand in the order of their keys, of which the first values will do.
template <class Struct, class... Key> class OrderedOf : public ListedOf<Struct> {
public:
    OrderedOf(std::shared_ptr<const detail::Shape> shape, std::size_t number) noexcept : ListedOf<Struct>(std::move(shape), number) {}

    // The first row of a key, or the end; and how many have it. Each throws Refused.
    template <class... Part> IteratorOf<Struct> find(const Part &...key) const { return this->found(of<Part...>(key...)); }
    template <class... Part> std::uint64_t count(const Part &...key) const { return this->counted(of<Part...>(key...)); }

    // The first row whose key isn't less, and the first whose key is greater. Each throws Refused.
    template <class... Part> IteratorOf<Struct> lower_bound(const Part &...key) const { return this->place(at(of<Part...>(key...), false)); }
    template <class... Part> IteratorOf<Struct> upper_bound(const Part &...key) const { return this->place(at(of<Part...>(key...), true)); }

    template <class... Part> RangeOf<Struct> equal_range(const Part &...key) const {
        const auto parts = of<Part...>(key...);
        return {this->shape_, at(parts, false), at(parts, true)};
    }

    // The rows between two ends, or on one side of one. Each throws Refused.
    RangeOf<Struct> range(const Least &least, const Most &most) const {
        const weltiyo_cursor from = at(least.key, least.is_beyond), to = at(most.key, most.is_beyond);
        return {this->shape_, is_behind(least, from, most, to) ? to : from, to};
    }

    RangeOf<Struct> range(const Least &least) const { return {this->shape_, at(least.key, least.is_beyond), this->end().cursor()}; }
    RangeOf<Struct> range(const Most &most) const { return {this->shape_, this->first(), at(most.key, most.is_beyond)}; }
    RangeOf<Struct> range() const { return {this->shape_, this->first(), this->end().cursor()}; }

protected:
    template <class... Part> static detail::Parts of(const Part &...key) {
        static_assert(sizeof...(Part) <= sizeof...(Key), "the key has more values than the index has parts");
        return detail::parts(key...);
    }

    weltiyo_cursor at(const detail::Parts &key, bool is_beyond) const {
        const weltiyo_told told = weltiyo_seek_id(this->handle(), this->shape_->table, this->number_, key.values(), key.size(), key.texts(),
                                                  key.length(), is_beyond);
        return this->stands(weltiyo_cursor_at(this->shape_->table, this->number_, told));
    }

    // Whether the lower end stands behind the upper one, so that nothing is between them. A ranked index tells by ranks.
    bool is_behind(const Least &least, weltiyo_cursor from, const Most &most, weltiyo_cursor to) const {
        const weltiyo_told told = weltiyo_is_before(this->handle(), to, from);
        return told.status == WELTIYO_REFUSED_KIND ? has_none(least, most) : this->shape_->well(told) != 0;
    }

    // Whether no row is between two ends, by a page of no rows, which tells whether others follow.
    bool has_none(const Least &least, const Most &most) const {
        std::string texts(least.key.texts(), least.key.length());
        detail::Parts upper = most.key;
        for (std::size_t n = 0; n < upper.size(); n++)
            upper[n].at += texts.size();
        texts.append(most.key.texts(), most.key.length());
        std::uint64_t id;
        weltiyo_value value;
        char text;
        const weltiyo_told page = weltiyo_range(
            this->handle(), this->shape_->table, this->number_, least.is_beyond ? WELTIYO_EXCLUDED : WELTIYO_INCLUDED, least.key.values(),
            least.key.size(), most.is_beyond ? WELTIYO_INCLUDED : WELTIYO_EXCLUDED, upper.values(), upper.size(), texts.data(), texts.size(), 0, &id,
            0, &value, 0, &text, 0);
        return this->shape_->well(page) == 0 && page.index == 0;
    }
};

// A ranked index: rows are found by how many stand before them too.
template <class Struct, class... Key> class RankedOf : public OrderedOf<Struct, Key...> {
public:
    RankedOf(std::shared_ptr<const detail::Shape> shape, std::size_t number) noexcept : OrderedOf<Struct, Key...>(std::move(shape), number) {}

    // The row before which `n` others stand, or the end. Throws Refused.
    IteratorOf<Struct> nth(std::uint64_t n) const { return this->place(this->stands(weltiyo_at_rank(this->handle(), this->shape_->table, this->number_, n))); }

    // How many rows stand before a place, and how many keys are less, or not greater. Each throws Refused.
    std::uint64_t rank(const IteratorOf<Struct> &it) const { return it.rank(); }
    template <class... Part> std::uint64_t lower_rank(const Part &...key) const { return ranked(weltiyo_lower_rank, this->template of<Part...>(key...)); }
    template <class... Part> std::uint64_t upper_rank(const Part &...key) const { return ranked(weltiyo_upper_rank, this->template of<Part...>(key...)); }

private:
    using OfKey = weltiyo_told(weltiyo_db *, std::size_t, std::size_t, const weltiyo_value *, std::size_t, const void *, std::size_t);

    std::uint64_t ranked(OfKey *call, const detail::Parts &key) const {
        return this->shape_->well(call(this->handle(), this->shape_->table, this->number_, key.values(), key.size(), key.texts(), key.length()));
    }
};

// A table whose rows are a struct. It is copied at will, and lives as long as it likes: its database isn't closed before. It asks as connection
// `Database::own`.
template <class Struct> class Table {
public:
    explicit Table(std::shared_ptr<const detail::Shape> shape) noexcept : shape_(std::move(shape)) {}

    std::size_t number() const noexcept { return shape_->table; }

    // How many rows it has.
    std::uint64_t size() const { return shape_->well(weltiyo_size(handle(), shape_->table)); }

    // A column by its name, which is to hold such values. Throws Refused, with the column's name.
    template <class It> Column<It> column(std::string_view name) const {
        const std::size_t number = shape_->column(name);
        if (!shape_->is_column(number, detail::kind_of<It>()))
            throw Refused(weltiyo_told{WELTIYO_REFUSED_ROW, 0, 0}, name, {});
        return {number};
    }

    // Adds a row, and answers its id. Throws Refused, with the name of the index that refuses.
    std::uint64_t insert(const Struct &row) {
        const auto laid = lay(row);
        return shape_->well(weltiyo_insert(handle(), Database::own, shape_->table, laid.values(), laid.size(), laid.texts(), laid.length()));
    }

    // Sets another row for an id. Throws Refused, as an insert does.
    void replace(std::uint64_t id, const Struct &row) {
        const auto laid = lay(row);
        shape_->well(weltiyo_replace(handle(), Database::own, shape_->table, id, laid.values(), laid.size(), laid.texts(), laid.length()));
    }

    // Makes edits, each of a column of its own: `modify(id, add("balance", -20), put("vip", true))`. Throws Refused, with the name of the column that
    // is at fault or of the index that refuses; then nothing has changed.
    template <class... It> void modify(std::uint64_t id, const NamedEdit<It> &...edits) {
        static_assert(sizeof...(It) > 0, "a modify has an edit");
        detail::Laid<sizeof...(It)> values;
        (values.add(edits.value), ...);
        const std::array<std::string_view, sizeof...(It)> names{edits.column...};
        std::array<weltiyo_edit, sizeof...(It)> made{};
        const std::uint32_t kinds[] = {edits.kind...};
        for (std::size_t n = 0; n < made.size(); n++)
            made[n] = {kinds[n], shape_->column(names[n]), values[n]};
        const weltiyo_told told =
            weltiyo_modify(handle(), Database::own, shape_->table, id, made.data(), made.size(), values.texts(), values.length(), 1);
        if (told.status != 0)
            shape_->refuse(told, at_fault(told, id, made.data(), names.data(), made.size(), values.texts(), values.length()), true);
    }

    // Erases a row. Throws Refused.
    void erase(std::uint64_t id) { shape_->well(weltiyo_erase(handle(), Database::own, shape_->table, id)); }

    // The row of an id. Throws Refused, with the word `id` where there is none.
    RowOf<Struct> operator[](std::uint64_t id) const {
        const weltiyo_cursor at = weltiyo_of_id(handle(), shape_->table, 0, id);
        if (at.status != 0)
            shape_->refuse(weltiyo_no_row(at));
        return {*shape_, at};
    }

    // The same, if there is one.
    std::optional<RowOf<Struct>> find(std::uint64_t id) const {
        const weltiyo_cursor at = weltiyo_of_id(handle(), shape_->table, 0, id);
        if (at.status == WELTIYO_GONE)
            return {};
        return RowOf<Struct>(*shape_, at);
    }

    // An index by its name, which is to be of this kind and to have a key of such values. Throws Refused, with the word `index`, `kind` or `key`
    // and the index's name.
    template <class... Key> RankedOf<Struct, Key...> ranked(std::string_view name) const {
        const std::size_t number = sorted<Key...>(name);
        if (weltiyo_rank(handle(), shape_->table, number, UINT64_MAX).status == WELTIYO_REFUSED_KIND)
            refuse(WELTIYO_REFUSED_KIND, name);
        return {shape_, number};
    }

    // (a ranked one is ordered too)
    template <class... Key> OrderedOf<Struct, Key...> ordered(std::string_view name) const { return {shape_, sorted<Key...>(name)}; }

    template <class... Key> HashedOf<Struct, Key...> hashed(std::string_view name) const {
        const std::size_t number = of_name(name);
        const auto key = detail::parts(Key{}...);
        if (weltiyo_first_id(handle(), shape_->table, number).status != WELTIYO_REFUSED_KIND)
            refuse(WELTIYO_REFUSED_KIND, name);
        check(weltiyo_find_id(handle(), shape_->table, number, key.values(), key.size(), key.texts(), key.length()), name);
        return {shape_, number};
    }

    ListedOf<Struct> sequenced(std::string_view name) const {
        const std::size_t number = of_name(name);
        check(weltiyo_first_id(handle(), shape_->table, number), name);
        return {shape_, number};
    }

private:
    weltiyo_db *handle() const noexcept { return shape_->handle(); }

    detail::Laid<WELTIYO_ROW_VALUES> lay(const Struct &row) const {
        detail::Laid<WELTIYO_ROW_VALUES> laid;
        const auto members = detail::members(row);
        lay_in_order(laid, members, std::make_index_sequence<detail::member_count<Struct>()>());
        return laid;
    }

    // (a value goes to its column, whatever the order of the members is)
    template <class Members, std::size_t... N>
    void lay_in_order(detail::Laid<WELTIYO_ROW_VALUES> &laid, const Members &members, std::index_sequence<N...>) const {
        for (std::size_t column = 0; column < sizeof...(N); column++)
            ((shape_->columns[N] == column ? laid.add(std::get<N>(members)) : void()), ...);
    }

    // The column that an edit was refused for: one that doesn't fit, or one whose sum leaves 64 bits.
    std::string_view at_fault(weltiyo_told told, std::uint64_t id, const weltiyo_edit *edits, const std::string_view *names, std::size_t count,
                              const char *texts, std::size_t length) const {
        for (std::size_t n = 0; n < count; n++) {
            if (told.status == WELTIYO_REFUSED_ROW && !shape_->fits(edits[n], texts, length))
                return names[n];
            if (told.status == WELTIYO_REFUSED_RANGE && edits[n].kind == WELTIYO_ADD) {
                const std::int64_t had = weltiyo_field_of(handle(), shape_->table, id, edits[n].column).integer, more = edits[n].value.integer;
                if (more > 0 ? had > INT64_MAX - more : had < INT64_MIN - more)
                    return names[n];
            }
        }
        return {};
    }

    [[noreturn]] static void refuse(std::uint32_t status, std::string_view index) { throw Refused(weltiyo_told{status, 0, 0}, {}, index); }

    static void check(weltiyo_told told, std::string_view index) {
        if (told.status != 0 && told.status != WELTIYO_END)
            refuse(told.status, index);
    }

    std::size_t of_name(std::string_view name) const {
        const weltiyo_told told = weltiyo_index(handle(), shape_->table, name.empty() ? "" : name.data(), name.size());
        check(told, name);
        return static_cast<std::size_t>(told.number);
    }

    template <class... Key> std::size_t sorted(std::string_view name) const {
        const std::size_t number = of_name(name);
        const auto key = detail::parts(Key{}...);
        check(weltiyo_seek_id(handle(), shape_->table, number, key.values(), key.size(), key.texts(), key.length(), 0), name);
        return number;
    }

    std::shared_ptr<const detail::Shape> shape_;
};

namespace detail {

// Whether each member of a struct has the type of its column: the number of the first that hasn't, or of all.
template <class Struct, std::size_t... N> std::size_t first_other(const Shape &shape, std::index_sequence<N...>) {
    using Members = decltype(members(std::declval<Struct &>()));
    const bool fits[] = {shape.is_column(shape.columns[N], kind_of<std::remove_reference_t<std::tuple_element_t<N, Members>>>())...};
    std::size_t n = 0;
    while (n < sizeof...(N) && fits[n])
        n++;
    return n;
}

} // namespace detail

template <class Struct> Table<Struct> Database::table(std::string_view name, std::initializer_list<std::string_view> columns) {
    constexpr std::size_t count = detail::member_count<Struct>();
    const auto shape = std::make_shared<detail::Shape>();
    shape->opened = opened_;
    shape->table = table(name);
    for (const std::string_view column : columns) {
        const weltiyo_told told = weltiyo_column(handle(), shape->table, some(column), column.size());
        if (told.status != 0 || shape->count == count)
            throw Refused(weltiyo_told{WELTIYO_REFUSED_ROW, 0, 0}, column, {});
        shape->names[shape->count] = column;
        shape->columns[shape->count++] = static_cast<std::size_t>(told.number);
    }
    // (a table has the columns 0 to `count - 1`, each named once, and no other)
    std::size_t fits = shape->count < count ? shape->count : detail::first_other<Struct>(*shape, std::make_index_sequence<count>());
    for (std::size_t n = 0; n < fits; n++)
        if (shape->columns[n] >= count || std::count(shape->columns.begin(), shape->columns.begin() + n, shape->columns[n]) != 0)
            fits = n;
    for (const std::uint32_t kind : {WELTIYO_INT, WELTIYO_TEXT, WELTIYO_FALSE})
        if (fits == count && shape->is_column(count, kind))
            throw Refused(weltiyo_told{WELTIYO_REFUSED_ROW, 0, 0}, std::to_string(count), {});
    if (fits < count)
        throw Refused(weltiyo_told{WELTIYO_REFUSED_ROW, 0, 0}, fits < shape->count ? std::string_view(shape->names[fits]) : std::string_view(), {});
    return Table<Struct>(shape);
}

} // namespace weltiyo

#endif

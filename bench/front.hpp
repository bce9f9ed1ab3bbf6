// What the peers share: lines of JSON on standard input, read by simdjson, to typed commands, and reply lines on standard output.
//
// A peer is a table with the calls that `Front` makes. A line that isn't a command of the peer is answered `form`, whatever else
// may be wrong with it: the order of refusals of malformed lines isn't part of what is compared.
#pragma once
#include <charconv>
#include <cstdint>
#include <cstring>
#include <optional>
#include <string>
#include <string_view>
#include <unistd.h>
#include <vector>

#include <simdjson.h>

inline std::string simdjson_version() {
    using namespace simdjson;
    auto number = [](int it) { return std::to_string(it); };
    return "simdjson " + number(SIMDJSON_VERSION_MAJOR) + "." + number(SIMDJSON_VERSION_MINOR) + "." + number(SIMDJSON_VERSION_REVISION);
}

enum class Index { Id, ByOwner, ByBalance, ByVip, ByClass, Line };
constexpr std::string_view INDEX_NAMES[] = {"id", "by_owner", "by_balance", "by_vip", "by_class", "line"};

constexpr std::size_t MOST_SESSIONS = 1024;
constexpr std::int64_t MOST_ROWS = 1000;
constexpr std::size_t PIECE = 1 << 16;

struct RowView {
    std::int64_t id = 0;
    std::string_view owner;
    std::int64_t balance = 0;
    bool vip = false;
};

/// The values of a key, of which the first `parts` count, in the order of the index.
struct Key {
    std::int64_t number = 0;
    std::string_view owner;
    bool vip = false;
    int parts = 0;
};

/// One end of a range; `with_equals` is `ge` below and `le` above.
struct Bound {
    Key key;
    bool with_equals = false;
};

struct Range {
    Index index = Index::Id;
    std::optional<Bound> lower, upper;
    bool reverse = false;
    std::int64_t limit = MOST_ROWS;
};

struct Edits {
    std::optional<std::string_view> owner;
    std::optional<std::int64_t> balance, more_balance;
    std::optional<bool> vip;
};

/// What a change or a step answers: a number, or a refusal's word.
struct Outcome {
    const char *refusal = nullptr;
    std::int64_t number = 0;
    int lost = -1;

    static Outcome of(std::int64_t number) { return {nullptr, number, -1}; }
    static Outcome refused(const char *word) { return {word, 0, -1}; }
    static Outcome conflict(std::int64_t id, int lost = -1) { return {"unique", id, lost}; }
};

class Out {
public:
    void text(std::string_view it) { bytes_.append(it); }

    void number(std::int64_t it) {
        char digits[24];
        bytes_.append(digits, std::to_chars(digits, digits + sizeof digits, it).ptr);
    }

    void quoted(std::string_view it) {
        bytes_.push_back('"');
        std::size_t begin = 0;
        for (std::size_t at = 0; at < it.size(); at++) {
            const char c = it[at];
            if (static_cast<unsigned char>(c) < 0x20 || c == '"' || c == '\\') {
                bytes_.append(it, begin, at - begin);
                escaped(c);
                begin = at + 1;
            }
        }
        bytes_.append(it, begin);
        bytes_.push_back('"');
    }

    void row(const RowView &it) {
        text("{\"balance\":");
        number(it.balance);
        text(",\"id\":");
        number(it.id);
        text(",\"owner\":");
        quoted(it.owner);
        text(it.vip ? ",\"vip\":true}" : ",\"vip\":false}");
    }

    void append(const Out &other) { bytes_.append(other.bytes_); }
    std::size_t size() const { return bytes_.size(); }
    void cut(std::size_t size) { bytes_.resize(size); }

    bool flush() {
        for (std::size_t at = 0; at < bytes_.size();) {
            ssize_t wrote = ::write(STDOUT_FILENO, bytes_.data() + at, bytes_.size() - at);
            if (wrote <= 0) {
                return false;
            }
            at += static_cast<std::size_t>(wrote);
        }
        bytes_.clear();
        return true;
    }

private:
    void escaped(char c) {
        constexpr std::string_view from = "\"\\\b\t\n\f\r", to = "\"\\btnfr";
        if (auto at = from.find(c); at != from.npos) {
            bytes_.push_back('\\');
            bytes_.push_back(to[at]);
        } else {
            constexpr char digits[] = "0123456789abcdef";
            text("\\u00");
            bytes_.push_back(digits[(c >> 4) & 15]);
            bytes_.push_back(digits[c & 15]);
        }
    }

    std::string bytes_;
};

/// The members of a line; those that are absent are empty.
struct Command {
    using Element = simdjson::dom::element;
    std::string_view cmd;
    std::optional<std::string_view> index;
    std::optional<std::int64_t> id, n, revision, after, limit;
    std::optional<Element> before, key, row, set, add, lower, upper;
    bool rollback = false, reverse = false;

    /// False where a member is unknown or of another kind.
    bool read(Element line) {
        simdjson::dom::object members;
        if (line.get(members)) {
            return false;
        }
        for (auto [name, value] : members) {
            if (!member(name, value)) {
                return false;
            }
        }
        return !cmd.empty();
    }

private:
    static bool count(Element value, std::optional<std::int64_t> &to) {
        std::int64_t it;
        if (value.get(it) || it < 0) {
            return false;
        }
        to = it;
        return true;
    }

    bool member(std::string_view name, Element value) {
        if (name == "cmd") return !value.get(cmd);
        if (name == "id") return count(value, id);
        if (name == "index") {
            std::string_view it;
            if (value.get(it)) return false;
            index = it;
            return true;
        }
        if (name == "key") return key = value, true;
        if (name == "row") return row = value, true;
        if (name == "set") return set = value, true;
        if (name == "add") return add = value, true;
        if (name == "lower") return lower = value, true;
        if (name == "upper") return upper = value, true;
        if (name == "before") return before = value, true;
        if (name == "limit") return count(value, limit) && *limit >= 1 && *limit <= MOST_ROWS;
        if (name == "n") return count(value, n);
        if (name == "after") return count(value, after);
        if (name == "revision") return count(value, revision);
        if (name == "rollback") return !value.get(rollback);
        if (name == "reverse") return !value.get(reverse);
        return false;
    }
};

/// Answers lines over a table.
template <class Table>
class Front {
public:
    explicit Front(Table &table) : table_(table) {}

    /// Answers standard input to its end; the status of the program.
    int serve() {
        std::vector<char> buffer(PIECE + simdjson::SIMDJSON_PADDING);
        std::size_t filled = 0;
        for (;;) {
            if (buffer.size() < filled + PIECE + simdjson::SIMDJSON_PADDING) {
                buffer.resize(2 * buffer.size());
            }
            ssize_t came = ::read(STDIN_FILENO, buffer.data() + filled, buffer.size() - filled - simdjson::SIMDJSON_PADDING);
            if (came <= 0) {
                return came < 0;
            }
            filled += static_cast<std::size_t>(came);
            std::size_t at = 0;
            while (auto *end = static_cast<char *>(std::memchr(buffer.data() + at, '\n', filled - at))) {
                std::size_t next = static_cast<std::size_t>(end - buffer.data()) + 1;
                answer(buffer.data() + at, next - 1 - at);
                at = next;
                if (out_.size() >= PIECE && !out_.flush()) {
                    return 1;
                }
            }
            std::memmove(buffer.data(), buffer.data() + at, filled - at);
            filled -= at;
            if (!out_.flush()) {
                return 1;
            }
        }
    }

private:
    using Element = simdjson::dom::element;

    void answer(const char *line, std::size_t length) {
        if (length == 0) {
            return;
        }
        Element found;
        Command command;
        if (parser_.parse(line, length, false).get(found)) {
            refuse("json");
        } else if (!command.read(found) || !dispatch(command)) {
            refuse("form");
        }
    }

    void refuse(const char *word) {
        out_.text("{\"error\":\"");
        out_.text(word);
        out_.text("\",\"ok\":false}\n");
    }

    void reply(const char *before, std::int64_t number, const char *behind) {
        out_.text(before);
        out_.number(number);
        out_.text(behind);
    }

    bool reply(const Outcome &outcome, const char *before, const char *behind = ",\"ok\":true}\n") {
        if (!outcome.refusal) {
            reply(before, outcome.number, behind);
        } else {
            refuse(outcome);
        }
        return true;
    }

    bool plain(const Outcome &outcome) {
        if (!outcome.refusal) {
            out_.text("{\"ok\":true}\n");
        } else {
            refuse(outcome);
        }
        return true;
    }

    void refuse(const Outcome &outcome) {
        if (std::strcmp(outcome.refusal, "unique") != 0) {
            return refuse(outcome.refusal);
        }
        reply("{\"error\":\"unique\",\"id\":", outcome.number, ",\"index\":\"by_owner\"");
        if (outcome.lost >= 0) {
            out_.text(outcome.lost ? ",\"lost\":true" : ",\"lost\":false");
        }
        out_.text(",\"ok\":false}\n");
    }

    /// One row, or `id`.
    template <class Look>
    bool one(Look &&look) {
        const std::size_t begin = out_.size();
        out_.text("{\"ok\":true,\"row\":");
        if (look([this](const RowView &it) { out_.row(it); })) {
            out_.text("}\n");
        } else {
            out_.cut(begin);
            refuse("id");
        }
        return true;
    }

    /// A page. `more` stands before the rows and is known behind them, so these are written first.
    template <class Look>
    bool page(Look &&look) {
        rows_.cut(0);
        bool first = true;
        auto emit = [&](const RowView &it) {
            if (!first) {
                rows_.text(",");
            }
            first = false;
            rows_.row(it);
        };
        std::optional<bool> more = look(emit);
        if (!more) {
            refuse("id");
            return true;
        }
        out_.text(*more ? "{\"more\":true,\"ok\":true,\"rows\":[" : "{\"more\":false,\"ok\":true,\"rows\":[");
        out_.append(rows_);
        out_.text("]}\n");
        return true;
    }

    static bool index_of(const Command &it, Index &index) {
        if (!it.index) {
            return false;
        }
        for (int x = 0; x < 6; x++) {
            if (*it.index == INDEX_NAMES[x]) {
                index = static_cast<Index>(x);
                return true;
            }
        }
        return false;
    }

    static bool read_key(Index index, const std::optional<Element> &from, Key &key) {
        simdjson::dom::array values;
        if (!from || from->get(values) || values.size() == 0 || values.size() > (index == Index::ByClass ? 2 : 1)) {
            return false;
        }
        for (Element value : values) {
            const bool is_flag = index == Index::ByVip || (index == Index::ByClass && key.parts == 0);
            const bool bad = is_flag ? value.get(key.vip) : index == Index::ByOwner ? value.get(key.owner) : value.get(key.number);
            if (bad) {
                return false;
            }
            key.parts++;
        }
        return index != Index::Line;
    }

    static bool read_bound(Index index, const std::optional<Element> &from, const char *with, const char *without, std::optional<Bound> &to) {
        if (!from) {
            return true;
        }
        simdjson::dom::object members;
        if (from->get(members) || members.size() != 1) {
            return false;
        }
        auto [name, value] = *members.begin();
        if (name != with && name != without) {
            return false;
        }
        to.emplace();
        to->with_equals = name == with;
        return read_key(index, value, to->key);
    }

    static bool read_row(const std::optional<Element> &from, RowView &row) {
        simdjson::dom::object members;
        if (!from || from->get(members)) {
            return false;
        }
        int seen = 0;
        for (auto [name, value] : members) {
            const bool fits = name == "owner" ? !value.get(row.owner) : name == "balance" ? !value.get(row.balance) : name == "vip" && !value.get(row.vip);
            if (!fits) {
                return false;
            }
            seen++;
        }
        return seen == 3;
    }

    static bool read_edits(const Command &it, Edits &edits) {
        simdjson::dom::object members;
        if (it.set) {
            if (it.set->get(members)) return false;
            for (auto [name, value] : members) {
                std::string_view owner;
                std::int64_t balance;
                bool vip;
                if (name == "owner" && !value.get(owner)) edits.owner = owner;
                else if (name == "balance" && !value.get(balance)) edits.balance = balance;
                else if (name == "vip" && !value.get(vip)) edits.vip = vip;
                else return false;
            }
        }
        if (it.add) {
            if (it.add->get(members)) return false;
            for (auto [name, value] : members) {
                std::int64_t more;
                if (name != "balance" || value.get(more) || edits.balance) return false;
                edits.more_balance = more;
            }
        }
        return true;
    }

    /// The record that `before` names, none where it is absent or null; false where it is neither.
    static bool read_place(const std::optional<Element> &from, std::optional<std::int64_t> &id) {
        if (!from || from->is_null()) {
            return true;
        }
        std::int64_t it;
        if (from->is_object() ? (*from)["id"].get(it) : from->get(it)) {
            return false;
        }
        id = it;
        return true;
    }

    /// False where it is no command of this peer.
    bool dispatch(const Command &it) {
        if (it.index) {
            return indexed(it);
        }
        if (it.cmd == "get") return it.id && one([&](auto emit) { return table_.get(*it.id, emit); });
        if (it.cmd == "insert" || it.cmd == "replace" || it.cmd == "modify") return change(it);
        if (it.cmd == "erase") return it.id && plain(table_.erase(*it.id));
        if (it.cmd == "start") return reply(table_.start(), "{\"ok\":true,\"revision\":", "}\n");
        if (it.cmd == "undo") return reply(table_.undo(), "{\"ok\":true,\"revision\":", "}\n");
        if (it.cmd == "squash") return reply(table_.squash(), "{\"ok\":true,\"revision\":", "}\n");
        if (it.cmd == "commit") return it.revision && reply(table_.commit(*it.revision), "{\"committed\":");
        if (it.cmd == "undo_all") return reply(table_.undo_all(), "{\"ok\":true,\"undone\":", "}\n");
        if (it.cmd == "size") return reply(Outcome::of(table_.size()), "{\"ok\":true,\"size\":", "}\n");
        return false;
    }

    bool change(const Command &it) {
        RowView row;
        Edits edits;
        std::optional<std::int64_t> before;
        if (it.cmd == "insert") {
            return read_row(it.row, row) && read_place(it.before, before) && reply(table_.insert(row, before), "{\"id\":");
        }
        if (!it.id) {
            return false;
        }
        if (it.cmd == "replace") {
            row.id = *it.id;
            return read_row(it.row, row) && plain(table_.replace(row));
        }
        return read_edits(it, edits) && plain(table_.modify(*it.id, edits, it.rollback));
    }

    bool indexed(const Command &it) {
        Index index;
        if (!index_of(it, index)) {
            return false;
        }
        if (it.cmd == "range") {
            Range range{index, {}, {}, it.reverse, it.limit.value_or(MOST_ROWS)};
            return read_bound(index, it.lower, "ge", "gt", range.lower) && read_bound(index, it.upper, "le", "lt", range.upper) &&
                   Table::has_range(range) && page([&](auto emit) { return std::optional(table_.range(range, emit)); });
        }
        if (it.cmd == "rank") return it.id && Table::has_rank(index) && reply(table_.rank(index, *it.id), "{\"ok\":true,\"rank\":", "}\n");
        if (it.cmd == "relocate") {
            std::optional<std::int64_t> before;
            return index == Index::Line && it.id && read_place(it.before, before) && plain(table_.relocate(*it.id, before));
        }
        if (it.cmd == "nth") return it.n && Table::has_rank(index) && one([&](auto emit) { return table_.nth(index, *it.n, emit); });
        if (it.cmd == "list") return index == Index::Line && page([&](auto emit) { return table_.list(it.after, it.limit.value_or(MOST_ROWS), emit); });
        Key key;
        return read_key(index, it.key, key) && keyed(it.cmd, index, key);
    }

    /// The commands of a key.
    bool keyed(std::string_view cmd, Index index, const Key &key) {
        if (cmd == "find") return Table::has_key(index) && one([&](auto emit) { return table_.find(index, key, emit); });
        if (cmd == "count") return Table::has_key(index) && reply(Outcome::of(table_.count(index, key)), "{\"count\":");
        if constexpr (Table::HAS_ALL) {
            return unmeasured(cmd, index, key);
        }
        return false;
    }

    /// Those that no workload has.
    bool unmeasured(std::string_view cmd, Index index, const Key &key) {
        if (cmd == "erase_key") return reply(Outcome::of(table_.erase_key(index, key)), "{\"erased\":");
        if (!Table::has_rank(index)) return false;
        if (cmd == "lower_rank") return reply(Outcome::of(table_.lower_rank(index, key)), "{\"ok\":true,\"rank\":", "}\n");
        if (cmd == "upper_rank") return reply(Outcome::of(table_.upper_rank(index, key)), "{\"ok\":true,\"rank\":", "}\n");
        return false;
    }

    Table &table_;
    simdjson::dom::parser parser_;
    Out out_, rows_;
};

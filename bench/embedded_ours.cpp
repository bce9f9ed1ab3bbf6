// The library in the loops of `embedded.cpp`: by calls with values, and by lines of JSON.
#include "embedded.hpp"

#include <cstring>
#include <fstream>
#include <iterator>

#include <weltiyo.h>

namespace {

constexpr std::size_t COLUMNS = 3, LONGEST_TEXT = 1024;
constexpr std::uint64_t CONNECTION = 1;
// (the index of ids is 0)
constexpr std::size_t BY_OWNER = 1, BY_BALANCE = 2, LINE = 5;

struct Close {
    void operator()(weltiyo_db *it) const { weltiyo_close(it); }
};
using Database = std::unique_ptr<weltiyo_db, Close>;

Database opened(const char *schema) {
    std::ifstream file(schema, std::ios::binary);
    const std::string text{std::istreambuf_iterator<char>(file), {}};
    weltiyo_db *db = nullptr;
    if (text.empty() || weltiyo_open(text.data(), text.size(), 1, &db) != WELTIYO_OK) {
        stop(std::string(schema) + " isn't opened");
    }
    return Database(db);
}

weltiyo_told well(weltiyo_told told) {
    if (told.status != 0) {
        stop(weltiyo_refusal_word(told.status));
    }
    return told;
}

weltiyo_value number(std::int64_t it) { return {WELTIYO_INT, it, 0, 0}; }

class Ours : public System {
public:
    explicit Ours(const char *schema) : db_(opened(schema)) {}

    void insert(const std::string &owner, std::int64_t balance, bool vip) override {
        const weltiyo_value row[] = {{WELTIYO_TEXT, 0, 0, owner.size()}, number(balance), {vip ? WELTIYO_TRUE : WELTIYO_FALSE, 0, 0, 0}};
        well(weltiyo_insert(db(), CONNECTION, 0, row, COLUMNS, owner.data(), owner.size()));
    }

    void erase(std::int64_t id) override { well(weltiyo_erase(db(), CONNECTION, 0, static_cast<std::uint64_t>(id))); }

    void add(std::int64_t id, std::int64_t more) override {
        well(weltiyo_modify_add(db(), CONNECTION, 0, static_cast<std::uint64_t>(id), 1, more, 1));
    }

    void add_undone(std::int64_t id, std::int64_t more) override {
        well(weltiyo_start(db(), CONNECTION));
        add(id, more);
        well(weltiyo_undo(db(), CONNECTION));
    }

    void add_squashed(std::int64_t id, std::int64_t more) override {
        well(weltiyo_start(db(), CONNECTION));
        add(id, more);
        well(weltiyo_squash(db(), CONNECTION));
    }

    void start_and_undo() override {
        well(weltiyo_start(db(), CONNECTION));
        well(weltiyo_undo(db(), CONNECTION));
    }

    std::int64_t balance(std::int64_t id) override {
        Row row;
        well(weltiyo_get(db(), 0, static_cast<std::uint64_t>(id), row.values, COLUMNS, row.texts, sizeof row.texts));
        return row.values[1].integer;
    }

    std::int64_t find(const std::string &owner) override {
        const weltiyo_value key = {WELTIYO_TEXT, 0, 0, owner.size()};
        Row row;
        well(weltiyo_find(db(), 0, BY_OWNER, &key, 1, owner.data(), owner.size(), row.values, COLUMNS, row.texts, sizeof row.texts));
        return row.values[1].integer;
    }

    std::int64_t find_sorted(std::int64_t balance) override {
        const weltiyo_value key = number(balance);
        Row row;
        const weltiyo_told told = weltiyo_find(db(), 0, BY_BALANCE, &key, 1, "", 0, row.values, COLUMNS, row.texts, sizeof row.texts);
        return told.status == WELTIYO_REFUSED_ID ? ABSENT : static_cast<std::int64_t>(well(told).number);
    }

    std::int64_t count(std::int64_t balance) override {
        const weltiyo_value key = number(balance);
        return static_cast<std::int64_t>(well(weltiyo_count(db(), 0, BY_BALANCE, &key, 1, "", 0)).number);
    }

    std::int64_t rank(std::int64_t id) override {
        return static_cast<std::int64_t>(well(weltiyo_rank(db(), 0, BY_BALANCE, static_cast<std::uint64_t>(id))).number);
    }

    std::int64_t nth(std::int64_t n) override {
        Row row;
        const auto place = static_cast<std::uint64_t>(n);
        return static_cast<std::int64_t>(well(weltiyo_nth(db(), 0, BY_BALANCE, place, row.values, COLUMNS, row.texts, sizeof row.texts)).number);
    }

    std::uint64_t ten_from(std::int64_t balance) override {
        const weltiyo_value key = number(balance);
        return range(WELTIYO_INCLUDED, &key, WELTIYO_OPEN, &key, 0, TEN);
    }

    std::uint64_t between(std::int64_t lower, std::int64_t upper) override {
        const weltiyo_value keys[] = {number(lower), number(upper)};
        return range(WELTIYO_INCLUDED, &keys[0], WELTIYO_EXCLUDED, &keys[1], 0, MOST);
    }

    std::uint64_t ten_below(std::int64_t balance) override {
        const weltiyo_value key = number(balance);
        return range(WELTIYO_OPEN, &key, WELTIYO_EXCLUDED, &key, 1, TEN);
    }

    std::uint64_t ten_behind(std::int64_t id) override {
        const auto after = static_cast<std::uint64_t>(id);
        return sum(well(weltiyo_list(db(), 0, LINE, 1, after, ids_, TEN, rows_, COLUMNS * TEN, texts_, sizeof texts_)).number);
    }

private:
    struct Row {
        weltiyo_value values[COLUMNS];
        char texts[LONGEST_TEXT];
    };

    std::uint64_t range(std::uint32_t lower, const weltiyo_value *from, std::uint32_t upper, const weltiyo_value *to, std::uint32_t reverse, std::size_t most) {
        const weltiyo_told told = well(weltiyo_range(db(), 0, BY_BALANCE, lower, from, lower != WELTIYO_OPEN, upper, to, upper != WELTIYO_OPEN, "", 0,
                                                     reverse, ids_, most, rows_, COLUMNS * most, texts_, sizeof texts_));
        return sum(told.number);
    }

    std::uint64_t sum(std::uint64_t count) const {
        Sum sum;
        for (std::size_t n = 0; n < count; n++) {
            const weltiyo_value *row = weltiyo_row(rows_, COLUMNS, n);
            sum.add(static_cast<std::int64_t>(ids_[n]), row[1].integer, row[2].kind == WELTIYO_TRUE, row[0].length);
        }
        return sum.value();
    }

    weltiyo_db *db() { return db_.get(); }

    Database db_;
    std::uint64_t ids_[MOST];
    weltiyo_value rows_[COLUMNS * MOST];
    char texts_[MOST * LONGEST_TEXT];
};

class Lines : public System {
public:
    explicit Lines(const char *schema) : db_(opened(schema)) {}

    void insert(const std::string &owner, std::int64_t balance, bool vip) override {
        ask("{\"cmd\":\"insert\",\"row\":{\"owner\":\"%s\",\"balance\":%lld,\"vip\":%s}}", owner.c_str(), wide(balance), vip ? "true" : "false");
    }

    void erase(std::int64_t id) override { ask("{\"cmd\":\"erase\",\"id\":%lld}", wide(id)); }

    void add(std::int64_t id, std::int64_t more) override {
        ask("{\"cmd\":\"modify\",\"id\":%lld,\"add\":{\"balance\":%lld},\"rollback\":true}", wide(id), wide(more));
    }

    void add_undone(std::int64_t id, std::int64_t more) override {
        ask("{\"cmd\":\"start\"}");
        add(id, more);
        ask("{\"cmd\":\"undo\"}");
    }

    void add_squashed(std::int64_t id, std::int64_t more) override {
        ask("{\"cmd\":\"start\"}");
        add(id, more);
        ask("{\"cmd\":\"squash\"}");
    }

    void start_and_undo() override {
        ask("{\"cmd\":\"start\"}");
        ask("{\"cmd\":\"undo\"}");
    }

    std::int64_t balance(std::int64_t id) override {
        ask("{\"cmd\":\"get\",\"id\":%lld}", wide(id));
        return number(out_, "\"balance\":");
    }

    std::int64_t find(const std::string &owner) override {
        ask("{\"cmd\":\"find\",\"index\":\"by_owner\",\"key\":[\"%s\"]}", owner.c_str());
        return number(out_, "\"balance\":");
    }

    std::int64_t find_sorted(std::int64_t balance) override {
        const bool found = answered("{\"cmd\":\"find\",\"index\":\"by_balance\",\"key\":[%lld]}", wide(balance));
        if (!found && std::strcmp(out_, "{\"error\":\"id\",\"ok\":false}") != 0) {
            stop(out_);
        }
        return found ? number(out_, "\"id\":") : ABSENT;
    }

    std::int64_t count(std::int64_t balance) override {
        ask("{\"cmd\":\"count\",\"index\":\"by_balance\",\"key\":[%lld]}", wide(balance));
        return number(out_, "\"count\":");
    }

    std::int64_t rank(std::int64_t id) override {
        ask("{\"cmd\":\"rank\",\"index\":\"by_balance\",\"id\":%lld}", wide(id));
        return number(out_, "\"rank\":");
    }

    std::int64_t nth(std::int64_t n) override {
        ask("{\"cmd\":\"nth\",\"index\":\"by_balance\",\"n\":%lld}", wide(n));
        return number(out_, "\"id\":");
    }

    std::uint64_t ten_from(std::int64_t balance) override {
        ask("{\"cmd\":\"range\",\"index\":\"by_balance\",\"lower\":{\"ge\":[%lld]},\"limit\":10}", wide(balance));
        return sum();
    }

    std::uint64_t between(std::int64_t lower, std::int64_t upper) override {
        ask("{\"cmd\":\"range\",\"index\":\"by_balance\",\"lower\":{\"ge\":[%lld]},\"upper\":{\"lt\":[%lld]},\"limit\":64}", wide(lower), wide(upper));
        return sum();
    }

    std::uint64_t ten_below(std::int64_t balance) override {
        ask("{\"cmd\":\"range\",\"index\":\"by_balance\",\"upper\":{\"lt\":[%lld]},\"reverse\":true,\"limit\":10}", wide(balance));
        return sum();
    }

    std::uint64_t ten_behind(std::int64_t id) override {
        ask("{\"cmd\":\"list\",\"index\":\"line\",\"after\":%lld,\"limit\":10}", wide(id));
        return sum();
    }

private:
    static long long wide(std::int64_t it) { return it; }

    static std::int64_t number(const char *reply, const char *name) {
        return std::strtoll(std::strstr(reply, name) + std::strlen(name), nullptr, 10);
    }

    /// Of the rows of the page that was answered.
    std::uint64_t sum() const {
        Sum sum;
        const char *end = out_;
        for (const char *row = out_; (row = std::strstr(row, "{\"balance\":")) != nullptr; row = end) {
            const char *owner = std::strstr(row, "\"owner\":\"") + 9;
            end = std::strchr(owner, '"');
            sum.add(number(row, "\"id\":"), number(row, "\"balance\":"), end[8] == 't', static_cast<std::size_t>(end - owner));
        }
        return sum.value();
    }

    /// Asks a line; whether it isn't refused.
    template <class... Words>
    bool answered(const char *line, Words... words) {
        char text[256];
        const int length = std::snprintf(text, sizeof text, line, words...);
        const std::size_t came = weltiyo_ask(db_.get(), CONNECTION, text, static_cast<std::size_t>(length), out_, sizeof out_ - 1);
        if (came >= sizeof out_) {
            stop("a reply is longer than there is room for");
        }
        out_[came] = 0;
        return std::strncmp(out_, "{\"error\"", 8) != 0;
    }

    template <class... Words>
    void ask(const char *line, Words... words) {
        if (!answered(line, words...)) {
            stop(out_);
        }
    }

    Database db_;
    char out_[MOST * 128];
};

} // namespace

std::unique_ptr<System> made(const std::string &name, const char *schema) {
    if (name == "ours") {
        return std::make_unique<Ours>(schema);
    }
    if (name == "lines") {
        return std::make_unique<Lines>(schema);
    }
    stop("a system: ours or lines");
}

std::string version() { return "Weltiyo " WELTIYO_VERSION; }

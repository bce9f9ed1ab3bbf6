// A stand-in for the library, for tests of the bindings where it isn't built: a table of (text, number, flag) whose rows are listed in the
// order of their ids, and whose first column is unique by index 1. It does of each call what those tests ask for, and ends the process where a
// caller doesn't keep what weltiyo.h says of handles and pointers.
#include <algorithm>
#include <cstdio>
#include <cstdlib>
#include <cstring>
#include <iterator>
#include <map>
#include <set>
#include <string>
#include <vector>

#include <weltiyo.h>

struct Record {
    std::string text;
    int64_t number;
    bool flag;
};

using Table = std::map<uint64_t, Record>;

struct Saved {
    uint64_t connection;
    Table table;
};

struct weltiyo_db {
    Table table;
    uint64_t next = 0;
    std::vector<Saved> sessions;
    std::string reply, schema;
};

static thread_local std::set<weltiyo_db *> opened; // (a handle stays on its thread)

static void owe(bool is_kept, const char *call, const char *what) {
    if (!is_kept) {
        std::fprintf(stderr, "%s: %s\n", call, what);
        std::abort();
    }
}

#define NOT_NULL(it) owe((it) != nullptr, __func__, "null " #it)

static void owe_handle(weltiyo_db *handle, const char *call) {
    owe(handle != nullptr, call, "null handle");
    owe(opened.count(handle) == 1, call, "the handle is closed, or another thread's");
}

#define OPEN(handle) owe_handle(handle, __func__)

static weltiyo_told told(uint64_t number) { return {0, 0, number}; }

static weltiyo_told refused(uint32_t status) { return {status, 0, 0}; }

static bool is_kept_out(const weltiyo_db *handle, uint64_t connection) {
    return !handle->sessions.empty() && handle->sessions.back().connection != connection;
}

// Ends the newest session of a connection, and takes back what was done in it where it is undone.
static weltiyo_told end_session(weltiyo_db *handle, uint64_t connection, bool is_undone) {
    if (is_kept_out(handle, connection))
        return refused(WELTIYO_REFUSED_BUSY);
    if (handle->sessions.empty())
        return refused(WELTIYO_REFUSED_SESSION);
    if (is_undone)
        handle->table = handle->sessions.back().table;
    handle->sessions.pop_back();
    return told(handle->sessions.size());
}

// Copies rows of so many bytes of texts, one behind another.
static weltiyo_told copied(const std::vector<Table::const_iterator> &rows, size_t bytes, uint64_t *ids, weltiyo_value *out, char *texts) {
    size_t at = bytes;
    for (size_t n = rows.size(); n-- > 0;) {
        const Record &it = rows[n]->second;
        at -= it.text.size();
        if (ids != nullptr)
            ids[n] = rows[n]->first;
        std::copy(it.text.begin(), it.text.end(), texts + at);
        out[3 * n] = {WELTIYO_TEXT, 0, at, it.text.size()};
        out[3 * n + 1] = {WELTIYO_INT, it.number, 0, 0};
        out[3 * n + 2] = {static_cast<uint32_t>(it.flag ? WELTIYO_TRUE : WELTIYO_FALSE), 0, 0, 0};
    }
    return told(rows.size());
}

static std::string number_of(const char *name, weltiyo_told it) {
    if (it.status != 0)
        return std::string("{\"error\":\"") + weltiyo_refusal_word(it.status) + "\",\"ok\":false}";
    return std::string("{\"ok\":true,\"") + name + "\":" + std::to_string(it.number) + "}";
}

static std::string answer(weltiyo_db *handle, uint64_t connection, const std::string &line) {
    if (line == R"({"cmd":"start"})")
        return number_of("revision", weltiyo_start(handle, connection));
    if (line == R"({"cmd":"undo"})")
        return number_of("revision", weltiyo_undo(handle, connection));
    if (line == R"({"cmd":"size"})")
        return number_of("size", weltiyo_size(handle, 0));
    if (line != R"({"cmd":"revision"})")
        return "{\"error\":\"form\",\"ok\":false}";
    const std::string depth = std::to_string(handle->sessions.size());
    return "{\"depth\":" + depth + ",\"held\":" + (is_kept_out(handle, connection) ? "0" : depth) + ",\"ok\":true,\"revision\":" + depth + "}";
}

extern "C" {

uint32_t weltiyo_open(const void *schema, size_t length, uint64_t, weltiyo_db **handle) {
    NOT_NULL(schema);
    *handle = new weltiyo_db;
    (*handle)->schema.assign(static_cast<const char *>(schema), length);
    opened.insert(*handle);
    return WELTIYO_OK;
}

void weltiyo_close(weltiyo_db *handle) {
    OPEN(handle);
    opened.erase(handle);
    delete handle;
}

void weltiyo_release(weltiyo_db *handle, uint64_t connection) {
    OPEN(handle);
    while (!handle->sessions.empty() && !is_kept_out(handle, connection))
        end_session(handle, connection, true);
}

size_t weltiyo_ask(weltiyo_db *handle, uint64_t connection, const void *line, size_t length, void *out, size_t room) {
    OPEN(handle);
    NOT_NULL(line);
    handle->reply = answer(handle, connection, std::string(static_cast<const char *>(line), length));
    weltiyo_reply(handle, 0, out, room);
    return handle->reply.size();
}

size_t weltiyo_reply(weltiyo_db *handle, size_t from, void *out, size_t room) {
    OPEN(handle);
    NOT_NULL(out);
    const size_t count = std::min(room, handle->reply.size() - std::min(from, handle->reply.size()));
    std::memcpy(out, handle->reply.data() + from, count);
    return count;
}

weltiyo_told weltiyo_start(weltiyo_db *handle, uint64_t connection) {
    OPEN(handle);
    if (is_kept_out(handle, connection))
        return refused(WELTIYO_REFUSED_BUSY);
    handle->sessions.push_back({connection, handle->table});
    return told(handle->sessions.size());
}

weltiyo_told weltiyo_undo(weltiyo_db *handle, uint64_t connection) {
    OPEN(handle);
    return end_session(handle, connection, true);
}

weltiyo_told weltiyo_squash(weltiyo_db *handle, uint64_t connection) {
    OPEN(handle);
    return end_session(handle, connection, false);
}

weltiyo_told weltiyo_undo_all(weltiyo_db *handle, uint64_t connection) {
    OPEN(handle);
    const size_t count = handle->sessions.size();
    while (end_session(handle, connection, true).status == 0)
        continue;
    return told(count);
}

weltiyo_told weltiyo_insert(weltiyo_db *handle, uint64_t connection, size_t, const weltiyo_value *row, size_t count, const void *texts, size_t) {
    OPEN(handle);
    NOT_NULL(row);
    NOT_NULL(texts);
    if (is_kept_out(handle, connection))
        return refused(WELTIYO_REFUSED_BUSY);
    if (count != 3 || row[0].kind != WELTIYO_TEXT || row[1].kind != WELTIYO_INT || row[2].kind < WELTIYO_FALSE)
        return refused(WELTIYO_REFUSED_ROW);
    const std::string text(weltiyo_text(texts, &row[0]), row[0].length);
    for (const auto &it : handle->table)
        if (it.second.text == text)
            return {WELTIYO_REFUSED_UNIQUE, 1, it.first};
    handle->table[handle->next] = {text, row[1].integer, row[2].kind == WELTIYO_TRUE};
    return told(handle->next++);
}

// (of a record that isn't there alone)
weltiyo_told weltiyo_modify(weltiyo_db *handle, uint64_t connection, size_t, uint64_t, const weltiyo_edit *edits, size_t count, const void *texts,
                            size_t, uint32_t) {
    OPEN(handle);
    NOT_NULL(edits);
    NOT_NULL(texts);
    if (is_kept_out(handle, connection))
        return refused(WELTIYO_REFUSED_BUSY);
    const uint32_t least[] = {WELTIYO_TEXT, WELTIYO_INT, WELTIYO_FALSE}, most[] = {WELTIYO_TEXT, WELTIYO_INT, WELTIYO_TRUE};
    for (size_t n = 0; n < count; n++)
        if (edits[n].column > 2 || edits[n].value.kind < least[edits[n].column] || edits[n].value.kind > most[edits[n].column])
            return refused(WELTIYO_REFUSED_ROW);
    return refused(WELTIYO_REFUSED_ID);
}

// the place of a name among some, or this refusal
static weltiyo_told named(const std::vector<std::string> &names, const void *name, size_t length, uint32_t refusal) {
    const auto found = std::find(names.begin(), names.end(), std::string(static_cast<const char *>(name), length));
    return found == names.end() ? refused(refusal) : told(static_cast<uint64_t>(found - names.begin()));
}

weltiyo_told weltiyo_table(weltiyo_db *handle, const void *name, size_t length) {
    OPEN(handle);
    NOT_NULL(name);
    return named({"accounts"}, name, length, WELTIYO_REFUSED_TABLE);
}

weltiyo_told weltiyo_index(weltiyo_db *handle, size_t table, const void *name, size_t length) {
    OPEN(handle);
    NOT_NULL(name);
    return table == 0 ? named({"id", "by_owner"}, name, length, WELTIYO_REFUSED_INDEX) : refused(WELTIYO_REFUSED_TABLE);
}

weltiyo_told weltiyo_column(weltiyo_db *handle, size_t table, const void *name, size_t length) {
    OPEN(handle);
    NOT_NULL(name);
    return table == 0 ? named({"owner", "balance", "vip"}, name, length, WELTIYO_REFUSED_ROW) : refused(WELTIYO_REFUSED_TABLE);
}

weltiyo_told weltiyo_size(weltiyo_db *handle, size_t) {
    OPEN(handle);
    return told(handle->table.size());
}

weltiyo_told weltiyo_get(weltiyo_db *handle, size_t, uint64_t id, weltiyo_value *row, size_t count, void *texts, size_t room) {
    OPEN(handle);
    NOT_NULL(row);
    NOT_NULL(texts);
    const auto found = handle->table.find(id);
    if (found == handle->table.end())
        return refused(WELTIYO_REFUSED_ID);
    const size_t bytes = found->second.text.size();
    if (count < 3 || room < bytes)
        return {WELTIYO_NO_ROOM, 3, bytes};
    copied({found}, bytes, nullptr, row, static_cast<char *>(texts));
    return told(id);
}

// (by the text)
weltiyo_told weltiyo_find(weltiyo_db *handle, size_t table, size_t, const weltiyo_value *key, size_t, const void *key_texts, size_t,
                          weltiyo_value *row, size_t count, void *texts, size_t room) {
    OPEN(handle);
    NOT_NULL(key);
    NOT_NULL(key_texts);
    const std::string text(weltiyo_text(key_texts, key), key->length);
    for (const auto &it : handle->table)
        if (it.second.text == text)
            return weltiyo_get(handle, table, it.first, row, count, texts, room);
    return refused(WELTIYO_REFUSED_ID);
}

weltiyo_told weltiyo_list(weltiyo_db *handle, size_t, size_t, uint32_t, uint64_t, uint64_t *ids, size_t most, weltiyo_value *rows, size_t values,
                          void *texts, size_t room) {
    OPEN(handle);
    NOT_NULL(ids);
    NOT_NULL(rows);
    NOT_NULL(texts);
    std::vector<Table::const_iterator> shown;
    size_t bytes = 0;
    for (auto it = handle->table.cbegin(); it != handle->table.cend() && shown.size() < std::min<size_t>(most, WELTIYO_MOST_ROWS); ++it) {
        shown.push_back(it);
        bytes += it->second.text.size();
    }
    if (values < 3 * shown.size() || room < bytes)
        return {WELTIYO_NO_ROOM, static_cast<uint32_t>(3 * shown.size()), bytes};
    weltiyo_told page = copied(shown, bytes, ids, rows, static_cast<char *>(texts));
    page.index = shown.size() < handle->table.size();
    return page;
}

// (both indexes list the rows in the order of their ids)
static weltiyo_told at(const weltiyo_db *handle, Table::const_iterator it) {
    return it == handle->table.end() ? refused(WELTIYO_END) : told(it->first);
}

weltiyo_told weltiyo_first_id(weltiyo_db *handle, size_t, size_t index) {
    OPEN(handle);
    return index == 0 ? at(handle, handle->table.begin()) : refused(WELTIYO_REFUSED_KIND);
}

weltiyo_told weltiyo_last_id(weltiyo_db *handle, size_t, size_t index) {
    OPEN(handle);
    if (index != 0)
        return refused(WELTIYO_REFUSED_KIND);
    return at(handle, handle->table.empty() ? handle->table.end() : std::prev(handle->table.end()));
}

weltiyo_told weltiyo_at_rank_id(weltiyo_db *handle, size_t, size_t index, uint64_t n) {
    OPEN(handle);
    if (index != 0)
        return refused(WELTIYO_REFUSED_KIND);
    return n < handle->table.size() ? told(std::next(handle->table.begin(), static_cast<std::ptrdiff_t>(n))->first) : refused(WELTIYO_END);
}

weltiyo_told weltiyo_seek_id(weltiyo_db *handle, size_t, size_t index, const weltiyo_value *key, size_t, const void *texts, size_t, uint32_t beyond) {
    OPEN(handle);
    NOT_NULL(key);
    NOT_NULL(texts);
    if (index != 0)
        return refused(WELTIYO_REFUSED_KIND);
    const auto id = static_cast<uint64_t>(std::max<int64_t>(key->integer, 0));
    return at(handle, beyond ? handle->table.upper_bound(id) : handle->table.lower_bound(id));
}

weltiyo_told weltiyo_find_id(weltiyo_db *handle, size_t, size_t, const weltiyo_value *key, size_t, const void *texts, size_t) {
    OPEN(handle);
    NOT_NULL(key);
    NOT_NULL(texts);
    const std::string text(weltiyo_text(texts, key), key->length);
    return at(handle, std::find_if(handle->table.begin(), handle->table.end(), [&](const auto &it) { return it.second.text == text; }));
}

weltiyo_told weltiyo_has_id(weltiyo_db *handle, size_t, uint64_t id) {
    OPEN(handle);
    return handle->table.count(id) == 0 ? refused(WELTIYO_GONE) : told(id);
}

weltiyo_told weltiyo_step_id(weltiyo_db *handle, size_t, size_t, uint64_t id, uint32_t back) {
    OPEN(handle);
    const auto it = handle->table.find(id);
    if (it == handle->table.end())
        return refused(WELTIYO_GONE);
    if (back)
        return it == handle->table.begin() ? refused(WELTIYO_END) : told(std::prev(it)->first);
    return at(handle, std::next(it));
}

weltiyo_field weltiyo_field_of(weltiyo_db *handle, size_t, uint64_t id, size_t column) {
    OPEN(handle);
    const auto it = handle->table.find(id);
    if (it == handle->table.end())
        return {WELTIYO_GONE, 0, 0};
    if (column > 2)
        return {WELTIYO_REFUSED_ROW, 0, 0};
    if (column == 1)
        return {0, WELTIYO_INT, it->second.number};
    return {0, static_cast<uint32_t>(column == 0 ? WELTIYO_TEXT : it->second.flag ? WELTIYO_TRUE : WELTIYO_FALSE), 0};
}

// a text to the front of bytes, if there is room
static weltiyo_told put(const std::string &text, void *out, size_t room) {
    if (room < text.size())
        return {WELTIYO_NO_ROOM, 1, text.size()};
    std::memcpy(out, text.data(), text.size());
    return told(text.size());
}

weltiyo_told weltiyo_text_in(weltiyo_db *handle, size_t, uint64_t id, size_t column, void *out, size_t room) {
    OPEN(handle);
    NOT_NULL(out);
    const auto it = handle->table.find(id);
    if (it == handle->table.end())
        return refused(WELTIYO_GONE);
    return column == 0 ? put(it->second.text, out, room) : refused(WELTIYO_REFUSED_ROW);
}

weltiyo_told weltiyo_index_name(weltiyo_db *handle, size_t, size_t index, void *out, size_t room) {
    OPEN(handle);
    NOT_NULL(out);
    return index < 2 ? put(index == 0 ? "id" : "by_owner", out, room) : refused(WELTIYO_REFUSED_INDEX);
}

weltiyo_told weltiyo_schema(weltiyo_db *handle, void *out, size_t room) {
    OPEN(handle);
    NOT_NULL(out);
    return put(handle->schema, out, room);
}

// (a page of a stand-in has no rows)
weltiyo_told weltiyo_range(weltiyo_db *handle, size_t, size_t, uint32_t, const weltiyo_value *, size_t, uint32_t, const weltiyo_value *, size_t,
                           const void *, size_t, uint32_t, uint64_t *, size_t, weltiyo_value *, size_t, void *, size_t) {
    OPEN(handle);
    return refused(WELTIYO_REFUSED_KIND);
}

weltiyo_told weltiyo_rank(weltiyo_db *handle, size_t, size_t index, uint64_t id) {
    OPEN(handle);
    if (index != 0)
        return refused(WELTIYO_REFUSED_KIND);
    const auto it = handle->table.find(id);
    return it == handle->table.end() ? refused(WELTIYO_GONE) : told(static_cast<uint64_t>(std::distance(handle->table.begin(), it)));
}

weltiyo_told weltiyo_erase(weltiyo_db *handle, uint64_t connection, size_t, uint64_t id) {
    OPEN(handle);
    if (is_kept_out(handle, connection))
        return refused(WELTIYO_REFUSED_BUSY);
    return handle->table.erase(id) == 0 ? refused(WELTIYO_REFUSED_ID) : told(0);
}
}

// Sessions of blocks, what is thrown, and who frees what. It prints `ok`, or the line of what differs.
#include <optional>
#include <string>
#include <utility>

#include "expect.hpp"
#include "moves.hpp"

using weltiyo::Database;
using weltiyo::Edit;
using weltiyo::Lower;
using weltiyo::Page;
using weltiyo::Place;
using weltiyo::Refused;
using weltiyo::Row;
using weltiyo::RowBuffer;
using weltiyo::Session;
using weltiyo::Upper;

static std::string insert(const std::string &owner) {
    return "{\"cmd\":\"insert\",\"row\":{\"owner\":" + weltiyo::quoted(owner) + ",\"balance\":1,\"vip\":false}}";
}

static std::string size(Database &db) { return db.ask(R"({"cmd":"size"})"); }

static void blocks() {
    Database db("", 1);
    db.ask(insert("ann"));
    try {
        auto session = db.start_undo_session();
        db.ask(insert("bob"));
        EXPECT(size(db) == R"({"ok":true,"size":2})");
        db.ask(insert("ann")); // (`by_owner` is unique)
        EXPECT(false);
    } catch (const Refused &it) {
        EXPECT(it.word() == "unique");
        EXPECT(it.reply() == R"({"error":"unique","id":0,"index":"by_owner","ok":false})");
    }
    EXPECT(size(db) == R"({"ok":true,"size":1})");
    EXPECT(db.revision() == 0);
    {
        auto outer = db.start_undo_session();
        {
            auto inner = db.start_undo_session();
            db.ask(insert("bob"));
            EXPECT(db.revision() == 2);
            inner.squash();
        }
        EXPECT(db.revision() == 1);
        EXPECT(size(db) == R"({"ok":true,"size":2})");
        outer.undo();
    }
    EXPECT(size(db) == R"({"ok":true,"size":1})");
}

// A pushed session outlives its block; the database ends it.
static void pushed() {
    Database db("", 2);
    for (const char *owner : {"ann", "bob"}) {
        auto session = db.start_undo_session();
        db.ask(insert(owner));
        session.push();
    }
    EXPECT(db.revision() == 2);
    EXPECT(refused([&] { db.ask(insert("eve"), 7); }) == "busy");
    db.undo();
    EXPECT(size(db) == R"({"ok":true,"size":1})");
    db.commit(1);
    EXPECT(refused([&] { db.undo(); }) == "session");
    EXPECT(size(db) == R"({"ok":true,"size":1})");
    auto moved = std::move(db).start_undo_session();
    db.ask(insert("bob"));
    moved.push();
    db.release(Database::own);
    EXPECT(size(db) == R"({"ok":true,"size":1})");
}

static std::uint64_t depth(Database &db) {
    const std::string reply = db.ask(R"({"cmd":"revision"})");
    return std::stoull(reply.substr(reply.find(':') + 1));
}

// What ends or pushes the session of a block beside its guard. `left` are those that are open then.
struct Beside {
    void (*done)(Database &);
    std::uint64_t left;
};

static const Beside beside[] = {
    {[](Database &db) { db.undo(); }, 1},
    {[](Database &db) { db.squash(); }, 1},
    {[](Database &db) { db.commit(db.revision()); }, 0},
    {[](Database &db) { db.undo_all(); }, 0},
    {[](Database &db) { db.push(); }, 2},
    {[](Database &db) { db.release(Database::own); }, 0},
    {[](Database &db) { db.ask(R"({"cmd":"undo"})"); }, 1},
    {[](Database &db) { db.ask(R"({"cmd":"squash"})"); }, 1},
    {[](Database &db) { db.ask(R"({"cmd":"commit","revision":9})"); }, 0},
    {[](Database &db) { db.ask(R"({"cmd":"undo_all"})"); }, 0},
    {[](Database &db) { db.ask(R"({"cmd":"push"})"); }, 2},
    // (another session takes the number of its own)
    {[](Database &db) { db.undo(), db.start_undo_session().push(); }, 2},
    {[](Database &db) { db.ask(R"({"cmd":"undo"})"), db.ask(R"({"cmd":"start"})"); }, 2},
    {[](Database &db) { db.push(), db.ask(R"({"cmd":"start"})", 7), db.ask(R"({"cmd":"push"})", 7); }, 3},
    {[](Database &db) { db.undo_all(), db.ask(R"({"cmd":"start"})", 7); }, 1},
};

// A guard never ends a session that isn't its own: not the pushed one below, once its own has ended.
static void ended_beside() {
    for (const Beside &it : beside) {
        Database db("", 7);
        db.start_undo_session().push();
        {
            auto session = db.start_undo_session();
            it.done(db);
            EXPECT(depth(db) == it.left);
        }
        EXPECT(depth(db) == it.left);
    }
}

// Nor the pushed one above: its own stays open below that.
static void pushed_within() {
    void (*const pushes[])(Database &) = {
        [](Database &db) { db.start_undo_session().push(); },
        [](Database &db) { db.ask(R"({"cmd":"start"})"), db.push(); },
        [](Database &db) { db.push(), db.ask(R"({"cmd":"start"})", 7), db.ask(R"({"cmd":"push"})", 7); },
    };
    for (const auto push : pushes) {
        Database db("", 8);
        {
            auto session = db.start_undo_session();
            db.ask(insert("ann"));
            push(db);
            db.ask(insert("bob"));
        }
        EXPECT(depth(db) == 2 && db.size(0) == 2);
        auto late = db.start_undo_session();
        push(db);
        EXPECT(refused([&] { late.squash(); }) == "session");
        EXPECT(depth(db) == 4);
    }
}

// What was begun within the block and is open still ends with it: by a line, or by a guard that outlives it.
static void begun_within() {
    Database db("", 9);
    db.ask(insert("ann"));
    {
        auto session = db.start_undo_session();
        db.ask(R"({"cmd":"start"})");
        db.ask(insert("bob"));
    }
    EXPECT(depth(db) == 0 && db.size(0) == 1);
    {
        std::optional<Session> outer(db.start_undo_session());
        auto inner = db.start_undo_session();
        Session moved = std::move(inner);
        db.ask(insert("bob"));
        outer.reset();
        EXPECT(depth(db) == 0 && db.size(0) == 1);
        db.start_undo_session().push();
        EXPECT(refused([&] { moved.squash(); }) == "session");
    }
    EXPECT(depth(db) == 1);
    auto outer = db.start_undo_session();
    auto inner = db.start_undo_session();
    db.ask(insert("bob"));
    outer.squash();
    EXPECT(depth(db) == 1 && db.size(0) == 2);
}

// Nested guards undo each its own, wherever they were moved to.
static void nested() {
    Database db("", 10);
    auto outer = db.start_undo_session();
    db.ask(insert("ann"));
    {
        auto middle = db.start_undo_session();
        db.ask(insert("bob"));
        Session moved = std::move(middle);
        {
            auto inner = db.start_undo_session();
            db.ask(insert("cid"));
            db.squash(); // (beside its guard)
        }
        EXPECT(depth(db) == 2 && db.size(0) == 3);
    }
    EXPECT(depth(db) == 1 && db.size(0) == 1);
    outer.undo();
    EXPECT(depth(db) == 0 && db.size(0) == 0);
}

// A session that was ended, pushed or moved from does nothing more.
template <class End> static void disarmed(End end) {
    Database db("", 6);
    auto outer = db.start_undo_session(), session = db.start_undo_session();
    end(session);
    const auto revision = db.revision();
    session.squash();
    session.undo();
    session.push();
    EXPECT(db.revision() == revision);
}

static void opening() {
    try {
        Database db("table = 1\n");
        EXPECT(false);
    } catch (const weltiyo::SchemaFault &fault) {
        EXPECT(std::string(fault.what()) == "schema: shape");
        EXPECT(fault.status() == WELTIYO_SHAPE);
    }
    Database one("", 3), two = std::move(one);
    EXPECT(one.handle() == nullptr && two.handle() != nullptr);
    one = Database("table = \"t\"\ncolumn = [{name = \"a\", type = \"text\"}]\n");
    one.ask("{\"cmd\":\"insert\",\"row\":{\"a\":" + weltiyo::quoted("a\"\\\n\x1f") + "}}");
    EXPECT(one.ask(R"({"cmd":"get","id":0})") == R"({"ok":true,"row":{"a":"a\"\\\n\u001f","id":0}})");
    EXPECT(size(two) == R"({"ok":true,"size":0})");
}

// A reply that is longer than what is fetched at once.
static void long_replies() {
    Database db("", 4);
    const std::string owner(1000, 'x');
    db.ask(insert(owner));
    EXPECT(db.ask(R"({"cmd":"get","id":0})") == R"({"ok":true,"row":{"balance":1,"id":0,"owner":")" + owner + R"(","vip":false}})");
}

// The same commands with values in place of a line.
static void values() {
    Database db("", 3);
    const auto ann = db.insert(0, {"ann é", 50, true});
    EXPECT(db.ask(R"({"cmd":"get","id":0})") == "{\"ok\":true,\"row\":{\"balance\":50,\"id\":0,\"owner\":\"ann é\",\"vip\":true}}");
    EXPECT(refused([&] { db.insert(0, {"ann é", 1, true}); }) == "unique");
    EXPECT(refused([&] { db.insert(0, {"bob", 1}); }) == "row");
    EXPECT(refused([&] { db.insert(1, {}); }) == "table");
    {
        auto session = db.start_undo_session();
        EXPECT(refused([&] { db.insert(0, {"eve", 1, true}, 7); }) == "busy");
        db.add(0, ann, 1, -60);
        EXPECT(db.get(0, ann)[1].number() == -10);
        db.replace(0, ann, {"", 1, false});
        EXPECT(db.get(0, ann)[0].text().empty() && !db.get(0, ann)[2].flag() && db.get(0, ann).size() == 3);
        db.erase(0, ann);
        EXPECT(refused([&] { db.get(0, ann); }) == "id");
    }
    EXPECT(db.get(0, ann)[0].text() == "ann é" && db.get(0, ann)[1].number() == 50);
}

// Indexes of the built-in table.
enum : std::size_t { by_id, by_owner, by_balance, by_vip, by_class, line };

// ann has 50, bob 7 and `vip`, eve 7, and so they arrived.
static Database filled() {
    Database db("", 5);
    EXPECT(db.insert(0, {"ann", 50, false}) == 0);
    EXPECT(db.insert(0, {"bob", 7, true}) == 1);
    EXPECT(db.insert(0, {"eve, whose name is long", 7, false}) == 2);
    return db;
}

static std::string ids(const Page &page) {
    std::string said;
    for (const auto row : page)
        said += std::to_string(row.id()) + ' ';
    return said;
}

static std::string listed(Database &db) {
    Page page;
    db.list(page, 0, line);
    return ids(page);
}

static void changes() {
    auto db = filled();
    EXPECT(db.insert(0, {"cid", 9, false}, Place{line, 1}) == 3);
    EXPECT(refused([&] { db.insert(0, {"dan", 9, false}, Place{line, 9}); }) == "id");
    EXPECT(refused([&] { db.insert(0, {"dan", 9, false}, Place{by_class, 1}); }) == "kind");
    EXPECT(listed(db) == "0 3 1 2 ");
    db.relocate(0, line, 0, 2);
    EXPECT(listed(db) == "3 1 0 2 ");
    db.relocate(0, line, 3);
    EXPECT(listed(db) == "1 0 2 3 ");
    db.modify(0, 1, {Edit::put(0, "Bob"), Edit::add(1, -7), Edit::put(2, false)});
    EXPECT((db.get(0, 1) == Row{"Bob", 0, false}));
    EXPECT(refused([&] { db.modify(0, 1, {Edit::put(0, "x"), Edit::put(0, "y")}); }) == "row");
    EXPECT(refused([&] { db.modify(0, 1, {Edit::put(0, "ann")}); }) == "unique");
    EXPECT(db.size(0) == 4);
    try {
        db.modify(0, 1, {Edit::put(0, "ann")}, false);
        EXPECT(false);
    } catch (const Refused &it) {
        EXPECT(it.told().status == WELTIYO_REFUSED_LOST && it.told().index == by_owner && it.told().number == 0);
    }
    EXPECT(db.size(0) == 3);
    db.start_undo_session().push();
    db.start_undo_session().push();
    EXPECT(db.erase_key(0, by_vip, {false}) == 3);
    EXPECT(db.size(0) == 0);
    EXPECT(db.push() == 2);
    EXPECT(db.undo_all() == 2);
    EXPECT(db.size(0) == 3 && db.undo_all() == 0);
    EXPECT(refused([&] { db.size(1); }) == "table");
}

// What a refusal says; or none where nothing is refused.
template <class Call> static std::string said(Call call) {
    try {
        call();
    } catch (const Refused &it) {
        return it.what();
    }
    return "";
}

static std::string of_column(const std::string &word, std::size_t column) {
    return "{\"error\":\"" + word + "\",\"column\":" + std::to_string(column) + ",\"ok\":false}";
}

// A refusal names the index and the record as a line's reply does, and the column that is at fault.
static void told_in_words() {
    auto db = filled();
    EXPECT(said([&] { db.insert(0, {"ann", 1, true}); }) == R"({"error":"unique","id":0,"index":1,"ok":false})");
    EXPECT(said([&] { db.replace(0, 1, {"ann", 1, true}); }) == R"({"error":"unique","id":0,"index":1,"ok":false})");
    EXPECT(said([&] { db.modify(0, 1, {Edit::put(0, "ann")}); }) == R"({"error":"unique","id":0,"index":1,"lost":false,"ok":false})");
    EXPECT(said([&] { db.modify(0, 2, {Edit::put(0, "ann")}, false); }) == R"({"error":"unique","id":0,"index":1,"lost":true,"ok":false})");
    EXPECT(said([&] { db.insert(0, {"bob", true, true}); }) == of_column("row", 1));
    EXPECT(said([&] { db.insert(0, {std::string(1025, 'x'), 1, true}); }) == of_column("row", 0));
    EXPECT(said([&] { db.insert(0, {"bob", 1}); }) == of_column("row", 2));
    EXPECT(said([&] { db.insert(0, {}); }) == of_column("row", 0));
    EXPECT(said([&] { db.insert(0, {"bob", 1, true, 4}); }) == of_column("row", 3));
    EXPECT(said([&] { db.insert(0, {"bob", 1, 0}, Place{line, 1}); }) == of_column("row", 2));
    EXPECT(said([&] { db.replace(0, 1, {"bob", "x", 0}); }) == of_column("row", 1));
    EXPECT(said([&] { db.add(0, 1, 2, 5); }) == of_column("row", 2));
    EXPECT(said([&] { db.add(0, 1, 1, INT64_MAX); }) == of_column("range", 1));
    EXPECT(said([&] { db.modify(0, 1, {Edit::put(1, 5), Edit::put(2, 5)}); }) == of_column("row", 2));
    EXPECT(said([&] { db.modify(0, 1, {Edit::add(1, 5), Edit::add(0, 5)}); }) == of_column("row", 0));
    EXPECT(said([&] { db.modify(0, 1, {Edit::put(2, true), Edit::put(0, "x"), Edit::put(2, false)}); }) == of_column("row", 2));
    EXPECT(said([&] { db.modify(0, 1, {Edit::put(0, "x"), Edit::add(1, INT64_MAX)}); }) == of_column("range", 1));
    EXPECT(said([&] { db.modify(0, 9, {Edit::put(0, "x")}); }) == R"({"error":"id","ok":false})");
    EXPECT((db.get(0, 1) == Row{"bob", 7, true}) && db.size(0) == 2);
    try {
        db.insert(0, {"bob", true, true}, 1);
        EXPECT(false);
    } catch (const Refused &it) {
        EXPECT(it.column() == 1u && it.word() == "row" && it.told().status == WELTIYO_REFUSED_ROW && Refused::is_one(it.reply()));
    }
}

static void look_ups() {
    auto db = filled();
    const auto bob = db.find(0, by_class, {true});
    EXPECT(bob && bob->id == 1 && (bob->row == Row{"bob", 7, true}));
    EXPECT(db.find(0, by_owner, {"eve, whose name is long"})->id == 2);
    EXPECT(!db.find(0, by_owner, {"eve"}));
    EXPECT(refused([&] { db.find(0, by_owner, {1}); }) == "key");
    EXPECT(refused([&] { db.find(0, by_class, {true, 7, 7, 7, 7, 7}); }) == "key");
    EXPECT(refused([&] { db.find(0, line, {1}); }) == "kind");
    EXPECT(refused([&] { db.find(0, 6, {1}); }) == "index");
    EXPECT(db.count(0, by_balance, {7}) == 2 && db.count(0, by_class, {false, 50}) == 1);
    EXPECT(refused([&] { db.count(0, by_class, {}); }) == "key");
    EXPECT(db.rank(0, by_balance, 2) == 1);
    EXPECT(refused([&] { db.rank(0, by_balance, 3); }) == "id");
    EXPECT(db.lower_rank(0, by_balance, {50}) == 2 && db.upper_rank(0, by_balance, {50}) == 3);
    EXPECT(db.nth(0, by_balance, 1)->id == 2 && db.nth(0, by_id, 0)->row[0].text() == "ann");
    EXPECT(!db.nth(0, by_balance, 3));
}

// One buffer takes row after row, of every length, and lends them.
static void buffered() {
    auto db = filled();
    RowBuffer row;
    EXPECT(row.empty() && row.view().size() == 0);
    db.get(row, 0, 1);
    EXPECT(row.id() == 1 && row.size() == 3 && row.text(0) == "bob" && row.number(1) == 7 && row.flag(2));
    EXPECT(db.find(row, 0, by_owner, {"ann"}) && row.id() == 0 && (row.row() == Row{"ann", 50, false}) && row.view().text(0) == "ann");
    EXPECT(!db.find(row, 0, by_owner, {"an"}) && row.empty());
    EXPECT(db.nth(row, 0, by_balance, 1) && row.text(0) == "eve, whose name is long");
    EXPECT(!db.nth(row, 0, by_balance, 3) && row.empty());
    EXPECT(refused([&] { db.get(row, 0, 9); }) == "id" && row.empty());
    EXPECT(refused([&] { db.get(row, 1, 0); }) == "table");
    EXPECT(refused([&] { db.find(row, 0, line, {1}); }) == "kind");
    EXPECT(refused([&] { db.nth(row, 0, by_owner, 0); }) == "kind");
    db.get(row, 0, 1);
    const RowBuffer copy = row;
    RowBuffer other = std::move(row);
    EXPECT(copy.text(0) == "bob" && other.text(0) == "bob");
    db.get(row, 0, 0);
    EXPECT(row.text(0) == "ann" && copy.text(0) == "bob" && other.text(0) == "bob");
}

// A row whose texts want all the room that any row does, behind one that wants little.
static void buffered_texts() {
    std::string columns, separator;
    for (int n = 0; n < 16; n++, separator = ", ")
        columns += separator + "{ name = \"c" + std::to_string(n) + "\", type = \"text\" }";
    Database db("table = \"t\"\ncolumn = [" + columns + "]\n");
    Row wide;
    for (int n = 0; n < 16; n++)
        wide.emplace_back(std::string(1024, static_cast<char>('a' + n)));
    db.insert(0, Row(16, ""));
    db.insert(0, wide);
    RowBuffer row;
    db.get(row, 0, 0);
    EXPECT(row.row() == Row(16, ""));
    db.get(row, 0, 1);
    EXPECT(row.row() == wide && db.get(0, 1) == wide && db.nth(0, by_id, 1)->row == wide);
}

static void pages() {
    auto db = filled();
    Page page(2);
    EXPECT(page.empty() && !page.more());
    db.range(page, 0, by_balance);
    EXPECT(ids(page) == "1 2 " && page.more() && page.size() == 2);
    EXPECT(page[0].text(0) == "bob" && page[0].number(1) == 7 && page[0].flag(2) && page[0].size() == 3);
    EXPECT(page.back().text(0) == "eve, whose name is long" && (page.back().row() == Row{"eve, whose name is long", 7, false}));
    db.range(page, 0, by_balance, Lower::beyond({7}));
    EXPECT(ids(page) == "0 " && !page.more());
    db.range(page, 0, by_balance, {}, Upper::below({7}));
    EXPECT(page.empty() && !page.more());
    db.range(page, 0, by_balance, Lower::from({7}), Upper::up_to({7}), true);
    EXPECT(ids(page) == "2 1 " && !page.more());
    db.range(page, 0, by_class, Lower::from({true, 7}), Upper::up_to({false}), true);
    EXPECT(ids(page) == "0 2 " && page.more());
    db.range(page, 0, by_id, Lower::beyond({db.find(0, by_owner, {"ann"})->id}));
    EXPECT(ids(page) == "1 2 ");
    EXPECT(refused([&] { db.range(page, 0, by_owner); }) == "kind");
    EXPECT(page.empty() && !page.more());
    db.list(page, 0, line, 0);
    EXPECT(ids(page) == "1 2 " && !page.more());
    EXPECT(refused([&] { db.list(page, 0, line, 9); }) == "id");
}

// Bounds that both have texts, and pages that take more room than those before.
static void pages_of_texts() {
    Database db("table = \"t\"\ncolumn = [{ name = \"a\", type = \"text\" }]\nindex = [{ name = \"by_a\", kind = \"ordered\", key = [\"-a\"] }]\n");
    Page page(500);
    for (int n = 0; n < 400; n++)
        db.insert(0, {std::string(static_cast<std::size_t>(n), 'a' + n % 2)});
    db.range(page, 0, 1, Lower::from({"bbbbb"}), Upper::up_to({"b"}));
    EXPECT(ids(page) == "5 3 1 " && page[0].text(0) == "bbbbb" && page[2].text(0) == "b");
    db.range(page, 0, 1, Lower::from({"a"}), Upper::below({""}));
    EXPECT(page.empty());
    db.range(page, 0, 1, Lower::beyond({std::string(21, 'b')}), Upper::up_to({std::string(17, 'b')}));
    EXPECT(ids(page) == "19 17 ");
    db.range(page, 0, 1);
    EXPECT(page.size() == 400 && page.back().id() == 0 && page[0].text(0) == std::string(399, 'b'));
    try {
        page[0].number(0);
        EXPECT(false);
    } catch (const std::bad_variant_access &) {
    }
    try {
        page[0].text(1);
        EXPECT(false);
    } catch (const std::out_of_range &) {
    }
}

int main() {
    blocks();
    pushed();
    ended_beside();
    pushed_within();
    begun_within();
    nested();
    disarmed([](Session &it) { it.squash(); });
    disarmed([](Session &it) { it.undo(); });
    disarmed([](Session &it) { it.push(); });
    disarmed([](Session &it) { Session moved(std::move(it)); });
    values();
    changes();
    told_in_words();
    look_ups();
    buffered();
    buffered_texts();
    pages();
    pages_of_texts();
    opening();
    long_replies();
    moves::all();
    std::puts("ok");
}

// The tests of the Node client, on pipes and on loopback: MI_SERVER=FILE node clients/node/test.js. They need Node 18.
"use strict";

const assert = require("node:assert");
const fs = require("node:fs");
const net = require("node:net");
const os = require("node:os");
const path = require("node:path");
const { test: tested } = require("node:test");
const { Database, Ended, Refused, Server, TooManyEqual, calls } = require("./weltiyo.js");

const PROGRAM = process.env.MI_SERVER || "mi_server";
const LIMIT = 180_000; // milliseconds, of each test
const EXAMPLES = path.join(__dirname, "..", "..", "examples");

const test = (name, call) => tested(name, { timeout: LIMIT }, call);

async function withServer(call, options) {
  const server = await Server.start(PROGRAM, options);
  try {
    await call(server);
  } finally {
    await server.kill();
  }
}

/** Two connections of a server that reads from them by turns, which are passed on meanwhile. */
function withTwo(call) {
  return withServer(async (server) => {
    const both = [await server.connect(), await server.connect()];
    const passing = setInterval(() => both.forEach((it) => it.passTurn()), 1);
    try {
      await call(...both);
    } finally {
      clearInterval(passing);
    }
  }, { clients: 2 });
}

async function withDatabase(call, options) {
  const db = await Database.start(PROGRAM, options);
  try {
    await call(db);
  } finally {
    assert.equal(await db.close(), 0);
  }
}

function account(owner, balance = 1, vip = true) {
  return { owner, balance, vip };
}

const refused = (word, more = {}) => (error) =>
  error instanceof Refused && error.word === word && Object.entries(more).every(([name, it]) => error[name] === it);

const later = (milliseconds) => new Promise((resolve) => setTimeout(resolve, milliseconds));

const owners = async (db) => (await db.list("line")).rows.map((it) => it.owner);

test("each command is a call", () =>
  withDatabase(async (db) => {
    assert.equal(await db.insert(account("ann", 50, false)), 0);
    assert.equal(await db.insert(account("bob", 7), { before: { index: "line", id: 0 } }), 1);
    assert.deepEqual(await db.get(1), { id: 1, ...account("bob", 7) });
    await db.replace(1, { ...(await db.get(1)), balance: 8 });
    await db.modify(0, { set: { vip: true }, add: { balance: -20 } });
    assert.deepEqual(await db.find("by_owner", ["ann"]), { id: 0, ...account("ann", 30) });
    assert.deepEqual((await db.list("line")).rows.map((it) => it.id), [1, 0]);
    await db.relocate("line", 1);
    await db.relocate("line", 1, { before: 0 });
    const page = await db.range("by_balance", { lower: { gt: [7] }, upper: { le: [30] }, limit: 1 });
    assert.deepEqual(page, { rows: [{ id: 1, ...account("bob", 8) }], more: true });
    assert.deepEqual((await db.range("by_balance", { reverse: true })).rows.map((it) => it.id), [0, 1]);
    assert.deepEqual([await db.count("by_vip", [true]), await db.rank("by_balance", 0), (await db.nth("by_balance", 0)).id], [2, 1, 1]);
    assert.deepEqual([await db.lowerRank("by_balance", [8]), await db.upperRank("by_balance", [8]), await db.size()], [0, 1, 2]);
    await db.reserve(10, 2);
    assert.deepEqual([await db.start(), await db.start(), await db.eraseKey("by_vip", [true])], [1, 2, 2]);
    assert.deepEqual([await db.squash(), await db.undo(), await db.size()], [1, 0, 2]);
    assert.deepEqual([await db.start(), await db.push(), await db.undoAll()], [1, 1, 1]);
    assert.deepEqual([await db.start(), await db.commit(1)], [1, 1]);
    assert.deepEqual(await db.revision(), { revision: 1, depth: 0, held: 0 });
    await db.erase(0);
    assert.equal(await db.askLine('{"cmd":"get","id":0}'), '{"error":"id","ok":false}');
  }));

test("refusals have their word, and what stands in the way", () =>
  withDatabase(async (db) => {
    await db.insert(account("ann"));
    await db.insert(account("bob"));
    await assert.rejects(db.get(9), refused("id"));
    await assert.rejects(db.insert(account("ann")), refused("unique", { id: 0, index: "by_owner" }));
    await assert.rejects(db.modify(1, { set: { owner: "ann" } }), refused("unique", { lost: false }));
    await assert.rejects(db.modify(1, { set: { owner: "ann" }, rollback: false }), refused("unique", { lost: true }));
    assert.equal(await db.size(), 1);
    await assert.rejects(db.insert({ owner: "x", balance: 1.5, vip: true }), refused("row"));
    await assert.rejects(db.askLine("a\nb"), TypeError);
    await assert.rejects(db.askLine(""), TypeError);
  }));

test("a refusal's message says why", () =>
  withDatabase(async (db) => {
    await db.insert(account("ann"));
    await db.insert(account("bob"));
    const said = async (call, want) => assert.equal((await call.then(assert.fail, (it) => it)).message, want);
    await said(db.insert(account("ann")), "unique: record 0 has this key in by_owner");
    const lost = db.modify(1, { set: { owner: "ann" }, rollback: false });
    await said(lost, "unique: record 0 has this key in by_owner; the record that was to be modified is erased");
    await said(db.atomically([calls.insert(account("cid")), calls.erase(9)]), "change 1: id: there is no record 9");
    await said(db.find("by_class", [true, 2n ** 62n]), "id: no record has the key [true, 4611686018427387904] in by_class");
    await said(db.undo(), "session: no session is open");
    await said(db.size({ table: "none" }), "table: no table has this name");
    assert.equal(new Refused({ error: "later", ok: false }).message, "later");
    const follows = new Refused({ error: "leader", leader: "127.0.0.1:8002", ok: false });
    assert.deepEqual([follows.leader, follows.message], ["127.0.0.1:8002", "leader: this member follows 127.0.0.1:8002, which takes changes"]);
  }));

test("a session is squashed at its end, and undone where its block throws", () =>
  withDatabase(async (db) => {
    await db.session(async (number) => {
      assert.equal(number, 1);
      await db.insert(account("ann"));
      await db.start();
      await db.insert(account("bob"));
    });
    assert.deepEqual([await db.size(), (await db.revision()).depth], [2, 0]);
    const thrown = new Error("out of the block");
    await assert.rejects(
      db.session(async () => {
        await db.erase(0);
        throw thrown;
      }),
      thrown
    );
    assert.equal(await db.size(), 2);
    assert.equal(await db.session(async () => "an answer"), "an answer");
  }));

test("blocks of one connection wait for each other, and calls from elsewhere wait for them", () =>
  withDatabase(async (db) => {
    const thrown = new Error("out of the block");
    const block = (owner, milliseconds, error) =>
      db.session(async () => {
        await db.insert(account(owner));
        await later(milliseconds);
        if (error) throw error;
      });
    const one = await Promise.allSettled([block("ann", 20, thrown), block("bob", 0), db.insert(account("cid"))]);
    assert.deepEqual(one.map((it) => it.status), ["rejected", "fulfilled", "fulfilled"]);
    assert.deepEqual(await owners(db), ["bob", "cid"]);
    const two = await Promise.allSettled([block("dan", 0), block("eve", 20, thrown)]);
    assert.deepEqual(two.map((it) => it.status), ["fulfilled", "rejected"]);
    assert.deepEqual(await owners(db), ["bob", "cid", "dan"]);
  }));

test("blocks in a block nest, and come one after another", () =>
  withDatabase(async (db) => {
    const thrown = new Error("out of the block");
    await db.session(async () => {
      const blocks = ["ann", "bob", "cid"].map((owner) =>
        db.session(async (number) => {
          assert.equal(number, 2);
          await db.insert(account(owner));
          await later(5);
          if (owner === "bob") throw thrown;
          await db.session(() => db.insert(account(`${owner} and more`)));
        })
      );
      const behind = db.insert(account("dan")); // (of the outer block)
      const ended = await Promise.allSettled(blocks);
      assert.deepEqual(ended.map((it) => it.status), ["fulfilled", "rejected", "fulfilled"]);
      await behind;
    });
    assert.deepEqual(await owners(db), ["ann", "ann and more", "cid", "cid and more", "dan"]);
  }));

test("a block ends behind those in it, and what is asked later is no part of it", () =>
  withDatabase(async (db) => {
    const thrown = new Error("out of the block");
    let inner, behind;
    await assert.rejects(
      db.session(async () => {
        await db.insert(account("ann"));
        inner = db.session(() => later(5).then(() => db.insert(account("bob"))));
        behind = later(20).then(() => db.session(() => db.insert(account("cid"))));
        throw thrown;
      }),
      thrown
    );
    await inner;
    await assert.rejects(db.session(() => later(40).then(() => Promise.reject(thrown))), thrown); // (open when that is asked)
    await behind;
    assert.deepEqual([await owners(db), (await db.revision()).depth], [["cid"], 0]);
  }));

test("blocks of several connections nest in each other", () =>
  withDatabase((one) =>
    withDatabase(async (two) => {
      await one.session(async () => {
        await two.session(async () => {
          await one.session(() => one.insert(account("ann")));
          await two.insert(account("bob"));
        });
        await two.insert(account("cid"));
      });
      assert.deepEqual([await owners(one), await owners(two)], [["ann"], ["bob", "cid"]]);
    })
  ));

test("what waits for a block is rejected where the connection ends", () =>
  withServer(async (server) => {
    const db = await server.connect();
    let over, block;
    await new Promise((begun) => {
      block = db.session(() => new Promise((resolve) => begun((over = resolve))));
    });
    const waiting = Promise.allSettled([db.size(), db.ready(), db.session(assert.fail)]);
    await server.kill();
    for (const it of await waiting) assert.ok(it.status === "rejected" && it.reason instanceof Ended, it.status);
    over();
    await assert.rejects(block, Ended);
  }));

test("a block ends no sessions but those that its connection holds", () =>
  withTwo(async (one, two) => {
    await one.session(async (number) => {
      await one.insert(account("ann"));
      await one.commit(number);
      assert.equal(await two.start(), 2);
      await two.insert(account("bob"));
    });
    assert.deepEqual(await two.revision(), { revision: 2, depth: 1, held: 1 });
    await two.squash();
    const thrown = new Error("out of the block");
    await assert.rejects(
      one.session(async (number) => {
        await one.commit(number);
        await two.start();
        await two.insert(account("cid"));
        await two.push();
        throw thrown;
      }),
      thrown
    );
    assert.deepEqual([await two.size(), await two.undoAll()], [3, 1]);
    await one.session(async () => {
      await one.insert(account("dan"));
      await one.push();
    });
    assert.deepEqual([await two.size(), await two.undo(), await two.size()], [3, 2, 2]);
  }));

/** The commands that are written together from here on. */
function watched(db) {
  const writes = [], writing = db._channel.writing, write = writing.write.bind(writing);
  writing.write = (text) => {
    writes.push(text.trim().split("\n").map((line) => JSON.parse(line).cmd).join(" "));
    return write(text);
  };
  return writes;
}

const added = (count, name = "owner") => Array.from({ length: count }, (_, n) => calls.insert(account(`${name} ${n}`, n)));

test("a session of one change takes three exchanges, and changes together take two waits", () =>
  withDatabase(async (db) => {
    const writes = watched(db);
    await db.session(() => db.insert(account("ann")));
    await assert.rejects(db.session(() => db.insert(account("ann"))), refused("unique"));
    assert.deepEqual(writes.splice(0), ["start", "insert", "squash", "start", "insert", "undo"]);
    assert.deepEqual(await db.atomically(added(3)), [1, 2, 3]);
    assert.deepEqual(writes.splice(0), ["start insert insert insert", "squash"]);
    const steps = [() => db.push(), () => db.askLine('{"cmd":"size"}'), () => db.session(() => db.ask("commit", { revision: 1 }))];
    for (const step of steps) {
      await db.session(step);
      assert.ok(writes.splice(0).includes("revision"));
      await db.undoAll();
    }
    const other = db.size(); // (what is on its way stands ahead of the start at the server)
    await Promise.all([other, new Promise(setImmediate).then(() => db.atomically(added(2, "more")))]);
    assert.deepEqual(writes.splice(1), ["size", "start", "insert insert", "squash"]);
    await db.atomically(added(100, "many"));
    assert.ok(/^start( insert)+$/.test(writes[1]) && /^insert( insert)+$/.test(writes[2]) && writes[3] === "squash", writes.splice(0).join());
    assert.deepEqual([await db.atomically([]), (await db.revision()).depth, await db.size()], [[], 0, 106]);
    await withDatabase(async (narrow) => {
      const few = watched(narrow);
      await narrow.atomically(added(7));
      assert.deepEqual(few, ["start insert insert", "insert insert insert", "insert insert", "squash"]);
    }, { window: 3 });
  }));

test("changes are done all or not at all", () =>
  withDatabase(async (db) => {
    const changes = [calls.insert(account("ann")), calls.insert(account("bob")), calls.modify(0, { add: { balance: 4 } }), calls.relocate("line", 0)];
    assert.deepEqual(await db.atomically([...changes, calls.ask("size")]), [0, 1, undefined, undefined, { ok: true, size: 2 }]);
    const lost = calls.modify(1, { set: { owner: "ann" }, rollback: false });
    for (const [wrong, error] of [
      [[calls.erase(0), calls.insert(account("bob")), calls.erase(9)], { word: "unique", id: 1, index: "by_owner", change: 1 }],
      [[lost, calls.insert(account("cid"))], { word: "unique", lost: false, change: 0 }],
      [[calls.eraseKey("by_owner", "ann"), calls.ask("get", { id: 9 })], { word: "id", change: 1 }],
      [[...added(200), calls.replace(9000, account("dan"))], { word: "id", change: 200 }],
    ])
      await assert.rejects(db.atomically(wrong), (it) => it instanceof Refused && Object.entries(error).every(([name, value]) => it[name] === value));
    for (const wrong of [calls.ask("squash"), calls.ask("commit", { revision: 1 }), calls.insert({ balance: 2 ** 60 }), { cmd: "erase", members: { id: 1 } }, 7])
      await assert.rejects(db.atomically([calls.erase(0), wrong]), TypeError);
    assert.deepEqual([await owners(db), (await db.get(0)).balance, (await db.revision()).depth], [["bob", "ann"], 5, 0]);
    const thrown = new Error("out of the block");
    const block = db.session(async () => {
      await db.atomically([calls.erase(0), calls.insert(account("cid"))]);
      throw thrown;
    });
    const beside = Promise.allSettled([db.atomically([calls.insert(account("dan")), calls.erase(9)]), db.insert(account("eve"))]);
    await assert.rejects(block, thrown);
    assert.deepEqual((await beside).map((it) => it.status), ["rejected", "fulfilled"]);
    assert.deepEqual([await owners(db), (await db.revision()).depth], [["bob", "ann", "eve"], 0]);
  }));

test("a session that is refused", async () => {
  await withServer(async (server) => {
    const [one, two] = [await server.connect(), await server.connect()];
    const started = one.start();
    await assert.rejects(Promise.all([started, two.atomically(added(2))]), refused("busy", { change: undefined }));
    const undone = one.undo();
    assert.deepEqual([await two.size(), await undone], [0, 0]);
    await Promise.all([one.close(), two.close()]);
  }, { clients: 2 });
  await withDatabase(async (db) => {
    await Promise.all(Array.from({ length: 1024 }, () => db.start()));
    await assert.rejects(db.atomically([calls.ask("size")]), refused("depth"));
    const ended = (error) => error instanceof Ended && /^the session was refused as depth, and a change behind it was done/.test(error.message);
    await assert.rejects(db.atomically(added(1)), ended);
    await assert.rejects(db.size(), ended);
  });
});

test("a squash that is refused", async () => {
  const asked = [];
  const server = net.createServer((stream) => {
    let rest = "";
    stream.on("data", (data) => {
      const lines = (rest + data).split("\n");
      rest = lines.pop();
      for (const line of lines) {
        const { cmd } = JSON.parse(line);
        asked.push(cmd);
        stream.write(`${JSON.stringify(cmd === "squash" ? { error: "journal", ok: false } : { id: 0, ok: true, revision: 1 })}\n`);
      }
    });
  });
  await new Promise((resolve) => server.listen(0, "127.0.0.1", resolve));
  const db = await Database.connect(server.address().port);
  asked.length = 0;
  await assert.rejects(db.session(() => db.insert(account("ann"))), refused("journal"));
  await assert.rejects(db.atomically(added(1)), refused("journal", { change: undefined }));
  assert.equal(await db.insert(account("bob")), 0);
  const steps = ["start", "insert", "squash", "undo"];
  assert.deepEqual(asked, [...steps, ...steps, "insert"]);
  await db.close();
  server.close();
});

test("calls that aren't waited for are sent ahead, and answered in their order", () =>
  withDatabase(
    async (db) => {
      const count = 2000;
      const ids = await Promise.all(Array.from({ length: count }, (_, n) => db.insert(account(`owner ${n}`, n))));
      assert.deepEqual(ids, Array.from({ length: count }, (_, n) => n));
      const answers = await Promise.allSettled([db.get(0), db.get(count), db.size()]);
      assert.deepEqual(answers.map((it) => it.status), ["fulfilled", "rejected", "fulfilled"]);
      let most = 0;
      for (let n = 0; n < 500; n++) {
        await db.ready();
        db.get(n).catch(assert.fail);
        most = Math.max(most, db._channel.awaited.length + db._channel.waiting.length);
      }
      assert.ok(most <= 64, `${most} lines wait`);
    },
    { window: 64 }
  ));

test("long replies and long lines can't stand in each other's way", () =>
  withDatabase(async (db) => {
    const text = "é".repeat(500);
    await Promise.all(Array.from({ length: 1000 }, (_, n) => db.insert(account(`${n} ${text}`, n))));
    const pages = await Promise.all(Array.from({ length: 8 }, () => db.range("by_balance")));
    assert.ok(pages.every((it) => it.rows.length === 1000 && it.rows[999].owner === `999 ${text}`));
  }));

test("whole numbers are exact", () =>
  withDatabase(async (db) => {
    const largest = 2n ** 63n - 1n;
    await db.insert(account('12345678901234567890 "\\', largest));
    await db.insert(account("small", -(2n ** 63n)));
    await db.insert(account("safe", Number.MAX_SAFE_INTEGER));
    assert.deepEqual(await db.get(0), { id: 0, ...account('12345678901234567890 "\\', largest) });
    assert.equal((await db.get(1)).balance, -(2n ** 63n));
    assert.equal((await db.get(2)).balance, Number.MAX_SAFE_INTEGER);
    assert.equal((await db.find("by_balance", [largest])).id, 0);
  }));

test("what would be sent as something else isn't sent", () =>
  withDatabase(async (db) => {
    for (const n of [2 ** 60, -(2 ** 53), 1e21, -1e300, NaN, Infinity]) await assert.rejects(db.insert(account("ann", n)), TypeError);
    await assert.rejects(db.modify(0, { add: { balance: 2 ** 60 }, set: { owner: "a", vip: true, other: 5n } }), TypeError);
    const ids = [await db.insert(account("ann", 2n ** 60n)), await db.insert(account("bob", 2 ** 53 - 1)), await db.insert(account("1234567890123456 null", 0))];
    await assert.rejects(db.relocate("line", ids[0], { before: NaN }), TypeError);
    assert.deepEqual((await db.list("line")).rows.map((it) => it.id), ids);
    await assert.rejects(db.insert(account("cid", 0.1234567890123456)), (error) => error instanceof Refused && error.word === "row");
    await assert.rejects(db.askLine('{"cmd":"insert","row":{"owner":"x\ud800","balance":1,"vip":false}}'), TypeError);
    assert.equal(JSON.parse(await db.askLine('{"cmd":"insert","row":{"owner":"x\ud83d\ude00","balance":1,"vip":false}}')).ok, true);
  }));

test("a value alone is the key of one part, and isn't taken apart", () =>
  withDatabase(async (db) => {
    await db.insert(account("ann", 5));
    await db.insert(account("a", 7));
    const found = [db.find("by_balance", 5), db.find("by_balance", 7n), db.find("by_owner", "ann"), db.find("by_owner", new Set(["a"]).values())];
    assert.deepEqual((await Promise.all(found)).map((it) => it.id), [0, 1, 0, 1]);
    assert.deepEqual([await db.count("by_vip", true), await db.lowerRank("by_balance", 6), await db.upperRank("by_balance", 7)], [2, 1, 2]);
    assert.deepEqual((await db.range("by_balance", { lower: { ge: 6 } })).rows.map((it) => it.id), [1]);
    const walked = [];
    for await (const row of db.walkRange("by_balance", "balance", { upper: { le: 7 }, lower: { gt: [4].values() }, page: 1 })) walked.push(row.id);
    assert.deepEqual(walked, [0, 1]);
    await assert.rejects(db.eraseKey("by_class", "an"), refused("key"));
    assert.equal(await db.eraseKey("by_owner", "n"), 0);
    let lines = 0;
    db._channel.ask = () => (lines++, Promise.reject(new Error("this is sent")));
    for (const key of [Buffer.from("ann"), new Uint8Array(3), new Set(["ann"]), { owner: "ann" }, null, undefined]) {
      await assert.rejects(db.eraseKey("by_owner", key), /^TypeError: a key is a value or an array of values, as "ann" or \["ann", 5\]; .* is neither$/);
      await assert.rejects(db.range("by_owner", { lower: { ge: key } }), /^TypeError: a key is/);
    }
    for (const bound of [[5], 5, "ge", new Map()]) {
      await assert.rejects(db.range("by_balance", { upper: bound }), /^TypeError: a bound is an object, as { ge: \[10\] } or { le: \[10\] }; .* is none$/);
      await assert.rejects(db.walkRange("by_balance", ["balance"], { lower: bound }).next(), /^TypeError: a bound is an object/);
    }
    const said = /^TypeError: lower has le, which is for upper; ge or gt is wanted, as lower: { ge: \[10\] }$/;
    await assert.rejects(db.range("by_balance", { lower: { le: 7 } }), said);
    await assert.rejects(db.walkRange("by_balance", ["balance"], { lower: { le: 7 } }).next(), said);
    await assert.rejects(db.range("by_balance", { upper: { gt: 7 } }), /^TypeError: upper has gt, which is for lower; le or lt is wanted/);
    assert.equal(lines, 0);
    delete db._channel.ask;
    assert.equal(await db.size(), 2);
  }));

test("walks go on page by page", () =>
  withDatabase(async (db) => {
    for (let n = 0; n < 25; n++) await db.insert(account(`owner ${n}`, n % 12));
    const walked = async (walk) => {
      const ids = [];
      for await (const row of walk) ids.push(row.id);
      return ids;
    };
    const whole = async (index, reverse) => (await db.range(index, { reverse })).rows.map((it) => it.id);
    assert.deepEqual(await walked(db.walkRange("by_balance", ["balance"], { page: 4 })), await whole("by_balance", false));
    assert.deepEqual(await walked(db.walkRange("by_balance", ["balance"], { page: 4, reverse: true })), await whole("by_balance", true));
    assert.deepEqual(await walked(db.walkRange("id", ["id"], { page: 7, lower: { gt: [3] } })), (await whole("id", false)).slice(4));
    assert.deepEqual(await walked(db.walkList("line", { page: 6 })), (await db.list("line")).rows.map((it) => it.id));
    // (one key has as many rows as a page, and then each row of a unique index is a page)
    for (const reverse of [false, true]) {
      assert.deepEqual(await walked(db.walkRange("by_balance", ["balance"], { page: 3, reverse })), await whole("by_balance", reverse));
      assert.deepEqual(await walked(db.walkRange("id", ["id"], { page: 1, reverse })), await whole("id", reverse));
    }
    await assert.rejects(walked(db.walkRange("by_balance", ["balance"], { page: 2 })), TooManyEqual);
  }));

test("a walk sees a row again that is put ahead of it meanwhile", () =>
  withDatabase(async (db) => {
    await db.insert(account("ann", 1));
    await db.insert(account("bob", 5));
    const ids = [];
    for await (const row of db.walkRange("by_balance", ["balance"], { page: 1 })) {
      if (ids.length === 0) await db.modify(row.id, { set: { balance: 3 } });
      ids.push(row.id);
    }
    assert.deepEqual(ids, [0, 0, 1]);
  }));

test("several tables", () =>
  withDatabase(async (db) => {
    assert.equal(await db.insert({ name: "pen", stock: 5 }, { table: "item" }), 0);
    assert.equal(await db.size({ table: "item" }), 1);
    await assert.rejects(db.size({ table: "none" }), refused("table"));
  }, { schema: path.join(EXAMPLES, "shop.toml") }));

test("several connections", () =>
  withServer(async (server) => {
    const [one, two] = [await server.connect(), await server.connect()];
    const started = one.start();
    await assert.rejects(Promise.all([started, two.insert(account("bob"))]), refused("busy"));
    const added = one.insert(account("ann"));
    const seen = two.size();
    assert.deepEqual([await started, await added, await seen], [1, 0, 1]);
    two.passTurn();
    assert.equal(await one.size(), 1);
    await one.close();
    // (the turn of the second may come before the end of the first is read)
    assert.ok((await two.size()) === 0 || (await two.size()) === 0);
    await two.close();
    assert.equal(await server.ended(), 0);
  }, { clients: 2 }));

test("a server that can't begin says why at once", async () => {
  await assert.rejects(Database.start(PROGRAM, { schema: "none.toml" }), (error) => error instanceof Ended && /status 3: schema: file/.test(error.message));
  await assert.rejects(Database.start("/no/such/program"), Ended);
  await assert.rejects(Database.start(PROGRAM, { schema: "none.toml" }), /schema: file: none\.toml$/);
  const folder = fs.mkdtempSync(path.join(os.tmpdir(), "weltiyo-"));
  fs.writeFileSync(path.join(folder, "s.toml"), "table =");
  await withServer(
    (server) => assert.rejects(server.connect(), (error) => error instanceof Ended && /schema: toml: .*s\.toml$/.test(error.message)),
    { schema: path.join(folder, "s.toml") }
  );
  fs.rmSync(folder, { recursive: true });
});

test("a port where nobody listens is told, and what is to be done", async () => {
  const closed = net.createServer();
  await new Promise((resolve) => closed.listen(0, "127.0.0.1", resolve));
  const { port } = closed.address();
  await new Promise((resolve) => closed.close(resolve));
  const said = `nothing listens on port ${port} of 127.0.0.1. Start a server there, as mi_service --listen ${port}, or name the port of one that runs`;
  await assert.rejects(Database.connect(port), { code: "ECONNREFUSED", message: said });
});

test("a text with a slash is the path of a socket", async () => {
  const folder = fs.mkdtempSync(path.join(os.tmpdir(), "weltiyo-"));
  const place = path.join(folder, "socket");
  const said = `nothing listens at ${place}. Start a service there, as mi_service --unix ${place}, or name the path of one that runs`;
  await assert.rejects(Database.connect(place), { code: "ENOENT", message: said });
  const asked = [];
  const server = net.createServer((stream) => stream.on("data", (bytes) => asked.push(String(bytes)) && stream.write('{"ok":true,"size":3}\n')));
  await new Promise((resolve) => server.listen(place, resolve));
  const db = await Database.connect(place);
  assert.equal(await db.size(), 3);
  assert.deepEqual(asked, ['{"cmd":"size"}\n']);
  await db.close();
  await new Promise((resolve) => server.close(resolve));
  fs.rmSync(folder, { recursive: true });
});

test("a connection that was closed tells the status and nothing behind it", async () => {
  const db = await Database.start(PROGRAM);
  await db.close();
  await assert.rejects(db.size(), (error) => error instanceof Ended && error.message === "the server ended with status 0");
});

test("what was asked of a server that ends is rejected", () =>
  withServer(async (server) => {
    const db = await server.connect();
    await db.size();
    server.process.kill("SIGSTOP"); // (so that it answers nothing of what follows)
    const asked = Promise.allSettled([db.size(), db.size()]);
    await new Promise((resolve) => setTimeout(resolve, 20));
    server.process.kill("SIGKILL");
    await server.ended();
    const before = await asked;
    const behind = await Promise.allSettled([db.size(), db.ready()]);
    for (const it of [...before, ...behind]) assert.ok(it.status === "rejected" && it.reason instanceof Ended, it.status);
    await db.close();
  }));

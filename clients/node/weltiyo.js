/**
 * A client of the table server mi_server, in one file, for Node 16 or later, tested by 18 and later; without other packages. It asks a
 * server of its own over pipes, or one that listens, over a socket. Each command is a call that answers a promise; calls that aren't
 * waited for are sent ahead, and are answered in their order.
 *
 *     const { Database, Refused } = require("./weltiyo.js");
 *     const db = await Database.start("mi_server", { schema: "shop.toml" });     // or await Database.connect(8000)
 *     const ann = await db.insert({ owner: "ann", balance: 50, vip: false });
 *     await db.session(async () => { await db.modify(ann, { add: { balance: -20 } }); });
 *     await db.close();
 *
 * A whole number beyond 2^53 is a BigInt in what comes, and is to be one in what is sent.
 */
"use strict";

const { AsyncLocalStorage } = require("node:async_hooks");
const net = require("node:net");
const { spawn } = require("node:child_process");

/** The most rows of one page. */
const MOST_ROWS = 1000;

/** How many replies are awaited at most, where the caller doesn't say; further lines wait in this process. */
const WINDOW = 1024;

/** The bytes that a server reads of a connection at one go, and answers with no other connection's in between. (It reads 4,096; empty lines
 * that it hasn't read yet may stand ahead.) */
const PIECE = 4000;

const CHANGES = new Set(["insert", "replace", "modify", "erase", "erase_key", "relocate"]);
const SESSION_STEPS = new Set(["start", "undo", "squash", "commit", "undo_all", "push"]);

/** What each word of a refusal says, where the reply and the command say no more. (The Python client has the same in `commands.py`.) */
const MEANINGS = {
  line: "the line is longer than 65,536 bytes",
  json: "it is no JSON, or not UTF-8",
  form: "it is no command, a member is missing, unknown or of another kind, or a number is out of its limits",
  busy: "another connection holds sessions",
  table: "no table has this name",
  index: "the table has no index of this name",
  kind: "the command isn't for this kind of index",
  row: "the row, `set` or `add` doesn't fit the columns",
  key: "the key doesn't fit the index: it is empty, too long, too short where it must be whole, or a value is of another type",
  id: "the named record isn't there, or a look-up has no record",
  range: "an addition leaves 64 bits",
  full: "the table has its most rows",
  spent: "the next id, the counter of changes or the revision is at its end",
  depth: "1,024 sessions are open",
  session: "no session is open",
  memory: "memory was refused, and nothing has changed",
  journal: "the service's journal has no room for the line, and nothing has changed",
  leader: "this member of a ledger follows another one, and takes no changes; the reply names the leader, where it is known",
};

/** The server refused a command: `word` is the reason; where it is `unique`, `id` and `index` say which record stands in the way, and of
 * a modify `lost` says whether the modified record was erased; where it is `leader`, `leader` is the address of the member that leads, if that
 * is known. `why` is what is known beyond the word, and the message has both. Of `atomically`, `change` is the place of the refused change,
 * from 0. */
class Refused extends Error {
  /** `asked` is the command with its members. */
  constructor(reply, change, asked = {}) {
    const why = whyRefused(reply, asked);
    super(`${change === undefined ? "" : `change ${change}: `}${reply.error}${why ? `: ${why}` : ""}`);
    this.name = "Refused";
    this.word = reply.error;
    this.why = why;
    this.id = reply.id;
    this.index = reply.index;
    this.lost = reply.lost;
    this.leader = reply.leader || undefined;
    this.change = change;
  }
}

/** What can be said beyond the word of a refusal. */
function whyRefused({ error, id, index, lost, leader }, asked) {
  if (leader) return `this member follows ${leader}, which takes changes`;
  if (index !== undefined) return `record ${id} has this key in ${index}${lost ? "; the record that was to be modified is erased" : ""}`;
  return (error === "id" && missingRecord(asked)) || MEANINGS[error] || "";
}

/** Which record isn't there. */
function missingRecord({ cmd, index, key, n, id, before, after }) {
  if (cmd === "find") return `no record has the key [${[key].flat().map(encode).join(", ")}] in ${index}`;
  if (cmd === "nth") return `no record stands at place ${n} of ${index}`;
  if (cmd === "insert") return before ? `there is no record ${before.id}` : "";
  if (cmd === "list") return `there is no record ${after}`;
  return id === undefined ? "" : `there is no record ${id}${before === undefined || before === null ? "" : `, or none ${before}`}`;
}

/** The connection is at its end. What it held was undone, and commands that weren't answered may have been done or not. */
class Ended extends Error {
  constructor(why) {
    super(why || "the connection is closed");
    this.name = "Ended";
  }
}

/** A walk over a range can't go on: more records have one key than a page has rows. */
class TooManyEqual extends Error {
  constructor(why) {
    super(why);
    this.name = "TooManyEqual";
  }
}

// Values

/** The text of a value; a BigInt is written as the number that it is. */
function encode(value) {
  if (typeof value === "bigint") return value.toString();
  if (Array.isArray(value)) return `[${value.map(encode).join(",")}]`;
  if (value === null || typeof value !== "object") return JSON.stringify(value);
  const members = Object.entries(value).filter(([, it]) => it !== undefined);
  return `{${members.map(([name, it]) => `${JSON.stringify(name)}:${encode(it)}`).join(",")}}`;
}

function lineOf(cmd, members) {
  const asked = { cmd };
  for (const name in members) if (members[name] !== undefined && members[name] !== null) asked[name] = members[name];
  let line;
  try {
    line = JSON.stringify(asked);
  } catch (error) {
    if (!(error instanceof TypeError)) throw error;
    line = encode(asked); // (there is a BigInt in it)
  }
  if (INEXACT.test(line)) refuseInexact(asked);
  return line;
}

/** What may stand in a line for a number that JSON.stringify writes as another one. */
const INEXACT = /\d{16}|null|e\+/;

/** Throws where a value has a number that is sent as another one: whole and beyond 2^53, or none (which would be sent as null). */
function refuseInexact(value) {
  if (typeof value === "number" && !(Math.abs(value) <= Number.MAX_SAFE_INTEGER || (Number.isFinite(value) && !Number.isInteger(value))))
    throw new TypeError(`${value} isn't sent exactly: whole numbers beyond 2^53 are to be sent as BigInt`);
  if (value && typeof value === "object") for (const it of Object.values(value)) refuseInexact(it);
}

const LONG = /"(?:[^"\\]|\\.)*"|-?\d{16,}/g;

/** A reply, whose whole numbers are exact. No member of a reply is called `$int`, since no column can be. */
function decode(text) {
  let exact = text;
  if (/\d{16}/.test(text)) {
    exact = text.replace(LONG, (it) => (it[0] === '"' || Number.isSafeInteger(Number(it)) ? it : `{"$int":"${it}"}`));
  }
  if (exact === text) return JSON.parse(text);
  return JSON.parse(exact, (_, it) => (it && typeof it === "object" && typeof it.$int === "string" ? BigInt(it.$int) : it));
}

/** The values of a key: one that is a value alone is the key of one part. Throws where it is neither a value nor several in an order. */
function keyOf(key) {
  if (["string", "number", "bigint", "boolean"].includes(typeof key)) return [key];
  if (key instanceof Uint8Array || key instanceof Set || typeof key?.[Symbol.iterator] !== "function")
    throw new TypeError(`a key is a value or an array of values, as "ann" or ["ann", 5]; ${kindOf(key)} is neither`);
  return [...key];
}

/** The words of each bound. */
const SIDES = { lower: ["ge", "gt"], upper: ["le", "lt"] };

/** A bound of this side with the values of its key. Throws where it is none, or the other side's. */
function boundOf(bound, side) {
  if (bound === undefined || bound === null) return undefined;
  if (typeof bound !== "object" || typeof bound[Symbol.iterator] === "function")
    throw new TypeError(`a bound is an object, as { ge: [10] } or { le: [10] }; ${kindOf(bound)} is none`);
  const other = side === "lower" ? "upper" : "lower";
  const strange = Object.keys(bound).find((word) => SIDES[other].includes(word));
  if (strange) {
    const [first, second] = SIDES[side];
    throw new TypeError(`${side} has ${strange}, which is for ${other}; ${first} or ${second} is wanted, as ${side}: { ${first}: [10] }`);
  }
  return Object.fromEntries(Object.entries(bound).map(([word, key]) => [word, keyOf(key)]));
}

/** Whether a place to connect to is the path of a Unix socket: a text with a `/` in it. Else it is a port. */
function isPath(place) {
  return typeof place === "string" && place.includes("/");
}

/** The same error, which says where nobody listens and what is to be done. */
function nobodyListens(error, port) {
  if (isPath(port)) error.message = `nothing listens at ${port}. Start a service there, as mi_service --unix ${port}, or name the path of one that runs`;
  else error.message = `nothing listens on port ${port} of 127.0.0.1. Start a server there, as mi_service --listen ${port}, or name the port of one that runs`;
  return error;
}

/** How a server of one's own ended, with what it said, and the file where that is about its schema. */
function endOf(status, said, schema) {
  const words = [`the server ended with status ${status}`, said.trim(), schema && said.startsWith("schema: ") ? schema : ""];
  return words.filter(Boolean).join(": ");
}

/** What a value is, in a sentence. */
function kindOf(value) {
  return Object(value) === value ? value.constructor?.name || "Object" : String(value);
}

/** A row as it can be sent: without the member `id`, which every reply has and which is no column. */
function columnsOf(row) {
  const { id, ...columns } = row;
  return columns;
}

/** Changes as they can be handed to `Database.atomically`, and by `ask` any other command: what is sent, and how the accepted reply is read.
 * They take what the methods of these names do. */
const calls = {
  ask: (cmd, members = {}) => ({ cmd, members, read: (reply) => reply }),
  insert: (row, { before, table } = {}) => ({ cmd: "insert", members: { row, before, table }, read: (reply) => reply.id }),
  replace: (id, row, { table } = {}) => ({ cmd: "replace", members: { id, row: columnsOf(row), table }, read: nothing }),
  modify: (id, { set, add, rollback = true, table } = {}) => ({ cmd: "modify", members: { id, set, add, rollback: rollback || undefined, table }, read: nothing }),
  erase: (id, { table } = {}) => ({ cmd: "erase", members: { id, table }, read: nothing }),
  eraseKey: (index, key, { table } = {}) => ({ cmd: "erase_key", members: { index, key: keyOf(key), table }, read: (reply) => reply.erased }),
  relocate: (index, id, { before, table } = {}) => ({ cmd: "relocate", members: { index, id, before, table }, read: nothing }),
};

function nothing() {}

/** The reply of this text to a command with its members. Throws `Refused`. */
function accepted(text, cmd, members) {
  const reply = decode(text);
  if (!reply.ok) throw new Refused(reply, undefined, { ...members, cmd });
  return reply;
}

/** How many of these lines stand in a piece with the start. */
function firstPiece(start, lines) {
  let size = Buffer.byteLength(start) + 1, n = 0;
  while (n < lines.length && (size += Buffer.byteLength(lines[n]) + 1) <= PIECE) n++;
  return n;
}

// Connections

/** Lines out, and their replies in the same order. */
class Channel {
  constructor(reading, writing, window) {
    this.writing = writing;
    this.window = window;
    this.awaited = []; // those that were sent
    this.waiting = []; // those behind the window
    this.parts = []; // of a reply that isn't whole
    this.isFlushing = false;
    this.ended = null;
    this.readiness = [];
    this.idleness = [];
    this.outside = new Block(this, null);
    reading.on("data", (bytes) => this.take(bytes));
    reading.on("error", (error) => this.end(error.message));
    reading.on("close", () => this.end());
    writing.on("error", (error) => this.end(error.message));
  }

  /** Promises the reply to a line. */
  ask(line) {
    return new Promise((resolve, reject) => {
      if (this.ended) return reject(this.ended);
      this.waiting.push({ line, resolve, reject });
      this.flushSoon();
    });
  }

  /** Lines that are asked in one turn of the event loop are written at once. */
  flushSoon() {
    if (this.isFlushing) return;
    this.isFlushing = true;
    setImmediate(() => {
      this.isFlushing = false;
      const now = this.waiting.splice(0, Math.max(0, this.window - this.awaited.length));
      if (now.length === 0 || this.ended) return;
      this.awaited.push(...now);
      this.writing.write(now.map((it) => it.line + "\n").join(""));
      this.tellReady();
    });
  }

  take(bytes) {
    let from = 0, done = 0;
    for (let end = bytes.indexOf(10); end >= 0; end = bytes.indexOf(10, from)) {
      let line = bytes.subarray(from, end);
      if (this.parts.length) {
        line = Buffer.concat([...this.parts, line]);
        this.parts = [];
      }
      const asked = this.awaited[done++];
      if (asked) asked.resolve(line.toString("utf8"));
      from = end + 1;
    }
    if (from < bytes.length) this.parts.push(bytes.subarray(from));
    this.awaited.splice(0, done);
    if (this.waiting.length) this.flushSoon();
    this.tellReady();
    if (this.isIdle) for (const resolve of this.idleness.splice(0)) resolve();
  }

  get isIdle() {
    return this.awaited.length + this.waiting.length === 0;
  }

  /** Promises that all that was asked is answered, or never will be. */
  idle() {
    return new Promise((resolve) => (this.ended || this.isIdle ? resolve() : this.idleness.push(resolve)));
  }

  get isReady() {
    return this.awaited.length + this.waiting.length < this.window;
  }

  /** Promises that a line would be sent at once. */
  ready() {
    return new Promise((resolve, reject) => {
      if (this.ended) reject(this.ended);
      else if (this.isReady) resolve();
      else this.readiness.push({ resolve, reject });
    });
  }

  tellReady() {
    if (!this.readiness.length || !this.isReady) return;
    for (const it of this.readiness.splice(0)) it.resolve();
  }

  end(why) {
    if (this.ended) return;
    this.ended = new Ended(why);
    for (const it of [...this.awaited.splice(0), ...this.waiting.splice(0), ...this.readiness.splice(0)]) it.reject(this.ended);
    for (const resolve of this.idleness.splice(0)) resolve();
    this.outside.goOn();
  }
}

// Blocks

/** By connection the block in which a call is made, where it is made in one. */
const within = new AsyncLocalStorage();

/** A session for a block, or what is outside of all blocks of a connection. One block within it is open at a time, since sessions end in
 * the order opposite to that in which they began. What is asked of it meanwhile waits in its order, and so doesn't fall into that one. */
class Block {
  constructor(channel, outer) {
    this.channel = channel;
    this.outer = outer;
    this.inner = null; // the open block within
    this.waiting = []; // for its end
    this.isOver = false; // what is asked of it then is asked of the outer one
    this.hasSteps = false; // whether what was asked of it may have begun or ended a session
  }

  /** What a call answers that is made once no block within is open; where the connection is at its end, at once. */
  when(call) {
    if (this.isOver) return this.outer.when(call);
    if (this.isFree) return call(this);
    return new Promise((resolve) => this.waiting.push(() => resolve(this.when(call))));
  }

  get isFree() {
    return !this.inner || this.channel.ended !== null;
  }

  /** Opens a block within, which none is. */
  open() {
    return (this.inner = new Block(this.channel, this));
  }

  /** Promises that the blocks within have ended. Nothing more falls into this one. */
  end() {
    return this.when(() => (this.isOver = true));
  }

  /** The session has ended, and the outer block goes on. */
  leave() {
    this.isOver = true;
    this.outer.hasSteps ||= this.hasSteps;
    this.outer.inner = null;
    this.outer.goOn();
  }

  /** Makes the calls that wait, until one of them opens a block; those of the blocks within first. */
  goOn() {
    this.inner?.goOn();
    while (this.waiting.length && this.isFree) this.waiting.shift()();
  }
}

/** A connection. Close it: what it holds is then undone by the server. */
class Database {
  constructor(channel, closing) {
    this._channel = channel;
    this._closing = closing;
  }

  /** A server of its own, asked over its standard input; its tables are gone when the connection is closed. Rejects with `Ended` and the
   * program's words where it can't begin, as with a schema that isn't there. */
  static async start(program, { schema, window = WINDOW } = {}) {
    const ran = spawn(program, schema ? ["--schema", schema] : [], { stdio: ["pipe", "pipe", "pipe"] });
    let said = "";
    ran.stderr.on("data", (bytes) => (said += bytes));
    const channel = new Channel(new Held(ran.stdout), new Held(ran.stdin), window);
    const closed = new Promise((resolve) => {
      ran.on("error", (error) => {
        channel.end(error.message);
        resolve(null);
      });
      ran.on("close", (status) => {
        channel.end(endOf(status, said, schema));
        resolve(status);
      });
    });
    const db = new Database(channel, () => {
      ran.stdin.end();
      return closed;
    });
    await db.revision();
    return db;
  }

  /** A connection to a server that listens on this port of 127.0.0.1. A text with a `/` in it is the path of a Unix socket, which a service
   * listens at by --unix. The server answers once all its clients have come. */
  static connect(port, { window = WINDOW } = {}) {
    return new Promise((resolve, reject) => {
      const stream = net.connect(isPath(port) ? { path: port } : { port, host: "127.0.0.1", noDelay: true });
      const isNobody = (error) => error.code === "ECONNREFUSED" || (isPath(port) && error.code === "ENOENT");
      const failed = (error) => reject(isNobody(error) ? nobodyListens(error, port) : error);
      stream.once("error", failed);
      stream.once("connect", () => {
        stream.off("error", failed);
        stream.setNoDelay(true);
        const closed = new Promise((done) => stream.once("close", () => done(null)));
        const channel = new Channel(stream, stream, window);
        resolve(new Database(channel, () => {
          stream.end(() => stream.destroy());
          return closed;
        }));
      });
    });
  }

  /** Ends the connection once all that was sent is answered, and promises the status of a server of its own. What waits for the end of a
   * block then is rejected with `Ended`. */
  async close() {
    await this._channel.idle();
    return this._closing();
  }

  // Lines

  /** The block in which the caller is. */
  get _block() {
    const blocks = within.getStore();
    return (blocks && blocks.get(this)) || this._channel.outside;
  }

  /** Promises the reply to a line, which is sent once no block within the caller's is open. */
  _exchange(line, isStep) {
    return this._block.when((block) => {
      block.hasSteps ||= isStep;
      return this._channel.ask(line);
    });
  }

  /** What a call answers. */
  async _send({ cmd, members, read }) {
    return read(accepted(await this._exchange(lineOf(cmd, members), SESSION_STEPS.has(cmd)), cmd, members));
  }

  /** The reply to one line, both without their newlines. The line has a command: an empty one would have no reply. */
  askLine(line) {
    if (line.includes("\n") || !line.replace(/\r+$/, "")) return Promise.reject(new TypeError("a line has one command and no newline"));
    if (/\p{Surrogate}/u.test(line)) return Promise.reject(new TypeError("a line has half of a surrogate pair, which would be sent as another text"));
    return this._exchange(line, true);
  }

  /** Sends an empty line, which has no reply. The server reads from its connections by turns and waits for each, so one that has nothing
   * to ask lets the others go on by this. */
  passTurn() {
    if (!this._channel.ended) this._channel.writing.write("\n");
  }

  /** Promises that another line would be sent at once. A loop that sends much ahead awaits this, so that lines don't pile up here. */
  ready() {
    return this._block.when(() => this._channel.ready());
  }

  /** The accepted reply to a command with these members; one that is undefined or null is left out. Rejects with `Refused`. */
  async ask(cmd, members = {}) {
    return this._send(calls.ask(cmd, members));
  }

  // Changes

  /** Adds a record and answers its id. `before` is `{ index, id }`: a sequenced index and the id that the record comes before in it. */
  async insert(row, options) {
    return this._send(calls.insert(row, options));
  }

  /** Sets another record for an id. A row that was got fits: its member `id` is left out. */
  async replace(id, row, options) {
    return this._send(calls.replace(id, row, options));
  }

  /** Sets columns and adds to int columns. Where a unique index refuses the result nothing has changed; with `rollback: false` the record
   * is erased then, as in Boost.MultiIndex and in the bare command. The options are `{ set, add, rollback, table }`. */
  async modify(id, options) {
    return this._send(calls.modify(id, options));
  }

  /** Erases a record. */
  async erase(id, options) {
    return this._send(calls.erase(id, options));
  }

  /** Erases every record with a whole key, and answers how many. */
  async eraseKey(index, key, options) {
    return this._send(calls.eraseKey(index, key, options));
  }

  /** Moves a record of a sequenced index directly before another, the option `before`, or to the end. */
  async relocate(index, id, options) {
    return this._send(calls.relocate(index, id, options));
  }

  // Sessions

  /** Opens a session and answers the revision, which is its number. */
  async start() {
    return (await this.ask("start")).revision;
  }

  /** Takes back all changes since the newest start, and answers the revision. */
  async undo() {
    return (await this.ask("undo")).revision;
  }

  /** Joins the newest session into the one below, or keeps its changes where it is the only one; answers the revision. */
  async squash() {
    return (await this.ask("squash")).revision;
  }

  /** Ends the sessions up to this number, keeps their changes, and answers how many they were. */
  async commit(revision) {
    return (await this.ask("commit", { revision })).committed;
  }

  /** Undoes every open session, and answers how many they were. */
  async undoAll() {
    return (await this.ask("undo_all")).undone;
  }

  /** Lets go of the sessions that this connection holds, which stay open, and answers how many they were. */
  async push() {
    return (await this.ask("push")).pushed;
  }

  /** Asks for room for so many changes inside sessions and so many starts, ahead of a block. */
  async reserve(changes, sessions) {
    await this.ask("reserve", { changes, sessions });
  }

  /** The revision, how many sessions are open (`depth`), and how many of them this connection holds (`held`). */
  async revision() {
    const { revision, depth, held } = await this.ask("revision");
    return { revision, depth, held };
  }

  /** A session for a block, which gets its number. Where the block throws all of it is undone, and the error goes on; else it is squashed,
   * with the sessions that the block left open above it, or undone where that is refused (as `journal`). Answers what the block does.
   *
   * What is called in the block, and in what that calls, falls into the session (Node's `AsyncLocalStorage` tells). Blocks in it nest, and
   * come one after another. Other calls and blocks of this connection wait until it has ended; so a block must not wait for one of them. */
  async session(block) {
    const mine = await this._block.when((outer) => outer.open());
    try {
      return await this._carriedOut(block, mine);
    } finally {
      mine.leave();
    }
  }

  async _carriedOut(block, mine) {
    const { revision: number } = await this._askAtOnce("start");
    let answer;
    try {
      answer = await within.run(new Map(within.getStore()).set(this, mine), block, number);
    } catch (error) {
      await mine.end();
      if (!this._channel.ended) await this._endSession(mine, number, "undo");
      throw error;
    }
    await mine.end();
    try {
      await this._endSession(mine, number, "squash");
    } catch (error) {
      if (error instanceof Refused) await this._endSession(mine, number, "undo");
      throw error;
    }
    return answer;
  }

  /** Ends the session of a number. Where its block itself may have begun or ended some, it is those from this one on, while this connection
   * holds them: what was committed or pushed meanwhile is none of them, and no more is what another connection started since. */
  async _endSession(mine, number, step) {
    if (!mine.hasSteps) return void (await this._askAtOnce(step));
    for (;;) {
      const { revision, held } = await this._askAtOnce("revision");
      if (held === 0 || revision < number) return;
      await this._askAtOnce(step);
    }
  }

  /** Does all of some changes or none, as `[calls.modify(0, { add: { balance: -5 } }), calls.erase(1)]`, and answers what each would. Where one
   * is refused all are undone, and its refusal is thrown: `change` is its place, if it isn't what ends the session. They are sent ahead in a session of their own, so all of them
   * cost two waits. Other calls and blocks of this connection wait until it has ended.
   *
   * Where the connection ends meanwhile the server undoes what isn't squashed. It is ended here, and `Ended` thrown, in the rare case that the
   * session is refused and a change isn't. */
  async atomically(changes) {
    const asked = [...changes];
    for (const it of asked) {
      if (typeof it?.read !== "function") throw new TypeError("changes are made by `calls`, as calls.insert(row)");
      if (SESSION_STEPS.has(it.cmd)) throw new TypeError(`${it.cmd} begins or ends a session, so it can't stand among changes that are done in one`);
    }
    const lines = asked.map((it) => lineOf(it.cmd, it.members));
    if (lines.length === 0) return [];
    const mine = await this._block.when((outer) => outer.open());
    let replies;
    try {
      replies = await this._together(asked, lines);
    } finally {
      mine.leave();
    }
    const refused = replies.findIndex((it) => !it.ok);
    if (refused < 0) return asked.map((it, n) => it.read(replies[n]));
    const { lost, ...reply } = replies[refused], { cmd, members } = asked[refused];
    // (what a modify has lost is back)
    throw new Refused(lost === undefined ? reply : { ...reply, lost: false }, refused, { ...members, cmd });
  }

  /** The replies to changes that were done in one session, which has ended. Where they are more than a piece or a window, or other lines are on their
   * way, the rest follows once the session is open and none was refused: else a start that is refused while others hold sessions could have changes
   * behind it that aren't. */
  async _together(asked, lines) {
    const ask = async (some) => (await Promise.all(some.map((it) => this._channel.ask(it)))).map(decode);
    const start = lineOf("start");
    const first = this._channel.isIdle ? Math.min(firstPiece(start, lines), this._channel.window - 1) : 0;
    const [started, ...replies] = await ask([start, ...lines.slice(0, first)]);
    if (!started.ok) {
      if (replies.some((it, n) => CHANGES.has(asked[n].cmd) && (it.ok || it.lost)))
        throw this._brokenOff(`the session was refused as ${started.error}, and a change behind it was done outside of one`);
      throw new Refused(started, undefined, { cmd: "start" });
    }
    if (first < lines.length && replies.every((it) => it.ok)) replies.push(...(await ask(lines.slice(first))));
    if (!replies.every((it) => it.ok)) {
      await this._askAtOnce("undo");
      return replies;
    }
    try {
      await this._askAtOnce("squash");
    } catch (error) {
      // (a service whose journal has no room for it takes an undo)
      if (error instanceof Refused) await this._askAtOnce("undo");
      throw error;
    }
    return replies;
  }

  /** Ends the connection, and answers the error of all later calls. */
  _brokenOff(why) {
    this._channel.end(why);
    this._closing();
    return this._channel.ended;
  }

  /** The accepted reply to a command of a block that begins or ends: nothing else is asked meanwhile. */
  async _askAtOnce(cmd) {
    return accepted(await this._channel.ask(lineOf(cmd)), cmd);
  }

  // Look-ups

  /** The record of an id. */
  async get(id, { table } = {}) {
    return (await this.ask("get", { id, table })).row;
  }

  /** The first record with a key, an array of its values, or a value alone, which is the key of one part; ordered and ranked indexes take the
   * first values of a key too. */
  async find(index, key, { table } = {}) {
    return (await this.ask("find", { index, key: keyOf(key), table })).row;
  }

  /** The record with n others before it in a ranked index. */
  async nth(index, n, { table } = {}) {
    return (await this.ask("nth", { index, n, table })).row;
  }

  /** How many records have a key. */
  async count(index, key, { table } = {}) {
    return (await this.ask("count", { index, key: keyOf(key), table })).count;
  }

  /** How many records stand before a record in a ranked index. */
  async rank(index, id, { table } = {}) {
    return (await this.ask("rank", { index, id, table })).rank;
  }

  /** How many keys of a ranked index are less. */
  async lowerRank(index, key, { table } = {}) {
    return (await this.ask("lower_rank", { index, key: keyOf(key), table })).rank;
  }

  /** How many keys of a ranked index are not greater. */
  async upperRank(index, key, { table } = {}) {
    return (await this.ask("upper_rank", { index, key: keyOf(key), table })).rank;
  }

  /** How many records the table has. */
  async size({ table } = {}) {
    return (await this.ask("size", { table })).size;
  }

  /** The first rows of a range, `{ rows, more }`, at most `limit` (1 to 1000). `lower` is `{ ge: key }` or `{ gt: key }`, `upper` is
   * `{ le: key }` or `{ lt: key }`, in the order of the index. */
  async range(index, { lower, upper, reverse, limit, table } = {}) {
    const bounds = { lower: boundOf(lower, "lower"), upper: boundOf(upper, "upper") };
    const { rows, more } = await this.ask("range", { index, ...bounds, reverse: reverse || undefined, limit, table });
    return { rows, more };
  }

  /** The first rows of a sequenced index, or of those behind the record `after`, `{ rows, more }`, at most `limit`. */
  async list(index, { after, limit, table } = {}) {
    const { rows, more } = await this.ask("list", { index, after, limit, table });
    return { rows, more };
  }

  // Walks over pages

  /** The rows of a sequenced index, one page after another. */
  async *walkList(index, { page = MOST_ROWS, table } = {}) {
    for (let after, more = true; more; ) {
      const answer = await this.list(index, { after, limit: page, table });
      yield* answer.rows;
      more = answer.more;
      if (more) after = answer.rows[answer.rows.length - 1].id;
    }
  }

  /** The rows of a range, one page after another. `columns` are the parts of the index's key, as the schema has them (a `-` before a name
   * is passed over). The next page begins at the key of the last row, and the rows of that key which came already are passed over; where a
   * page has no others, it begins behind that key. So a walk ends with `TooManyEqual` where more rows have one key than a page has. */
  async *walkRange(index, columns, { lower, upper, reverse = false, page = MOST_ROWS, table } = {}) {
    const names = [columns].flat().map((it) => it.replace(/^-/, ""));
    const [side, including, beyond] = reverse ? ["upper", "le", "lt"] : ["lower", "ge", "gt"];
    const bounds = { lower: boundOf(lower, "lower"), upper: boundOf(upper, "upper") };
    let last = null, given = new Set();
    for (let more = true; more; ) {
      const answer = await this.range(index, { ...bounds, reverse, limit: page, table });
      const rows = answer.rows.filter((it) => !given.has(it.id) || names.some((name, n) => it[name] !== last[n]));
      more = answer.more;
      for (const row of rows) {
        const key = names.map((name) => row[name]);
        if (last === null || key.some((it, n) => it !== last[n])) given = new Set();
        last = key;
        given.add(row.id);
        yield row;
      }
      if (more && rows.length === 0) {
        await this._fitsPage(index, last, page, table);
        given = new Set(); // (behind the key each row is a new one)
      }
      bounds[side] = { [given.size ? including : beyond]: last };
    }
  }

  /** Rejects with `TooManyEqual` where more rows have a key than a page has. */
  async _fitsPage(index, key, page, table) {
    if ((await this.count(index, key, { table })) > page) throw new TooManyEqual(`more than ${page} records of ${index} have the key ${encode(key)}`);
  }
}

/** A stream of a program, whose end or fault is told by the program's own end: then its status is known, and what it said. A program that
 * ends at once leaves a pipe that can't be written before that. */
class Held {
  constructor(stream) {
    this.stream = stream;
    stream.on("error", () => {});
  }

  on(event, call) {
    if (event === "data") this.stream.on(event, call);
  }

  write(text) {
    this.stream.write(text);
  }
}

function freePort() {
  return new Promise((resolve, reject) => {
    const listener = net.createServer();
    listener.once("error", reject);
    listener.listen(0, "127.0.0.1", () => {
      const { port } = listener.address();
      listener.close(() => resolve(port));
    });
  });
}

/** A server that listens on a free port of 127.0.0.1, for programs and tests that want several connections. It answers once so many
 * clients have come, and ends when all have gone. */
class Server {
  constructor(process, port, schema) {
    this.process = process;
    this.port = port;
    this.schema = schema;
    this.said = "";
    this.status = undefined;
    process.stderr.on("data", (bytes) => (this.said += bytes));
    this._closed = new Promise((resolve) => {
      process.on("error", (error) => ((this.said = error.message), (this.status = null), resolve(null)));
      process.on("close", (status) => ((this.status = status), resolve(status)));
    });
  }

  static async start(program, { clients = 1, schema } = {}) {
    const port = await freePort();
    const words = ["--listen", String(port), "--clients", String(clients), ...(schema ? ["--schema", schema] : [])];
    return new Server(spawn(program, words, { stdio: ["ignore", "ignore", "pipe"] }), port, schema);
  }

  /** The next connection, once the server listens; it is tried for `wait` milliseconds. */
  async connect({ wait = 10_000, window } = {}) {
    const end = Date.now() + wait;
    for (;;) {
      try {
        return await Database.connect(this.port, { window });
      } catch (error) {
        if (this.status !== undefined) throw new Ended(endOf(this.status, this.said, this.schema));
        if (error.code !== "ECONNREFUSED" || Date.now() > end) throw error;
        await new Promise((resolve) => setTimeout(resolve, 20));
      }
    }
  }

  /** Promises the status of the server, once it has ended. */
  ended() {
    return this._closed;
  }

  /** Ends the server where it hasn't ended, and promises its status. */
  kill() {
    this.process.kill("SIGKILL");
    return this._closed;
  }
}

module.exports = { Database, Server, Refused, Ended, TooManyEqual, calls, MOST_ROWS, WINDOW };

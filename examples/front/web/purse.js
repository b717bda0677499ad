// The wallet of a holder. It goes by docs/HTTP.md, "A payment from end to end": it looks at the purse and its inbox, does
// what the first row of the table says that fits, and looks again. It never asks what came of a command: where no response
// came, it looks twice, and the second look tells. A token is in the memory of the page alone. Texts of the office come
// onto the page as texts. desk.js uses what is exported.

const AT_REST = ["eaFrom", "eaTo"];
// The kind of message that a purse under way handles in each status, and the row of the table.
const EXPECTED = {epr: ["req", 2], epv: ["val", 3], epa: ["ack", 4]};
const PAGE = 50, ROOM = 32;
// In milliseconds. A front may keep a request for KEPT whose client got nothing at all.
const TIMEOUT = 60_000, KEPT = 20_000, FIRST_PAUSE = 60, LONGEST_PAUSE = 1_000, RESTING_PAUSE = 3_000, LONG_WAIT = 120_000;

export class Refused extends Error {}

// Nobody knows yet whether the request was done. `nothing`: not even the front answered.
export class NoResponse extends Error {
  constructor(why, nothing) {
    super(why);
    this.nothing = nothing;
  }
}

// Sends a request once. A response that isn't whole, or has no JSON object, is none, and so is a 503 or one of the front's own.
export async function ask(token, method, path, body) {
  const how = {method, headers: {"purse-token": token}, cache: "no-store", credentials: "omit", redirect: "error",
    referrerPolicy: "no-referrer", signal: AbortSignal.timeout(TIMEOUT)};
  if (body !== undefined) how.body = JSON.stringify(body);
  let response = null, answer = null;
  try {
    response = await fetch(path, how);
    answer = await response.json();
  } catch {
    answer = null;
  }
  const isAnswer = response && response.status < 500 && answer && typeof answer === "object";
  if (!isAnswer) throw new NoResponse(response ? `no response but ${response.status}` : "no response", !response);
  if (response.status !== 200) throw new Refused(String(answer.error));
  return answer;
}

// --- texts and elements ---

export const byId = name => document.getElementById(name);

// An element with attributes, and with texts and elements in it.
export function element(name, attributes = {}, ...inside) {
  return furnish(document.createElement(name), attributes, inside);
}

export function shape(name, attributes = {}, ...inside) {
  return furnish(document.createElementNS("http://www.w3.org/2000/svg", name), attributes, inside);
}

function furnish(made, attributes, inside) {
  for (const [key, value] of Object.entries(attributes)) made.setAttribute(key, String(value));
  made.append(...inside.map(part => part instanceof Node ? part : String(part)));
  return made;
}

// Puts a text where another stands, so that a reader of the screen isn't told the same again.
export function say(where, text) {
  if (where.textContent !== text) where.textContent = text;
}

// A whole number with commas. What is none is shown as it came.
export const number = value => /^-?\d+$/.test(String(value)) ? BigInt(value).toLocaleString("en") : String(value);

export const pause = milliseconds => new Promise(done => setTimeout(done, milliseconds));

// --- the table ---

export function parts(details) {
  const [payer, payee, value, fromNumber, toNumber] = details.split(",");
  return {payer, payee, value: Number(value), fromNumber: Number(fromNumber), toNumber: Number(toNumber)};
}

export const isDetails = text => {
  const found = /^([a-z][a-z0-9-]{0,23}),([a-z][a-z0-9-]{0,23}),(0|[1-9]\d{0,12}),(0|[1-9]\d{0,15}),(0|[1-9]\d{0,15})$/.exec(text);
  return found !== null && found[1] !== found[2] && Number(found[3]) <= 1e12 && Number(found[4]) <= 1e15 && Number(found[5]) <= 1e15;
};

// The purse's own number in the details of a message in its inbox: a val comes to the payee, a req and an ack to the payer.
function ownNumber(message) {
  const {fromNumber, toNumber} = parts(message.details);
  return message.kind === "val" ? toNumber : fromNumber;
}

// Whether a message has to stay: a clear while a payment is under way, and a req until its payment is started.
function isToBeLeft(message, purse, agreed) {
  if (message.kind === "clear") return !AT_REST.includes(purse.status);
  return message.kind === "req" && ownNumber(message) >= purse.next && (agreed === null || message.details === agreed);
}

// The first row of the table that fits, and the message that it is about.
function rowOf(purse, inbox, agreed) {
  const rests = AT_REST.includes(purse.status);
  const clear = rests && inbox.find(message => message.kind === "clear");
  if (clear) return [1, clear];
  if (!rests) {
    const [kind, row] = EXPECTED[purse.status] ?? [];
    const due = inbox.find(message => message.kind === kind && ownNumber(message) === purse.next - 1);
    if (due) return [row, due];
  }
  const stray = inbox.find(message => !isToBeLeft(message, purse, agreed));
  if (stray) return [5, stray];
  if (!rests) return [6, null];
  if (agreed === null) return [0, null];
  const {payer, fromNumber, toNumber} = parts(agreed);
  const own = payer === purse.purse ? fromNumber : toNumber;
  return [purse.next === own ? 7 : purse.next > own ? 8 : 9, null];
}

// --- a purse that is driven ---

class Purse {
  constructor(token, name, changed) {
    this.token = token;
    this.name = name;
    this.changed = changed;
    this.now = null;
    this.inbox = [];
    this.lines = [];
    // The agreed details, and the payment that is shown: details (or null), role, what is known of it, and how it ended.
    this.agreed = null;
    this.payment = null;
    this.steps = [];
    this.wishes = [];
    this.trouble = "";
    // Until when a request without a response may still be done; 0 where there is none.
    this.doubt = 1;
    this.isOver = false;
    this.wake = () => {};
    this.drive();
  }

  async ask(method, rest, body) {
    try {
      return await ask(this.token, method, `/purses/${encodeURIComponent(this.name)}${rest}`, body);
    } catch (why) {
      if (why instanceof NoResponse) {
        this.doubt = Math.max(this.doubt, Date.now() + (why.nothing && method === "POST" ? KEPT : 0));
      }
      throw why;
    }
  }

  // A command, as a step that is shown with its reply.
  async command(text, rest, body) {
    const step = {at: new Date(), text, request: `POST /purses/${this.name}${rest}`, body: body ? JSON.stringify(body) : "", reply: "…", state: "asked"};
    this.steps.push(step);
    this.changed(this);
    try {
      const answer = await this.ask("POST", rest, body);
      step.reply = answer.done === undefined ? "done" : String(answer.done);
      step.state = "done";
      return answer;
    } catch (why) {
      step.reply = why instanceof NoResponse ? `${why.message}: looks twice` : why.message;
      step.state = "undone";
      throw why;
    } finally {
      this.changed(this);
    }
  }

  // Has something done between two looks: again and again while no response comes.
  wish(action) {
    return new Promise(done => {
      this.wishes.push({action, done});
      this.wake();
    });
  }

  async drive() {
    let wait = FIRST_PAUSE, last = "";
    while (!this.isOver) {
      let isIdle = true;
      try {
        isIdle = await this.turn();
        this.trouble = "";
      } catch (why) {
        this.trouble = why.message;
        if (!(why instanceof NoResponse || why instanceof Refused)) console.error(why);
      }
      const state = JSON.stringify([this.now, this.inbox, this.agreed]);
      if (state !== last) wait = FIRST_PAUSE;
      last = state;
      if (this.isOver) return;
      this.changed(this);
      if (!isIdle) continue;
      const rests = this.now !== null && AT_REST.includes(this.now.status) && this.agreed === null;
      await Promise.race([pause(wait), new Promise(wake => { this.wake = wake; })]);
      wait = Math.min(2 * wait, rests && !this.trouble ? RESTING_PAUSE : LONGEST_PAUSE);
    }
  }

  // Looks, and does one thing. Gives whether it has to wait.
  async turn() {
    const isKept = this.doubt > Date.now();
    if (this.doubt && !isKept) {
      await this.ask("GET", "");
      this.doubt = 0;
    }
    await this.look();
    if (isKept) return true;
    if (this.wishes.length) {
      const {action, done} = this.wishes[0];
      const found = await action().catch(why => {
        if (why instanceof Refused) return why;
        throw why;
      });
      this.wishes.shift();
      done(found);
      return false;
    }
    const [row, message] = rowOf(this.now, this.inbox, this.agreed);
    if (message) return this.take(row, message);
    if (row === 7) return this.start();
    if (row === 8) return this.end();
    if (row === 9) return this.refuse(`the next number of ${this.name} is ${this.now.next}: agree anew`);
    if (row === 0 && this.payment && !this.payment.ended) return this.end();
    return true;
  }

  async look() {
    const now = await this.ask("GET", "");
    const {messages} = await this.ask("GET", "/inbox");
    const isNew = this.now === null || now.balance !== this.now.balance || now.status !== this.now.status || now.next !== this.now.next;
    this.now = now;
    this.inbox = messages;
    if (isNew) await this.readLines();
    this.notice();
  }

  // The lines that aren't known yet.
  async readLines() {
    for (;;) {
      const {lines} = await this.ask("GET", `/statement/${this.lines.length ? this.lines[this.lines.length - 1].number : 0}`);
      this.lines.push(...lines);
      if (lines.length < PAGE) return;
    }
  }

  // What a look tells of the payment under way, also for a page that was opened in the middle of it.
  notice() {
    const {status, next} = this.now;
    if (!AT_REST.includes(status)) {
      if (!this.payment || this.payment.ended || this.payment.own !== next - 1) {
        this.payment = {details: null, own: next - 1, role: status === "epv" ? "payee" : "payer", known: new Set(), since: Date.now(), ended: null};
        if (this.agreed !== null && this.agreedOwn() === next - 1) this.payment.details = this.agreed;
      }
      const payment = this.payment;
      const message = this.inbox.find(it => it.kind === EXPECTED[status]?.[0] && ownNumber(it) === payment.own);
      if (payment.details === null) payment.details = this.found(message);
      const isMine = message && message.details === payment.details;
      payment.known.add("started");
      if (payment.role === "payee" || isMine && status === "epr" || status === "epa") payment.known.add("req");
      if (status === "epa" || status === "epv" && isMine) payment.known.add("val");
      if (status === "epa" && isMine) payment.known.add("ack");
      if (status !== payment.status) payment.since = Date.now();
      payment.status = status;
    }
  }

  agreedOwn() {
    const {payer, fromNumber, toNumber} = parts(this.agreed);
    return payer === this.name ? fromNumber : toNumber;
  }

  // The details of a payment under way that this page didn't start, where a message or a line has them.
  found(message) {
    if (message) return message.details;
    const line = this.lines.findLast(it => it.kind === "sent" && parts(it.note).fromNumber === this.now.next - 1);
    return line && this.now.status === "epa" ? line.note : null;
  }

  async take(row, message) {
    const texts = {1: "Handles the clear, which empties the log", 2: "Pays: handles the req", 3: "Receives: handles the val", 4: "Is done: handles the ack"};
    if (row !== 5) {
      await this.command(texts[row], "/handle", {number: message.number});
      if (row === 3 && this.payment) this.payment.known.add("val").add("ack");
    }
    const isLate = row === 5 ? "Discards a message that is done with" : "Discards it";
    await this.command(`${isLate} (${message.kind}, number ${message.number})`, "/discard", {number: message.number}).catch(why => {
      if (!(why instanceof Refused)) throw why;
    });
    return false;
  }

  async start() {
    const {payer, payee, value, fromNumber, toNumber} = parts(this.agreed);
    const isPayer = payer === this.name;
    this.payment = {details: this.agreed, own: isPayer ? fromNumber : toNumber, role: isPayer ? "payer" : "payee", known: new Set(), since: Date.now(), ended: null};
    try {
      if (isPayer) await this.command(`Starts to pay ${number(value)} to ${payee}`, "/start-from", {peer: payee, value, seq: toNumber});
      else await this.command(`Starts to be paid ${number(value)} by ${payer}`, "/start-to", {peer: payer, value, seq: fromNumber});
    } catch (why) {
      if (!(why instanceof Refused)) throw why;
      return this.refuse(why.message);
    }
    return false;
  }

  refuse(why) {
    const isPayer = parts(this.agreed).payer === this.name;
    const peer = isPayer ? parts(this.agreed).payee : parts(this.agreed).payer;
    this.payment = {details: this.agreed, own: -1, role: isPayer ? "payer" : "payee", known: new Set(), ended: ["refused"], why: `Nothing was started: ${why}. Tell the holder of ${peer}.`};
    this.agreed = null;
    return false;
  }

  // The payment is over: how it ended is in the statement.
  async end() {
    const payment = this.payment ?? {own: this.agreedOwn(), role: parts(this.agreed).payer === this.name ? "payer" : "payee", known: new Set(["started"])};
    payment.details = this.agreed ?? payment.details;
    await this.readLines();
    const kinds = payment.details === null ? null : this.lines.filter(line => line.note === payment.details).map(line => line.kind);
    payment.ended = kinds ?? ["unknown"];
    if (kinds && (kinds.includes("received") || kinds.join() === "sent")) for (const it of ["started", "req", "val", "ack"]) payment.known.add(it);
    if (kinds && kinds.includes("sent")) payment.known.add("req").add("val");
    this.payment = payment;
    this.agreed = null;
    return false;
  }

  // --- what a holder wishes ---

  agree(details) {
    this.agreed = details;
    this.payment = null;
    this.wake();
  }

  // Breaks off the payment under way; or forgets what was agreed, where it isn't started.
  breakOff() {
    const {status, next} = this.now;
    return this.wish(async () => {
      if (AT_REST.includes(this.now.status) || this.now.status !== status || this.now.next !== next) return false;
      await this.command("Breaks the payment off", "/abort");
      await this.look();
      return true;
    });
  }

  discard(message) {
    return this.wish(() => this.command(`Discards message ${message.number} (${message.kind})`, "/discard", {number: message.number}));
  }

  // All entries of the log. The purse is at rest, so nothing is broken off.
  readLog() {
    return this.wish(async () => {
      if (!AT_REST.includes(this.now.status)) throw new Refused("a payment is under way: let it end first, or break it off");
      const entries = [];
      for (;;) {
        const {entry} = await this.command(`Reads the log at place ${entries.length}`, "/read-log", {place: entries.length});
        if (entry === null) return entries;
        entries.push(entry);
      }
    });
  }

  redeem(amount, ref) {
    return this.wish(async () => {
      if (!AT_REST.includes(this.now.status)) throw new Refused("a payment is under way: let it end first, or break it off");
      return this.command(`Redeems ${number(amount)}`, "/redeem", {amount, ref});
    });
  }
}

// --- what is shown ---

const STATUSES = {
  eaFrom: "At rest.", eaTo: "At rest, after it received a value.", epr: "It is paying, and waits to be asked for the value.",
  epa: "It has paid, and waits to hear that the value came.", epv: "It is being paid, and waits for the value.",
};
const KINDS = {loaded: "Loaded", redeemed: "Taken out", sent: "Paid", received: "Received", logged: "Broken off, logged", settled: "Given back"};
const SIGNS = {loaded: "+", received: "+", settled: "+", sent: "−", redeemed: "−", logged: ""};

// What is so now, what may be lost, and who has to act: sentences, and whether they warn.
function toldOf(purse) {
  const {payment, now, agreed} = purse;
  if (!payment) return [[agreed ? "It starts." : ""], false];
  const peer = payment.details ? parts(payment.details)[payment.role === "payer" ? "payee" : "payer"] : "the other purse";
  const value = payment.details ? number(parts(payment.details).value) : "the value";
  if (payment.ended) return endOf(payment, peer, value);
  const waited = payment.since && Date.now() - payment.since > LONG_WAIT ? [`It has waited for ${Math.floor((Date.now() - payment.since) / 60_000)} minutes: ask the holder of ${peer}, or break off.`] : [];
  const other = agreed !== null && payment.own !== purse.agreedOwn() ? [payment.own === purse.agreedOwn() + 1
    ? "Another payment than the agreed one is under way: perhaps the start was done twice. Break it off, and tell the other holder, who breaks off too. Then agree anew."
    : "Another payment than the agreed one is under way. It comes to its end first."] : [];
  const texts = {
    epr: [`${purse.name} waits until ${peer} asks for ${value}. Nothing is paid yet.`, `The holder of ${peer} has to act.`, "Breaking off costs nothing."],
    epv: [`${purse.name} has asked ${peer} for ${value}.`, `The holder of ${peer} has to act. Waiting loses nothing.`,
      "Where you break off and the other pays all the same, the value is lost until the operator settles it. So let the other break off first."],
    epa: [`${value} have left ${purse.name}, and are on their way to ${peer}.`, `The holder of ${peer} has to act. Waiting loses nothing.`,
      "Where you break off and the other does too, the value is lost until the operator settles it."],
  };
  return [[...other, ...(texts[now.status] ?? ["It starts."]), ...waited], other.length > 0 || waited.length > 0];
}

function endOf(payment, peer, value) {
  const kinds = payment.ended, has = kind => kinds.includes(kind);
  const settle = `Read the log below, and give the operator the details. So does the holder of ${peer}. Where both purses have logged it, the operator settles it.`;
  if (has("refused")) return [[payment.why], true];
  if (has("unknown")) return [["It is over. Look at the statement: this page doesn't know its details."], true];
  if (has("settled")) return [[`The operator has given ${value} back to you.`], false];
  if (has("received")) return [[`You have received ${value} from ${peer}.`, "Nothing is left to do."], false];
  if (has("sent") && has("logged")) {
    return [[`You paid ${value} and broke off before you heard from ${peer}. It has received them, or may still, or they are lost until the operator settles it.`, settle], true];
  }
  if (has("sent")) return [[`You have paid ${value} to ${peer}, which has received them.`, "Nothing is left to do."], false];
  if (has("logged")) return [[`You broke off. ${value} are with the payer, or lost until the operator settles it: ask the holder of ${peer} whether they were paid.`, `Where they were: ${settle}`], true];
  return [[payment.role === "payer" ? "Nothing was paid." : "Nothing was received.", `Tell the holder of ${peer}, who has to break off as well.`], true];
}

// Where the value of a payment is, as far as this purse can tell: payer, way, payee or doubt.
function placeOf({known, ended}) {
  if (ended && !ended.includes("settled") && ended.includes("logged")) return "doubt";
  if (ended && (ended.includes("settled") || !known.has("val"))) return "payer";
  return known.has("ack") ? "payee" : known.has("val") ? "way" : "payer";
}

// The picture of a payment: two purses, the three messages between them, and a coin where the value is.
class Picture {
  constructor(svg) {
    this.svg = svg;
    this.of = "";
  }

  show(purse) {
    const {payment} = purse, width = Math.max(250, Math.floor(this.svg.parentElement.clientWidth) - 2 * PADDING);
    const payer = payment.details ? parts(payment.details).payer : payment.role === "payer" ? purse.name : "the other";
    const payee = payment.details ? parts(payment.details).payee : payment.role === "payee" ? purse.name : "the other";
    const value = payment.details ? number(parts(payment.details).value) : "?";
    const of = JSON.stringify([payer, payee, value, payment.own, width]);
    if (of !== this.of) this.draw(width, payer, payee, value);
    this.of = of;
    const {known, ended} = payment, place = placeOf(payment);
    const states = {
      starts: known.has("started") ? "past" : "to-come", req: known.has("req") ? "past" : "to-come",
      val: known.has("val") ? "past" : "to-come", ack: known.has("ack") ? "past" : "to-come",
    };
    if (!ended) {
      const next = Object.keys(states).find(it => states[it] === "to-come");
      if (next) states[next] = "next";
    }
    for (const [name, state] of Object.entries(states)) this.groups[name].setAttribute("class", `step ${state}`);
    const [left, right] = this.ends, x = {payer: left, way: (left + right) / 2, doubt: (left + right) / 2, payee: right}[place];
    this.coin.setAttribute("class", `coin ${place}`);
    this.coin.style.transform = `translate(${x}px, ${VAL}px)`;
    const where = {payer: `with ${payer}`, way: "on its way", payee: `with ${payee}`, doubt: "with either, or lost"}[place];
    this.svg.setAttribute("aria-label", `${payer} pays ${value} to ${payee}. The value is ${where}.`);
  }

  draw(width, payer, payee, value) {
    const side = Math.min(150, (width - 60) / 2), left = side / 2, right = width - side / 2;
    this.ends = [left, right];
    this.svg.setAttribute("viewBox", `0 0 ${width} 250`);
    this.svg.setAttribute("height", 250);
    const most = Math.floor((side - 16) / 9.5), short = name => name.length > most ? `${name.slice(0, most - 1)}…` : name;
    const box = (x, name, does) => shape("g", {class: "end"},
      shape("line", {x1: x, x2: x, y1: 52, y2: 244}), shape("rect", {x: x - side / 2 + 1, y: 1, width: side - 2, height: 50, rx: 12}),
      shape("text", {x, y: 23, class: "name"}, short(name)), shape("text", {x, y: 41, class: "does"}, does));
    const arrow = (y, isRight, text) => {
      const [from, to, back] = isRight ? [left + 6, right - 7, -9] : [right - 6, left + 7, 9];
      return shape("g", {}, shape("line", {x1: from, x2: to, y1: y, y2: y}), shape("path", {d: `M${to + back},${y - 5} L${to},${y} L${to + back},${y + 5}`}),
        shape("text", {x: (left + right) / 2, y: y - (isRight ? 20 : 8)}, text));
    };
    this.groups = {
      starts: shape("g", {}, shape("circle", {cx: left, cy: 74, r: 5}), shape("circle", {cx: right, cy: 74, r: 5}), shape("text", {x: (left + right) / 2, y: 78}, "both start")),
      req: arrow(116, false, "req"), val: arrow(VAL, true, "val"), ack: arrow(222, false, "ack"),
    };
    const digits = value.length;
    this.coin = shape("g", {class: "coin"}, shape("rect", {x: -Math.max(17, digits * 5 + 9), y: -14, width: 2 * Math.max(17, digits * 5 + 9), height: 28, rx: 14}), shape("text", {x: 0, y: 5}, value));
    this.svg.replaceChildren(box(left, payer, "pays"), box(right, payee, "is paid"), ...Object.values(this.groups), this.coin);
  }
}
const VAL = 172, PADDING = 22;

// The balance from line to line.
export function drawBalance(svg, lines) {
  const width = Math.max(240, Math.floor(svg.parentElement.clientWidth)), height = 130, low = height - 8;
  const balances = [0, ...lines.map(line => line.balance)], most = Math.max(1, ...balances);
  const x = place => 6 + (width - 12) * place / balances.length, y = value => low - (low - 14) * value / most;
  const path = balances.reduce((text, value, place) => `${text} V${y(value)} H${x(place + 1)}`, `M${x(0)},${low}`);
  svg.setAttribute("viewBox", `0 0 ${width} ${height}`);
  svg.setAttribute("height", height);
  const last = balances.length - 1;
  svg.replaceChildren(
    shape("line", {class: "ground", x1: 0, x2: width, y1: low, y2: low}), shape("path", {class: "area", d: `${path} V${low} Z`}),
    shape("path", {class: "line", d: path}), shape("circle", {class: "last", cx: x(last + 1), cy: y(balances[last]), r: 4.5}));
  svg.setAttribute("aria-label", `The balance from line to line: ${balances.length - 1} lines, at most ${number(most)}, now ${number(balances[last])}.`);
}

// --- the page ---

class Wallet {
  constructor() {
    this.token = null;
    this.purses = new Map();
    this.shown = null;
    this.written = {};
    this.picture = new Picture(byId("picture"));
    byId("enter-form").addEventListener("submit", event => this.enter(event));
    byId("forget").addEventListener("click", () => this.forget());
    byId("agree-form").addEventListener("submit", event => this.agree(event));
    byId("paste").addEventListener("input", () => this.fill());
    for (const way of ["way-pay", "way-receive"]) byId(way).addEventListener("change", () => this.turn());
    byId("break").addEventListener("click", () => this.breakOff());
    byId("close").addEventListener("click", () => this.close());
    byId("copy").addEventListener("click", () => navigator.clipboard?.writeText(byId("details").textContent));
    byId("read-log").addEventListener("click", () => this.readLog());
    byId("redeem-form").addEventListener("submit", event => this.redeem(event));
    byId("sure-no").addEventListener("click", () => byId("sure").close("no"));
    byId("sure-yes").addEventListener("click", () => byId("sure").close("yes"));
    new ResizeObserver(() => this.resized()).observe(byId("main"));
  }

  // What is drawn to the width is drawn again where that is another.
  resized() {
    const width = byId("main").clientWidth;
    if (width === this.width) return;
    this.width = width;
    if (this.shown) this.show(this.shown, true);
  }

  async enter(event) {
    event.preventDefault();
    const token = byId("token").value.trim();
    say(byId("enter-error"), "");
    try {
      const {purses} = await ask(token, "GET", "/purses");
      this.token = token;
      byId("token").value = "";
      this.open(purses.map(String));
    } catch (why) {
      const texts = {"token not known": "Nobody has this token.", "not for this caller": "This is no holder's token. The desk is for the operator and clerks."};
      say(byId("enter-error"), why instanceof Refused ? texts[why.message] ?? why.message : "No response came. Try again.");
    }
  }

  open(names) {
    byId("enter").hidden = true;
    byId("forget").hidden = byId("wallet").hidden = false;
    byId("no-purses").hidden = names.length > 0;
    byId("purses").replaceChildren(...names.map(name => {
      const button = element("button", {type: "button", "data-purse": name}, element("span", {class: "name"}, name), element("span", {class: "holds"}, " "), element("span", {class: "dot"}));
      button.addEventListener("click", () => this.choose(name));
      return element("li", {}, button);
    }));
    if (names.length) this.choose(names[0]);
    byId("main").focus();
    this.glance(this.token, names.slice(1));
  }

  // What the purses hold that aren't chosen yet.
  async glance(token, names) {
    for (const name of names) {
      const now = await ask(token, "GET", `/purses/${encodeURIComponent(name)}`).catch(() => null);
      if (this.token !== token) return;
      if (now && !this.purses.has(name)) this.showHolds(name, now);
    }
  }

  showHolds(name, now) {
    const button = byId("purses").querySelector(`[data-purse="${CSS.escape(name)}"]`), isUnderWay = !AT_REST.includes(now.status);
    if (!button) return;
    say(button.querySelector(".holds"), number(now.balance));
    button.toggleAttribute("data-way", isUnderWay);
    button.title = isUnderWay ? "A payment is under way" : "";
  }

  choose(name) {
    if (!this.purses.has(name)) this.purses.set(name, new Purse(this.token, name, purse => this.show(purse)));
    this.shown = this.purses.get(name);
    this.written = {};
    byId("log").replaceChildren();
    say(byId("log-told"), "");
    say(byId("redeem-told"), "");
    byId("redeem-ref").value = this.reference();
    byId("columns").hidden = this.shown.now === null;
    for (const button of byId("purses").querySelectorAll("button")) button.setAttribute("aria-current", String(button.dataset.purse === name));
    this.turn();
    this.show(this.shown);
  }

  // A reference that the purse hasn't had.
  reference() {
    return `r-${Array.from(crypto.getRandomValues(new Uint8Array(5)), byte => byte.toString(16).padStart(2, "0")).join("")}`;
  }

  forget() {
    for (const purse of this.purses.values()) purse.isOver = true;
    this.token = this.shown = null;
    this.purses.clear();
    byId("enter").hidden = false;
    byId("forget").hidden = byId("wallet").hidden = byId("columns").hidden = true;
    byId("purses").replaceChildren();
    say(byId("office"), "");
    byId("token").focus();
  }

  // Shows what has changed of a purse. A part is drawn again only where what it shows is another.
  show(purse, isResized = false) {
    if (purse.isOver) return;
    if (purse === this.shown) this.showOffice(purse);
    if (!purse.now) return;
    this.showHolds(purse.name, purse.now);
    if (purse !== this.shown) return;
    byId("columns").hidden = false;
    this.part("head", [purse.now, purse.agreed, purse.payment], false, () => this.showHead(purse));
    this.part("lines", purse.lines.length, isResized, () => this.showLines(purse));
    this.part("inbox", [purse.inbox, purse.now.next, purse.agreed, purse.now.status], false, () => this.showInbox(purse));
    this.part("steps", purse.steps, false, () => this.showSteps(purse));
    this.showPayment(purse);
  }

  part(name, of, isForced, draw) {
    const text = JSON.stringify(of);
    if (this.written[name] === text && !isForced) return;
    this.written[name] = text;
    draw();
  }

  showOffice(purse) {
    say(byId("office"), purse.trouble ? `${purse.trouble}: it is asked again` : purse.now ? "The office answers" : "");
    byId("office").classList.toggle("troubled", purse.trouble !== "");
  }

  showHead(purse) {
    const {now} = purse, isFree = AT_REST.includes(now.status) && purse.agreed === null && (!purse.payment || purse.payment.ended);
    say(byId("purse-name"), purse.name);
    say(byId("balance"), number(now.balance));
    say(byId("status"), STATUSES[now.status] ?? "");
    byId("status").dataset.status = now.status;
    byId("tell").replaceChildren(...(isFree ? ["Tell the other holder: purse ", element("code", {}, purse.name), ", next number ", element("code", {id: "own-next"}, now.next)] : []));
    byId("agree").hidden = !isFree || purse.payment !== null;
  }

  showLines(purse) {
    byId("statement-empty").hidden = purse.lines.length > 0;
    byId("statement").hidden = purse.lines.length === 0;
    byId("lines").replaceChildren(...purse.lines.toReversed().map(line => element("tr", {class: `line ${line.kind}`, "data-number": line.number},
      element("td", {}, line.number), element("td", {}, KINDS[line.kind] ?? line.kind, element("span", {class: "note"}, line.note)),
      element("td", {class: "number"}, `${SIGNS[line.kind] ?? ""}${number(line.amount)}`), element("td", {class: "number"}, number(line.balance)))));
    drawBalance(byId("chart"), purse.lines);
    say(byId("chart-caption"), purse.lines.length ? "The balance, from line to line of the statement" : "");
    byId("balance-figure").hidden = purse.lines.length === 0;
  }

  showInbox(purse) {
    byId("inbox-empty").hidden = purse.inbox.length > 0;
    const isFull = purse.inbox.length >= ROOM;
    byId("inbox-full").hidden = !isFull;
    say(byId("inbox-full"), isFull ? "The inbox is full: a message that comes now vanishes. Discard what you don't want." : "");
    byId("inbox").replaceChildren(...purse.inbox.map(message => this.messageOf(purse, message)));
  }

  messageOf(purse, message) {
    const isRequest = message.kind === "req" && ownNumber(message) >= purse.now.next && purse.agreed === null && AT_REST.includes(purse.now.status);
    const item = element("li", {"data-number": message.number, "data-kind": message.kind}, element("p", {}, element("b", {}, message.kind), " ", element("code", {}, message.details)));
    if (!isRequest) return item;
    const {payee, value, fromNumber} = parts(message.details);
    item.append(element("p", {}, `${payee} asks for ${number(value)}. Pay only what you have agreed on.`));
    const buttons = element("div", {class: "row"});
    if (fromNumber === purse.now.next) {
      const pay = element("button", {type: "button", class: "pays"}, `Pay ${number(value)} to ${payee}`);
      pay.addEventListener("click", () => purse.agree(message.details));
      buttons.append(pay);
    }
    const drop = element("button", {type: "button", class: "quiet drops"}, "Discard");
    drop.addEventListener("click", () => purse.discard(message));
    buttons.append(drop);
    item.append(buttons);
    return item;
  }

  showSteps(purse) {
    byId("steps-empty").hidden = purse.steps.length > 0;
    byId("steps").replaceChildren(...purse.steps.slice(-40).toReversed().map(step => element("li", {class: step.state},
      element("p", {}, element("time", {}, step.at.toLocaleTimeString("en-GB")), " ", step.text),
      element("p", {class: "wire"}, element("code", {}, `${step.request} ${step.body}`.trim()), " → ", element("code", {class: "reply"}, step.reply)))));
    byId("steps").setAttribute("start", purse.steps.length);
  }

  showPayment(purse) {
    const {payment} = purse;
    byId("payment").hidden = payment === null;
    if (payment === null) return;
    say(byId("details"), payment.details ?? "details not known to this page");
    byId("copy").hidden = payment.details === null || Boolean(payment.ended) || !navigator.clipboard;
    this.picture.show(purse);
    const [texts, warns] = toldOf(purse);
    const all = [...(purse.doubt > Date.now() ? ["No response came: the front may still keep the request. It is looked at again within 20 seconds."] : []), ...texts];
    this.part("now", [all, warns], false, () => {
      byId("now").replaceChildren(...all.map(text => element("p", {}, text)));
      byId("now").className = `now ${warns ? "warns" : payment.ended ? "well" : ""}`;
    });
    byId("payment").dataset.ended = payment.ended ? payment.ended.join(" ") || "none" : "";
    byId("break").hidden = Boolean(payment.ended) || AT_REST.includes(purse.now.status);
    byId("close").hidden = !payment.ended;
  }

  // --- what a holder does ---

  turn() {
    const isPaying = byId("way-pay").checked;
    say(byId("peer-label"), isPaying ? "To the purse" : "From the purse");
    say(byId("agree-submit"), isPaying ? "Pay" : "Be paid");
    say(byId("agree-error"), "");
  }

  // Fills the fields from details that the other gave.
  fill() {
    const text = byId("paste").value.trim();
    say(byId("agree-error"), "");
    if (!isDetails(text)) {
      if (text.split(",").length === 5) say(byId("agree-error"), "These are no details.");
      return;
    }
    const {payer, payee, value, fromNumber, toNumber} = parts(text), {name, now} = this.shown, isPaying = payer === name;
    if (!isPaying && payee !== name) return say(byId("agree-error"), `These are no details of ${name}.`);
    byId(isPaying ? "way-pay" : "way-receive").checked = true;
    this.turn();
    byId("peer").value = isPaying ? payee : payer;
    byId("peer-next").value = isPaying ? toNumber : fromNumber;
    byId("value").value = value;
    const own = isPaying ? fromNumber : toNumber;
    if (own !== now.next) say(byId("agree-error"), `The next number of ${name} is ${now.next}, and these details have ${own}: agree anew.`);
  }

  agree(event) {
    event.preventDefault();
    const {name, now} = this.shown, peer = byId("peer").value.trim(), theirs = byId("peer-next").value.trim(), value = byId("value").value.trim();
    const details = byId("way-pay").checked ? [name, peer, value, now.next, theirs].join() : [peer, name, value, theirs, now.next].join();
    const pasted = byId("paste").value.trim();
    if (peer === name) return say(byId("agree-error"), "A purse can't pay itself.");
    if (!isDetails(details)) return say(byId("agree-error"), "The value is at most 10^12, and a next number at most 10^15.");
    if (pasted && pasted !== details) return say(byId("agree-error"), `The details that the other gave aren't ${details}: agree anew.`);
    say(byId("agree-error"), "");
    byId("agree-form").reset();
    this.turn();
    this.shown.agree(details);
  }

  breakOff() {
    const purse = this.shown, {payment, now} = purse;
    const value = payment.details ? number(parts(payment.details).value) : "the value";
    const texts = {
      epr: "It costs nothing: nothing was paid, and nothing will be.",
      epv: `The purse logs the payment. Where the payer has paid, or pays later, ${value} are lost until the operator settles it. So ask the payer to break off first.`,
      epa: `The purse logs the payment. Where the payee breaks off too, now or later, ${value} are lost until the operator settles it.`,
    };
    say(byId("sure-text"), texts[now.status] ?? "Nothing is under way.");
    byId("sure").returnValue = "";
    byId("sure").showModal();
    byId("sure").addEventListener("close", () => byId("sure").returnValue === "yes" && purse.breakOff(), {once: true});
  }

  close() {
    this.shown.payment = null;
    this.show(this.shown);
  }

  async readLog() {
    const purse = this.shown;
    say(byId("log-told"), "");
    const found = await purse.readLog();
    if (purse !== this.shown) return;
    byId("log").replaceChildren(...(found instanceof Refused ? [] : found).map(entry => element("li", {}, element("code", {}, entry))));
    say(byId("log-told"), found instanceof Refused ? `Not read: ${found.message}.` : found.length
      ? "The operator can archive these now. Give the details to the operator where you know, or fear, that the value is lost."
      : "The log is empty.");
  }

  async redeem(event) {
    event.preventDefault();
    const purse = this.shown, amount = Number(byId("redeem-amount").value), ref = byId("redeem-ref").value;
    say(byId("redeem-told"), "");
    const found = await purse.redeem(amount, ref);
    if (purse !== this.shown) return;
    say(byId("redeem-told"), found instanceof Refused ? `Not taken out: ${found.message}.` : `${number(amount)} are taken out, under the reference ${ref}.`);
    if (found instanceof Refused) return;
    byId("redeem-form").reset();
    byId("redeem-ref").value = this.reference();
  }
}

if (document.body.id === "wallet-page") new Wallet();

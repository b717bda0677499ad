// The desk of the operator and of clerks. It looks where it is told to, sends again what is done once, and after a grant that
// got no response it looks at the sums twice (docs/HTTP.md, "Where no response came"). Each request is shown as a curl.

import {ask, byId, element, shape, say, number, pause, isDetails, Refused, NoResponse} from "./purse.js";

// In milliseconds: how long a front may keep a request whose client got nothing at all, and the pauses between two tries.
const KEPT = 20_000, PAUSES = [500, 1_000, 2_000, 4_000, 8_000];

const SUMS = [
  ["balances", "held", "what purses hold"], ["transit", "under way", "it left a purse for another that waits for it"],
  ["lost", "lost", "both purses broke off, or will: the operator settles it"], ["float", "float", "what members have left to issue"],
  ["uncollected", "uncollected", "redeemed, and not yet back in the float"], ["redeemed", "redeemed", "what purses have redeemed in all"],
];
// What is answered to a request that is sent again, where the first was done.
const DONE_BEFORE = {member: "name taken", holder: "name taken", purse: "name taken", settle: "already settled"};

const value = name => byId(name).value.trim();
const amount = name => Number(value(name));

// The requests of each form, and what is said once they are answered.
const ACTS = {
  member: () => ["/members", {member: value("member-name"), token: value("member-token")}, () => `${value("member-name")} is added. The token of its clerk: ${value("member-token")}`],
  grant: () => [`/members/${value("grant-member")}/grant`, {amount: amount("grant-amount")}, () => `${number(amount("grant-amount"))} are granted to ${value("grant-member")}.`],
  archive: () => [`/archive/${value("archive-purse")}`, undefined, answer => `${answer.archived} entries of ${value("archive-purse")} are archived.`],
  settle: () => ["/settle", {details: value("settle-details")}, () => `${value("settle-details")} is settled: the value is back with the payer.`],
  clear: () => [`/clear/${value("clear-purse")}`, {details: value("clear-details")}, () => "The clear is sent. The holder handles it, by the wallet or another client."],
  holder: () => ["/holders", {holder: value("holder-name"), token: value("holder-token")}, () => `${value("holder-name")} is added. The holder's token: ${value("holder-token")}`],
  purse: () => ["/purses", {purse: value("purse-name"), holder: value("purse-holder")}, () => `${value("purse-name")} is added.`],
  load: () => [`/purses/${value("load-purse")}/load`, {amount: amount("load-amount"), ref: value("load-ref")}, () => `${number(amount("load-amount"))} are loaded onto ${value("load-purse")}.`],
  collect: () => ["/collect", undefined, (answer, isAgain) => `${number(answer.collected)} are collected.${isAgain ? " It was sent more than once: what came before is collected too." : ""}`],
};

// A text within single quotes of the shell.
const quoted = text => `'${text.replaceAll("'", "'\\''")}'`;

// The curl that does the same. A token comes from a file, and stands in no list of processes.
function curlOf(role, method, path, body) {
  const words = ["curl"];
  if (method === "POST" && body === undefined) words.push("-X POST");
  words.push(`-H "purse-token: $(cat ${role}.token)"`);
  if (body !== undefined) {
    const text = JSON.stringify(body.token === undefined ? body : {...body, token: "\u0000"});
    words.push("-d", quoted(text).replace("\\u0000", `'"$(cat ${body.member ?? body.holder}.token)"'`));
  }
  words.push(quoted(location.origin + path));
  return words.join(" ");
}

class Desk {
  constructor() {
    this.forgotten();
    byId("enter-form").addEventListener("submit", event => this.enter(event));
    byId("forget").addEventListener("click", () => this.forgotten());
    byId("look").addEventListener("click", () => this.look().catch(() => {}));
    for (const form of document.querySelectorAll("[data-act]")) form.addEventListener("submit", event => this.act(event, form));
  }

  forgotten() {
    this.token = this.role = null;
    byId("enter").hidden = false;
    for (const name of ["forget", "operator", "clerk", "requests-card"]) byId(name).hidden = true;
    byId("requests").replaceChildren();
    for (const told of document.querySelectorAll(".told")) say(told, "");
    this.draw(document);
    say(byId("office"), "");
  }

  // Draws tokens and references anew.
  draw(within) {
    const drawn = count => Array.from(crypto.getRandomValues(new Uint8Array(count)), byte => byte.toString(16).padStart(2, "0")).join("");
    for (const input of within.querySelectorAll(".drawn")) input.value = drawn(16);
    for (const input of within.querySelectorAll(".reference")) input.value = `l-${drawn(5)}`;
  }

  // Asks who has the token: the operator alone may reconcile, and holders alone have purses.
  async enter(event) {
    event.preventDefault();
    this.token = value("token");
    this.role = "your";
    say(byId("enter-error"), "");
    try {
      const sums = await this.refused(this.ask("GET", "/reconcile"));
      const isHolder = sums instanceof Refused && sums.message === "not for this caller" && !(await this.refused(this.ask("GET", "/purses")) instanceof Refused);
      if (sums instanceof Refused && sums.message !== "not for this caller") throw sums;
      if (isHolder) throw new Refused("this is a holder's token, and the wallet is for holders");
      this.role = sums instanceof Refused ? "clerk" : "operator";
      if (this.role === "operator") this.show(sums);
    } catch (why) {
      this.forgotten();
      const text = why.message === "token not known" ? "nobody has this token" : why.message;
      return say(byId("enter-error"), why instanceof Refused ? `Refused: ${text}.` : "No response came. Try again.");
    }
    byId("token").value = "";
    byId("enter").hidden = true;
    for (const name of ["forget", this.role, "requests-card"]) byId(name).hidden = false;
    say(byId("token-file"), `${this.role}.token`);
    byId("main").focus();
  }

  refused(asked) {
    return asked.catch(why => {
      if (why instanceof Refused) return why;
      throw why;
    });
  }

  // A request, shown as a curl with its reply.
  async ask(method, path, body) {
    const reply = element("code", {class: "reply"}, "…"), item = element("li", {class: "asked"}, element("code", {class: "curl"}, curlOf(this.role, method, path, body)), element("p", {class: "wire"}, "→ ", reply));
    byId("requests").prepend(item);
    try {
      const answer = await ask(this.token, method, path, body);
      say(reply, JSON.stringify(answer));
      item.className = "done";
      say(byId("office"), "The office answers");
      byId("office").classList.remove("troubled");
      return answer;
    } catch (why) {
      say(reply, why.message);
      item.className = "undone";
      if (why instanceof NoResponse) {
        say(byId("office"), why.message);
        byId("office").classList.add("troubled");
      }
      throw why;
    }
  }

  // Sends again what is done once, while no response comes.
  async again(action) {
    for (const wait of PAUSES) {
      try {
        return await action();
      } catch (why) {
        if (!(why instanceof NoResponse)) throw why;
        await pause(wait);
      }
    }
    return action();
  }

  async look() {
    const sums = await this.again(() => this.ask("GET", "/reconcile"));
    this.show(sums);
    return sums;
  }

  show(sums) {
    const most = SUMS.map(([name]) => BigInt(sums[name])).reduce((one, other) => one > other ? one : other, 1n);
    const share = (of, all) => all === 0n ? 0 : Number(of * 1_000_000n / all) / 10_000;
    byId("sums").replaceChildren(...SUMS.map(([name, word, means]) => element("tr", {"data-sum": name},
      element("th", {scope: "row"}, word, element("span", {}, means)), element("td", {class: "number"}, number(sums[name])),
      element("td", {}, shape("svg", {viewBox: "0 0 100 10", preserveAspectRatio: "none", height: 14, "aria-hidden": "true"}, shape("rect", {class: name, width: share(BigInt(sums[name]), most), height: 10, rx: 1}))))));
    let at = 0;
    const granted = BigInt(sums.granted), parts = ["balances", "transit", "lost", "uncollected", "float"];
    byId("whole").setAttribute("viewBox", "0 0 100 10");
    byId("whole").setAttribute("preserveAspectRatio", "none");
    byId("whole").replaceChildren(...parts.map(name => {
      const width = share(BigInt(sums[name]), granted), rect = shape("rect", {class: name, x: at, width, height: 10});
      at += width;
      return rect;
    }));
    const words = Object.fromEntries(SUMS.map(([name, word]) => [name, word]));
    byId("whole").setAttribute("aria-label", `Of ${number(sums.granted)} that were granted: ${parts.map(name => `${number(sums[name])} ${words[name]}`).join(", ")}.`);
    say(byId("equation"), `${number(sums.granted)} were granted, and ${number(sums.issued)} issued: ${["balances", "transit", "lost", "redeemed"].map(name => `${number(sums[name])} ${words[name]}`).join(" + ")}.`);
  }

  async act(event, form) {
    event.preventDefault();
    const name = form.dataset.act, [path, body, told] = ACTS[name](), button = form.querySelector("button[type=submit]"), where = form.querySelector(".told");
    const say_ = (text, kind) => {
      say(where, text);
      where.className = `told ${kind}`;
    };
    if (name === "settle" && !isDetails(body.details)) return say_("These are no details of one payment.", "bad");
    button.disabled = true;
    say_("", "");
    try {
      const [answer, isAgain] = name === "grant" ? [await this.grant(path, body), false] : await this.send(name, path, body);
      say_(told(answer, isAgain), "well");
      form.reset();
      this.draw(form);
    } catch (why) {
      say_(why instanceof Refused ? `Refused: ${why.message}.` : why instanceof NoResponse ? "No response came, again and again. Press the button again later, with the same words." : String(why.message), "bad");
    } finally {
      button.disabled = false;
    }
    if (this.role === "operator" && name !== "grant") await this.look().catch(() => {});
  }

  // Any request but a grant. Its answer, and whether it was sent more than once.
  async send(name, path, body) {
    let count = 0;
    try {
      const answer = await this.again(() => (count++, this.ask("POST", path, body)));
      return [answer, count > 1];
    } catch (why) {
      if (count > 1 && why instanceof Refused && why.message === DONE_BEFORE[name]) return [{}, true];
      throw why;
    }
  }

  // A grant is sent once, by this page. The sums tell whether it was done: where no response came by the second look, and where
  // one came, since a browser may have sent it twice.
  async grant(path, body) {
    const before = BigInt((await this.look()).granted), amount = BigInt(body.amount);
    let isAnswered = true;
    try {
      await this.ask("POST", path, body);
    } catch (why) {
      if (!(why instanceof NoResponse)) throw why;
      isAnswered = false;
      await this.look();
      await pause(why.nothing ? KEPT : 0);
      await this.look();
    }
    const risen = BigInt((await this.look()).granted) - before;
    if (risen === amount && (isAnswered || risen > 0n)) return {};
    if (risen === 0n) throw new Error("No response came, and nothing was granted. Grant again.");
    throw new Error(`${isAnswered ? "It is granted" : "No response came"}, and ${number(risen)} more are granted than before: look who granted what before you grant again.`);
  }
}

new Desk();

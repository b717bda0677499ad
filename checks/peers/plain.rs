//! The requests of payments between purses, answered by a plain program on Rust's standard library alone. It is what
//! checks/growth compares the office with: it knows the requests of payments.py and the refusals that they can meet, and writes
//! the same responses.
use std::collections::{BTreeMap, HashMap};
use std::io::{self, BufRead, BufWriter, Read, Write};

const MOST_MESSAGES: usize = 32;
const MOST_ENTRIES: usize = 16;

#[derive(Clone, PartialEq, Eq)]
struct Details {
    from: String,
    to: String,
    value: u64,
    from_seq: u64,
    to_seq: u64,
}

impl Details {
    fn text(&self) -> String {
        format!("{},{},{},{},{}", self.from, self.to, self.value, self.from_seq, self.to_seq)
    }
}

enum Status {
    EaFrom,
    EaTo,
    Epr(Details),
    Epv(Details),
    Epa(Details),
}

#[derive(Clone)]
enum Message {
    Req(Details),
    Val(Details),
    Ack(Details),
}

/// A line of a statement and its note are kept, and never asked for here.
#[allow(dead_code)]
enum Note {
    Reference(String),
    Payment(Details),
}

#[allow(dead_code)]
struct Line {
    kind: &'static str,
    amount: u64,
    balance: u64,
    note: Note,
}

struct Purse {
    holder: String,
    balance: u64,
    next: u64,
    status: Status,
    log: Vec<Details>,
    inbox: BTreeMap<u64, Message>,
    next_message: u64,
    lines: Vec<Line>,
    loads: BTreeMap<String, u64>,
}

impl Purse {
    fn new(holder: String) -> Purse {
        Purse {
            holder,
            balance: 0,
            next: 0,
            status: Status::EaFrom,
            log: Vec::new(),
            inbox: BTreeMap::new(),
            next_message: 0,
            lines: Vec::new(),
            loads: BTreeMap::new(),
        }
    }

    fn add_line(&mut self, kind: &'static str, amount: u64, note: Note) {
        let balance = self.balance;
        self.lines.push(Line { kind, amount, balance, note });
    }

    fn pending(&self) -> Option<&Details> {
        match &self.status {
            Status::Epv(details) | Status::Epa(details) => Some(details),
            _ => None,
        }
    }

    fn abort(&mut self) {
        if let Some(details) = self.pending().cloned() {
            self.add_line("logged", details.value, Note::Payment(details.clone()));
            self.log.push(details);
        }
        self.status = Status::EaFrom;
    }

    fn log_is_full(&self) -> bool {
        self.log.len() + usize::from(self.pending().is_some()) >= MOST_ENTRIES
    }
}

enum Caller {
    Operator,
    Clerk(String),
    Holder(String),
}

struct Member {
    granted: u64,
    float: u64,
}

struct Holder {
    member: String,
    purses: Vec<String>,
}

enum Refusal {
    NoRoute,
    TokenUnknown,
    NotForCaller,
    BadBody,
    Gone(&'static str),
    Misfit(&'static str),
}

impl Refusal {
    fn status_and_text(&self) -> (&'static str, &'static str) {
        match self {
            Refusal::NoRoute => ("404 Not Found", "no route"),
            Refusal::TokenUnknown => ("403 Forbidden", "token not known"),
            Refusal::NotForCaller => ("403 Forbidden", "not for this caller"),
            Refusal::BadBody => ("400 Bad Request", "bad body"),
            Refusal::Gone(text) => ("404 Not Found", text),
            Refusal::Misfit(text) => ("409 Conflict", text),
        }
    }
}

type Reply = Result<String, Refusal>;

fn done(word: &str) -> Reply {
    Ok(format!("{{\"done\":\"{word}\"}}"))
}

fn started(details: &Details) -> Reply {
    Ok(format!("{{\"details\":\"{}\",\"done\":\"started\"}}", details.text()))
}

/// A body: an object of texts and numbers, without escapes.
struct Body<'a>(Vec<(&'a str, &'a str)>);

impl<'a> Body<'a> {
    fn read(text: &'a str) -> Option<Body<'a>> {
        let inner = text.trim().strip_prefix('{')?.strip_suffix('}')?;
        let mut fields = Vec::new();
        for field in inner.split(',').filter(|field| !field.trim().is_empty()) {
            let (key, value) = field.split_once(':')?;
            fields.push((key.trim().strip_prefix('"')?.strip_suffix('"')?, value.trim()));
        }
        Some(Body(fields))
    }

    fn value(&self, key: &str) -> Result<&'a str, Refusal> {
        let found = self.0.iter().rfind(|field| field.0 == key);
        found.map(|field| field.1).ok_or(Refusal::BadBody)
    }

    fn text(&self, key: &str) -> Result<&'a str, Refusal> {
        let value = self.value(key)?;
        value.strip_prefix('"').and_then(|rest| rest.strip_suffix('"')).ok_or(Refusal::BadBody)
    }

    fn name(&self, key: &str) -> Result<&'a str, Refusal> {
        let text = self.text(key)?;
        if is_name(text) { Ok(text) } else { Err(Refusal::BadBody) }
    }

    fn token(&self) -> Result<[u8; 16], Refusal> {
        read_token(self.text("token")?).ok_or(Refusal::BadBody)
    }

    fn number(&self, key: &str, most: u64) -> Result<u64, Refusal> {
        let number = self.value(key)?.parse().map_err(|_| Refusal::BadBody)?;
        if number <= most { Ok(number) } else { Err(Refusal::BadBody) }
    }

    fn amount(&self, key: &str) -> Result<u64, Refusal> {
        self.number(key, 1_000_000_000_000)
    }

    fn seq(&self, key: &str) -> Result<u64, Refusal> {
        self.number(key, 1_000_000_000_000_000)
    }
}

fn is_name(text: &str) -> bool {
    let may_stand = |byte: u8| byte.is_ascii_lowercase() || byte.is_ascii_digit() || byte == b'-';
    text.len() <= 24 && text.bytes().all(may_stand) && text.bytes().next().is_some_and(|byte| byte.is_ascii_lowercase())
}

fn read_token(text: &str) -> Option<[u8; 16]> {
    let mut token = [0; 16];
    if text.len() != 32 || !text.is_ascii() {
        return None;
    }
    for (byte, digits) in token.iter_mut().zip(text.as_bytes().chunks(2)) {
        let (high, low) = ((digits[0] as char).to_digit(16)?, (digits[1] as char).to_digit(16)?);
        *byte = (high * 16 + low) as u8;
    }
    Some(token)
}

#[derive(Default)]
struct Office {
    callers: HashMap<[u8; 16], Caller>,
    members: BTreeMap<String, Member>,
    holders: BTreeMap<String, Holder>,
    purses: BTreeMap<String, Purse>,
}

impl Office {
    fn new_caller(&mut self, token: [u8; 16], caller: Caller) -> Result<(), Refusal> {
        if self.callers.contains_key(&token) {
            return Err(Refusal::Misfit("token taken"));
        }
        self.callers.insert(token, caller);
        Ok(())
    }

    fn new_member(&mut self, body: &Body) -> Reply {
        let (member, token) = (body.name("member")?, body.token()?);
        if self.members.contains_key(member) {
            return Err(Refusal::Misfit("name taken"));
        }
        self.new_caller(token, Caller::Clerk(member.to_string()))?;
        self.members.insert(member.to_string(), Member { granted: 0, float: 0 });
        done("added")
    }

    fn grant(&mut self, member: &str, body: &Body) -> Reply {
        let amount = body.amount("amount")?;
        let granted: u64 = self.members.values().map(|member| member.granted).sum();
        let member = self.members.get_mut(member).ok_or(Refusal::Gone("no such member"))?;
        if granted + amount > 1_000_000_000_000_000 {
            return Err(Refusal::Misfit("grant too large"));
        }
        member.granted += amount;
        member.float += amount;
        done("granted")
    }

    fn new_holder(&mut self, member: &str, body: &Body) -> Reply {
        let (holder, token) = (body.name("holder")?, body.token()?);
        if self.holders.contains_key(holder) {
            return Err(Refusal::Misfit("name taken"));
        }
        self.new_caller(token, Caller::Holder(holder.to_string()))?;
        let row = Holder { member: member.to_string(), purses: Vec::new() };
        self.holders.insert(holder.to_string(), row);
        done("added")
    }

    fn new_purse(&mut self, member: &str, body: &Body) -> Reply {
        let (purse, holder) = (body.name("purse")?, body.name("holder")?);
        let row = self.holders.get_mut(holder).filter(|row| row.member == member);
        let row = row.ok_or(Refusal::Gone("no such holder"))?;
        if self.purses.contains_key(purse) {
            return Err(Refusal::Misfit("name taken"));
        }
        if row.purses.len() >= 64 {
            return Err(Refusal::Misfit("too many purses"));
        }
        row.purses.push(purse.to_string());
        self.purses.insert(purse.to_string(), Purse::new(holder.to_string()));
        done("added")
    }

    fn load(&mut self, member: &str, purse: &str, body: &Body) -> Reply {
        let (amount, reference) = (body.amount("amount")?, body.name("ref")?);
        let found = self.purses.get_mut(purse).ok_or(Refusal::Gone("no such purse"))?;
        if self.holders[&found.holder].member != member {
            return Err(Refusal::Gone("no such purse"));
        }
        match found.loads.get(reference) {
            Some(loaded) if *loaded == amount => return done("loaded"),
            Some(_) => return Err(Refusal::Misfit("reference reused")),
            None => {}
        }
        let row = self.members.get_mut(member).ok_or(Refusal::Gone("no such purse"))?;
        if row.float < amount {
            return Err(Refusal::Misfit("float too small"));
        }
        row.float -= amount;
        found.balance += amount;
        found.loads.insert(reference.to_string(), amount);
        found.add_line("loaded", amount, Note::Reference(reference.to_string()));
        done("loaded")
    }

    fn own(&mut self, holder: &str, purse: &str) -> Result<&mut Purse, Refusal> {
        let found = self.purses.get_mut(purse).filter(|found| found.holder == holder);
        found.ok_or(Refusal::Gone("no such purse"))
    }

    fn put(&mut self, purse: &str, message: Message) {
        let Some(found) = self.purses.get_mut(purse) else {
            return;
        };
        if found.inbox.len() < MOST_MESSAGES {
            found.inbox.insert(found.next_message, message);
            found.next_message += 1;
        }
    }

    fn start_from(&mut self, holder: &str, purse: &str, body: &Body) -> Reply {
        let (peer, value, seq) = (body.name("peer")?, body.amount("value")?, body.seq("seq")?);
        let own = self.own(holder, purse)?;
        if peer == purse {
            return Err(Refusal::Misfit("same purse"));
        }
        if value > own.balance {
            return Err(Refusal::Misfit("not enough"));
        }
        if own.log_is_full() {
            return Err(Refusal::Misfit("log full"));
        }
        own.abort();
        let (from, to) = (purse.to_string(), peer.to_string());
        let details = Details { from, to, value, from_seq: own.next, to_seq: seq };
        own.next += 1;
        let reply = started(&details);
        own.status = Status::Epr(details);
        reply
    }

    fn start_to(&mut self, holder: &str, purse: &str, body: &Body) -> Reply {
        let (peer, value, seq) = (body.name("peer")?, body.amount("value")?, body.seq("seq")?);
        let own = self.own(holder, purse)?;
        if peer == purse {
            return Err(Refusal::Misfit("same purse"));
        }
        if own.log_is_full() {
            return Err(Refusal::Misfit("log full"));
        }
        own.abort();
        let (from, to) = (peer.to_string(), purse.to_string());
        let details = Details { from, to, value, from_seq: seq, to_seq: own.next };
        own.next += 1;
        own.status = Status::Epv(details.clone());
        let reply = started(&details);
        self.put(peer, Message::Req(details));
        reply
    }

    fn handle(&mut self, holder: &str, purse: &str, body: &Body) -> Reply {
        let number = body.seq("number")?;
        let own = self.own(holder, purse)?;
        let message = own.inbox.get(&number).cloned().ok_or(Refusal::Gone("no such message"))?;
        match (message, &own.status) {
            (Message::Req(details), Status::Epr(present)) if details == *present => {
                own.balance -= details.value;
                own.add_line("sent", details.value, Note::Payment(details.clone()));
                own.status = Status::Epa(details.clone());
                let to = details.to.clone();
                self.put(&to, Message::Val(details));
                done("value-sent")
            }
            (Message::Val(details), Status::Epv(present)) if details == *present => {
                own.balance += details.value;
                own.add_line("received", details.value, Note::Payment(details.clone()));
                own.status = Status::EaTo;
                let from = details.from.clone();
                self.put(&from, Message::Ack(details));
                done("received")
            }
            (Message::Ack(details), Status::Epa(present)) if details == *present => {
                own.status = Status::EaFrom;
                done("finished")
            }
            _ => done("ignored"),
        }
    }

    fn discard(&mut self, holder: &str, purse: &str, body: &Body) -> Reply {
        let number = body.seq("number")?;
        let own = self.own(holder, purse)?;
        own.inbox.remove(&number).ok_or(Refusal::Gone("no such message"))?;
        done("discarded")
    }

    fn answer(&mut self, path: &str, token: Option<&str>, body: &str) -> Reply {
        let words: Vec<&str> = path.split('/').skip(1).collect();
        let caller = token.and_then(read_token).and_then(|token| self.callers.remove_entry(&token));
        let Some((token, caller)) = caller else {
            return Err(Refusal::TokenUnknown);
        };
        let reply = match Body::read(body) {
            Some(body) => self.decide(&caller, &words, &body),
            None => Err(Refusal::BadBody),
        };
        self.callers.insert(token, caller);
        reply
    }

    fn decide(&mut self, caller: &Caller, words: &[&str], body: &Body) -> Reply {
        match (words, caller) {
            (["members"], Caller::Operator) => self.new_member(body),
            (["members", member, "grant"], Caller::Operator) => self.grant(member, body),
            (["holders"], Caller::Clerk(member)) => self.new_holder(member, body),
            (["purses"], Caller::Clerk(member)) => self.new_purse(member, body),
            (["purses", purse, "load"], Caller::Clerk(member)) => self.load(member, purse, body),
            (["purses", purse, "start-from"], Caller::Holder(holder)) => self.start_from(holder, purse, body),
            (["purses", purse, "start-to"], Caller::Holder(holder)) => self.start_to(holder, purse, body),
            (["purses", purse, "handle"], Caller::Holder(holder)) => self.handle(holder, purse, body),
            (["purses", purse, "discard"], Caller::Holder(holder)) => self.discard(holder, purse, body),
            (["members" | "holders" | "purses", ..], _) => Err(Refusal::NotForCaller),
            _ => Err(Refusal::NoRoute),
        }
    }
}

/// The path, the token and the length of the body of a head.
struct Head {
    path: String,
    token: Option<String>,
    length: usize,
}

/// The next head, or None where the input ends.
fn read_head(input: &mut impl BufRead) -> io::Result<Option<Head>> {
    let mut line = String::new();
    if input.read_line(&mut line)? == 0 {
        return Ok(None);
    }
    let path = line.split(' ').nth(1).unwrap_or("").to_string();
    let mut head = Head { path, token: None, length: 0 };
    loop {
        line.clear();
        input.read_line(&mut line)?;
        let Some((name, value)) = line.trim_end().split_once(':') else {
            return Ok(Some(head));
        };
        if name.eq_ignore_ascii_case("purse-token") {
            head.token = Some(value.trim().to_string());
        } else if name.eq_ignore_ascii_case("content-length") {
            head.length = value.trim().parse().unwrap_or(0);
        }
    }
}

fn write_response(output: &mut impl Write, status: &str, body: &str) -> io::Result<()> {
    write!(
        output,
        "HTTP/1.1 {status}\r\ncontent-type: application/json\r\ncontent-length: {}\r\nconnection: close\r\n\r\n{body}",
        body.len()
    )
}

fn main() -> io::Result<()> {
    let mut office = Office::default();
    let operator = read_token("00000000000000000000000000000001").expect("a token");
    office.callers.insert(operator, Caller::Operator);
    let (mut input, mut output) = (io::stdin().lock(), BufWriter::new(io::stdout().lock()));
    let mut body = Vec::new();
    while let Some(head) = read_head(&mut input)? {
        body.resize(head.length, 0);
        input.read_exact(&mut body)?;
        let text = std::str::from_utf8(&body).unwrap_or("");
        match office.answer(&head.path, head.token.as_deref(), text) {
            Ok(text) => write_response(&mut output, "200 OK", &text)?,
            Err(refusal) => {
                let (status, text) = refusal.status_and_text();
                write_response(&mut output, status, &format!("{{\"error\":\"{text}\"}}"))?;
            }
        }
    }
    output.flush()
}

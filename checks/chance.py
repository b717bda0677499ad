"""Requests by chance: what members, holders and purses are made to do, over a light picture of the books."""
import random

import forms
from forms import MOST_AMOUNT, MOST_NUMBER, Request
from samples import TOKEN

MEMBERS, CIRCLES, IN_A_CIRCLE, LOOSE_HOLDERS = 24, 24, 8, 40
MOST_LOG, MOST_INBOX, PAGE = 16, 32, 50
# How many of what is under way go on side by side.
SIDE_BY_SIDE = 40
# How often a request comes in a wrong form first, also one of the seldom routes, and how often it is written in another
# right form.
WRONG, SELDOM_WRONG, OTHERWISE = 0.2, 0.6, 0.2
SELDOM = {"POST /members", "POST /holders", "POST /settle", "POST /clear/{p}"}
GHOSTS = [f"ghost-{number}" for number in range(30)]


class Member:
    def __init__(self, name, token, is_poor):
        self.name, self.token, self.is_poor, self.float = name, token, is_poor, 0


class Holder:
    """A holder, of a circle of purses that pay each other alone, or of none."""

    def __init__(self, name, token, member, circle):
        self.name, self.token, self.member, self.circle, self.purses = name, token, member, circle, []


class Purse:
    """What is known of a purse, by the replies."""

    def __init__(self, name, holder):
        self.name, self.holder = name, holder
        self.balance, self.next, self.status, self.deal = 0, 0, "eaFrom", None
        self.log, self.tray, self.archived = set(), set(), set()
        self.inbox, self.sent = {}, 0
        self.loads, self.redemptions = {}, {}

    def break_off(self):
        if self.status in ("epv", "epa"):
            self.log.add(self.deal)
        self.status, self.deal = "eaFrom", None

    def full_log(self):
        """The log that an abort leaves."""
        return self.log | ({self.deal} if self.status in ("epv", "epa") else set())

    def put(self, kind, details):
        if len(self.inbox) < MOST_INBOX:
            self.inbox[self.sent] = kind, details
            self.sent += 1

    def number_of(self, kind, details):
        """The number of a message, the last where there are several, or None."""
        return max((number for number, message in self.inbox.items() if message == (kind, details)), default=None)


def text_of(details):
    return ",".join(map(str, details))


def read_details(text):
    payer, paid, *numbers = text.split(",")
    return payer, paid, *map(int, numbers)


def listed(entries):
    return ";".join(map(text_of, sorted(entries)))


class Chance:
    """Requests by chance, by a seed and by what the ones before were answered."""

    def __init__(self, seed):
        self.random = random.Random(seed)
        self.members, self.holders, self.purses = {}, {}, {}
        self.callers = {TOKEN: ("operator", None)}
        self.circles = [[] for _ in range(CIRCLES)]
        self.loose = []
        self.granted, self.is_late = 0, False
        self.waiting, self.live = [], []
        self.used, self.is_off = 0, False
        self.doings = {
            self.add_member: 3, self.grant: 2, self.grant_much: 0, self.add_holder: 4, self.add_purse: 4, self.hoard: 1,
            self.load: 14, self.redeem: 10, self.collect: 6, self.pay: 55, self.start_off: 3, self.look: 20,
            self.sweep: 10, self.lose: 5, self.mend: 6, self.settle_any: 3, self.fill_log: 1, self.fill_inbox: 0.3,
            self.abort_any: 3,
        }

    # What is chosen by chance.

    def happens(self, share):
        """Whether something comes to pass that does so in this share of all cases."""
        return self.random.random() < share

    def any_of(self, things):
        return self.random.choice(list(things)) if things else None

    def fresh_name(self, letter):
        self.used += 1
        name = f"{letter}{self.used}"
        if self.happens(0.1):
            name = (name + "-" + "z" * 24)[:24]
        return name

    def fresh_token(self):
        return f"{self.random.getrandbits(128):032x}"

    def any_purse(self):
        """A purse: of a circle in three of four cases."""
        circle = self.any_of(self.circles) if self.happens(0.75) else self.loose
        return self.any_of(circle or self.loose)

    def peer_name(self, purse):
        """Whom a purse may name. Nobody outside a circle names a purse of it."""
        circle = self.circle_of(purse)
        if self.happens(0.1):
            return self.any_of(GHOSTS)
        if circle is not self.loose and self.happens(0.1) and self.loose:
            return self.any_of(self.loose).name
        return self.any_of(circle).name

    def circle_of(self, purse):
        circle = self.holders[purse.holder].circle
        return self.loose if circle is None else self.circles[circle]

    def pair(self):
        """Two purses that may pay each other, or two that are one."""
        purse = self.any_purse()
        if not purse:
            return None
        others = [one for one in self.circle_of(purse) if one is not purse or self.happens(0.01)]
        return (purse, self.any_of(others)) if others else None

    def value_for(self, purse):
        """A value for a purse to pay, mostly one that it has."""
        sort = self.random.random()
        if sort < 0.02:
            return 0
        if sort < 0.04:
            return min(purse.balance, MOST_AMOUNT)
        if sort < 0.08:
            return min(purse.balance + self.random.randint(1, 3), MOST_AMOUNT)
        return min(self.random.randint(1, 60), purse.balance, MOST_AMOUNT)

    # The requests of each class.

    def by_operator(self, route, values=(), **names):
        return Request(route, TOKEN, values, **names)

    def by_clerk(self, member, route, values=(), **names):
        return Request(route, member.token, values, **names)

    def of(self, purse, what, values=(), method="POST", **names):
        """A request of the holder of a purse."""
        path = "/purses/{p}" + ("/" + what if what else "")
        return Request(f"{method} {path}", self.holders[purse.holder].token, values, p=purse.name, **names)

    def read_of(self, purse, what="", **names):
        return self.of(purse, what, method="GET", **names)

    def member_of(self, purse):
        return self.members[self.holders[purse.holder].member]

    def start_from(self, purse, peer, value, seq):
        return self.of(purse, "start-from", {"peer": peer, "value": value, "seq": seq})

    def start_to(self, purse, peer, value, seq):
        return self.of(purse, "start-to", {"peer": peer, "value": value, "seq": seq})

    def handle(self, purse, number):
        return self.of(purse, "handle", {"number": number})

    def discard(self, purse, number):
        return self.of(purse, "discard", {"number": number})

    def clear(self, purse, entries):
        return self.by_operator("POST /clear/{p}", {"details": listed(entries)}, p=purse.name)

    def archive(self, purse):
        return self.by_operator("POST /archive/{p}", p=purse.name)

    def settle(self, details):
        return self.by_operator("POST /settle", {"details": text_of(details)})

    def sums(self):
        return self.by_operator("GET /reconcile")

    # What is done, in several requests, each after the response to the one before.

    def add_member(self):
        is_new = len(self.members) < MEMBERS
        name, token = self.fresh_name("m"), self.fresh_token()
        if self.members and (not is_new or self.happens(0.2)):
            name, token = self.taken(self.members, name, token)
        yield self.by_operator("POST /members", {"member": name, "token": token})
        if name in self.members:
            yield from self.grant()

    def taken(self, things, name, token):
        """A name or a token that is there already, or both."""
        sort = self.random.random()
        name = self.any_of(things) if sort < 0.6 else name
        token = self.any_of(self.callers) if sort > 0.4 else token
        return name, token.upper() if self.happens(0.2) else token

    def grant(self):
        member = self.any_of(self.members.values())
        if not member:
            return
        amount = self.random.randint(0, 2000) if member.is_poor else self.random.randint(10**6, 10**9)
        left = MOST_NUMBER - self.granted
        if left < MOST_AMOUNT:
            amount = self.any_of([left + 1, MOST_AMOUNT, 0, min(left, amount)])
        yield self.by_operator("POST /members/{m}/grant", {"amount": min(amount, MOST_AMOUNT)}, m=member.name)
        if self.happens(0.1):
            yield self.by_operator("POST /members/{m}/grant", {"amount": 1}, m=self.fresh_name("m"))

    def grant_much(self):
        """Grants of the most that may be granted at once."""
        for _ in range(5):
            member = self.any_of([one for one in self.members.values() if not one.is_poor])
            yield self.by_operator("POST /members/{m}/grant", {"amount": MOST_AMOUNT}, m=member.name)
        if self.granted + MOST_AMOUNT > MOST_NUMBER:
            self.doings[self.grant_much] = 0

    def add_holder(self):
        member = self.any_of(self.members.values())
        if not member:
            return
        name, token = self.fresh_name("h"), self.fresh_token()
        if self.holders and (self.is_peopled() or self.happens(0.1)):
            name, token = self.taken(self.holders, name, token)
        yield self.by_clerk(member, "POST /holders", {"holder": name, "token": token})
        if name in self.holders:
            yield from self.add_purse(self.holders[name])

    def is_peopled(self):
        loose = sum(holder.circle is None for holder in self.holders.values())
        return loose >= LOOSE_HOLDERS and self.open_circle() is None

    def open_circle(self):
        """A circle that has room, or None."""
        return self.any_of([place for place, circle in enumerate(self.circles) if len(circle) < IN_A_CIRCLE])

    def has_room(self, holder):
        if holder.circle is None:
            return len(holder.purses) < 4
        return len(self.circles[holder.circle]) < IN_A_CIRCLE

    def add_purse(self, holder=None):
        holder = holder or self.any_of(self.holders.values())
        if not holder:
            return
        member, name = self.members[holder.member], self.fresh_name("p")
        if self.purses and (not self.has_room(holder) or self.happens(0.1)):
            name = self.any_of(self.purses)
        elif holder.circle is None and self.happens(0.3):
            name = self.any_of(GHOSTS)
        if self.happens(0.1):
            yield self.by_clerk(member, "POST /purses", {"purse": name, "holder": self.fresh_name("x")})
        yield self.by_clerk(member, "POST /purses", {"purse": name, "holder": holder.name})
        if name in self.purses:
            yield from self.load(self.purses[name])

    def hoard(self):
        """Purses for one of two holders, until there are too many, and more."""
        hoarders = [one for one in self.holders.values() if one.circle is None][:2]
        holder = self.any_of(hoarders)
        for _ in range(4 if holder else 0):
            names = {"purse": self.fresh_name("p"), "holder": holder.name}
            yield self.by_clerk(self.members[holder.member], "POST /purses", names)

    def load(self, purse=None):
        purse = purse or self.any_purse()
        if not purse:
            return
        member = self.member_of(purse)
        amount, ref = self.random.randint(1, 1000), self.fresh_name("r")
        sort = self.random.random()
        if sort < 0.1:
            amount = member.float + 1
        elif sort < 0.15 and member.is_poor or sort < 0.2 and self.is_late:
            amount = member.float
        elif sort < 0.22:
            amount = 0
        amount = min(amount, MOST_AMOUNT)
        if purse.loads and self.happens(0.2):
            ref = self.any_of(purse.loads)
            amount = purse.loads[ref] if self.happens(0.5) else amount
        for _ in range(self.any_of([1, 1, 1, 2])):
            yield self.by_clerk(member, "POST /purses/{p}/load", {"amount": amount, "ref": ref}, p=purse.name)

    def redeem(self):
        purse = max((self.any_purse() for _ in range(3)), key=lambda one: one.deal is not None if one else False)
        if not purse:
            return
        amount, ref = self.value_for(purse), self.fresh_name("r")
        if purse.redemptions and self.happens(0.4):
            ref = self.any_of(purse.redemptions)
            amount = purse.redemptions[ref] if self.happens(0.5) else amount
        for _ in range(self.any_of([1, 1, 1, 2])):
            yield self.of(purse, "redeem", {"amount": amount, "ref": ref})

    def collect(self):
        if member := self.any_of(self.members.values()):
            yield self.by_clerk(member, "POST /collect")

    def pay(self):
        """A payment, of which any step may come twice or too early, or be the last."""
        pair = self.pair()
        if not pair:
            return
        payer, paid = pair
        value, numbers = self.value_for(payer), (payer.next, paid.next)
        if self.happens(0.03):
            numbers = numbers[0], numbers[1] + self.any_of([1, 7, MOST_NUMBER - numbers[1]])
        starts = [self.start_from(payer, paid.name, value, numbers[1])]
        starts.append(self.start_to(paid, payer.name, value, numbers[0]))
        if self.happens(0.4):
            starts.reverse()
        for start in starts:
            yield start
            if self.happens(0.05):
                yield start
        details = payer.name, paid.name, value, *numbers
        yield from self.hand_on(payer, paid, details)

    def hand_on(self, payer, paid, details, gives_up=0.05):
        """The messages of a payment, each handled by the purse that gets it."""
        for purse, kind in ((payer, "req"), (paid, "val"), (payer, "ack")):
            if self.happens(gives_up):
                return
            if self.happens(0.04):
                yield self.of(self.any_of([payer, paid]), "abort")
            number = purse.number_of(kind, details)
            if number is None:
                number = self.any_of([*purse.inbox, purse.sent])
                gives_up = 0.5
            for _ in range(self.any_of([1] * 9 + [2])):
                yield self.handle(purse, number)
            if self.happens(0.5):
                yield self.discard(purse, number)

    def start_off(self):
        """A start alone."""
        purse = self.any_purse()
        if not purse:
            return
        peer = purse.name if self.happens(0.2) else self.peer_name(purse)
        seq = self.any_of([0, purse.next, self.random.randint(0, 40), MOST_NUMBER])
        start = self.any_of([self.start_from, self.start_to])
        yield start(purse, peer, self.any_of([self.value_for(purse), MOST_AMOUNT]), seq)

    def abort_any(self):
        purse = self.any_purse()
        for _ in range(self.any_of([1, 1, 2]) if purse else 0):
            yield self.of(purse, "abort")

    def look(self):
        purse = self.any_purse()
        if not purse:
            return
        sort = self.random.random()
        if sort < 0.2:
            yield self.sums()
        elif sort < 0.35:
            yield Request("GET /purses", self.holders[purse.holder].token)
        elif sort < 0.6:
            yield self.read_of(purse)
        elif sort < 0.75:
            yield self.read_of(purse, "inbox")
        else:
            after = self.any_of([0, self.random.randint(0, 100), PAGE, MOST_NUMBER])
            yield self.read_of(purse, "statement/{after}", after=after)

    def sweep(self):
        """A look into an inbox, of which most messages are handled or dropped."""
        purse = max((self.any_purse() for _ in range(4)), key=lambda one: len(one.inbox) if one else -1)
        if not purse:
            return
        yield self.read_of(purse, "inbox")
        for number in list(purse.inbox):
            if self.happens(0.3):
                yield self.handle(purse, number)
            if self.happens(0.7):
                yield self.discard(purse, number)
        if self.happens(0.3):
            number = self.any_of([purse.sent, self.random.randint(0, purse.sent), MOST_NUMBER])
            yield self.any_of([self.handle, self.discard])(purse, number)

    def lose(self):
        """A payment whose value is lost, and in most cases settled."""
        pair = self.pair()
        if not pair or pair[0] is pair[1]:
            return
        payer, paid = pair
        value, numbers = self.value_for(payer), (payer.next, paid.next)
        details = payer.name, paid.name, value, *numbers
        yield self.start_from(payer, paid.name, value, numbers[1])
        yield self.start_to(paid, payer.name, value, numbers[0])
        yield self.handle(payer, payer.number_of("req", details) or 0)
        for purse in self.random.sample(pair, 2):
            yield self.of(purse, "abort")
        if self.happens(0.3):
            yield self.settle(details)
        for purse in self.random.sample(pair, 2):
            if self.happens(0.1):
                return
            yield from self.read_log(purse)
            yield self.archive(purse)
        for _ in range(self.any_of([1, 2])):
            yield self.settle(details)
        if self.happens(0.5):
            yield from self.mend(payer)

    def read_log(self, purse):
        places = list(range(len(purse.full_log()) + 1))
        if self.happens(0.1):
            self.random.shuffle(places)
        if self.happens(0.1):
            places = [self.any_of([0, 3, 15, 16, 2**64 - 1])]
        for place in places:
            yield self.of(purse, "read-log", {"place": place})

    def mend(self, purse=None):
        """A log that is read, archived and cleared, in most cases."""
        purse = purse or max((self.any_purse() for _ in range(6)), key=lambda one: len(one.log) if one else -1)
        if not purse:
            return
        yield from self.read_log(purse)
        if self.happens(0.9):
            yield self.archive(purse)
        entries = purse.full_log()
        if self.happens(0.2) and entries:
            entries = set(self.random.sample(sorted(entries), self.random.randint(1, len(entries))))
        for _ in range(self.any_of([1] * 9 + [2])):
            yield self.clear(purse, entries)
        number = purse.number_of("clear", tuple(sorted(entries)))
        if number is not None and self.happens(0.9):
            for _ in range(self.any_of([1] * 9 + [2])):
                yield self.handle(purse, number)
            if self.happens(0.8):
                yield self.discard(purse, number)

    def settle_any(self):
        """A settlement of what some purse has logged or archived."""
        purse = self.any_purse()
        entries = sorted(purse.full_log() | purse.archived) if purse else []
        if not entries or self.happens(0.1):
            entries = [("p1", self.any_of(GHOSTS), 1, 0, 0)]
        yield self.settle(self.any_of(entries))

    def fill_log(self):
        """Starts that are each broken off by the next, until the log is full."""
        purse = self.any_purse()
        for _ in range(MOST_LOG + 3 if purse else 0):
            yield self.start_to(purse, self.peer_name(purse), self.random.randint(0, 9), purse.next)
            if self.happens(0.02):
                return
        if purse:
            yield self.start_from(purse, self.peer_name(purse), 0, 0)

    def fill_inbox(self):
        """Clears, until the inbox is full, and more."""
        purse = self.any_of([one for one in self.purses.values() if one.archived])
        for _ in range(MOST_INBOX + 2 - len(purse.inbox) if purse else 0):
            entries = self.random.sample(sorted(purse.archived), min(len(purse.archived), self.random.randint(1, 4)))
            yield self.clear(purse, entries)

    # Which request comes next.

    def be_late(self):
        """From here on the operator grants all that may be granted, and purses are loaded with much."""
        self.is_late, self.doings[self.grant_much] = True, 10

    def next(self):
        """The next request. A wrong form of it may come first."""
        if self.waiting:
            return self.waiting.pop()
        request = self.advanced()
        if self.happens(SELDOM_WRONG if request.route in SELDOM else WRONG):
            self.waiting.append(request)
            wrong = self.wrong_form(request)
            is_head = wrong.method == "GET" and self.happens(0.2)
            return wrong.but(wrong.form, wrong.wrong, method="HEAD") if is_head else wrong
        return forms.right_form(request, self.random) if self.happens(OTHERWISE) else request

    def advanced(self):
        """The next request of something that is under way."""
        while True:
            if len(self.live) < SIDE_BY_SIDE:
                doing = self.random.choices(list(self.doings), list(self.doings.values()))[0]
                self.live.append(doing())
            place = self.random.randrange(len(self.live))
            request = next(self.live[place], None)
            if request:
                return request
            del self.live[place]

    def wrong_form(self, request):
        """The request in a form in which it is refused, whatever the books are."""
        sort = self.random.random() if request.values else self.random.uniform(0.45, 1)
        if sort < 0.45:
            form, body = forms.wrong_body(request, self.random)
            return request.but(form, "bad body", body=body)
        if sort < 0.6:
            return forms.wrong_route(request, self.random)
        if sort < 0.75:
            return forms.wrong_token(request, self.random, self.fresh_token())
        owner = self.callers[request.token]
        if sort < 0.9:
            others = [token for token, caller in self.callers.items() if caller[0] != owner[0]]
            if others:
                return self.by_another(request, "another class's token", "not for this caller", self.any_of(others))
        return self.to_another(request, owner) or forms.wrong_route(request, self.random)

    def by_another(self, request, form, word, token):
        return request.but(form, word, token=token, tokens=[token.encode()])

    def to_another(self, request, owner):
        """The request by another of the same class, or of what isn't there, where either is refused."""
        route = request.route
        others = [token for token, caller in self.callers.items() if caller[0] == owner[0] and caller != owner]
        words = {"POST /purses/{p}/load": "no such purse", "POST /purses": "no such holder"}
        word = "no such purse" if owner[0] == "holder" and "{p}" in route else words.get(route)
        if word and others and self.happens(0.6):
            return self.by_another(request, "another's token", word, self.any_of(others))
        if "p" in request.names:
            names = request.names | {"p": self.fresh_name("x")}
            path = route.split(" ")[1].format(**names).encode()
            return request.but("a purse that isn't there", "no such purse", path=path, names=names)
        return None

    # What the responses say.

    def learn(self, request, status, reply):
        """Brings the picture up to what was answered."""
        if status != 200 or request.method == "HEAD":
            return
        if request.route in LEARN:
            LEARN[request.route](self, request, reply, self.purses.get(request.names.get("p")))

    def learn_member(self, request, reply, purse):
        name, token = request.values["member"], request.values["token"].lower()
        self.members[name] = Member(name, token, len(self.members) % 4 == 3)
        self.callers[token] = "clerk", name

    def learn_grant(self, request, reply, purse):
        self.members[request.names["m"]].float += request.values["amount"]
        self.granted += request.values["amount"]

    def learn_holder(self, request, reply, purse):
        name, token = request.values["holder"], request.values["token"].lower()
        loose = sum(holder.circle is None for holder in self.holders.values())
        circle = self.open_circle() if loose >= 2 and self.happens(0.7) or loose >= LOOSE_HOLDERS else None
        self.holders[name] = Holder(name, token, self.callers[request.token][1], circle)
        self.callers[token] = "holder", name

    def learn_purse(self, request, reply, purse):
        name, holder = request.values["purse"], self.holders[request.values["holder"]]
        self.purses[name] = Purse(name, holder.name)
        holder.purses.append(name)
        self.circle_of(self.purses[name]).append(self.purses[name])

    def learn_load(self, request, reply, purse):
        if request.values["ref"] not in purse.loads:
            purse.loads[request.values["ref"]] = request.values["amount"]
            purse.balance += request.values["amount"]
            self.member_of(purse).float -= request.values["amount"]

    def learn_collect(self, request, reply, purse):
        self.members[self.callers[request.token][1]].float += int(reply["collected"])

    def learn_archive(self, request, reply, purse):
        purse.archived |= purse.tray
        purse.tray = set()

    def learn_clear(self, request, reply, purse):
        purse.put("clear", tuple(map(read_details, request.values["details"].split(";"))))

    def learn_settle(self, request, reply, purse):
        payer, _, value, *_ = read_details(request.values["details"])
        self.purses[payer].balance += value

    def learn_show(self, request, reply, purse):
        known = {"balance": purse.balance, "next": purse.next, "purse": purse.name, "status": purse.status}
        self.is_off |= reply != known

    def learn_start_from(self, request, reply, purse):
        purse.break_off()
        purse.next, purse.status, purse.deal = purse.next + 1, "epr", read_details(reply["details"])

    def learn_start_to(self, request, reply, purse):
        purse.break_off()
        purse.next, purse.status, purse.deal = purse.next + 1, "epv", read_details(reply["details"])
        if request.values["peer"] in self.purses:
            self.purses[request.values["peer"]].put("req", purse.deal)

    def learn_handle(self, request, reply, purse):
        done, deal = reply["done"], purse.deal
        if done == "value-sent":
            purse.balance, purse.status = purse.balance - deal[2], "epa"
            if deal[1] in self.purses:
                self.purses[deal[1]].put("val", deal)
        elif done == "received":
            purse.balance, purse.status, purse.deal = purse.balance + deal[2], "eaTo", None
            self.purses[deal[0]].put("ack", deal)
        elif done == "finished":
            purse.status, purse.deal = "eaFrom", None
        elif done == "cleared":
            purse.break_off()
            purse.log = set()

    def learn_discard(self, request, reply, purse):
        purse.inbox.pop(request.values["number"], None)

    def learn_abort(self, request, reply, purse):
        purse.break_off()

    def learn_read_log(self, request, reply, purse):
        purse.break_off()
        if reply["entry"] is not None:
            details = read_details(reply["entry"])
            purse.tray |= {details} - purse.archived

    def learn_redeem(self, request, reply, purse):
        if request.values["ref"] not in purse.redemptions:
            purse.break_off()
            purse.redemptions[request.values["ref"]] = request.values["amount"]
            purse.balance -= request.values["amount"]

    def learn_inbox(self, request, reply, purse):
        messages = []
        for number, (kind, details) in purse.inbox.items():
            details = listed(details) if kind == "clear" else text_of(details)
            messages.append({"details": details, "kind": kind, "number": number})
        self.is_off |= reply != {"messages": messages}

    # Reads.

    def reads_around(self, request):
        """The reads that show what a request might change: of the purses that it names, or of any."""
        named = [request.names.get("p"), request.values.get("peer"), request.values.get("purse")]
        named += str(request.values.get("details", "")).split(",")[:2]
        purses = {name: self.purses[name] for name in named if name in self.purses}
        for purse in purses.values() or [self.any_purse()]:
            yield from self.reads_of(purse)
        yield self.sums()

    def reads_of(self, purse):
        """A purse, its inbox, and the end of its statement."""
        yield Request("GET /purses", self.holders[purse.holder].token)
        yield self.read_of(purse)
        yield self.read_of(purse, "inbox")
        yield self.read_of(purse, "statement/{after}", after=0)
        yield self.read_of(purse, "statement/{after}", after=PAGE)


LEARN = {
    "POST /members": Chance.learn_member,
    "POST /members/{m}/grant": Chance.learn_grant,
    "POST /archive/{p}": Chance.learn_archive,
    "POST /clear/{p}": Chance.learn_clear,
    "POST /settle": Chance.learn_settle,
    "POST /holders": Chance.learn_holder,
    "POST /purses": Chance.learn_purse,
    "POST /purses/{p}/load": Chance.learn_load,
    "POST /collect": Chance.learn_collect,
    "GET /purses/{p}": Chance.learn_show,
    "POST /purses/{p}/start-from": Chance.learn_start_from,
    "POST /purses/{p}/start-to": Chance.learn_start_to,
    "POST /purses/{p}/handle": Chance.learn_handle,
    "POST /purses/{p}/discard": Chance.learn_discard,
    "POST /purses/{p}/abort": Chance.learn_abort,
    "POST /purses/{p}/read-log": Chance.learn_read_log,
    "POST /purses/{p}/redeem": Chance.learn_redeem,
    "GET /purses/{p}/inbox": Chance.learn_inbox,
}

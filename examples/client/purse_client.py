#!/usr/bin/env python3
"""A client of the office for one purse, over Python's standard library. It goes by docs/HTTP.md, "A payment from end to
end": it looks at the purse and its inbox, does what their state asks for, and looks again. It never asks what came of
a command: where no response came, it looks twice, and the second look tells. So a client that was killed goes on where the
same words are given again.

purse_client.py [--url URL] [--token-file FILE] [--patience SECONDS] COMMAND ..

    show PURSE                   prints the balance, the next number and the status
    pay DETAILS                  makes the payment of these details, `from,to,value,from_seq,to_seq`, for its payer
    receive DETAILS              the same for its payee
    recover PURSE                brings the payment under way to its end, and tidies the inbox
    abort PURSE                  breaks off the payment under way
    load PURSE AMOUNT REF        with the token of the clerk: loads the purse, once for each reference
    redeem PURSE AMOUNT REF      takes an amount out of the purse, once for each reference

`pay` and `receive` print the kinds of the lines that the statement has of the payment. The status is 0 where that is
just `sent` or `received`. It is 1 where it is anything else, where a request is refused, and where nothing has changed
for so long that the patience is over. Then nothing is broken off, and the same words go on.
"""
import argparse
import http.client
import json
import re
import sys
import time
import urllib.parse

AT_REST = ("eaFrom", "eaTo")
# The kind of message that a purse handles in each status.
EXPECTED = {"epr": "req", "epv": "val", "epa": "ack", "eaFrom": "clear", "eaTo": "clear"}
CONNECTIONS = {"http": http.client.HTTPConnection, "https": http.client.HTTPSConnection}
PAGE = 50
# In seconds. A slow disk may hold a response up.
TIMEOUT, FIRST_PAUSE, LONGEST_PAUSE, PATIENCE = 60, 0.01, 1, 600


class Refused(Exception):
    """The office refused a request, which changed nothing."""


class NoResponse(Exception):
    """No response came, so nobody knows yet whether the request was done."""


class Waiting(Exception):
    """The peer has to do its part first."""


def own_number(message):
    """The purse's own number in the details of a message in its inbox: a val comes to the payee, and a req and an ack
    to the payer."""
    _, _, _, from_seq, to_seq = message["details"].split(",")
    return int(to_seq if message["kind"] == "val" else from_seq)


def is_for_later(message, purse, agreed):
    """Whether a message has to stay in the inbox: a clear until the purse is at rest, and a req until its payment is
    started, where that is the agreed one or nobody knows which is."""
    if message["kind"] == "clear":
        return purse["status"] not in AT_REST
    return own_number(message) >= purse["next"] and agreed in (None, message["details"])


def is_expected(message, purse):
    """Whether the purse has to handle a message that isn't for later. The payment under way has the number before the
    next. A req of another payment may have that number too: the purse ignores it."""
    is_of_now = message["kind"] == "clear" or own_number(message) == purse["next"] - 1
    return is_of_now and message["kind"] == EXPECTED[purse["status"]]


class Purse:
    """A purse. Nothing else may drive it meanwhile."""

    def __init__(self, url, token, name, patience=PATIENCE):
        self.url, self.token, self.name, self.patience = urllib.parse.urlsplit(url), token, name, patience
        self.lines = []
        # Whether a request had no response, of this client or of one before it, and no other was answered since.
        self.is_unsure = True

    def ask(self, method, path, **body):
        """Sends a request once. A response that isn't whole, or a 503, is none."""
        connection = CONNECTIONS[self.url.scheme](self.url.netloc, timeout=TIMEOUT)
        try:
            text = json.dumps(body) if body else None
            connection.request(method, f"/purses/{self.name}{path}", text, {"purse-token": self.token})
            response = connection.getresponse()
            answer = json.loads(response.read()) if response.status < 500 else None
        except (OSError, http.client.HTTPException, ValueError) as error:
            self.is_unsure = True
            raise NoResponse(f"no response: {error}") from error
        finally:
            connection.close()
        if response.status >= 500:
            raise NoResponse(f"no response but {response.status}")
        self.is_unsure = False
        if response.status != 200:
            raise Refused(answer["error"])
        return answer

    def show(self):
        return self.again(lambda: self.ask("GET", ""))

    def abort(self):
        return self.ask("POST", "/abort")

    def load(self, amount, reference):
        return self.again(lambda: self.ask("POST", "/load", amount=amount, ref=reference))

    def redeem(self, amount, reference):
        """A redemption aborts the payment under way, so that is brought to its end first."""
        self.recover()
        return self.again(lambda: self.ask("POST", "/redeem", amount=amount, ref=reference))

    def again(self, step):
        """What a step gives, which is taken again and again while no response comes or the peer has its part to do. The
        pauses grow as long as nothing changes."""
        last, pause, end = None, FIRST_PAUSE, time.monotonic() + self.patience
        while True:
            try:
                return step()
            except (NoResponse, Waiting) as why:
                if isinstance(why, Waiting) and str(why) != last:
                    last, pause, end = str(why), FIRST_PAUSE, time.monotonic() + self.patience
                if time.monotonic() > end:
                    raise
            time.sleep(pause)
            pause = min(2 * pause, LONGEST_PAUSE)

    def look(self, agreed):
        """Looks at the purse and its inbox, handles what is expected, and discards what is of no use any more. Gives
        the purse as it was before. A request that had no response may be done behind the first look, but not behind the
        second."""
        if self.is_unsure:
            self.ask("GET", "")
        purse = self.ask("GET", "")
        for message in self.ask("GET", "/inbox")["messages"]:
            if is_for_later(message, purse, agreed):
                continue
            if is_expected(message, purse):
                self.ask("POST", "/handle", number=message["number"])
            self.ask("POST", "/discard", number=message["number"])
        return purse

    def look_at_rest(self, agreed=None):
        """Looks at a purse whose payment under way has come to its end."""
        purse = self.look(agreed)
        if purse["status"] not in AT_REST:
            raise Waiting(f"{self.name} waits in {purse['status']}, its next number is {purse['next']}")
        return purse

    def recover(self):
        return self.again(self.look_at_rest)

    def pay(self, details):
        _, peer, value, number, peers_number = details.split(",")
        return self.make(details, int(number), "/start-from", peer=peer, value=int(value), seq=int(peers_number))

    def receive(self, details):
        peer, _, value, peers_number, number = details.split(",")
        return self.make(details, int(number), "/start-to", peer=peer, value=int(value), seq=int(peers_number))

    def make(self, details, number, start, **body):
        """Starts a payment, unless it was started before, and brings it to its end. Gives the kinds of its lines."""

        def step():
            purse = self.look_at_rest(details)
            if purse["next"] < number:
                raise Refused(f"the next number of {self.name} is {purse['next']}")
            if purse["next"] == number:
                self.ask("POST", start, **body)
                raise Waiting("started")

        self.again(step)
        return [line["kind"] for line in self.statement() if line["note"] == details]

    def statement(self):
        """All lines of the statement. Those that came before aren't asked for again."""

        def next_page():
            return self.ask("GET", f"/statement/{len(self.lines)}")["lines"]

        while page := self.again(next_page):
            self.lines += page
            if len(page) < PAGE:
                break
        return self.lines


def details(text):
    """Details as a word of the command line."""
    if not re.fullmatch(r"([a-z][a-z0-9-]*,){2}\d+,\d+,\d+", text):
        raise ValueError(text)
    return text


def command_line():
    """What is given on the command line."""
    parser = argparse.ArgumentParser(description=__doc__, formatter_class=argparse.RawDescriptionHelpFormatter)
    parser.add_argument("--url", default="http://127.0.0.1:8080")
    parser.add_argument("--token-file", required=True)
    parser.add_argument("--patience", type=float, default=PATIENCE)
    commands = parser.add_subparsers(dest="command", required=True, metavar="COMMAND")
    for name in ("pay", "receive"):
        commands.add_parser(name).add_argument("details", type=details)
    for name in ("show", "recover", "abort", "load", "redeem"):
        command = commands.add_parser(name)
        command.add_argument("purse")
        if name in ("load", "redeem"):
            command.add_argument("amount", type=int)
            command.add_argument("reference")
    return parser.parse_args()


def done(given, token):
    """Does a command. Gives what it prints, and whether it did what it is for."""
    if given.command in ("pay", "receive"):
        payer, payee, *_ = given.details.split(",")
        purse = Purse(given.url, token, payer if given.command == "pay" else payee, given.patience)
        kinds = getattr(purse, given.command)(given.details)
        return " ".join(kinds) or "nothing was paid", kinds in (["sent"], ["received"])
    command = getattr(Purse(given.url, token, given.purse, given.patience), given.command)
    answer = command(given.amount, given.reference) if given.command in ("load", "redeem") else command()
    return json.dumps(answer), True


def main():
    given = command_line()
    with open(given.token_file, encoding="ascii") as file:
        token = file.read().strip()
    try:
        text, is_done = done(given, token)
    except (Refused, NoResponse, Waiting) as why:
        text, is_done = str(why), False
    print(text)
    return 0 if is_done else 1


if __name__ == "__main__":
    sys.exit(main())

"""The payments of one pair of purses request by request, and what stands after each; new books and what they print."""
import os
import re
import subprocess

from samples import PROGRAM, TOKEN

EMPTY = (
    b"row,name,granted,float,uncollected,issued,redeemed,balances,transit,lost\n"
    b"scheme,,0,0,0,0,0,0,0,0\n"
)
CREATED = 0, b"created\n", b""
CLERK, ANN, BOB = "0" * 31 + "2", "0" * 31 + "a", "0" * 31 + "b"
LOADED = 1_000_000
RESPONSE = re.compile(rb"HTTP/1\.1 (\d+) [^\r]*\r\n(?:[^\r]+\r\n)*?content-length: (\d+)\r\n(?:[^\r]+\r\n)*\r\n")


def request(method, path, token, body=""):
    return f"{method} {path} HTTP/1.1\r\npurse-token: {token}\r\ncontent-length: {len(body)}\r\n\r\n{body}".encode()


SETUP = [
    request("POST", "/members", TOKEN, '{"member":"m","token":"%s"}' % CLERK),
    request("POST", "/members/m/grant", TOKEN, '{"amount":1000000}'),
    request("POST", "/holders", CLERK, '{"holder":"ann","token":"%s"}' % ANN),
    request("POST", "/holders", CLERK, '{"holder":"bob","token":"%s"}' % BOB),
    request("POST", "/purses", CLERK, '{"purse":"p1","holder":"ann"}'),
    request("POST", "/purses", CLERK, '{"purse":"q1","holder":"bob"}'),
    request("POST", "/purses/p1/load", CLERK, '{"amount":%d,"ref":"a1"}' % LOADED),
]
QUESTIONS = [
    request("GET", "/purses/p1", ANN),
    request("GET", "/purses/q1", BOB),
    request("GET", "/purses/p1/inbox", ANN),
    request("GET", "/purses/q1/inbox", BOB),
    request("GET", "/reconcile", TOKEN),
]


def step(place):
    """The request at this place of the payments, which are eight each: both start, three messages are handled, and
    the three are discarded."""
    number, part = divmod(place, 8)
    p1, q1 = "/purses/p1", "/purses/q1"
    return [
        request("POST", p1 + "/start-from", ANN, '{"peer":"q1","value":1,"seq":%d}' % number),
        request("POST", q1 + "/start-to", BOB, '{"peer":"p1","value":1,"seq":%d}' % number),
        request("POST", p1 + "/handle", ANN, '{"number":%d}' % (2 * number)),
        request("POST", q1 + "/handle", BOB, '{"number":%d}' % number),
        request("POST", p1 + "/handle", ANN, '{"number":%d}' % (2 * number + 1)),
        request("POST", p1 + "/discard", ANN, '{"number":%d}' % (2 * number)),
        request("POST", p1 + "/discard", ANN, '{"number":%d}' % (2 * number + 1)),
        request("POST", q1 + "/discard", BOB, '{"number":%d}' % number),
    ][part]


def shown(done):
    """What the questions are answered where so many of these requests stand."""
    number, part = divmod(done, 8)

    def purse(name, balance, used, status):
        return '{"balance":%d,"next":%d,"purse":"%s","status":"%s"}' % (balance, used, name, status)

    paid, taken = number + (part >= 3), number + (part >= 4)
    from_status = "epr" if 1 <= part <= 2 else "epa" if 3 <= part <= 4 else "eaFrom"
    to_status = "epv" if 2 <= part <= 3 else "eaTo" if number or part >= 2 else "eaFrom"
    req, val, ack = ((kind, place) for kind, place in (("req", 2 * number), ("val", number), ("ack", 2 * number + 1)))
    at_p1 = ([req] if 2 <= part <= 5 else []) + ([ack] if 4 <= part <= 6 else [])
    at_q1 = [val] if 3 <= part <= 7 else []

    def inbox(messages):
        form = '{"details":"p1,q1,1,%d,%d","kind":"%s","number":%d}'
        return '{"messages":[%s]}' % ",".join(form % (number, number, kind, place) for kind, place in messages)

    sums = {
        "balances": LOADED - paid + taken, "float": 0, "granted": LOADED, "issued": LOADED,
        "lost": 0, "redeemed": 0, "transit": paid - taken, "uncollected": 0,
    }
    return [
        purse("p1", LOADED - paid, number + (part >= 1), from_status),
        purse("q1", taken, number + (part >= 2), to_status),
        inbox(at_p1),
        inbox(at_q1),
        "{%s}" % ",".join('"%s":"%d"' % entry for entry in sums.items()),
    ]


def responses(text):
    """The whole responses in a text: status and body."""
    found, at = [], 0
    while head := RESPONSE.match(text, at):
        end = head.end() + int(head[2])
        if end > len(text):
            break
        found.append((int(head[1]), text[head.end() : end].decode()))
        at = end
    return found


def run_whole(file, requests):
    """The responses to requests whose end the program reaches."""
    how = {"input": b"".join(requests), "stdout": subprocess.PIPE}
    ran = subprocess.run([PROGRAM, "run", file], timeout=60, check=True, **how)
    found = responses(ran.stdout)
    assert len(found) == len(requests), ran.stdout
    return found


def init(file):
    """The status of an init, and what it prints."""
    ran = subprocess.run([PROGRAM, "init", file, "--token", TOKEN], stdout=subprocess.PIPE, stderr=subprocess.PIPE)
    return ran.returncode, ran.stdout, ran.stderr


def check_made(folder):
    """Looks at the file in a folder, and at what else is there, and removes the file and its log. Gives whether there
    is a FILE-init-wal."""
    file = os.path.join(folder, "office.db")
    ran = subprocess.run([PROGRAM, "report", file], stdout=subprocess.PIPE, stderr=subprocess.PIPE)
    assert (ran.returncode, ran.stdout, ran.stderr) == (0, EMPTY, b""), ran
    left = set(os.listdir(folder)) - {"office.db", "office.db-wal"}
    assert left <= {"office.db-init-wal"}, left
    os.remove(file)
    if os.path.exists(file + "-wal"):
        os.remove(file + "-wal")
    return bool(left)

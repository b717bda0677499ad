"""The program, the samples of examples/ request by request, and the response that each has to get."""
import os
import re

TOP = os.path.dirname(os.path.dirname(os.path.abspath(__file__)))
PROGRAM = os.path.join(TOP, "out", "purse-office")
TOKEN = "0" * 31 + "1"
RUN = ["run", "--memory", "--token", TOKEN]

UNAVAILABLE = b"HTTP/1.1 503 Service Unavailable\r\ncontent-length: 0\r\nconnection: close\r\n\r\n"


def response(body, status="200 OK"):
    head = f"HTTP/1.1 {status}\r\ncontent-type: application/json\r\n"
    return f"{head}content-length: {len(body)}\r\nconnection: close\r\n\r\n{body}".encode()


def done(word):
    return response('{"done":"%s"}' % word)


STARTED = response('{"details":"p1,q1,60,0,0","done":"started"}')


def handled(word):
    """The two responses where a message is handled, with this word, and discarded."""
    return [done(word), done("discarded")]


FIRST_PATH = 3 * [done("added")] + [response('{"balance":0,"next":0,"purse":"p1","status":"eaFrom"}')]
PAYMENT = (
    [done("added"), done("granted")]
    + 4 * [done("added")]
    + [done("loaded"), STARTED, STARTED] + handled("value-sent") + handled("received") + handled("finished")
    + [response('{"balance":40,"next":1,"purse":"p1","status":"eaFrom"}')]
    + [response('{"balance":60,"next":1,"purse":"q1","status":"eaTo"}')]
)


def sums(**changed):
    """The response with the sums of the scheme: those of 100 loaded onto p1 out of 1000, but for these."""
    all_sums = {"balances": 100, "float": 900, "granted": 1000, "issued": 100, "lost": 0, "redeemed": 0, "transit": 0, "uncollected": 0}
    return response("{%s}" % ",".join(f'"{name}":"{value}"' for name, value in (all_sums | changed).items()))


def lines(*all_lines):
    """The response with these lines, each a kind, an amount, a balance and a note."""
    forms = ('{"amount":%d,"balance":%d,"kind":"%s","note":"%s","number":%d}' % (amount, balance, kind, note, number + 1)
             for number, (kind, amount, balance, note) in enumerate(all_lines))
    return response('{"lines":[%s]}' % ",".join(forms))


LOST_PAYMENT = (
    [done("added"), done("granted")]
    + 4 * [done("added")]
    + [done("loaded"), STARTED, response('{"done":"aborted","logged":true}'), STARTED]
    + handled("value-sent") + handled("ignored")
    + [response('{"done":"read","entry":"p1,q1,60,0,0"}'), response('{"archived":1}'), done("sent")]
    + handled("cleared") + [response('{"done":"read","entry":null}')]
    + [response('{"balance":40,"next":1,"purse":"p1","status":"eaFrom"}')]
    + [response('{"done":"read","entry":"p1,q1,60,0,0"}'), response('{"archived":1}'), done("settled")]
    + [response('{"balance":100,"next":1,"purse":"p1","status":"eaFrom"}'), sums()]
)
STATEMENTS = (
    [done("added"), done("granted")]
    + 4 * [done("added")]
    + [done("loaded"), STARTED, STARTED] + handled("value-sent") + [sums(balances=40, transit=60)]
    + handled("received") + handled("finished")
    + [lines(("loaded", 100, 100, "a1"), ("sent", 60, 40, "p1,q1,60,0,0")), lines()]
    + [lines(("received", 60, 60, "p1,q1,60,0,0")), sums()]
)


FLOAT = (
    [done("added"), done("granted"), done("added"), done("added"), done("loaded"), done("redeemed"), done("redeemed")]
    + [response('{"collected":"100"}'), response('{"collected":"0"}'), done("loaded")]
    + [response('{"error":"float too small"}', "409 Conflict")]
    + [sums(float=0, granted=100, issued=200, redeemed=100)]
)


def requests(name):
    """The requests of a sample: each begins with its method at the start of a line or behind a body."""
    with open(os.path.join(TOP, "examples", name), "rb") as file:
        text = file.read()
    parts = re.split(rb"(?<=[}\n])(?=(?:GET|POST) /)", text)
    assert b"".join(parts) == text
    return parts


def sample(name, responses):
    """The requests of a sample with their responses."""
    parts = requests(name)
    assert len(parts) == len(responses), (len(parts), len(responses))
    return list(zip(parts, responses))

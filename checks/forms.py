"""Requests, and the right and the wrong ways to write them that docs/HTTP.md names."""
import copy
import json

from samples import response

MOST_AMOUNT, MOST_NUMBER = 10**12, 10**15
MOST_HEAD, MOST_FIELDS, MOST_BODY = 8192, 64, 4096

# The routes of docs/HTTP.md: whose each is, and the refusals that are named with it, in their order.
LOAD = "no such purse", "reference reused", "float too small", "purse worn", "over cap"
START = "no such purse", "same purse", "not enough", "log full", "purse worn"
ROUTES = {
    "POST /members": ("operator", ("name taken", "token taken")),
    "POST /members/{m}/grant": ("operator", ("no such member", "grant too large", "float full")),
    "POST /archive/{p}": ("operator", ("no such purse",)),
    "POST /clear/{p}": ("operator", ("no such purse", "not archived")),
    "POST /settle": ("operator", ("already settled", "not lost", "purse worn", "over cap")),
    "GET /reconcile": ("operator", ()),
    "POST /holders": ("clerk", ("no such member", "name taken", "token taken")),
    "POST /purses": ("clerk", ("no such holder", "name taken", "too many purses")),
    "POST /purses/{p}/load": ("clerk", LOAD),
    "POST /collect": ("clerk", ("no such member", "float full")),
    "GET /purses": ("holder", ()),
    "GET /purses/{p}": ("holder", ("no such purse",)),
    "POST /purses/{p}/start-from": ("holder", START),
    "POST /purses/{p}/start-to": ("holder", tuple(word for word in START if word != "not enough")),
    "POST /purses/{p}/handle": ("holder", ("no such purse", "no such message")),
    "POST /purses/{p}/discard": ("holder", ("no such purse", "no such message")),
    "POST /purses/{p}/abort": ("holder", ("no such purse",)),
    "POST /purses/{p}/read-log": ("holder", ("no such purse",)),
    "POST /purses/{p}/redeem": ("holder", ("no such purse", "reference reused", "not enough", "purse worn")),
    "GET /purses/{p}/inbox": ("holder", ("no such purse",)),
    "GET /purses/{p}/statement/{after}": ("holder", ("no such purse",)),
}
WITHOUT_BODY = {
    "POST /archive/{p}", "POST /collect", "POST /purses/{p}/abort",
    *(route for route in ROUTES if route.startswith("GET")),
}
# The status of each refusal.
STATUS = {
    "bad head": 400, "transfer coding": 501, "bad content length": 400, "body too large": 413, "body cut": 400,
    "no route": 404, "token not known": 403, "not for this caller": 403, "bad body": 400,
    "no such member": 404, "no such holder": 404, "no such purse": 404, "no such message": 404,
} | dict.fromkeys(
    ("name taken", "token taken", "too many purses", "same purse", "not enough", "log full", "purse worn",
     "reference reused", "float too small", "float full", "grant too large", "over cap", "not archived",
     "already settled", "not lost"), 409)
REASONS = {
    200: "200 OK", 400: "400 Bad Request", 403: "403 Forbidden", 404: "404 Not Found", 409: "409 Conflict",
    413: "413 Content Too Large", 501: "501 Not Implemented",
}


def refusal(word, is_head=False):
    """The response that refuses with this word."""
    whole = response('{"error":"%s"}' % word, REASONS[STATUS[word]])
    return whole[: whole.index(b"\r\n\r\n") + 4] if is_head else whole


class Request:
    """A request: its route, the names in its path, who asks, and the values of its body. `wrong` is the word with which
    it has to be refused, or None where that depends on the books; `form` says how it is written."""

    def __init__(self, route, token, values=(), **names):
        self.route, self.token, self.values, self.names = route, token, dict(values), names
        self.method, path = route.split(" ")
        self.path = path.format(**names).encode()
        self.body = composed(pairs_of(self.values)) if self.values else b""
        self.tokens, self.version, self.before, self.length = [token.encode()], b"1.1", b"", b"%d"
        self.token_field, self.colon, self.line_end, self.others = b"purse-token", b": ", b"\r\n", []
        self.wrong, self.form = None, "plain"

    def but(self, form, wrong=None, **changed):
        """A copy that is written in another form."""
        other = copy.copy(self)
        other.form, other.wrong = form, wrong
        other.__dict__.update(changed)
        return other

    @property
    def is_read(self):
        return self.method in ("GET", "HEAD")

    def head(self):
        fields = [self.token_field + self.colon + token for token in self.tokens] + self.others
        if self.length is not None:
            fields.append(b"content-length" + self.colon + self.length % len(self.body))
        start = b"%s %s HTTP/%s" % (self.method.encode(), self.path, self.version)
        return self.before + self.line_end.join([start, *fields, b"", b""])

    def text(self):
        return self.head() + self.body


def pairs_of(values):
    return [(f'"{key}"', json.dumps(value)) for key, value in values.items()]


def composed(pairs, space=lambda: ""):
    """The body with these keys and values, with spaces between."""
    inner = ",".join(f"{space()}{key}{space()}:{space()}{value}{space()}" for key, value in pairs)
    return f"{space()}{{{inner or space()}}}{space()}".encode()


def nested(depth):
    return "[" * depth + "]" * depth


# What a key that isn't looked at may have.
ANYTHING = [
    "null", "true", "-0", "1.5e-7", "1e308", "123456789012345678901234567890", '"\\u00e9\\n\\ud83d\\ude00"', '"\u00e9"',
    "[1,[2],{}]", '{"peer":{"value":[]}}', nested(126),
]


def escaped(text):
    """A JSON text with its first letter as an escape."""
    return text[0] + "\\u%04x" % ord(text[1]) + text[2:] if text.startswith('"') and len(text) > 2 else text


def right_body(request, random):
    """A body that says the same."""
    pairs = pairs_of(request.values)
    form = random.choice(["spaces", "order", "double key", "other key", "escapes", "4,096 bytes"])
    if form == "spaces":
        return form, composed(pairs, lambda: random.choice(["", " ", "\t", "\r\n", "  \n"]))
    if form == "order":
        return form, composed(random.sample(pairs, len(pairs)))
    if form == "double key":
        key = random.choice(pairs)[0]
        return form, composed([(key, random.choice(ANYTHING)), *pairs])
    if form == "other key":
        other = random.choice(['"note"', '""', '"Peer"', '"amount "', '"\\u0000"']), random.choice(ANYTHING)
        pairs.insert(random.randrange(len(pairs) + 1), other)
        return form, composed(pairs)
    if form == "escapes":
        return form, composed([(escaped(key), escaped(value)) for key, value in pairs])
    body = composed(pairs)
    return form, b" " * (MOST_BODY - len(body)) + body


OTHER_FIELDS = [
    b"Host: office", b"expect: 100-continue", b"Connection: keep-alive, close", b"content-type: text/html",
    b"x-purse-token: 1", b"content-lengths: 9", b"te: chunked", b"cookie: \xff\xfe",
]
NOT_LOOKED_AT = [b"{", b"\xff", b"null", b'{"amount":1}', b" " * MOST_BODY, b"GET /purses HTTP/1.1\r\n\r\n"]


def right_form(request, random):
    """The request, written in another way that is as good."""
    token = request.tokens[0]
    changes = {
        "version 1.0": {"version": b"1.0"},
        "case of the token": {"tokens": [token.upper()]},
        "case of a field": {"token_field": random.choice([b"Purse-Token", b"PURSE-TOKEN", b"purse-tokeN"])},
        "spaces round a value": {"tokens": [b" \t " + token + b"\t  "]},
        "no space behind a colon": {"colon": b":"},
        "zeros before the length": {"length": b"0" * random.randint(1, 40) + b"%d"},
        "line ends before": {"before": random.choice([b"\r\n", b"\n", b"\r\n\r\n"])},
        "line feeds alone": {"line_end": b"\n"},
        "other fields": {"others": random.sample(OTHER_FIELDS, random.randint(1, len(OTHER_FIELDS)))},
        "64 fields": {"others": [b"a%d: 1" % number for number in range(MOST_FIELDS - 2)]},
        "8,192 bytes of head": {"others": [padding(request, MOST_HEAD)]},
    }
    if not request.values:
        changes["no length"] = {"length": None}
        changes["a body that isn't looked at"] = {"body": random.choice(NOT_LOOKED_AT)}
    if request.method == "GET" and random.random() < 0.2:
        return request.but("HEAD", method="HEAD")
    if request.values and random.random() < 0.4:
        form, body = right_body(request, random)
        return request.but(form, body=body)
    form = random.choice(list(changes))
    return request.but(form, **changes[form])


def padding(request, size):
    """A field with which the head of a request has so many bytes."""
    return b"x: " + b"y" * (size - len(request.but("", others=[b"x: "]).head()))


NAMES, TOKENS, AMOUNTS = ("member", "holder", "purse", "peer", "ref"), ("token",), ("amount", "value")
NOT_NAMES = {
    "a name that is too long": '"%s"' % ("a" * 25), "an empty name": '""', "a capital letter": '"Purse"',
    "a name that begins with a digit": '"1p"', "a name that begins with a dash": '"-p"',
    "a name with another letter": '"p_1"',
    "a name that isn't ASCII": '"p\u00e9"', "a name with a space": '"p "', "a name with a zero": '"p\\u0000"',
}
NOT_TOKENS = {
    "a token of 31 digits": '"%s"' % ("0" * 31), "a token of 33 digits": '"%s"' % ("0" * 33),
    "a token with a letter": '"%s"' % ("0" * 31 + "g"), "an empty token": '""',
}
NOT_NUMBERS = {
    "a negative number": "-1", "-0": "-0", "1.0": "1.0", "1e3": "1e3", "a number in a text": '"5"',
    "a leading zero": "01", "a plus sign": "+1", "a number above 2^64": str(2**64), "a number of 40 digits": "9" * 40,
    "a number too large for a float": "9" * 400, "1e400": "1e400", "NaN": "NaN",
}
NOT_TEXTS = {"a number in place of a text": "5"}
NEITHER = {"null": "null", "true": "true", "an array": "[]", "an object": "{}"}


def wrong_details(route):
    """Texts that aren't the details of a clear or a settlement."""
    first, second = "p1,q1,1,0,0", "p1,q1,2,0,0"
    texts = {
        "a semicolon behind details": first + ";", "a semicolon before details": ";" + first,
        "a space in details": first + " ",
        "details that come twice": f"{first};{first}", "details in falling order": f"{second};{first}",
        "four fields": first[:-2], "six fields": first + ",0", "a leading zero in details": "p1,q1,01,0,0",
        "a payment to itself": "p1,p1,1,0,0", "a value above 10^12": f"p1,q1,{MOST_AMOUNT + 1},0,0",
        "a sequence number above 10^15": f"p1,q1,1,0,{MOST_NUMBER + 1}", "a sign in details": "p1,q1,+1,0,0",
        "a capital letter in details": "p1,Q1,1,0,0", "an empty name in details": "p1,,1,0,0",
        "a hexadecimal value": "p1,q1,0x1,0,0",
        "17 payments": ";".join(f"p1,q1,{value},0,0" for value in range(17)),
    }
    if route == "POST /settle":
        texts |= {"no details": "", "two payments": f"{first};{second}"}
    return {form: f'"{text}"' for form, text in texts.items()}


def wrong_values(route, key):
    """What a key of a body must not have, by what is wrong with it."""
    if key == "details":
        return NOT_TEXTS | NEITHER | wrong_details(route)
    if key in NAMES:
        return NOT_TEXTS | NEITHER | NOT_NAMES
    if key in TOKENS:
        return NOT_TEXTS | NEITHER | NOT_TOKENS
    if key == "place":
        return NOT_NUMBERS | NEITHER
    if key in AMOUNTS:
        return NOT_NUMBERS | NEITHER | {"an amount above 10^12": str(MOST_AMOUNT + 1)}
    return NOT_NUMBERS | NEITHER | {"a number above 10^15": str(MOST_NUMBER + 1)}


def wrong_body(request, random):
    """A body that lacks what the command needs, and what is wrong with it."""
    pairs = pairs_of(request.values)
    at = random.randrange(len(pairs))
    key, value = pairs[at]
    if random.random() < 0.6:
        form, wrong = random.choice(list(wrong_values(request.route, key.strip('"')).items()))
        is_twice = random.random() < 0.2
        pairs[at : at + 1] = [(key, value), (key, wrong)] if is_twice else [(key, wrong)]
        return "a wrong value behind a right one" if is_twice else form, composed(pairs)
    whole = composed(pairs)
    bodies = {
        "an empty body": b"", "spaces alone": b" \r\n", "a body that lacks its end": whole[:-1],
        "a body that goes on": whole + b"}", "two objects": whole + whole,
        "an array round the object": b"[" + whole + b"]", "a text": json.dumps(whole.decode()).encode(),
        "a comma at the end": whole[:-1] + b",}", "no comma": whole.replace(b",", b" ") if len(pairs) > 1 else b"{,}",
        "single quotes": whole.replace(b'"', b"'"),
        "keys without quotes": whole.replace(key.encode(), key.strip('"').encode()),
        "a comment": b"/**/" + whole, "a byte order mark": b"\xef\xbb\xbf" + whole,
        "an empty object": b"{}", "null alone": b"null",
        "a key that is missing": composed(pairs[:at] + pairs[at + 1 :]),
        "a key in capitals": composed(pairs[:at] + [(key.upper(), value)] + pairs[at + 1 :]),
        "not UTF-8": composed(pairs + [('"note"', '"~"')]).replace(b"~", b"\xff"),
        "a control character": composed(pairs + [('"note"', '"\n"')]),
        "a bad escape": composed(pairs + [('"note"', '"\\x41"')]),
        "128 deep": composed(pairs + [('"note"', nested(127))]),
        "far deeper": composed(pairs + [('"note"', nested(1500))]),
        "another key with 1e400": composed(pairs + [('"note"', "1e400")]),
        "another key with -1e400": composed(pairs + [('"note"', "[-1e400]")]),
    }
    return random.choice(list(bodies.items()))


NO_NAMES = [b"P1", b"1p", b"-p", b"p_1", b"p%31", b"p\xc3\xa9", b"a" * 25, b"p.1", b"p+1"]
NO_NUMBERS = [b"01", b"-1", b"+1", b"1.0", b"", b"x", b"%30", str(MOST_NUMBER + 1).encode(), b"9" * 40]


def wrong_route(request, random):
    """A request like this whose method and path name no command."""
    path, parts = request.path, request.path.split(b"/")
    swapped = "GET" if request.method == "POST" else "POST"
    choices = {
        "another method": ("method", random.choice(["PUT", "DELETE", "PATCH", "OPTIONS", "get", "TRACE", "X"])),
        "a slash behind": ("path", path + b"/"), "a query": ("path", path + random.choice([b"?", b"?a=1"])),
        "a host before": ("path", b"http://office" + path), "two slashes": ("path", b"/" + path),
        "a letter that isn't ASCII": ("path", path + b"\xc3\xa9"),
        "a percent sign": ("path", b"/%%%02x" % path[1] + path[2:]),
        "a star": ("path", b"*"), "the root": ("path", b"/"), "a capital letter in the path": ("path", path.upper()),
        "parts more": ("path", path + b"/p1/x1/y1"), "a path that nobody has": ("path", b"/a" + path),
    }
    if request.route not in ("GET /purses", "POST /purses"):
        choices["a read as a command"] = ("method", swapped)
    if request.method == "POST":
        if request.route != "POST /purses":
            choices["HEAD of a command"] = ("method", "HEAD")
    if "{p}" in request.route or "{m}" in request.route:
        choices["no name in the path"] = ("path", b"/".join([*parts[:2], random.choice(NO_NAMES), *parts[3:]]))
    if "{after}" in request.route:
        choices["no number in the path"] = ("path", b"/".join([*parts[:-1], random.choice(NO_NUMBERS)]))
    form, (what, value) = random.choice(list(choices.items()))
    return request.but(form, "no route", **{what: value})


def wrong_token(request, random, strange):
    """The request with a token that is nobody's."""
    token = request.tokens[0]
    form, tokens = random.choice([
        ("no token", []), ("an empty token", [b""]), ("a token of 31 digits", [token[1:]]),
        ("a token of 33 digits", [b"0" + token]), ("a token with a letter", [token[:-1] + b"g"]),
        ("two tokens", [token, token]), ("a stranger's token", [strange.encode()]),
        ("a token and a comma", [token + b","]), ("a token in quotes", [b'"%s"' % token]),
    ])
    return request.but(form, "token not known", tokens=tokens, token=strange)


def faults(request):
    """What ends a run: forms of a good request with a body, each with its name, its response, and whether more may
    follow that isn't read."""
    coded, head = b"transfer-encoding: chunked", b"HEAD /purses HTTP/1.1\r\n"
    many = [b"a%d: 1" % number for number in range(MOST_FIELDS - 1)]
    long_body = request.body + b" " * (MOST_BODY + 1 - len(request.body))
    open_ended = [
        ("bad head", "no head", b"\x00\x01\x02"),
        ("bad head", "another version", request.but("", version=b"2.0").text()),
        ("bad head", "a space in a field's name", request.but("", others=[b"x y: 1"]).text()),
        ("bad head", "65 fields", request.but("", others=many).text()),
        ("bad head", "8,193 bytes of head", request.but("", others=[padding(request, MOST_HEAD + 1)]).text()),
        ("bad head", "a path that isn't UTF-8", request.but("", path=b"/purses/\xff").text()),
        ("transfer coding", "a transfer coding", request.but("", others=[coded]).text()),
        ("transfer coding", "a coding and a bad length", request.but("", others=[coded], length=b"x%d").text()),
        ("transfer coding", "a transfer coding to HEAD", head + coded + b"\r\n\r\n"),
        ("bad content length", "two lengths", request.but("", others=[b"Content-Length: 0"]).text()),
        ("bad content length", "two lengths to HEAD", head + 2 * b"content-length: 0\r\n" + b"\r\n"),
        ("bad content length", "an empty length", request.but("", length=None, others=[b"content-length:"]).text()),
        ("body too large", "4,097 bytes of body", request.but("", body=long_body).text()),
        ("body too large", "a length of 40 digits", request.but("", length=b"1" * 40 + b"%d").text()),
    ]
    for length in (b"+%d", b"-%d", b"%d,1", b"0x%d", b"%d.0", b"%d 1", b'"%d"', b"%da"):
        form = f"the length {(length % 9).decode()}"
        open_ended.append(("bad content length", form, request.but("", length=length).text()))
    at_the_end = [
        ("bad head", "a head that is cut", request.head()[:-3]),
        ("bad head", "a line end behind the last request", b"\r\n"),
        ("body cut", "a body that is cut", request.text()[:-1]),
        ("body cut", "a length without a body", request.head()),
    ]
    for goes_on, ends in ((True, open_ended), (False, at_the_end)):
        for word, form, text in ends:
            yield form, text, refusal(word, text.startswith(b"HEAD ")), goes_on

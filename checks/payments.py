"""A batch of payments between pairs of purses, as requests."""
import random

OPERATOR, CLERK = f"{1:032x}", f"{2:032x}"


def request(method, path, token, body=""):
    return f"{method} {path} HTTP/1.1\r\npurse-token: {token}\r\ncontent-length: {len(body)}\r\n\r\n{body}".encode()


def token_of(side, pair):
    return f"{side:016x}{pair:016x}"


def set_up(pairs, order):
    """A member with its grant, and for each pair, in an order by chance, two holders with a purse each, of which the
    first is loaded: two requests, and five a pair."""
    yield request("POST", "/members", OPERATOR, '{"member":"m","token":"%s"}' % CLERK)
    yield request("POST", "/members/m/grant", OPERATOR, '{"amount":1000000000000}')
    for pair in order.sample(range(pairs), pairs):
        for side, holder, purse in ((3, f"a{pair}", f"p{pair}"), (4, f"b{pair}", f"q{pair}")):
            yield request("POST", "/holders", CLERK, '{"holder":"%s","token":"%s"}' % (holder, token_of(side, pair)))
            yield request("POST", "/purses", CLERK, '{"purse":"%s","holder":"%s"}' % (purse, holder))
        yield request("POST", f"/purses/p{pair}/load", CLERK, '{"amount":1000000,"ref":"l"}')


def payment(pair, number):
    """The requests of a payment of 1, before which the pair has made so many: both start, three messages are handled, and the three
    are discarded."""
    payer, paid = f"/purses/p{pair}", f"/purses/q{pair}"
    ann, bob = token_of(3, pair), token_of(4, pair)
    yield request("POST", payer + "/start-from", ann, '{"peer":"q%d","value":1,"seq":%d}' % (pair, number))
    yield request("POST", paid + "/start-to", bob, '{"peer":"p%d","value":1,"seq":%d}' % (pair, number))
    yield request("POST", payer + "/handle", ann, '{"number":%d}' % (2 * number))
    yield request("POST", paid + "/handle", bob, '{"number":%d}' % number)
    yield request("POST", payer + "/handle", ann, '{"number":%d}' % (2 * number + 1))
    yield request("POST", payer + "/discard", ann, '{"number":%d}' % (2 * number))
    yield request("POST", payer + "/discard", ann, '{"number":%d}' % (2 * number + 1))
    yield request("POST", paid + "/discard", bob, '{"number":%d}' % number)


def payments(pairs, count, order):
    """Payments by pairs that are chosen by chance, each in eight requests."""
    made = [0] * pairs
    for _ in range(count):
        pair = order.randrange(pairs)
        yield from payment(pair, made[pair])
        made[pair] += 1


def batch(pairs, count, seed=1):
    """The set-up, and the whole batch."""
    order = random.Random(seed)
    first = b"".join(set_up(pairs, order))
    return first, first + b"".join(payments(pairs, count, order))

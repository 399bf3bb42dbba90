"""Requests for the tests and for the picture in the README, made anew each time and always the same.

    telemetry.py SIGNAL REQUESTS [RESETS] [MOST]  > requests.capture

A service grows: the routes, users and hosts in the attributes become more, an attribute comes up after some requests,
and requests have between 10 and 400 items (or between 1 and MOST, where that is given). With RESETS above 0 a reset comes
after each so many requests. Bytes are written by the field numbers of OTLP; nothing of this repository takes part.
"""

import sys

RESET = b"\2\0\0\0\0"


def varint(n):
    out = b""
    while n > 127:
        out += bytes([n & 127 | 128])
        n >>= 7
    return out + bytes([n])


def part(number, data):
    return varint(number << 3 | 2) + varint(len(data)) + data


def number(field, n):
    return varint(field << 3) + varint(n)


def fixed64(field, n):
    return varint(field << 3 | 1) + n.to_bytes(8, "little")


def frame(message):
    return b"\0" + len(message).to_bytes(4, "big") + message


def text(field, key, value):
    return part(field, part(1, key.encode()) + part(2, part(1, value.encode())))


def whole(field, key, value):
    return part(field, part(1, key.encode()) + part(2, number(3, value)))


def mixed(n):
    """A number that looks drawn at random, the same for the same n."""
    n = (n * 0x9E3779B97F4A7C15 + 0x7F4A7C15) % 2**64
    n ^= n >> 31
    n = n * 0xBF58476D1CE4E5B9 % 2**64
    return n ^ n >> 27


def attributes(field, request, k):
    n = mixed(request << 20 | k)
    users = 40 + 40 * request
    yield text(field, "http.route", "/api/v1/%s" % ("orders", "carts", "users", "items", "search")[n % 5])
    yield text(field, "user.id", "user-%d" % (n // 7 % users))
    yield whole(field, "http.response.status_code", (200, 200, 200, 404, 500)[n // 11 % 5])
    if request >= 6:
        yield text(field, "url.query", "q=%x" % (n % 2**40))
    if request >= 12 and k % 3 == 0:
        yield text(field, "error.type", "timeout")


def log(request, k):
    n = mixed(k << 24 | request)
    body = part(1, b"request %d handled in %d ms" % (n % 1000, n // 1000 % 300))
    more = part(9, mixed(n).to_bytes(8, "big") * 2) + part(10, mixed(n).to_bytes(8, "big")) if request >= 16 else b""
    return (fixed64(1, 1760000000 * 10**9 + request * 10**10 + k * 10**6) + number(2, 9 + n % 3 * 4)
            + part(3, (b"INFO", b"WARN", b"ERROR")[n % 3]) + part(5, body)
            + b"".join(attributes(6, request, k)) + more)


def span(request, k):
    n = mixed(k << 24 | request)
    start = 1760000000 * 10**9 + request * 10**10 + k * 10**6
    event = part(11, fixed64(1, start + 5) + part(2, b"retry") + text(3, "retry.count", str(n % 4))) if request >= 4 and k % 5 == 0 else b""
    return (part(1, mixed(n // 4).to_bytes(8, "big") * 2) + part(2, mixed(n).to_bytes(8, "big"))
            + part(5, b"GET /op/%d" % (n % (20 + 25 * request))) + number(6, 1 + n % 5) + fixed64(7, start)
            + fixed64(8, start + n % 10**8) + b"".join(attributes(9, request, k)) + event)


def metric(request, k):
    n = mixed(k << 24 | request)
    time = 1760000000 * 10**9 + request * 10**10
    name = part(1, b"http.server.metric.%d" % (k % (30 + 15 * request))) + part(3, b"ms")
    if k % 3 == 0:
        point = (fixed64(2, time - 10**10) + fixed64(3, time) + fixed64(4, 10) + part(6, b"".join(i.to_bytes(8, "little") for i in (2, 3, 5)))
                 + part(7, b"\0" * 6 + b"\x59\x40" + b"\0" * 6 + b"\x69\x40") + b"".join(attributes(9, request, k)))
        return name + part(9, part(1, point) + number(2, 2))
    point = fixed64(3, time) + fixed64(6, n % 10**6) + b"".join(attributes(7, request, k))
    return name + (part(7, part(1, point) + number(2, 2) + number(3, 1)) if k % 3 == 1 else part(5, part(1, point)))


ITEMS = {"traces": span, "logs": log, "metrics": metric}


def request(signal, r, most=None):
    count = 1 + mixed(r) % most if most else 10 + mixed(r) % 391
    resource = part(1, text(1, "service.name", "shop-%d" % (r % 3)) + text(1, "host.name", "node-%d" % (r % (4 + r))))
    scope = part(1, part(1, b"io.example.http") + part(2, b"1.4.%d" % (r // 10)))
    return part(1, resource + part(2, scope + b"".join(part(2, ITEMS[signal](r, k)) for k in range(count))))


def capture(signal, requests, resets=0, most=None):
    """The frames of the requests, one by one."""
    for r in range(requests):
        if resets and r and r % resets == 0:
            yield RESET
        yield frame(request(signal, r, most))


if __name__ == "__main__":
    words = [int(word) for word in sys.argv[2:]]
    for one in capture(sys.argv[1], *words):
        sys.stdout.buffer.write(one)

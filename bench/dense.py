"""Requests whose items each have twelve short attributes, for each signal."""


def varint(n):
    out = b""
    while n > 127:
        out += bytes([n & 127 | 128])
        n >>= 7
    return out + bytes([n])


def part(number, data):
    return varint(number << 3 | 2) + varint(len(data)) + data


def fixed64(number, n):
    return varint(number << 3 | 1) + n.to_bytes(8, "little")


def pairs(number, k):
    return b"".join(part(number, part(1, b"k%d" % i) + part(2, part(1, b"v%d" % ((k + i) % (64 * (i + 1)))))) for i in range(12))


def log(k):
    return fixed64(1, 10**18 + k) + part(5, part(1, b"message %d" % (k % 5000))) + pairs(6, k)


def span(k):
    ids = part(1, k.to_bytes(16, "big")) + part(2, k.to_bytes(8, "big"))
    return ids + part(5, b"GET /%d" % (k % 5000)) + fixed64(7, 10**18 + k) + fixed64(8, 10**18 + k + 5) + pairs(9, k)


def metric(k):
    point = fixed64(3, 10**18 + k) + fixed64(6, k) + pairs(7, k)
    return part(1, b"metric %d" % (k % 5000)) + part(5, part(1, point))


ITEMS = {"logs": log, "traces": span, "metrics": metric}


def request(signal, items):
    """A frame with a request of that many items."""
    body = part(1, part(2, b"".join(part(2, ITEMS[signal](k)) for k in range(items))))
    return b"\0" + len(body).to_bytes(4, "big") + body

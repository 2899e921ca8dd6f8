"""Tagged fields: how every sample file is put together."""


def number(width, value):
    return value.to_bytes(width, "big")


def numbers(width, values):
    return b"".join(number(width, value) for value in values)


def check(data):
    h = 0
    for byte in data:
        h = (h * 257 + byte + 1) % 65521
    return h


def field(tag, value):
    return number(1, tag) + number(2, len(value)) + value


def closed(fields):
    """The fields, with the field FF after them."""
    data = b"".join(fields) + b"\xff\x00\x02"
    return data + number(2, check(data))


def altered(data, place, value):
    return data[:place] + bytes([value]) + data[place + 1:]

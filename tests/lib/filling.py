"""Stores items of chosen sizes in pipelines, and counts the stores that were refused memory."""

KEY_SIZE = 20
COST_OF_AN_ITEM = 64  # the cost of an item in a budget beside its key and its value
MOST_AT_ONCE = 1_000  # stores of a pipeline
BYTES_AT_ONCE = 1_000_000
LARGEST = 1_000_000  # bytes of a value: memcached takes no more than a MiB with the item's head
VALUES = b"v" * LARGEST
NO_MEMORY = b"SERVER_ERROR out of memory storing object\r\n"


def cost_of(size):
    """The cost of an item with a value of this many bytes in a budget."""
    return KEY_SIZE + size + COST_OF_AN_ITEM


def key_of(number):
    return b"key-%016d" % number


def store_of(number, size):
    return b"set %b 0 0 %d\r\n%b\r\n" % (key_of(number), size, VALUES[:size])


def at_once(size):
    """How many stores of about such a size go in a pipeline."""
    return max(1, min(MOST_AT_ONCE, BYTES_AT_ONCE // (KEY_SIZE + size)))


def store(connection, entries):
    """Stores values under keys (numbers of keys, and sizes), all in one pipeline. Returns how many the server had no memory
    for."""
    stores = [store_of(*entry) for entry in entries]
    connection.sendall(b"".join(stores))
    answers, ends = bytearray(), 0
    while ends < len(stores):
        piece = connection.recv(65_536)
        if not piece:
            raise ConnectionError("the server closed the connection")
        ends += piece.count(b"\n")
        answers += piece
    refused = answers.count(NO_MEMORY)
    if answers.count(b"STORED\r\n") + refused < len(stores):
        raise RuntimeError(f"to stores came {bytes(answers[:100])!r}")
    return refused


def fill(connection, items, size):
    """Stores this many items, under keys from 0 on."""
    step = at_once(size)
    return sum(store(connection, [(key, size) for key in range(first, min(first + step, items))]) for first in range(0, items, step))

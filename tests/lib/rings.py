"""Which server of a pool owns a key: a plain model of libketama's ring with equal weights, from the words of docs/PROTOCOL.md
("How keys are spread over servers"). It shares nothing with the crates.
"""

import bisect
import hashlib
import itertools
import struct

DIGESTS_OF_A_SERVER = 40


def hash_of(key):
    return struct.unpack("<I", hashlib.md5(key).digest()[:4])[0]


def points_of(server):
    for number in range(DIGESTS_OF_A_SERVER):
        yield from struct.unpack("<4I", hashlib.md5(f"{server}-{number}".encode()).digest())


class Ring:
    """The servers of a pool, each as `<host>:<port>`."""

    def __init__(self, servers):
        self.points = sorted((point, place) for place, server in enumerate(servers) for point in points_of(server))

    def owner(self, key):
        """The place of the server that owns a key."""
        at = bisect.bisect_left(self.points, (hash_of(key), 0))
        return self.points[at % len(self.points)][1]

    def keys(self, place, count, beginning="k"):
        """This many keys that the server of a place owns."""
        named = (f"{beginning}{number}".encode() for number in itertools.count())
        return list(itertools.islice((key for key in named if self.owner(key) == place), count))

    def key(self, place):
        return self.keys(place, 1)[0]

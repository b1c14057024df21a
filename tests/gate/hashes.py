#!/usr/bin/env python3
"""hashes.py: why the folded product of mc_table's hasher has an addend, in models with small words that are counted whole.

A word is hashed by one product with a secret factor, whose two halves are joined by exclusive or (`folded_product` in
crates/mc_table/specs/Hashes.antt, with words of 64 bits). For words of a few bits this counts, over all words and all secret numbers,
how often two words of a given difference have one hash, as a multiple of what chance would give: 2 to the power of -bits.

Without the addend a word and its complement collide far too often. With it no difference does. The last line is 'N passed, M failed'.
"""
import sys

BITS = 7
MASK = (1 << BITS) - 1
TOO_OFTEN = 4.0  # times chance; without the addend the complement passes it, with it no difference does
MOST = 3.0


def folded_product(word, factor, addend):
    product = word * factor
    return ((product & MASK) + addend & MASK) ^ product >> BITS


def collisions(addends):
    """For each difference of two words, how often they have one hash, as a multiple of chance."""
    counts = [0] * (MASK + 1)
    factors = range(1, MASK + 1, 2)
    for factor in factors:
        for addend in addends:
            words = {}
            for word in range(MASK + 1):
                words.setdefault(folded_product(word, factor, addend), []).append(word)
            for same in words.values():
                for one in same:
                    for other in same:
                        counts[one ^ other] += 1
    tries = len(factors) * len(addends) * (MASK + 1)
    return [count / tries * (MASK + 1) for count in counts]


def main():
    without = collisions([0])
    with_addend = collisions(range(MASK + 1))
    worst = max(range(1, MASK + 1), key=lambda difference: with_addend[difference])
    print(f"without the addend: the complement {without[MASK]:.1f} times chance")
    print(f"with it: the complement {with_addend[MASK]:.1f}, the worst difference ({worst:#x}) {with_addend[worst]:.1f}")
    passed = without[MASK] > TOO_OFTEN and with_addend[worst] < MOST
    print("1 passed, 0 failed" if passed else "0 passed, 1 failed")
    return 0 if passed else 1


if __name__ == "__main__":
    sys.exit(main())

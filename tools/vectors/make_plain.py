#!/usr/bin/env python3
"""Words of the coders that need no field (threefold, and Reed-Solomon without check octets), and buffers of other lengths
for all coders. Lines go to standard output, in the form that docs/vectors.md describes."""

import random

draw = random.Random(20261118)


def written(octets):
    return octets.hex() or "-"


def octets(n):
    return bytes(draw.randrange(256) for _ in range(n))


def spoilt(word, places):
    """The word with other octets at these places."""
    changed = bytearray(word)
    for place in places:
        changed[place] ^= draw.randrange(1, 256)
    return bytes(changed)


def differing(a, b):
    return sum(x != y for x, y in zip(a, b))


def show_word(coder, k, message, word):
    print(f"word {coder} {k} 0 {written(message)} {written(word)}")


def show_threefold(k, received):
    """A word within one place of the received one leaves two of its three copies whole, so its message is one of these."""
    near = {}
    for copy in (received[:k], received[k:2 * k], received[2 * k:]):
        if differing(3 * copy, received) <= 1:
            near[copy] = differing(3 * copy, received)
    assert len(near) <= 1
    print(f"decode 1 {k} 0 {written(received)}", end=" ")
    print(*[f"repaired {d} {written(message)}" for message, d in near.items()] or ["lost"])


def threefold(k):
    message = octets(k)
    word = 3 * message
    show_word(1, k, message, word)
    show_threefold(k, word)
    for place in (0, k - 1, k, 2 * k - 1, 2 * k, 3 * k - 1, draw.randrange(3 * k)):
        show_threefold(k, spoilt(word, [place]))
    # two faults: of one octet in two copies, unequal and equal; in one copy; in two copies at different octets
    place = draw.randrange(k)
    show_threefold(k, spoilt(word, [place, k + place]))
    other = draw.randrange(256)
    for copies in ((0, 1), (0, 2), (1, 2), (0, 1, 2)):
        equal = bytearray(word)
        for copy in copies:
            equal[copy * k + place] = other
        show_threefold(k, bytes(equal))
    show_threefold(k, spoilt(word, [0, k - 1]))
    show_threefold(k, spoilt(word, [0, 2 * k - 1]))
    show_threefold(k, spoilt(word, [place, k + (place + 1) % k, 2 * k + (place + 2) % k]))
    show_threefold(k, octets(3 * k))


def without_check(k):
    for _ in range(2):
        message = octets(k)
        show_word(0, k, message, message)
        print(f"decode 0 {k} 0 {written(message)} repaired 0 {written(message)}")


def lengths(coder, k, r, n):
    """Buffers of other lengths: 5 for the message before 6 for the word."""
    for message in sorted({0, 1, k - 1, k, k + 1, n, n + 1, 65535}):
        for word in sorted({0, 1, k, n - 1, n, n + 1, 65535}):
            if message != k or word != n:
                print(f"refuse {coder} {k} {r} {message} {word} {5 if message != k else 6}")


def no_coder(coder, k, r):
    print(f"refuse {coder} {k} {r} {k} {k + r if coder == 0 else 3 * k} 1")


print("# threefold: words, clean, with one fault and with more")
for k in (3, 4, 5, 11, 32, 84, 85):
    threefold(k)
print("# Reed-Solomon without check octets: the word is the message")
for k in (3, 4, 11, 128, 255):
    without_check(k)
print("# buffers of other lengths")
for coder, k, r, n in ((0, 3, 0, 3), (0, 3, 2, 5), (0, 11, 4, 15), (0, 239, 16, 255), (0, 255, 0, 255), (1, 3, 0, 9), (1, 85, 0, 255)):
    lengths(coder, k, r, n)
print("# coders that do not exist")
for k, r in ((0, 0), (2, 0), (2, 4), (3, 1), (3, 3), (3, 17), (3, 18), (240, 16), (254, 2), (256, 0), (3, 256), (255, 2), (1000, 1000)):
    no_coder(0, k, r)
for k, r in ((0, 0), (2, 0), (3, 1), (3, 2), (86, 0), (255, 0), (1000, 0)):
    no_coder(1, k, r)

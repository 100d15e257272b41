#!/usr/bin/env python3
"""Settings and the line that is printed for each, worked out by counting: the place of every octet is listed, and every
stretch that begins with an octet of the word is looked at. Lines go to standard output, in the form that docs/vectors.md describes."""

shown = set()


def sizes(coder, k, r):
    """N and t of a coder, or None."""
    if coder == 0:
        if r in range(0, 17, 2) and k >= 3 and k + r <= 255:
            return k + r, r // 2
    elif coder == 1:
        if 3 <= k <= 85 and r == 0:
            return 3 * k, 1
    return None


def places(n, i, m, word):
    """The line places of a word's octets: octet j of block b leaves in line block word*q + b + m*j, as octet j of it."""
    q = n // i
    found = []
    for block in range(q):
        for branch in range(i):
            found.append((word * q + block + m * branch) * i + branch)
    return sorted(found)


def most_in_a_row(line, length):
    """The most octets of the word that lie on this many places in a row; the word's places are given in order."""
    most = 0
    last = 0
    for first in range(len(line)):
        while last < len(line) and line[last] < line[first] + length:
            last += 1
        most = max(most, last - first)
    return most


def burst_limit(line, t):
    """The longest stretch that never holds more than t octets of the word."""
    length = 0
    while most_in_a_row(line, length + 1) <= t:
        length += 1
    return length


def delay_memory(i, m):
    """The octets that wait in the branches: branch j holds m*j."""
    return sum(m * branch for branch in range(i))


def words_between(n, i, m):
    """How many words later the far end has a whole word: its first block lies m*(i-1) blocks behind."""
    words = 0
    while words * (n // i) < m * (i - 1):
        words += 1
    return words


def answer(coder, k, r, i, m):
    if coder not in (0, 1):
        return "refused 4"
    fit = sizes(coder, k, r)
    if fit is None:
        return "refused 1"
    n, t = fit
    if i == 0 or n % i != 0:
        return "refused 2"
    if m > 255 or delay_memory(i, m) > 16384:
        return "refused 3"
    line = places(n, i, m, 0)
    reach = line[-1] - line[0] + 1
    limit = burst_limit(line, t)
    for word in (1, 2):
        assert places(n, i, m, word) == [place + word * n for place in line]
    return f"{n} {n // i} {words_between(n, i, m)} {limit} {reach} {delay_memory(i, m)}"


def show(coder, k, r, i, m):
    if (coder, k, r, i, m) in shown:
        return
    shown.add((coder, k, r, i, m))
    print(f"setting {coder} {k} {r} {i} {m} {answer(coder, k, r, i, m)}")


def divisors(n):
    return [i for i in range(1, n + 1) if n % i == 0]


def deepest(i):
    """The largest step that is accepted with this block length."""
    return max(m for m in range(256) if delay_memory(i, m) <= 16384)


def edges():
    print("# the examples that the documents have")
    for m in (0, 1, 2):
        show(0, 4, 4, 4, m)
    show(0, 128, 16, 36, 10)
    show(0, 128, 16, 48, 5)
    print("# sizes at the edges")
    for k, r, i in [(0, 0, 0), (2, 0, 2), (2, 4, 6), (3, 0, 3), (3, 2, 5), (4, 1, 5), (4, 15, 19), (4, 16, 20), (4, 17, 21), (4, 18, 22),
                    (4, 255, 1), (239, 16, 255), (240, 16, 1), (240, 16, 0), (253, 2, 255), (254, 2, 1), (255, 0, 255), (255, 2, 1), (255, 255, 255)]:
        show(0, k, r, i, 0)
    for k, r, i in [(0, 0, 0), (2, 0, 6), (3, 0, 9), (3, 1, 9), (3, 2, 3), (85, 0, 255), (85, 16, 255), (86, 0, 6), (255, 0, 255)]:
        show(1, k, r, i, 0)
    print("# blocks and steps at the edges")
    for k, r, i, m in [(128, 16, 5, 1), (128, 16, 0, 1), (128, 16, 144, 0), (128, 16, 144, 1), (128, 16, 145, 1), (128, 16, 255, 1), (4, 4, 16, 1),
                       (224, 16, 120, 2), (224, 16, 120, 3), (224, 16, 240, 0), (224, 16, 240, 1), (4, 4, 1, 255), (4, 4, 8, 255), (4, 4, 2, 255),
                       (239, 16, 255, 1), (239, 16, 85, 4), (239, 16, 85, 5), (239, 16, 51, 12), (239, 16, 51, 13), (3, 16, 19, 95), (3, 16, 19, 96)]:
        show(0, k, r, i, m)
    print("# the first refusal that holds: 4, 1, 2, 3")
    for five in [(2, 4, 4, 4, 2), (255, 2, 1, 0, 255), (2, 255, 255, 255, 255), (0, 2, 4, 0, 255), (1, 3, 2, 0, 255), (0, 4, 4, 0, 255), (0, 4, 4, 3, 255),
                 (0, 224, 16, 119, 255), (0, 224, 16, 120, 255)]:
        show(*five)


def sweep():
    print("# every block length of some words, steps from none to the deepest")
    for coder, k, r in [(0, 3, 2), (0, 4, 4), (0, 8, 4), (0, 3, 0), (0, 20, 10), (0, 56, 16), (0, 128, 16), (0, 239, 16), (1, 3, 0), (1, 20, 0), (1, 85, 0)]:
        n, _ = sizes(coder, k, r)
        for i in divisors(n):
            q = n // i
            for m in sorted({0, 1, 2, q - 1, q, q + 1, deepest(i), min(deepest(i) + 1, 255)}):
                if m <= 255:
                    show(coder, k, r, i, m)


edges()
sweep()

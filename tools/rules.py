"""The rules of trees, as the expected outputs are computed from them."""


def split(n):
    """The largest power of two below n."""
    k = 1
    while 2 * k < n:
        k *= 2
    return k


def root(join, xs):
    if len(xs) == 1:
        return xs[0]
    k = split(len(xs))
    return join(root(join, xs[:k]), root(join, xs[k:]))


def path(join, xs, i):
    """The links of place i, leaf first: a side, and a sibling."""
    if len(xs) == 1:
        return []
    k = split(len(xs))
    if i < k:
        return path(join, xs[:k], i) + [(0, root(join, xs[k:]))]
    return path(join, xs[k:], i - k) + [(1, root(join, xs[:k]))]


def shape(n, i):
    """The sides of place i among n leaves, leaf first."""
    if n == 1:
        return ""
    k = split(n)
    return shape(k, i) + "0" if i < k else shape(n - k, i - k) + "1"


def node(i):
    """Item i of the lists: 32 bytes that count up from 3 * i."""
    return bytes((3 * i + j) % 256 for j in range(32))

"""Choices, guesses and strictness over two KEXINITs (RFC 4253 section 7.1), by the lab suite: a method whose name begins
with `x` needs a host key that encrypts, and a host key algorithm whose name begins with `e` can; all sign."""
import itertools

from lab import *

MARKERS = ("ext-info-c", "ext-info-s", "kex-strict-c-v00@openssh.com", "kex-strict-s-v00@openssh.com")
FIELDS = ("kex", "hostkey", "cipher_cs", "cipher_sc", "mac_cs", "mac_sc", "compression_cs", "compression_sc")


def payload(lists, follows=0):
    return b"\x14" + bytes(16) + b"".join(string(",".join(x)) for x in list(lists) + [(), ()]) + bytes([follows]) + u32(0)


def methods(kex):
    return [name for name in kex if name not in MARKERS]


def can(method, host):
    return not method.startswith("x") or host.startswith("e")


def host_of(method, ours, theirs):
    return next((name for name in ours if name in theirs and can(method, name)), None)


def chosen(client, server):
    """The line that has to be told."""
    ours, theirs = methods(client[0]), methods(server[0])
    if ours and theirs and ours[0] == theirs[0]:
        method = ours[0]
    else:
        method = next((m for m in ours if m in theirs and host_of(m, client[1], server[1]) is not None), None)
    if method is None:
        return "none kex"
    host = host_of(method, client[1], server[1])
    if host is None:
        return "none hostkey"
    places = [client[0].index(method), client[1].index(host)]
    for field in range(2, 8):
        name = next((n for n in client[field] if n in server[field]), None)
        if name is None:
            return "none " + FIELDS[field]
        places.append(client[field].index(name))
    return "chosen " + " ".join(str(p) for p in places)


def guess(client, server):
    ours, theirs = methods(client[0]), methods(server[0])
    right = ours[:1] == theirs[:1] != [] and client[1][:1] == server[1][:1] != ()
    return "guess " + ("yes" if right else "no")


def lists(kex, host, cs=("c",), sc=("c",), mcs=("m",), msc=("m",), ccs=("none",), csc=("none",)):
    return (kex, host, cs, sc, mcs, msc, ccs, csc)


def row(file, name, client, server, wanted=None, *more):
    found = chosen(client, server)
    assert wanted in (None, found), (name, wanted, found)
    file.row(name, "choose %s %s" % (hexa(payload(client)), hexa(payload(server))), found, guess(client, server), *more)


def rows(file):
    ab, ba, h = ("a", "b"), ("b", "a"), ("h",)
    marked = ("kex-strict-c-v00@openssh.com", "a", "b")
    row(file, "choice by the client", lists(ab, h), lists(ba, h), "chosen 0 0 0 0 0 0 0 0")
    row(file, "choice behind a marker", lists(marked, h), lists(ba, h), "chosen 1 0 0 0 0 0 0 0")
    row(file, "choice of an equal first method behind a marker", lists(marked[:2], h), lists(("a",), h), "chosen 1 0 0 0 0 0 0 0")
    row(file, "choice by need", lists(("x", "y"), h), lists(("y", "x"), h), "chosen 1 0 0 0 0 0 0 0")
    row(file, "choice of no other method", lists(("x", "y"), h), lists(("x", "y"), h), "none hostkey")
    row(file, "choice of a host key that encrypts", lists(("x", "y"), ("h", "e")), lists(("x", "y"), ("h", "e")), "chosen 0 1 0 0 0 0 0 0")
    row(file, "choice without a host key", lists(("a",), h), lists(("a",), ("g",)), "none hostkey")
    row(file, "choice without a method and a host key", lists(ab, h), lists(ba, ("g",)), "none kex")
    row(file, "choice of a marker", lists(marked[:1], h), lists(marked[:1], h), "none kex")
    row(file, "choice of ciphers", lists(("a",), h, ("c", "d"), ("c", "d")), lists(("a",), h, ("d", "c"), ("e",)), "none cipher_sc")
    for field in range(2, 8):
        for count in range(1, 9 - field):
            client = [("a",), h] + [("p", "q")] * 6
            server = list(client)
            for other in range(field, field + count):
                server[other] = ("r",)
            row(file, "choice without %s, %d" % (FIELDS[field], count), tuple(client), tuple(server), "none " + FIELDS[field])
        server = [("a",), h] + [("p", "q")] * 6
        client = list(server)
        client[field], server[field] = ("r", "q", "p"), ("p", "s", "q")
        row(file, "choice of one %s" % FIELDS[field], tuple(client), tuple(server))
    many = tuple("n%d" % i for i in range(99)) + ("last",)
    other = tuple("z%d" % i for i in range(99)) + ("last",)
    row(file, "choice of the last of a hundred", lists(many, many, many, many), lists(other, other, other, other),
        "chosen 99 99 99 99 0 0 0 0")
    pairs(file)
    compared(file)
    for field in range(2, 8):
        orders(file, field)
    guesses(file)
    strict(file)


def pairs(file):
    """Each client and each server over few methods and host keys."""
    kexes = [k for n in (1, 2) for k in itertools.permutations(("a", "b", "x"), n)]
    kexes += [("ext-info-c", "a"), ("kex-strict-s-v00@openssh.com", "x", "a"), ("ext-info-s",)]
    hosts = [("h",), ("e",), ("h", "e"), ("e", "h")]
    for client, server in itertools.product(itertools.product(kexes, hosts), repeat=2):
        row(file, "choice %s %s, %s %s" % tuple("|".join(x) for x in client + server), lists(*client), lists(*server))
    for ours, theirs in ((("h", "g"), ("h",)), (("h", "g"), ("g", "h")), (("h",), ())):
        row(file, "guess by host keys %s and %s" % ("|".join(ours), "|".join(theirs) or "none"), lists(("a",), ours), lists(("a",), theirs))


def compared(file):
    """Names are compared whole and to the letter, and the first place of a name is told."""
    some = [("a",), ("aa",), ("A",), ("aa", "a"), ("A", "a"), ("a", "aa"), ("aa", "a", "a")]
    for ours, theirs in itertools.product(some, repeat=2):
        row(file, "choice of methods %s and %s" % ("|".join(ours), "|".join(theirs)), lists(ours, ("h",)), lists(theirs, ("h",)))
        row(file, "choice of host keys %s and %s" % ("|".join(ours), "|".join(theirs)), lists(("a", "b"), ours), lists(("b", "a"), theirs))


def orders(file, field):
    """Each client's list of one cipher, MAC or compression with each server's. The other five are at other places, each its own."""
    some = [()] + [k for n in (1, 2) for k in itertools.permutations(("p", "pp", "P"), n)] + [("P", "pp", "p"), ("pp", "p", "p")]
    client, server = [("a",), ("h",)], [("a",), ("h",)]
    for other in range(2, 8):
        own = ["o%d%d" % (other, n) for n in range(other - 1)]
        client.append(tuple(own + ["n%d" % other, "m%d" % other]))
        server.append(("m%d" % other, "n%d" % other))
    for ours, theirs in itertools.product(some, repeat=2):
        client[field], server[field] = ours, theirs
        row(file, "choice of %s, %s and %s" % (FIELDS[field], "|".join(ours) or "none", "|".join(theirs) or "none"), tuple(client),
            tuple(server))


def guesses(file):
    """The first method and the first host key decide, markers left out of the methods; nothing else does."""
    kexes = [(), ("a",), ("b",), ("a", "b"), ("b", "a"), ("ext-info-c", "a"), (MARKERS[3], "b", "a"), ("ext-info-s", MARKERS[2])]
    hosts = [(), ("h",), ("g",), ("h", "g"), ("g", "h"), ("ext-info-c", "h"), ("hh",)]
    empty = ((),) * 6
    for ours, theirs in itertools.product(itertools.product(kexes, hosts), repeat=2):
        # every pair of methods with the first host keys, and every pair of host keys with the first methods
        if {ours[1], theirs[1]} <= {("h",), ("h", "g"), ("g",)} or {ours[0], theirs[0]} <= {("a",), ("a", "b")}:
            row(file, "guess %s %s, %s %s" % tuple("|".join(x) or "none" for x in ours + theirs), ours + empty, theirs + empty)


def strict(file):
    c, s = MARKERS[2], MARKERS[3]
    for ours, theirs in itertools.product((("a",), ("a", c), (c, "a"), ("a", s), (s, c, "a")), (("a",), ("a", s), (s, "a"), ("a", c))):
        lines = []
        for role, marker, peer in (("client", s, theirs), ("server", c, ours)):
            for willing in ("yes", "no"):
                lines.append("strict %s %s %s" % (role, willing, "yes" if willing == "yes" and marker in peer else "no"))
        row(file, "strict by %s and %s" % ("|".join(ours), "|".join(theirs)), lists(ours, ("h",)), lists(theirs, ("h",)), None, *lines)

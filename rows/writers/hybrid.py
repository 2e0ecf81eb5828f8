"""Calls of mlkem768x25519-sha256 (draft-ietf-sshm-mlkem-hybrid-kex) of the suite whose algorithms are deployed: ML-KEM-768 by mlkem.py, X25519
by deployed.py."""
import hashlib
import random

from deployed import METHOD, OF_HYBRID_CLIENT, OF_HYBRID_SERVER, P, draws_of, le, public as curve_public, shared as curve_shared, x25519
from lab import hexa
import mlkem

NAME = "mlkem768x25519-sha256"
BASE = le(9)
CLIENT_SHARE, SERVER_SHARE, KEY, CIPHERTEXT = 1216, 1120, 1184, 1088
# points of small order, and numbers that are theirs modulo 2^255 - 19
SMALL = [0, 1, 325606250916557431795983626356110631294008115727848805560023387167927233504,
         39382357235489614581723060781553021112529911719440698176882885853963445705823, P - 1, P, P + 1]


def keys(drawn):
    d, z, scalar = draws_of(drawn, OF_HYBRID_CLIENT)
    return *mlkem.keygen(d, z), scalar


def public(drawn):
    """A client's share."""
    ek, _, scalar = keys(drawn)
    return ek + x25519(scalar, BASE)


def both(secret, classical):
    """What both secrets come to, or none."""
    return None if classical == bytes(32) else hashlib.sha256(secret + classical).digest()


def shared(drawn, peer):
    """A client's secret, or none."""
    if len(peer) != SERVER_SHARE:
        return None
    _, dk, scalar = keys(drawn)
    return both(mlkem.decapsulate(dk, peer[:CIPHERTEXT]), x25519(scalar, peer[CIPHERTEXT:]))


def respond(drawn, peer):
    """A server's share and its secret, or none."""
    if len(peer) != CLIENT_SHARE or not mlkem.is_key(peer[:KEY]):
        return None
    m, _, scalar = draws_of(drawn, OF_HYBRID_SERVER)
    secret, ciphertext = mlkem.encapsulate(peer[:KEY], m)
    secret = both(secret, x25519(scalar, peer[KEY:]))
    return None if secret is None else (ciphertext + x25519(scalar, BASE), secret)


def shared_line(drawn, peer, name=NAME):
    found = shared(drawn, peer) if name == NAME else None
    return "shared %s %s %s %s" % (name, hexa(drawn), hexa(peer), "none" if found is None else hexa(found))


def respond_line(drawn, peer, name=NAME):
    found = respond(drawn, peer) if name == NAME else None
    return "respond %s %s %s %s" % (name, hexa(drawn), hexa(peer), "none" if found is None else hexa(b"".join(found)))


def rows(file):
    assert mlkem.accumulated(100) == "1114b1b6699ed191734fa339376afa7e285c9e6acf6ff0177d346696ce564415"
    draw = random.Random(768)
    row = lambda name, *lines: file.row(name, "suite deployed", *lines)
    pairs = [(bytes(32), bytes(32)), (b"\xff" * 32, b"\xff" * 32), (bytes(31) + b"\x80", b"\x01" + bytes(31))]
    pairs += [(draw.randbytes(32), draw.randbytes(32)) for _ in range(37)]
    for n, (ours, theirs) in enumerate(pairs):
        share = public(ours)
        answer, secret = respond(theirs, share)
        assert shared(ours, answer) == secret
        row("hybrid, both sides %d" % n, "public %s %s %s" % (NAME, hexa(ours), hexa(share)), respond_line(theirs, share), shared_line(ours, answer))
    for bit in range(0, 256, 16):
        row("hybrid by bit %d" % bit, "public %s %s %s" % (NAME, hexa(le(1 << bit)), hexa(public(le(1 << bit)))))
    ours, theirs = pairs[5]
    share, (answer, _) = public(ours), respond(theirs, public(ours))
    lengths(row, ours, theirs, share, answer)
    numbers(row, theirs, share, draw)
    ciphertexts(row, ours, answer, draw, respond(theirs, public(theirs))[0])
    points(row, ours, theirs, share, answer)
    for name in ("mlkem768x25519-sha25", "mlkem768x25519-sha2566", "MLKEM768X25519-sha256", "mlkem768x25519-sha256@openssh.com", "mlkem1024nistp384-sha384"):
        row("no hybrid: %s" % name, shared_line(ours, answer, name), respond_line(theirs, share, name))
    body = curve_shared(theirs, curve_public(ours))
    row("a response of curve25519-sha256", "respond %s %s %s %s" % (METHOD, hexa(theirs), hexa(curve_public(ours)), hexa(curve_public(theirs) + body)))
    own_draws(row, ours)


def lengths(row, ours, theirs, share, answer):
    """Shares of other lengths, both of one byte more and of one less among them."""
    for n in (0, 1, 31, 32, 33, 64, 1056, 1087, 1088, 1089, 1119, 1120, 1121, 1152, 1184, 1215, 1216, 1217, 1248, 2400, 4096):
        line = respond_line(theirs, (share * 4)[:n])
        assert line.endswith(" none") == (n != CLIENT_SHARE)
        row("hybrid, a client's share of %d bytes" % n, line)
        line = shared_line(ours, (answer * 4)[:n])
        assert line.endswith(" none") == (n != SERVER_SHARE)
        row("hybrid, a server's share of %d bytes" % n, line)


def numbers(row, theirs, share, draw):
    """Keys with a number that isn't below 3329, and with the largest that is (FIPS 203 section 7.2)."""
    for n in sorted({*range(0, 768, 37), 1, 255, 256, 511, 512, 766, 767}):
        for value in (3328, 3329, 4095):
            key, at, shift = bytearray(share), n // 2 * 3, 12 * (n % 2)
            number = int.from_bytes(key[at:at + 3], "little") & ~(4095 << shift) | value << shift
            key[at:at + 3] = number.to_bytes(3, "little")
            line = respond_line(theirs, bytes(key))
            assert line.endswith(" none") == (value > 3328)
            row("hybrid, number %d of the key is %d" % (n, value), line)
    for name, key in (("3328", mlkem.byte_encode(12, [3328] * 256) * 3), ("0", bytes(1152)), ("4095", b"\xff" * 1152)):
        row("hybrid, all numbers of the key are %s" % name, respond_line(theirs, key + share[1152:]))
    row("hybrid, another seed of the matrix", respond_line(theirs, share[:1152] + draw.randbytes(32) + share[KEY:]))


def ciphertexts(row, ours, answer, draw, another):
    """Ciphertexts that nobody made: a secret comes of each, and another one (FIPS 203 section 6.3)."""
    for at in [*range(0, CIPHERTEXT, 34), 319, 320, 639, 640, 959, 960, 1087]:
        changed = bytearray(answer)
        changed[at] ^= 1 << draw.randrange(8)
        assert shared(ours, bytes(changed)) not in (None, shared(ours, answer))
        row("hybrid, a ciphertext that is changed at %d, by %d" % (at, changed[at] ^ answer[at]), shared_line(ours, bytes(changed)))
    for name, ciphertext in (("zeros", bytes(CIPHERTEXT)), ("ones", b"\xff" * CIPHERTEXT), ("drawn bytes", draw.randbytes(CIPHERTEXT)), ("another key", another[:CIPHERTEXT])):
        row("hybrid, a ciphertext of %s" % name, shared_line(ours, ciphertext + answer[CIPHERTEXT:]))


def points(row, ours, theirs, share, answer):
    """Points of X25519 that give zero, that aren't below 2^255 - 19, and with the highest bit set."""
    for n, u in enumerate(SMALL + [2, 9, 2 ** 255 - 1, P + 2]):
        for top in (0, 1):
            point = le(u % 2 ** 255 + top * 2 ** 255)
            lines = shared_line(ours, answer[:CIPHERTEXT] + point), respond_line(theirs, share[:KEY] + point)
            assert all(line.endswith(" none") == (n < len(SMALL)) for line in lines)
            row("hybrid, point %d with the highest bit %d" % (n, top), *lines)


def own_draws(row, ours):
    """No method shows what another one draws of the same bytes: the shares by one random differ in all of them."""
    from deployed import GROUP14, group14_public
    curve, hybrid = curve_public(ours), public(ours)
    assert curve != hybrid[KEY:] and curve != x25519(ours, BASE)
    row("shares of one random by each method", "public %s %s %s" % (METHOD, hexa(ours), hexa(curve)), "public %s %s %s" % (NAME, hexa(ours), hexa(hybrid)),
        "public %s %s %s" % (GROUP14, hexa(ours), hexa(group14_public(ours))))

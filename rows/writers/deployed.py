"""Calls of the suite whose algorithms are deployed: X25519 (RFC 7748), Ed25519 (RFC 8032) and chacha20-poly1305@openssh.com (OpenSSH
PROTOCOL.chacha20poly1305, over the ChaCha20 and Poly1305 of RFC 8439), and of diffie-hellman-group14-sha256 (RFC 4253 section 8, RFC
8268), worked out here from their definitions in whole numbers."""
import hashlib
import random

from lab import hexa, public_part, string, u32

P = 2 ** 255 - 19
L = 2 ** 252 + 27742317777372353535851937790883648493
D = -121665 * pow(121666, P - 2, P) % P
ROOT = pow(2, (P - 1) // 4, P)
METHOD, METHOD_BEFORE, ALGORITHM = "curve25519-sha256", "curve25519-sha256@libssh.org", "ssh-ed25519"
NEUTRAL = (0, 1, 1, 0)
GROUP14 = "diffie-hellman-group14-sha256"
# RFC 3526 section 3: 2^2048 - 2^1984 - 1 + 2^64 * ([2^1918 pi] + 124476), pi by Machin's formula
PI_BITS = 2200


def arctan_of_one_through(n):
    """Times 2^PI_BITS, by its series."""
    total, power, k = 0, (1 << PI_BITS) // n, 0
    while power:
        total += (-1) ** k * (power // (2 * k + 1))
        power, k = power // (n * n), k + 1
    return total


PI = 4 * (4 * arctan_of_one_through(5) - arctan_of_one_through(239))
PRIME = 2 ** 2048 - 2 ** 1984 - 1 + 2 ** 64 * ((PI >> PI_BITS - 1918) + 124476)


def le(number, n=32):
    return number.to_bytes(n, "little")


def number_of(data):
    return int.from_bytes(data, "little")


# X25519.

def x25519(scalar, u):
    """RFC 7748 section 5."""
    k = bytearray(scalar)
    k[0] &= 248
    k[31] = k[31] & 127 | 64
    k, x1 = number_of(k), number_of(u) % 2 ** 255 % P
    x2, z2, x3, z3, swap = 1, 0, x1, 1, 0
    for t in reversed(range(255)):
        bit = k >> t & 1
        if swap != bit:
            x2, x3, z2, z3 = x3, x2, z3, z2
        swap = bit
        a, b, c, d = x2 + z2, x2 - z2, x3 + z3, x3 - z3
        aa, bb, da, cb = a * a % P, b * b % P, d * a % P, c * b % P
        e = aa - bb
        x3, z3 = (da + cb) ** 2 % P, x1 * (da - cb) ** 2 % P
        x2, z2 = aa * bb % P, e * (aa + 121665 * e) % P
    if swap:
        x2, z2 = x3, z3
    return le(x2 * pow(z2, P - 2, P) % P)


# What is drawn of the random bytes of an exchange: each method by a byte of its own.
OF_HYBRID_CLIENT, OF_HYBRID_SERVER, OF_CURVE25519, OF_GROUP14 = range(4)


def draws_of(drawn, purpose):
    """The three parts, 32 bytes each, of what random bytes are expanded to for a purpose."""
    parts = hashlib.shake_256(drawn + bytes([purpose])).digest(96)
    return parts[:32], parts[32:64], parts[64:]


def scalar_of(drawn):
    return draws_of(drawn, OF_CURVE25519)[0]


def exponent_of(drawn):
    return number_of(draws_of(drawn, OF_GROUP14)[0])


def public(drawn):
    return x25519(scalar_of(drawn), le(9))


def shared(drawn, theirs):
    """What both sides share, as the body of an mpint (RFC 8731 section 3.1), or none."""
    if len(theirs) != 32:
        return None
    body = x25519(scalar_of(drawn), theirs).lstrip(b"\x00")
    if not body:
        return None
    return body if body[0] < 128 else b"\x00" + body


# diffie-hellman-group14-sha256. The exponent is the number of the 32 bytes that are drawn, the lowest first.

def body_of(n):
    """The body of a positive number's mpint (RFC 4251 section 5)."""
    return n.to_bytes(n.bit_length() // 8 + 1, "big")


def group14_public(drawn):
    return body_of(pow(2, exponent_of(drawn), PRIME))


def group14_shared(drawn, theirs):
    """The body of the shared secret's mpint, or none."""
    n = int.from_bytes(theirs, "big")
    if not 2 <= n <= PRIME - 2 or body_of(n) != theirs:
        return None
    found = pow(n, exponent_of(drawn), PRIME)
    return body_of(found) if 2 <= found <= PRIME - 2 else None


# Ed25519. A point is x, y, z and t of the extended coordinates.

def add(p, q):
    a, b = (p[1] - p[0]) * (q[1] - q[0]), (p[1] + p[0]) * (q[1] + q[0])
    c, d = 2 * p[3] * q[3] * D, 2 * p[2] * q[2]
    e, f, g, h = b - a, d - c, d + c, b + a
    return e * f % P, g * h % P, f * g % P, e * h % P


def times(k, p):
    out = NEUTRAL
    for bit in bin(k)[2:]:
        out = add(out, out)
        if bit == "1":
            out = add(out, p)
    return out


def encoded(p):
    inverse = pow(p[2], P - 2, P)
    x, y = p[0] * inverse % P, p[1] * inverse % P
    return le(y | (x & 1) << 255)


def decoded(data):
    """RFC 8032 section 5.1.3, or none."""
    y, sign = number_of(data) % 2 ** 255, data[31] >> 7
    if y >= P:
        return None
    square = (y * y - 1) * pow(D * y * y + 1, P - 2, P) % P
    x = pow(square, (P + 3) // 8, P)
    if x * x % P != square:
        x = x * ROOT % P
    if x * x % P != square or x == 0 and sign:
        return None
    x = P - x if x & 1 != sign else x
    return x, y, 1, x * y % P


BASE = decoded(le(4 * pow(5, P - 2, P) % P))


def expanded(secret):
    """The scalar and the prefix of a private key: 32 bytes, or what other bytes are hashed to as these are."""
    digest = bytearray(hashlib.sha512(secret).digest())
    digest[0] &= 248
    digest[31] = digest[31] & 127 | 64
    return number_of(digest[:32]), bytes(digest[32:])


def key_of(secret):
    return encoded(times(expanded(secret)[0], BASE))


def signature_of(secret, data):
    scalar, prefix = expanded(secret)
    r = number_of(hashlib.sha512(prefix + data).digest()) % L
    point, key = encoded(times(r, BASE)), key_of(secret)
    k = number_of(hashlib.sha512(point + key + data).digest()) % L
    return point + le((r + k * scalar) % L)


def is_signature(key, data, signature):
    """RFC 8032 section 5.1.7, by the equation without the cofactor."""
    s, point = number_of(signature[32:]), decoded(key)
    if s >= L or point is None:
        return False
    k = number_of(hashlib.sha512(signature[:32] + key + data).digest()) % L
    minus = (P - point[0], point[1], 1, P - point[3])
    return encoded(add(times(s, BASE), times(k, minus))) == signature[:32]


def wrapped(data, name=ALGORITHM):
    return string(name) + string(data)


# chacha20-poly1305@openssh.com.

def quarter(s, a, b, c, d):
    for n, (to, by, at) in zip((16, 12, 8, 7), ((a, b, d), (c, d, b), (a, b, d), (c, d, b))):
        s[to] = s[to] + s[by] & 0xffffffff
        x = s[at] ^ s[to]
        s[at] = (x << n | x >> 32 - n) & 0xffffffff


def chacha20(key, seq, block, n):
    """The first n bytes of the stream from this block on, under the nonce that is the packet's number."""
    words = lambda data: [number_of(data[i:i + 4]) for i in range(0, len(data), 4)]
    out = b""
    while len(out) < n:
        start = words(b"expand 32-byte k" + key + le(block, 8) + seq.to_bytes(8, "big"))
        state = list(start)
        for _ in range(10):
            for places in ((0, 4, 8, 12), (1, 5, 9, 13), (2, 6, 10, 14), (3, 7, 11, 15), (0, 5, 10, 15), (1, 6, 11, 12), (2, 7, 8, 13),
                           (3, 4, 9, 14)):
                quarter(state, *places)
        out += b"".join(le(x + y & 0xffffffff, 4) for x, y in zip(start, state))
        block += 1
    return out[:n]


def poly1305(key, data):
    r, total = number_of(key[:16]) & 0x0ffffffc0ffffffc0ffffffc0fffffff, 0
    for i in range(0, len(data), 16):
        total = (total + number_of(data[i:i + 16] + b"\x01")) * r % (2 ** 130 - 5)
    return le((total + number_of(key[16:32])) % 2 ** 128, 16)


def mixed(data, mask):
    return bytes(x ^ y for x, y in zip(data, mask))


def seal(keys, seq, packet):
    """The key of the payload stands first, that of the length after it."""
    main, head = keys[:32], keys[32:]
    covered = mixed(packet[:4], chacha20(head, seq, 0, 4)) + mixed(packet[4:], chacha20(main, seq, 1, len(packet) - 4))
    return covered + poly1305(chacha20(main, seq, 0, 32), covered)


# Rows.

class Calls:
    """The rows of a file: the calls of one kind that are made of one draw of bytes."""

    def __init__(self, file):
        self.file, self.draw, self.counts = file, random.Random(25519), {}

    def bytes(self, n):
        return self.draw.getrandbits(8 * n).to_bytes(n, "big") if n else b""

    def row(self, name, *lines):
        self.counts[name] = n = self.counts.get(name, 0) + 1
        self.file.row("%s %d" % (name, n), "suite deployed", *lines)

    def flipped(self, data, front=0):
        bit = self.draw.randrange(8 * front, 8 * len(data))
        return data[:bit // 8] + bytes([data[bit // 8] ^ 1 << bit % 8]) + data[bit // 8 + 1:]


def shared_line(secret, theirs, method=METHOD):
    found = {METHOD: shared, METHOD_BEFORE: shared, GROUP14: group14_shared}.get(method, lambda *_: None)(secret, theirs)
    return "shared %s %s %s %s" % (method, hexa(secret), hexa(theirs), "none" if found is None else hexa(found))


def verify_line(key, data, signature, good, name=ALGORITHM):
    return "verify %s %s %s %s %s" % (name, hexa(key), hexa(data), hexa(signature), "yes" if good else "no")


def checked_line(key, data, signature):
    return verify_line(wrapped(key), data, wrapped(signature), is_signature(key, data, signature))


# RFC 7748 sections 5.2 and 6.1: scalar, u, result
STANDARD_EXCHANGES = [
    ("a546e36bf0527c9d3b16154b82465edd62144c0ac1fc5a18506a2244ba449ac4", "e6db6867583030db3594c1a424b15f7c726624ec26b3353b10a903a6d0ab1c4c",
     "c3da55379de9c6908e94ea4df28d084f32eccf03491c71f754b4075577a28552"),
    ("4b66e9d4d1b4673c5ad22691957d6af5c11b6421e0ea01d42ca4169e7918ba0d", "e5210f12786811d3f4b7959d0538ae2c31dbe7106fc03c3efc4cd549c715a493",
     "95cbde9476e8907d7aade45cb4b873f88b595a68799fa152e6f8f7647aac7957"),
    ("0900" + "00" * 30, "0900" + "00" * 30, "422c8e7a6227d7bca1350b3e2bb7279f7897b87bb6854b783c60e80311ae3079"),
]


def exchanges(calls):
    for scalar, u, result in STANDARD_EXCHANGES:
        scalar, u = bytes.fromhex(scalar), bytes.fromhex(u)
        assert x25519(scalar, u).hex() == result
        calls.row("exchange with a point of the RFC", shared_line(scalar, u))
    # RFC 7748 section 6.1: two private keys, two public ones, one secret
    ours = bytes.fromhex("77076d0a7318a57d3c16c17251b26645df4c2f87ebc0992ab177fba51db92c2a")
    theirs = bytes.fromhex("5dab087e624a8a4b79e17f8b83800ee66f3bb1292618b6fd1c2f8b27ff88e0eb")
    assert x25519(ours, le(9)).hex() == "8520f0098930a754748b7ddcb43ef75a0dbf3a0d26381af4eba4a98eaa9b4e6a"
    assert x25519(theirs, le(9)).hex() == "de9edb7d7b7dc1b4d35b61c2ece435373f8343c85b78674dadfc7e146f882b4f"
    for secret, peer in ((ours, theirs), (theirs, ours)):
        assert x25519(secret, x25519(peer, le(9))).hex() == "4a5d9d5ba4ce2de1728e3bf480350f25e07e21c947d19e3376f09b3c1e161742"
        calls.row("exchange of two sides", "public %s %s %s" % (METHOD, hexa(secret), hexa(public(secret))), shared_line(secret, public(peer)))
    for n in range(150):
        secret, peer = calls.bytes(32), calls.bytes(32)
        calls.row("exchange", "public %s %s %s" % (METHOD, hexa(secret), hexa(public(secret))), shared_line(secret, peer),
                  shared_line(secret, public(peer)))
    # of small order, on the twist, not below 2^255 - 19, with the highest bit set
    small = [0, 1, 325606250916557431795983626356110631294008115727848805560023387167927233504,
             39382357235489614581723060781553021112529911719440698176882885853963445705823, P - 1]
    for n in small + [2, 9, 16, P - 2] + [P + k for k in range(19)]:
        for top in (0, 2 ** 255):
            for secret in (calls.bytes(32), calls.bytes(32), b"\x00" * 32, b"\xff" * 32):
                calls.row("exchange with %d" % ((n + top) % 1000), shared_line(secret, le(n + top)))
    for bit in range(256):
        calls.row("exchange with a bit", shared_line(calls.bytes(32), le(1 << bit)))
        calls.row("exchange by a bit", shared_line(le(1 << bit), calls.bytes(32)))
    for n in (0, 1, 31, 33, 64):
        calls.row("exchange with a share of %d" % n, shared_line(calls.bytes(32), calls.bytes(n)))
    for method in ("curve25519-sha512", "curve25519-sha256@libssh", "Curve25519-sha256", "x25519"):
        calls.row("exchange by another method", shared_line(calls.bytes(32), calls.bytes(32), method))
    calls.row("exchange by the name before", shared_line(calls.bytes(32), calls.bytes(32), METHOD_BEFORE))


def group14_exchange(calls, name, secret, *peers):
    """The own share, and what is shared with peers: a share's body each."""
    calls.row(name, "public %s %s %s" % (GROUP14, hexa(secret), hexa(group14_public(secret))), *(shared_line(secret, peer, GROUP14) for peer in peers))


def group14_exchanges(calls):
    for n in range(24):
        ours, theirs = calls.bytes(32), calls.bytes(32)
        group14_exchange(calls, "group 14", ours, group14_public(theirs))
        group14_exchange(calls, "group 14", theirs, group14_public(ours))
    # secrets that begin with zeros, and whose first byte is below 128 or not
    for name, low, high in (("begins with zeros", 2, 2 ** 2040), ("begins with a bit", 2 ** 2047, PRIME), ("begins with none", 2 ** 2040, 2 ** 2047)):
        for _ in range(2):
            theirs = calls.bytes(32)
            drawn = iter(lambda: calls.bytes(32), None)
            ours = next(secret for secret in drawn if low <= pow(2, exponent_of(secret) * exponent_of(theirs), PRIME) < high)
            group14_exchange(calls, "group 14, a secret that %s" % name, ours, group14_public(theirs))
            # and a share that begins so
            secret = next(secret for secret in drawn if low <= pow(2, exponent_of(secret), PRIME) < high)
            group14_exchange(calls, "group 14, a share that %s" % name, secret, group14_public(theirs))
            calls.row("group 14, a peer's share that %s" % name, shared_line(ours, group14_public(secret), GROUP14))
    for bit in range(0, 256, 15):
        group14_exchange(calls, "group 14 by a bit", le(1 << bit), group14_public(calls.bytes(32)))
    for secret in (b"\x00" * 32, b"\xff" * 32, le(1), le(2), le(2 ** 255 - 1), le(2047), le(2048), le(2049)):
        group14_exchange(calls, "group 14 by %d" % (number_of(secret) % 10000), secret, group14_public(calls.bytes(32)))
    group14_limits(calls)


def group14_limits(calls):
    """Shares at the ends of the range, beyond it, and that aren't the shortest body of a positive number."""
    for n in (2, 3, 127, 128, 255, 256, 2 ** 64 - 1, 2 ** 64, 2 ** 2040 - 1, 2 ** 2040, 2 ** 2047 - 1, 2 ** 2047, PRIME - 3, PRIME - 2):
        calls.row("group 14 with %d" % (n % 10000), shared_line(calls.bytes(32), body_of(n), GROUP14))
    for n in (1, PRIME - 1, PRIME, PRIME + 1, PRIME + 2, 2 * PRIME - 1, 2 * PRIME + 2, 2 ** 2048 - 1, 2 ** 2048, 2 ** 2048 + 2, 2 ** 2056 - 1, 2 ** 2063 + 2):
        line = shared_line(calls.bytes(32), body_of(n), GROUP14)
        assert line.endswith(" none")
        calls.row("group 14 with a share beyond, %d" % (n % 10000), line)
    good = group14_public(calls.bytes(32))
    high = next(share for share in iter(lambda: group14_public(calls.bytes(32)), None) if share[0] == 0)
    shortest = [b"", b"\x00", b"\x00\x00", b"\x01", b"\x00\x01", b"\x00\x02", b"\x00\x7f", b"\x00\x80"[:1] + b"\x7f" * 4, b"\x00" + body_of(2), b"\x00" + good, b"\x00" * 2 + good,
                b"\x00" * 300 + b"\x02", b"\x00" * 300]
    negative = [b"\x80", b"\xff", b"\xfe", b"\xff" * 256, b"\x80" + b"\x00" * 255, b"\xff" + good, high[1:]]
    longer = [b"\x01" + good, b"\x01" + high, b"\x7f" * 257, b"\x7f" * 258, b"\x00\x80" + b"\x00" * 256, b"\x01" + b"\x00" * 4000]
    for name, bodies in (("not the shortest", shortest), ("negative", negative), ("longer", longer)):
        for body in bodies:
            line = shared_line(calls.bytes(32), body, GROUP14)
            assert line.endswith(" none"), body.hex()
            calls.row("group 14, a share that is %s" % name, line)
    for method in ("diffie-hellman-group14-sha1", "diffie-hellman-group16-sha512", "diffie-hellman-group14-sha25", "Diffie-hellman-group14-sha256"):
        calls.row("group 14 by another method", shared_line(calls.bytes(32), group14_public(calls.bytes(32)), method))


# RFC 8032 section 7.1: private key, public key, message, signature
STANDARD_SIGNATURES = [
    ("9d61b19deffd5a60ba844af492ec2cc44449c5697b326919703bac031cae7f60", "d75a980182b10ab7d54bfed3c964073a0ee172f3daa62325af021a68f707511a", "",
     "e5564300c360ac729086e2cc806e828a84877f1eb8e5d974d873e065224901555fb8821590a33bacc61e39701cf9b46bd25bf5f0595bbe24655141438e7a100b"),
    ("4ccd089b28ff96da9db6c346ec114e0f5b8a319f35aba624da8cf6ed4fb8a6fb", "3d4017c3e843895a92b70aa74d1b7ebc9c982ccf2ec4968cc0cd55f12af4660c", "72",
     "92a009a9f0d4cab8720e820b5f642540a2b27b5416503f8fb3762223ebdb69da085ac1e43e15996e458f3613d0f11d8c387b2eaeb4302aeeb00d291612bb0c00"),
    ("c5aa8df43f9f837bedb7442f31dcb7b166d38535076f094b85ce3a2e0b4458f7", "fc51cd8e6218a1a38da47ed00230f0580816ed13ba3303ac5deb911548908025", "af82",
     "6291d657deec24024827e69c3abe01a30ce548a284743a445e3680d7db5ac3ac18ff9b538d16f290ae67f760984dc6594a7c15e9716ed28dc027beceea1ec40a"),
]


def signatures(calls):
    for secret, key, data, signature in STANDARD_SIGNATURES:
        secret, key, data, signature = (bytes.fromhex(part) for part in (secret, key, data, signature))
        assert key_of(secret) == key and signature_of(secret, data) == signature and is_signature(key, data, signature)
        calls.row("signature of the RFC", "blob %s %s %s" % (ALGORITHM, hexa(secret), hexa(wrapped(key))),
                  "sign %s %s %s %s" % (ALGORITHM, hexa(secret), hexa(data), hexa(wrapped(signature))), checked_line(key, data, signature))
    for n in range(70):
        secret, data = calls.bytes(32), calls.bytes(calls.draw.randrange(200))
        key, signature = key_of(secret), signature_of(secret, data)
        calls.row("signature", "blob %s %s %s" % (ALGORITHM, hexa(secret), hexa(wrapped(key))),
                  "sign %s %s %s %s" % (ALGORITHM, hexa(secret), hexa(data), hexa(wrapped(signature))), checked_line(key, data, signature))
        refused(calls, key, data, signature)
    for n in (0, 1, 31, 33, 64, 200):
        secret = calls.bytes(n)
        # the suite doesn't hold it, and tells none of its bytes; it signs by what they are hashed to
        calls.row("key of %d bytes" % n, "blob %s %s %s" % (ALGORITHM, hexa(secret), hexa(public_part(secret))),
                  "sign %s %s %s %s" % (ALGORITHM, hexa(secret), "aa", hexa(wrapped(signature_of(secret, b"\xaa")))))
    small_orders(calls)


def refused(calls, key, data, signature):
    """Changes of a valid signature, none of which is valid."""
    s = number_of(signature[32:])
    for more in range(1, 16):
        if s + more * L < 2 ** 256:
            calls.row("s not below L", checked_line(key, data, signature[:32] + le(s + more * L)))
    for front, end in ((0, 32), (32, 64)):
        changed = calls.flipped(signature[:end], front) + signature[end:]
        calls.row("signature with a bit flipped", checked_line(key, data, changed))
    calls.row("key with a bit flipped", checked_line(calls.flipped(key), data, signature))
    calls.row("another input", checked_line(key, data + b"x", signature))
    blob, found = wrapped(key), wrapped(signature)
    for name, line in (("another algorithm asked for", verify_line(blob, data, found, False, "ssh-ed448")),
                       ("more behind the key", verify_line(blob + b"\x00", data, found, False)),
                       ("more behind the signature", verify_line(blob, data, found + b"\x00", False)),
                       ("key cut", verify_line(blob[:-1], data, found, False)),
                       ("signature cut", verify_line(blob, data, found[:-1], False)),
                       ("key of another algorithm", verify_line(wrapped(key, "ssh-ed25518"), data, found, False)),
                       ("signature of another algorithm", verify_line(blob, data, wrapped(signature, "ssh-ed25518"), False))):
        calls.row(name, line)


def small_orders(calls):
    """Keys and points of small order, and y not below 2^255 - 19. s is 0, so a signature is valid where R is -k times the key."""
    points = [le(1), le(P - 1), le(0), le(2 ** 255)]
    eighth = 0x7a03ac9277fdc74ec6cc392cfa53202a0f67100d760b3cba4fd83d3d706a17c7
    points += [le(eighth), le(eighth | 2 ** 255), le(P - eighth), le(P - eighth | 2 ** 255)]
    points += [le(n) for n in range(P, 2 ** 255)] + [le(n | 2 ** 255) for n in range(P, 2 ** 255)] + [le(1 | 2 ** 255), le(P - 1 | 2 ** 255)]
    for key in points:
        for point in points[:10]:
            data = calls.bytes(4)
            calls.row("small order", checked_line(key, data, point + le(0)), checked_line(key, data, point + le(L)))


def seals(calls):
    def line(word, keys, seq, one, other):
        return "%s c m - %s - %d %s %s" % (word, hexa(keys), seq, hexa(one), other if isinstance(other, str) else hexa(other))

    numbers = (0, 1, 7, 2 ** 31 - 1, 2 ** 31, 2 ** 32 - 1)
    for n in list(range(4, 201)) + [255, 256, 1000]:
        keys, seq, packet = calls.bytes(64), calls.draw.choice(numbers), calls.bytes(n)
        sealed = seal(keys, seq, packet)
        calls.row("packet of %d" % n, line("seal", keys, seq, packet, sealed), line("unseal", keys, seq, sealed, packet))
        calls.row("packet of %d, its tag off by a bit" % n, line("unseal", keys, seq, calls.flipped(sealed, n), "none"))
        calls.row("packet of %d, a bit flipped" % n, line("unseal", keys, seq, calls.flipped(sealed[:n]) + sealed[n:], "none"))
        calls.row("packet of %d by another number" % n, line("unseal", keys, (seq + 1) % 2 ** 32, sealed, "none"))
    keys, packet = calls.bytes(64), calls.bytes(40)
    sealed = seal(keys, 5, packet)
    for bit in range(8 * 40, 8 * 56):
        changed = sealed[:bit // 8] + bytes([sealed[bit // 8] ^ 1 << bit % 8]) + sealed[bit // 8 + 1:]
        calls.row("each bit of a tag", line("unseal", keys, 5, changed, "none"))
    for place in range(64):
        other = keys[:place] + bytes([keys[place] ^ 1]) + keys[place + 1:]
        calls.row("each byte of the keys", line("seal", other, 5, packet, seal(other, 5, packet)))


def rows(file):
    calls = Calls(file)
    exchanges(calls)
    signatures(calls)
    seals(calls)
    group14_exchanges(calls)

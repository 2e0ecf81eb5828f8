"""Calls of the suite whose algorithms are deployed, by the names rsa-sha2-256 and rsa-sha2-512 (RFC 8332): signatures by RSASSA-PKCS1-v1_5 (RFC
8017 section 8.2), worked out here in whole numbers. Primes are drawn, and told by how far the next one is."""
import hashlib
import random

import deployed
from lab import hexa, public_part, string

NAMES = ("rsa-sha2-256", "rsa-sha2-512")
# RFC 8017 section 9.2, note 1: the digest's name in DigestInfo, and the digest
HASHES = {"rsa-sha2-256": ("608648016503040201", hashlib.sha256), "rsa-sha2-512": ("608648016503040203", hashlib.sha512)}
SHA1, SHA224, SHA384 = "2b0e03021a", "608648016503040204", "608648016503040202"
# the distance of a prime from what is drawn for so many bits and this number
PRIMES = {(512, 0): 108, (512, 1): 168, (1024, 0): 1452, (1024, 1): 18, (1025, 0): 550, (1536, 0): 1230, (1536, 1): 60, (2048, 0): 1882, (2048, 1): 2600,
          (4096, 0): 3230, (4096, 1): 732, (4100, 0): 1192, (4100, 1): 310}
# exponents are below it
EXPONENT_LIMIT = 2 ** 24


def prime(bits, n):
    return (random.Random("%d %d" % (bits, n)).getrandbits(bits) | 3 << bits - 2 | 1) + PRIMES[bits, n]


class Key:
    def __init__(self, p, q, e):
        self.p, self.q, self.n, self.e = p, q, p * q, e
        self.size = (self.n.bit_length() + 7) // 8

    def blob(self):
        return blob_of(mpint_of(self.e), mpint_of(self.n))

    def power(self, message):
        """What becomes this encoded message: modulo either prime, and of both."""
        number = int.from_bytes(message, "big")
        of_p, of_q = (pow(number, pow(self.e, -1, p - 1), p) for p in (self.p, self.q))
        s = of_q + self.q * ((of_p - of_q) * pow(self.q, -1, self.p) % self.p)
        assert pow(s, self.e, self.n) == number
        return s

    def bytes(self, s):
        return s.to_bytes(self.size, "big")

    def signed(self, name, data):
        return self.bytes(self.power(padded(self.size, info_of(name, data))))


def mpint_of(n):
    return deployed.body_of(n) if n else b""


def blob_of(e, n, name="ssh-rsa"):
    return string(name) + string(e) + string(n)


def der(kind, body, long=False):
    length = bytes([0x81, len(body)]) if long else bytes([len(body)])
    return bytes([kind]) + length + body


def info(digest_name, digest, null=b"\x05\x00", long=False):
    """DigestInfo (RFC 8017 section 9.2, step 2)."""
    return der(0x30, der(0x30, der(0x06, bytes.fromhex(digest_name)) + null) + der(0x04, digest), long)


def info_of(name, data):
    digest_name, digest = HASHES[name]
    return info(digest_name, digest(data).digest())


def padded(size, body):
    """The encoded message (section 9.2, step 5)."""
    return b"\x00\x01" + b"\xff" * (size - len(body) - 3) + b"\x00" + body


def line(name, blob, data, s, good, inner=None):
    return deployed.verify_line(blob, data, string(inner or name) + string(s), good, name)


def keys():
    """Keys of 2048 to 8192 bits, and of other exponents than the usual one, of which the long one is refused."""
    return [
        ("2048 bits", Key(prime(1024, 0), prime(1024, 1), 65537)),
        ("3072 bits", Key(prime(1536, 0), prime(1536, 1), 65537)),
        ("4096 bits", Key(prime(2048, 0), prime(2048, 1), 65537)),
        ("2049 bits", Key(prime(1024, 0), prime(1025, 0), 65537)),
        ("8192 bits", Key(prime(4096, 0), prime(4096, 1), 65537)),
        ("2048 bits and the exponent 5", Key(prime(1024, 0), prime(1024, 1), exponent(5, 1024))),
        ("2048 bits and a long exponent", Key(prime(1024, 0), prime(1024, 1), 4294967291)),
    ]


def exponent(least, bits):
    """An odd exponent from this on that suits the two primes."""
    return next(e for e in range(least, 1000, 2) if all((prime(bits, n) - 1) % q for n in (0, 1) for q in range(3, e + 1, 2) if e % q == 0))


def valid(calls):
    for what, key in keys():
        for name in NAMES:
            data = calls.bytes(calls.draw.randrange(60, 300))
            s = key.signed(name, data)
            calls.row("RSA of %s, %s" % (what, name), line(name, key.blob(), data, s, key.e < EXPONENT_LIMIT))
            calls.row("RSA of %s, %s, off by a bit" % (what, name), line(name, key.blob(), data, calls.flipped(s, 1), False),
                      line(name, key.blob(), calls.flipped(data), s, False))
    key = keys()[0][1]
    for name in NAMES:
        for data in (b"", b"a", calls.bytes(1000)):
            calls.row("RSA, an input of %d bytes" % len(data), line(name, key.blob(), data, key.signed(name, data), True))
    # s begins with a zero: so it may be left out, and no other may stand before
    for name in NAMES:
        data = next(d for d in iter(lambda: calls.bytes(20), None) if key.signed(name, d)[0] == 0)
        s = key.signed(name, data)
        calls.row("RSA, s begins with a zero, %s" % name, line(name, key.blob(), data, s, True), line(name, key.blob(), data, s.lstrip(b"\x00"), True),
                  line(name, key.blob(), data, b"\x00" + s, False))


def numbers(calls):
    """Other numbers for s than the one, which are none."""
    key = keys()[0][1]
    for name in NAMES:
        data = calls.bytes(40)
        right = key.signed(name, data)
        s = int.from_bytes(right, "big")
        others = [("empty", b""), ("zero", key.bytes(0)), ("one", key.bytes(1)), ("n", key.bytes(key.n)), ("n less one", key.bytes(key.n - 1)),
                  ("the negative", key.bytes(key.n - s)), ("s and n", (s + key.n).to_bytes(key.size + 1, "big")), ("a byte longer", b"\x00" + right),
                  ("a byte more after it", right + b"\x00"), ("a byte shorter", right[:-1]), ("its first byte left out", right[1:]), ("all ones", b"\xff" * key.size),
                  ("4096 bytes", b"\x00" * 3840 + right)]
        if s + key.n < 256 ** key.size:
            others.append(("s and n in as many bytes", key.bytes(s + key.n)))
        for what, other in others:
            calls.row("RSA, for s %s" % what, line(name, key.blob(), data, other, False))
        for place in (1, 2, 3, 128, 254, 255):
            changed = right[:place] + bytes([right[place] ^ 1 << calls.draw.randrange(8)]) + right[place + 1:]
            calls.row("RSA, a bit off in byte %d" % place, line(name, key.blob(), data, changed, False))


def paddings(calls):
    """Other encoded messages, each made by the private key."""
    for what, key in keys()[:2]:
        for name in NAMES:
            data = calls.bytes(50)
            digest_name, digest = HASHES[name][0], HASHES[name][1](data).digest()
            own, other = info_of(name, data), info_of(NAMES[name == NAMES[0]], data)
            right = padded(key.size, own)
            left = key.size - len(own) - 11
            bodies = [("with eight bytes ff and garbage after it", b"\x00\x01" + b"\xff" * 8 + b"\x00" + own + calls.bytes(left)),
                      ("with no byte ff and garbage after it", b"\x00\x01\x00" + own + calls.bytes(left + 8)),
                      ("with a byte after the digest", padded(key.size, own + b"\x00")),
                      ("with a byte of the padding fe", right[:40] + b"\xfe" + right[41:]), ("with a byte of the padding 00", right[:40] + b"\x00" + right[41:]),
                      ("of block type 2", b"\x00\x02" + right[2:]), ("of block type 0", b"\x00\x00" + right[2:]), ("that begins with 01", b"\x01" + right[1:]),
                      ("with no 00 before the digest's name", right.replace(b"\xff\x00\x30", b"\xff\xff\x30", 1)),
                      ("without the digest's name", padded(key.size, digest)), ("with the octet string alone", padded(key.size, der(4, digest))),
                      ("without NULL", padded(key.size, info(digest_name, digest, b""))), ("with other parameters", padded(key.size, info(digest_name, digest, b"\x04\x00"))),
                      ("with a long length", padded(key.size, info(digest_name, digest, long=True))),
                      ("with the digest short of a byte", padded(key.size, info(digest_name, digest[:-1]))),
                      ("with the digest's last bit off", right[:-1] + bytes([right[-1] ^ 1])), ("of the other hash", padded(key.size, other)),
                      ("with the other hash's name", padded(key.size, info(HASHES[NAMES[name == NAMES[0]]][0], digest))),
                      ("by SHA-1", padded(key.size, info(SHA1, hashlib.sha1(data).digest()))), ("by SHA-224", padded(key.size, info(SHA224, hashlib.sha224(data).digest()))),
                      ("by SHA-384", padded(key.size, info(SHA384, hashlib.sha384(data).digest())))]
            for told, body in bodies if what == "2048 bits" else bodies[:4]:
                assert len(body) == key.size and body != right, told
                # what isn't below n can't be made
                if int.from_bytes(body, "big") < key.n:
                    calls.row("RSA, a message %s" % told, line(name, key.blob(), data, key.bytes(key.power(body)), False))


def names(calls):
    """Other names, and bytes after the last field or too few."""
    key = keys()[0][1]
    data = calls.bytes(30)
    e, n = mpint_of(key.e), mpint_of(key.n)
    for name, other in (NAMES, NAMES[::-1]):
        s, blob = key.signed(name, data), key.blob()
        for what, words in (("the other name inside", (name, blob, data, s, False, other)), ("by the other name", (other, blob, data, s, False)),
                            ("by the other name, inside this", (other, blob, data, s, False, name)), ("ssh-rsa inside", (name, blob, data, s, False, "ssh-rsa")),
                            ("by ssh-rsa", ("ssh-rsa", blob, data, s, False)), ("by ssh-ed25519", ("ssh-ed25519", blob, data, s, False)),
                            ("the key's name is the signature's", (name, blob_of(e, n, name), data, s, False)), ("the key's name is shorter", (name, blob_of(e, n, "ssh-rs"), data, s, False)),
                            ("n before e", (name, blob_of(n, e), data, s, False)), ("a byte after the key", (name, blob + b"\x00", data, s, False)),
                            ("the key cut", (name, blob[:-1], data, s, False)), ("no key", (name, b"", data, s, False)), ("a key without n", (name, string("ssh-rsa") + string(e), data, s, False)),
                            ("a key of ssh-ed25519", (name, deployed.wrapped(deployed.key_of(b"\x01" * 32)), data, s, False))):
            calls.row("RSA, %s" % what, line(*words))
        found = string(name) + string(s)
        for what, other_found in (("a byte after the signature", found + b"\x00"), ("the signature cut", found[:-1]), ("no signature", b""), ("a signature without s", string(name))):
            calls.row("RSA, %s" % what, deployed.verify_line(blob, data, other_found, False, name))


def limits(calls):
    """Keys that are refused, with what would be their signatures."""
    p, q = prime(1024, 0), prime(1024, 1)
    key, name, data = Key(p, q, 65537), NAMES[0], calls.bytes(30)
    s, e, n = key.signed(name, data), mpint_of(key.e), mpint_of(key.n)
    for what, bad_e, bad_n in (("a zero before e", b"\x00" + e, n), ("two zeros before n", e, b"\x00" + n), ("n negative", e, n[1:]), ("n empty", e, b""), ("n zero", e, b"\x00"),
                               ("n one", e, b"\x01"), ("e empty", b"", n), ("e zero", b"\x00", n), ("e negative", b"\xff", n), ("e in five bytes", mpint_of(2 ** 32 + 1), n),
                               ("e of a whole n", mpint_of(key.e + (p - 1) * (q - 1)), n), ("n even", e, mpint_of(key.n - 1)), ("n with a bit off", e, mpint_of(key.n ^ 2))):
        calls.row("RSA, a key with %s" % what, line(name, blob_of(bad_e, bad_n), data, s, False))
    message = int.from_bytes(padded(key.size, info_of(name, data)), "big")
    calls.row("RSA, a key with e one", line(name, blob_of(b"\x01", n), data, key.bytes(message), False))
    # a message that is a square, of an even exponent
    root = key.bytes(pow(message, (p + 1) // 4, p) if p % 4 == 3 else message)
    calls.row("RSA, a key with e two", line(name, blob_of(b"\x02", n), data, root, False))
    three = exponent(3, 1024)
    calls.row("RSA, a key with e %d" % three, line(name, Key(p, q, three).blob(), data, Key(p, q, three).signed(name, data), True))
    for what, other in (("1024 bits", Key(prime(512, 0), prime(512, 1), 65537)), ("1536 bits", Key(prime(512, 0), prime(1024, 1), 65537)),
                        ("8200 bits", Key(prime(4100, 0), prime(4100, 1), 65537))):
        calls.row("RSA, a key of %s" % what, line(name, other.blob(), data, other.signed(name, data), False))
    # of 2047 bits, the longest that is too short
    calls.row("RSA, a key of 2047 bits", line(name, blob_of(e, mpint_of(2 ** 2047 - 1)), data, bytes(key.size), False))


def exponents(calls):
    """The largest exponent, and larger ones, which a peer may choose to make work: each with its signature."""
    p, q, data = prime(1024, 0), prime(1024, 1), calls.bytes(30)
    for e in (EXPONENT_LIMIT - 1, EXPONENT_LIMIT + 1, 2 ** 31 + 9):
        for name in NAMES:
            calls.row("RSA, a key with e %d, %s" % (e, name), line(name, Key(p, q, e).blob(), data, Key(p, q, e).signed(name, data), e < EXPONENT_LIMIT))


def own_keys(calls):
    """The suite holds no key of these names, and tells nothing of bytes that aren't a public key. What it signs by them is ssh-ed25519's, which
    none of them verifies."""
    secret, data = calls.bytes(32), calls.bytes(20)
    blob, signature = deployed.wrapped(deployed.key_of(secret)), deployed.wrapped(deployed.signature_of(secret, data))
    for name in NAMES:
        calls.row("RSA, signed", "blob %s %s %s" % (name, hexa(secret), hexa(public_part(secret))), "sign %s %s %s %s" % (name, hexa(secret), hexa(data), hexa(signature)),
                  deployed.verify_line(blob, data, signature, False, name))


def rows(file):
    calls = deployed.Calls(file)
    calls.draw = random.Random(8332)
    valid(calls)
    numbers(calls)
    paddings(calls)
    names(calls)
    limits(calls)
    own_keys(calls)
    exponents(calls)

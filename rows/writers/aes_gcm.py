"""Calls and packets of aes128-gcm@openssh.com and aes256-gcm@openssh.com (RFC 5647 as OpenSSH PROTOCOL section 1.6 has them), whose nonce is the vector
alone: its last 8 bytes count the packets, and the packet's number means nothing. ciphers.py works them out."""
import random

import deployed
from ciphers import *
from lab import feed, u32

NUMBERS = (0, 1, 7, 2 ** 31 - 1, 2 ** 31, 2 ** 32 - 1)
# the plain text of the specification of GCM that SP 800-38D cites, its vector, and its additional data
CLEAR = bytes.fromhex("d9313225f88406e5a55909c5aff5269a86a7a9531534f7da2e4c303d8a318a721c3c0c95956809532fcf0e2449a6b525b16aedf5aa0de657ba637b391aafd255")
VECTOR, ADDITIONAL = bytes.fromhex("cafebabefacedbaddecaf888"), bytes.fromhex("feedfacedeadbeeffeedfacedeadbeefabaddad2")
# of each cipher: AES of the bytes 00 11 .. ff by the key 00 01 .. (FIPS 197 appendix C.1, C.3); the tag of nothing, and of 16 zeros the sealed bytes
# and the tag, by zeros (cases 1 and 2, 13 and 14); and of the plain text the sealed bytes, their tag, and that of 60 of them (cases 3 and 4, 15 and 16)
STANDARDS = {
    "aes128-gcm@openssh.com": (
        "69c4e0d86a7b0430d8cdb78070b4c55a", "58e2fccefa7e3061367f1d57a4e7455a", "0388dace60b6a392f328c2b971b2fe78", "ab6e47d42cec13bdf53a67b21257bddf",
        "42831ec2217774244b7221b784d0d49ce3aa212f2c02a4e035c17e2329aca12e21d514b25466931c7d8f6a5aac84aa051ba30b396a0aac973d58e091473f5985",
        "4d5c2af327cd64a62cf35abd2ba6fab4", "5bc94fbc3221a5db94fae95ae7121a47"),
    "aes256-gcm@openssh.com": (
        "8ea2b7ca516745bfeafc49904b496089", "530f8afbc74536b9a963b4f1c4cb738b", "cea7403d4d606b6e074ec5d3baf39d18", "d0d1c8a799996bf0265b98b5d48ab919",
        "522dc1f099567d07f47f37a32a84427d643a8cdcbfe5c0c97598a2bd2555d1aa8cb08e48590dbb3da7b08b1056828838c5f61e6393ba7a0abcc9f662898015ad",
        "b094dac5d93471bdec1a502270e3cc6c", "76fc6ece0f4e1768cddf8853bb2d551b"),
}


def standards(cipher):
    """What of the vectors of FIPS 197 and of GCM a packet can have: a vector, a key, what is clear after the length, and the sealed bytes."""
    n, of_aes, of_none, sealed, of_zeros, longer, of_all = GCM[cipher], *STANDARDS[cipher][:6]
    zeros, key = bytes(n), bytes.fromhex("feffe9928665731c6d6a8f9467308308" * (n // 16))
    assert aes(round_keys(bytes(range(n))), bytes(0x11 * i for i in range(16))).hex() == of_aes
    assert gcm(zeros, bytes(12), b"", b"")[1].hex() == of_none
    assert [x.hex() for x in gcm(zeros, bytes(12), bytes(16), b"")] == [sealed, of_zeros]
    assert [x.hex() for x in gcm(key, VECTOR, CLEAR, b"")] == [longer, of_all]
    assert [x.hex() for x in gcm(key, VECTOR, CLEAR[:60], ADDITIONAL)] == [longer[:120], STANDARDS[cipher][6]]
    return [(bytes(12), zeros, bytes(16), sealed), (VECTOR, key, CLEAR, longer), (VECTOR, key, CLEAR[:60], longer[:120])]


# Rows.

class Calls(deployed.Calls):
    def __init__(self, file, cipher):
        super().__init__(file)
        self.draw, self.cipher, self.short = random.Random(38 + GCM[cipher]), cipher, cipher[:6]

    def keys(self, iv=None):
        return Keys(self.cipher, "m", self.bytes(12) if iv is None else iv, self.bytes(GCM[self.cipher]), b"")

    def row(self, name, *lines):
        super().row("%s, %s" % (self.short, name), *lines)


def of_key(keys, enc):
    return Keys(keys.cipher, keys.mac, keys.iv, enc, keys.mac_key)


def seals(calls):
    for iv, enc, clear, sealed in standards(calls.cipher):
        keys, packet = Keys(calls.cipher, "m", iv, enc, b""), u32(len(clear)) + clear
        assert seal(keys, 0, packet)[4:-16].hex() == sealed
        calls.row("packet of the specification", *both_lines(keys, 0, packet))
    for n in list(range(4, 60)) + [255, 256, 1000]:
        keys, seq, packet = calls.keys(), calls.draw.choice(NUMBERS), calls.bytes(n)
        sealed = seal(keys, seq, packet)
        calls.row("packet of %d" % n, *both_lines(keys, seq, packet))
        calls.row("packet of %d, its tag off by a bit" % n, seal_line("unseal", keys, seq, calls.flipped(sealed, n), "none"))
        calls.row("packet of %d, a bit flipped" % n, seal_line("unseal", keys, seq, calls.flipped(sealed[:n]) + sealed[n:], "none"))
        calls.row("packet of %d, its length off by a bit" % n, seal_line("unseal", keys, seq, calls.flipped(sealed[:4]) + sealed[4:], "none"))
        calls.row("packet of %d by the next vector" % n, seal_line("unseal", advanced(keys, n + 16), seq, sealed, "none"))
    for n in (4, 20, 36, 100):
        keys, packet = calls.keys(), calls.bytes(n)
        calls.row("packet of %d by every number" % n, [both_lines(keys, seq, packet) for seq in NUMBERS])
        assert len({seal(keys, seq, packet) for seq in NUMBERS}) == 1
    for n in range(4):
        calls.row("nothing is sealed of %d" % n, seal_line("seal", calls.keys(), 3, calls.bytes(n), b""))
    for n in range(20):
        calls.row("too short to be sealed, %d" % n, seal_line("unseal", calls.keys(), 3, calls.bytes(n), "none"))
    for mac in MACS:
        keys, packet = calls.keys(), calls.bytes(24)
        beside = Keys(keys.cipher, mac, keys.iv, keys.enc, calls.bytes(32))
        assert seal(beside, 3, packet) == seal(keys, 3, packet)
        calls.row("a MAC beside, %s" % mac, *both_lines(beside, 3, packet))


def each(calls):
    keys, packet, longest = calls.keys(), calls.bytes(40), GCM[calls.cipher] == 32
    sealed = seal(keys, 5, packet)
    for bit in range(8 * 56) if longest else range(0, 8 * 56, 5):
        changed = sealed[:bit // 8] + bytes([sealed[bit // 8] ^ 1 << bit % 8]) + sealed[bit // 8 + 1:]
        calls.row("bit %d of a sealed packet" % bit, seal_line("unseal", keys, 5, changed, "none"))
    for place in range(len(keys.enc)):
        calls.row("each byte of the key", *both_lines(of_key(keys, keys.enc[:place] + bytes([keys.enc[place] ^ 1]) + keys.enc[place + 1:]), 5, packet))
    for place in range(12):
        calls.row("each byte of the iv", *both_lines(with_iv(keys, keys.iv[:place] + bytes([keys.iv[place] ^ 1]) + keys.iv[place + 1:]), 5, packet))
    none = Keys(calls.cipher, "m", bytes(12), bytes(len(keys.enc)), b"")
    for bit in range(8 * len(keys.enc)):
        calls.row("each bit of a key", both_lines(of_key(none, (1 << bit).to_bytes(len(keys.enc), "big")), 0, bytes(20))[0])
    for bit in range(96):
        calls.row("each bit of an iv", both_lines(with_iv(none, (1 << bit).to_bytes(12, "big")), 0, bytes(20))[0])
    for b in range(256) if longest else range(0, 256, 5):
        calls.row("each byte in all places", both_lines(of_key(with_iv(none, bytes([b]) * 12), bytes([b]) * len(keys.enc)), 0, bytes([b]) * 20)[b % 2])


def counted_on(file, calls):
    """The 8 bytes that count go on by one for each packet, and wrap; the 4 before them stay."""
    payloads = [b"\x05", b"seven b", b"\x07" * 100, b"a", bytes(range(256)), b"last"]
    for place, last in enumerate((0, 255, 2 ** 16 - 2, 2 ** 32 - 1, 2 ** 32 - 3, 2 ** 63 - 2, 2 ** 64 - 2 ** 32 - 1, 2 ** 64 - 3, 2 ** 64 - 2, 2 ** 64 - 1)):
        keys, number = calls.keys(b"\xff\xfe\x00\xff" + last.to_bytes(8, "big")), 3 * (place % 2)
        in_a_row(file, "%s, packets that count from %d, number %d" % (calls.short, last, number), keys, payloads, number, (1, 7) if last in (0, 2 ** 64 - 3) else ())
    for fixed in (b"\xff" * 4, bytes(4)):
        in_a_row(file, "%s, packets that wrap behind %s" % (calls.short, fixed.hex()), calls.keys(fixed + b"\xff" * 8), payloads[:3])
    for number in (0, 3):
        out_of_order(file, "%s, packets in another order, number %d" % (calls.short, number), calls.keys(), number)
        out_of_order(file, "%s, packets in another order that wrap, number %d" % (calls.short, number), calls.keys(bytes(4) + b"\xff" * 8), number)


def other_keys(file, calls):
    """Keys of other lengths: a vector of these stays as it is."""
    packet, size = calls.bytes(24), GCM[calls.cipher]
    for n in (0, 1, 3, 4, 11, 13, 16, 40):
        keys = calls.keys(calls.bytes(n))
        calls.row("iv of %d" % n, *both_lines(keys, 9, packet))
        in_a_row(file, "%s, packets by an iv of %d" % (calls.short, n), keys, [b"one", b"two"])
        assert next_iv(keys, 52) == keys.iv
    for n in sorted({0, 1, 15, size - 1, size + 1, 64, 70}):
        calls.row("key of %d" % n, *both_lines(of_key(calls.keys(), calls.bytes(n)), 9, packet))


def other_names(file):
    """Names that are near: each is chacha20-poly1305@openssh.com, whose vector stays."""
    calls = Calls(file, "aes256-gcm@openssh.com")
    for name in ("aes256-gcm@openssh.co", "aes256-gcm@openssh.comm", "AES256-GCM@openssh.com", "aes256-gcm", "aes128-gcm", "aes128-gcm@openssh.co", "aes192-gcm@openssh.com",
                 "aes128-gcm@openssh.comm", "Aes128-gcm@openssh.com", "aead_aes_128_gcm", "none"):
        keys, packet = Keys(name, "m", calls.bytes(12), calls.bytes(64), b""), calls.bytes(24)
        assert seal(keys, 9, packet) == deployed.seal(keys.enc, 9, packet)
        calls.row("another name, %s" % name, seal_line("seal", keys, 9, packet, seal(keys, 9, packet)))
        in_a_row(file, "packets by another name, %s" % name, keys, [b"one", b"two"])


def packets(file, calls):
    """Payloads as packets of the cipher, written and read again."""
    for n in list(range(1, 34)) + [63, 64, 65, 100, 255, 1000]:
        keys, payload = calls.keys(), calls.bytes(n)
        first, second = packets_of(keys, [payload, payload], SEED)[0]
        one, text = file.short(first), file.short(payload)
        file.row("%s, payload of %d" % (calls.short, n), begins(keys), written("sealed", keys, 0, text, one), written("next", keys, 0, text, one, next_iv(keys, len(first))),
                 feed(cut(one, 0, len(first) - 1)), "came -", "held %d" % (len(first) - 1), feed(cut(one, len(first) - 1), second), came([text] * 2), "held 0", "end open")
    for n in (1, 30):
        # the number isn't what a packet is judged by
        keys, payload = calls.keys(), calls.bytes(n)
        file.row("%s, payload of %d, sealed with another number" % (calls.short, n), begins(keys), judged(keys, 0, packet_of(keys, 7, payload, SEED)))
        file.row("%s, payload of %d, sealed at number 0 and read at number 2" % (calls.short, n), begins(keys, 2), judged(keys, 2, packet_of(keys, 0, payload, SEED)))
    keys, payload = calls.keys(), b"\x07" * 32768
    data = packet_of(keys, 0, payload, SEED)
    file.row("%s, payload of 32768" % calls.short, "packets deployed", "keys yes " + words(keys), feed(data), "came 00008000 32768*07", "held 0", "end open")
    lengths(file, calls, keys)


def lengths(file, calls, keys):
    """packet_length is a multiple of 16, and 4 + n and the tag have at most 35000 bytes."""
    longest = (35000 - 20) // 16 * 16
    for n in (16, 32, longest):
        file.row("%s, length %d" % (calls.short, n), begins(keys), "feed " + u32(n).hex(), "held 4", "end open")
    for n in (0, 1, 8, 12, 15, 17, 24, 31, longest - 8, longest + 1, longest + 16, 2 ** 31, 2 ** 32 - 1):
        file.row("%s, refused length %d" % (calls.short, n), begins(keys), "feed " + u32(n)[:3].hex(), "end open", "part 1 %s" % u32(n)[3:].hex(), "end refused P1",
                 "held 0")


def rows(file):
    for cipher in GCM:
        calls = Calls(file, cipher)
        seals(calls)
        each(calls)
        counted_on(file, calls)
        other_keys(file, calls)
        packets(file, calls)
    other_names(file)


def wrong_going(file):
    """What a nonce that is made otherwise would read and write."""
    for cipher in GCM:
        calls = Calls(file, cipher)
        keys, payloads = calls.keys(b"\x01\x02\x03\x04" + b"\xff" * 8), [b"payload", b"next"]
        number = lambda iv: int.from_bytes(iv, "big")
        ways = {"not at all": lambda k, n: k, "twice": lambda k, n: advanced(advanced(k, n), n),
                "into the bytes that stay": lambda k, n: with_iv(k, (number(k.iv) + 1).to_bytes(12, "big")),
                "in its last four bytes": lambda k, n: with_iv(k, k.iv[:8] + ((number(k.iv[8:]) + 1) % 2 ** 32).to_bytes(4, "big")),
                "by blocks": lambda k, n: with_iv(k, k.iv[:4] + ((number(k.iv[4:]) + (n - 20) // 16) % 2 ** 64 + 1).to_bytes(8, "big"))}
        wrong_ways(file, calls.short + "-gcm", keys, payloads, ways)
        packets_, _ = packets_of(advanced(keys, 0), payloads, SEED)
        file.row("%s-gcm goes on before the tag is judged" % calls.short, begins(keys), feed(*packets_), came(payloads), "end open")
        second = packet_of(advanced(keys, 0), 0, b"payload", SEED)
        file.row("the number counts in %s-gcm" % calls.short, "packets deployed", written("sealed", keys, 1, b"payload", second))
        file.row("%s-gcm is another cipher" % calls.short, "packets deployed", written("sealed", keys, 0, b"payload", packet_of(Keys("c", "m", b"", keys.enc, b""), 0, b"payload", SEED)))

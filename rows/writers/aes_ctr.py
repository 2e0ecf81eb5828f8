"""Calls and packets of aes128-ctr and aes256-ctr (RFC 4344) under hmac-sha2-256 and hmac-sha2-512 (RFC 6668), and under their forms -etm of OpenSSH
(PROTOCOL section 1.5), whose key stream goes on from packet to packet. ciphers.py works them out; that a row of packets is sealed with one stream is
seen here besides."""
import hmac as pythons
import random

import deployed
from ciphers import *
from lab import feed, u32

PLAIN = ("hmac-sha2-256", "hmac-sha2-512")
ETM = ("hmac-sha2-256-etm@openssh.com", "hmac-sha2-512-etm@openssh.com")
PAIRS = [(cipher, mac) for cipher in CTR for mac in PLAIN + ETM]
PAYLOADS = [b"\x05", b"seven b", bytes(range(100)), b"a", b"\x07" * 30, b"last"]
# SP 800-38A appendix F.5.1 and F.5.5: the counter, the plain text, and of each cipher the key and the sealed bytes
COUNTER = bytes(range(0xf0, 0x100))
TEXT = bytes.fromhex("6bc1bee22e409f96e93d7e117393172aae2d8a571e03ac9c9eb76fac45af8e5130c81c46a35ce411e5fbc1191a0a52eff69f2445df4f9b17ad2b417be66c3710")
STANDARDS = {
    "aes128-ctr": ("2b7e151628aed2a6abf7158809cf4f3c",
                   "874d6191b620e3261bef6864990db6ce9806f66b7970fdff8617187bb9fffdff5ae4df3edbd5d35e5b4f09020db03eab1e031dda2fbe03d1792170a0f3009cee"),
    "aes256-ctr": ("603deb1015ca71be2b73aef0857d77811f352c073b6108d72d9810a30914dff4",
                   "601ec313775789a5b7a7f504bbf3d228f443e3ca4d62b59aca84e990cacaf5c52b0930daa23de94ce87017ba2d84988ddfc9c58db67aada613c2dd08457941a6"),
}
# RFC 3686 section 6, vectors 1, 2, 7 and 8: cipher, key, counter block, plain text and sealed bytes
OF_IPSEC = [
    ("aes128-ctr", "ae6852f8121067cc4bf7a5765577f39e", "00000030000000000000000000000001", b"Single block msg".hex(), "e4095d4fb7a7b3792d6175a3261311b8"),
    ("aes128-ctr", "7e24067817fae0d743d6ce1f32539163", "006cb6dbc0543b59da48d90b00000001", bytes(range(32)).hex(),
     "5104a106168a72d9790d41ee8edad388eb2e1efc46da57c8fce630df9141be28"),
    ("aes256-ctr", "776beff2851db06f4c8a0542c8696f6c6a81af1eec96b4d37fc1d689e6c1c104", "00000060db5672c97aa8f0b200000001", b"Single block msg".hex(),
     "145ad01dbf824ec7560863dc71e3e0c0"),
    ("aes256-ctr", "f6d66d6bd52d59bb0796365879eff886c66dd51a5b6a99744b50590c87a23884", "00faac24c1585ef15a43d87500000001", bytes(range(32)).hex(),
     "f05e231b3894612c49ee000b804eb2a9b8306b508f839d6a5530831d9344af1c"),
]
# RFC 4231 section 4, but for the case whose tag is cut: key, data, the tags by SHA-256 and by SHA-512
OF_HMAC = [
    (b"\x0b" * 20, b"Hi There", "b0344c61d8db38535ca8afceaf0bf12b881dc200c9833da726e9376c2e32cff7",
     "87aa7cdea5ef619d4ff0b4241a1d6cb02379f4e2ce4ec2787ad0b30545e17cdedaa833b7d6b8a702038b274eaea3f4e4be9d914eeb61f1702e696c203a126854"),
    (b"Jefe", b"what do ya want for nothing?", "5bdcc146bf60754e6a042426089575c75a003f089d2739839dec58b964ec3843",
     "164b7a7bfcf819e2e395fbe73b56e0a387bd64222e831fd610270cd7ea2505549758bf75c05a994a6d034f65f8f0e6fdcaeab1a34d4a6b4b636e070a38bce737"),
    (b"\xaa" * 20, b"\xdd" * 50, "773ea91e36800e46854db8ebd09181a72959098b3ef8c122d9635514ced565fe",
     "fa73b0089d56a284efb0f0756c890be9b1b5dbdd8ee81a3655f83e33b2279d39bf3e848279a722c806b485a47e67c807b946a337bee8942674278859e13292fb"),
    (bytes(range(1, 26)), b"\xcd" * 50, "82558a389a443c0ea4cc819899f2083a85f0faa3e578f8077a2e3ff46729665b",
     "b0ba465637458c6990e5a8c5f61d4af7e576d97ff94b872de76f8050361ee3dba91ca5c11aa25eb4d679275cc5788063a5f19741120c4f2de2adebeb10a298dd"),
    (b"\xaa" * 131, b"Test Using Larger Than Block-Size Key - Hash Key First", "60e431591ee0b67f0d8a26aacbf5b77f8e0bc6213728c5140546040f0ee37f54",
     "80b24263c7c1a3ebb71493c1dd7be8b49b46d1f41b4aeec1121b013783f8f3526b56d037e05f2598bd0fd2215d6a1e5295e64f73f63f0aec8b915a985d786598"),
    (b"\xaa" * 131, b"This is a test using a larger than block-size key and a larger than block-size data. The key needs to be hashed before being used by the HMAC algorithm.",
     "9b09ffa71b942fcb27635fbcd5b0e944bfdc63644f0713938a7f51535c3a35e2",
     "e37b6a775dc87dbaa4dfa9f96e5e3ffddebd71f8867289865df5a32d20cdc944b6022cac3c4982b10d5eeb55c3e4de15134676fb6de0446065c97440fa8c6a58"),
]


class Calls(deployed.Calls):
    """The rows of one cipher with one MAC."""

    def __init__(self, file, cipher, mac):
        super().__init__(file)
        self.draw, self.cipher, self.mac = random.Random("%s %s" % (cipher, mac)), cipher, mac
        self.short = "%s %s" % (cipher[:6], mac.replace("hmac-sha2-", "").replace("@openssh.com", ""))
        self.some = [[self.bytes(n) for n in key_lens(cipher, mac)[1:]] for _ in range(3)]

    def keys(self, iv=None, enc=None, mac_key=None):
        """Keys with some vector; the others are some of three, unless they are given."""
        some = self.draw.choice(self.some)
        return Keys(self.cipher, self.mac, self.bytes(16) if iv is None else iv, some[0] if enc is None else enc, some[1] if mac_key is None else mac_key)

    def named(self):
        """Names the three keys in the rows that have them."""
        for n, pair in enumerate(self.some):
            for what, key in zip(("enc", "mac"), pair):
                name = self.file.name("%s-%d-%d" % (what, PAIRS.index((self.cipher, self.mac)), n), key)
                self.file.rows = [row.replace(key.hex(), name) for row in self.file.rows]

    def row(self, name, *lines):
        super().row("%s, %s" % (self.short, name), *lines)


def standards(file):
    """The vectors of counter mode and of HMAC, as calls of the suite: where the length stays clear, before what the standard has stand four bytes."""
    calls = deployed.Calls(file)
    cases = [(cipher, bytes.fromhex(key), COUNTER, TEXT, bytes.fromhex(sealed)) for cipher, (key, sealed) in STANDARDS.items()]
    cases += [(cipher, *(bytes.fromhex(text) for text in texts)) for cipher, *texts in OF_IPSEC]
    for n, (cipher, key, counter, clear, sealed) in enumerate(cases):
        for mac in MACS:
            keys, front = Keys(cipher, mac, counter, key, b"k" * 32), b"len:" if MACS[mac][1] else b""
            assert seal(keys, 7, front + clear)[:len(front + clear)] == front + sealed
            calls.row("counter mode by the standard, case %d, %s, %s" % (n + 1, cipher, mac), *both_lines(keys, 7, front + clear))
    for n, (key, data, *tags) in enumerate(OF_HMAC):
        for cipher in CTR:
            for mac, (hash_, etm) in MACS.items():
                keys = Keys(cipher, mac, COUNTER, bytes.fromhex(STANDARDS[cipher][0]), key)
                tag, packet = bytes.fromhex(tags[hash_().digest_size // 64]), data[4:]
                assert hmac(hash_, key, data) == tag == pythons.new(key, data, hash_).digest()
                # (what the tag covers is sealed, and has to be the standard's)
                packet = crossed(keys, 0, packet) if etm else packet
                seq = int.from_bytes(data[:4], "big")
                assert seal(keys, seq, packet)[len(packet):] == tag
                calls.row("HMAC by RFC 4231, case %d, %s, %s" % (n + 1, cipher, mac), *both_lines(keys, seq, packet))


def is_one_stream(keys, packets, payloads, number=0, more=0):
    """Whether what is sealed of a row of packets is one key stream from the first counter on, and each tag Python's own HMAC."""
    clear, sealed, front = b"", b"", 4 if covers_sealed(keys) else 0
    for n, (payload, packet) in enumerate(zip(payloads, packets)):
        whole, body = clear_packet(keys, number + n, payload, SEED, more), packet[:-tag_len(keys)]
        clear, sealed = clear + whole[front:], sealed + body[front:]
        hash_ = mac_of(keys.mac)[0]
        assert packet[-tag_len(keys):] == pythons.new(keys.mac_key, u32(number + n) + (body if front else whole), hash_).digest()
    return deployed.mixed(clear, counters(keys.enc, number_of(keys.iv), len(clear))) == sealed


def later(keys, blocks):
    """The same with a vector that is so many blocks further."""
    return with_iv(keys, ((number_of(keys.iv) + blocks) % 2 ** 128).to_bytes(16, "big"))


def seals(calls):
    place = PAIRS.index((calls.cipher, calls.mac))
    for n in (4, 5, 15, 16, 17, 19, 20, 21, 32, 36, 37, 52, 64 + place, 200 + place):
        keys, seq, packet = calls.keys(), calls.draw.choice((0, 1, 7, 2 ** 31 - 1, 2 ** 31, 2 ** 32 - 1)), calls.bytes(n)
        sealed = seal(keys, seq, packet)
        calls.row("packet of %d" % n, *both_lines(keys, seq, packet))
        others = [(seq, calls.flipped(sealed, n)), (seq, calls.flipped(sealed[:n]) + sealed[n:]), (seq, calls.flipped(sealed[:4]) + sealed[4:]),
                  ((seq + 1) % 2 ** 32, sealed), (seq, sealed[:-1]), (seq, sealed + b"\x00")]
        if n < 60:
            calls.row("packet of %d, other bytes" % n, *(seal_line("unseal", keys, *other, "none") for other in others[n % 2::2]))
        # under a MAC -etm the tag doesn't tell which vector it was
        found = unseal(later(keys, 1), seq, sealed)
        assert (found is None) != covers_sealed(keys) and (found != packet or n == 4)
        calls.row("packet of %d by another vector" % n, seal_line("unseal", later(keys, 1), seq, sealed, found or "none"))
    for n in range(4):
        calls.row("nothing is sealed of %d" % n, seal_line("seal", calls.keys(), 3, calls.bytes(n), b""))
    size = key_lens(calls.cipher, calls.mac)[2]
    for n in (0, 1, 3, 4, 16, 31, 32, 33, 34, 35, size - 1, size, size + 3):
        calls.row("too short to be sealed, %d" % n, seal_line("unseal", calls.keys(), 3, calls.bytes(n), "none"))
    # a tag over what is shorter than a length
    keys = calls.keys()
    for n in range(4):
        text = calls.bytes(n)
        calls.row("a right tag over %d bytes" % n, seal_line("unseal", keys, 3, text + hmac(mac_of(keys.mac)[0], keys.mac_key, u32(3) + text), "none"))


def lens_of_keys(file, calls):
    """Keys of other lengths: of the vector and of the key what is missing is zeros, and what is more isn't used; the MAC's key is HMAC's."""
    packet, place = calls.bytes(36), PAIRS.index((calls.cipher, calls.mac))
    for n in (0, 1, 12, 15, 17, 32, 64) if place in (0, 3, 5, 6) else (0, 15, 17):
        keys = calls.keys(iv=calls.bytes(n))
        calls.row("iv of %d" % n, *both_lines(keys, 9, packet))
        in_a_row(file, "%s, packets by an iv of %d" % (calls.short, n), keys, [b"one", b"two"])
        assert next_iv(keys, 200) == keys.iv
    full = calls.keys(iv=b"\xff" * 17)
    in_a_row(file, "%s, packets by an iv of 17 bytes that would wrap" % calls.short, full, [b"\x07" * 40, b"two"])
    for n in (0, 1, 15, 16, 17, 31, 32, 33, 64) if place in (0, 6) else (0, CTR[calls.cipher] - 1, CTR[calls.cipher] + 1):
        calls.row("key of %d" % n, *both_lines(calls.keys(enc=calls.bytes(n)), 9, packet))
    block_size = mac_of(calls.mac)[0]().block_size
    for n in sorted({0, 1, 31, 32, 33, 63, 64, 65, 127, 128, 129, 200}) if place in (0, 1, 6, 7) else (0, block_size, block_size + 1):
        calls.row("MAC key of %d" % n, *both_lines(calls.keys(mac_key=calls.bytes(n)), 9, packet))
    for bit in range(8 * CTR[calls.cipher]):
        if place in (0, 4):
            keys = calls.keys(bytes(16), (1 << bit).to_bytes(CTR[calls.cipher], "big"), b"")
            calls.row("each bit of a key", both_lines(keys, 0, bytes(16))[0])
    for bit in range(128):
        if place == 2:
            keys = calls.keys((1 << bit).to_bytes(16, "big"), bytes(CTR[calls.cipher]), b"")
            calls.row("each bit of an iv", both_lines(keys, 0, bytes(20))[0])
    for b in range(4 * place, 256, 32):
        keys = calls.keys(bytes([b]) * 16, bytes([b]) * CTR[calls.cipher], bytes([b]) * key_lens(calls.cipher, calls.mac)[2])
        calls.row("byte %d in all places" % b, *both_lines(keys, 0, bytes([b]) * 52))


def counted_on(file, calls):
    """The counter goes on by the packet's blocks, and wraps within a packet and between two."""
    for place, first in enumerate((0, 2 ** 32 - 2, 2 ** 64 - 3, 2 ** 128 - 2 ** 32, 2 ** 128 - 4, 2 ** 128 - 3, 2 ** 128 - 2, 2 ** 128 - 1)):
        keys, number = calls.keys(first.to_bytes(16, "big")), 3 * (place % 2)
        payloads = PAYLOADS[place % 3:]
        in_a_row(file, "%s, packets that count from %d below 2^128, number %d" % (calls.short, 2 ** 128 - first, number), keys, payloads, number,
                 (1, 5) if first == 2 ** 128 - 4 else ())
        for more in (0, 1, 5):
            packets, _ = packets_of(keys, payloads, SEED, number, more)
            assert is_one_stream(keys, packets, payloads, number, more)
    for first in range(2 ** 128 - 5, 2 ** 128):
        # packets of 16 to 80 bytes by calls, whose counters wrap after each block
        keys = calls.keys(first.to_bytes(16, "big"))
        calls.row("a packet from %d below 2^128" % (2 ** 128 - first), *both_lines(keys, 5, calls.bytes(84)))
    # the vector after a packet is 0 just where its last block has the last counter
    for n, payload in ((1, b"\x01" * 3), (2, b"\x02" * 20), (3, b"\x03" * 36)):
        keys = calls.keys()
        size = len(packet_of(keys, 0, payload, SEED)) - tag_len(keys) - (4 if covers_sealed(keys) else 0)
        keys = with_iv(keys, (2 ** 128 - size // 16).to_bytes(16, "big"))
        assert next_iv(keys, size + tag_len(keys) + (4 if covers_sealed(keys) else 0)) == bytes(16)
        in_a_row(file, "%s, a packet of %d blocks up to the last counter" % (calls.short, size // 16), keys, [payload, b"next", payload])
    for number in (0, 3):
        out_of_order(file, "%s, packets in another order, number %d" % (calls.short, number), calls.keys(), number)
    out_of_order(file, "%s, packets in another order that wrap" % calls.short, calls.keys((2 ** 128 - 2).to_bytes(16, "big")))
    goes_on(file, calls)


def goes_on(file, calls):
    """A row of packets from before the last number, whose numbers wrap and whose counter goes on."""
    keys = calls.keys()
    packets, each = packets_of(keys, [b"last", b"first"], SEED, 2 ** 32 - 1)
    packets[1] = packet_of(each[1], 0, b"first", SEED)
    file.row("%s, packets whose numbers wrap" % calls.short, "packets deployed", written("next", keys, 2 ** 32 - 1, b"last", packets[0], each[1].iv),
             written("next", each[1], 0, b"first", packets[1], next_iv(each[1], len(packets[1]))))
    # other keys, also of another cipher, after these: the vector is the new one's
    other = [Keys(calls.cipher, calls.mac, keys.iv, calls.bytes(32), keys.mac_key), Keys("aes128-gcm@openssh.com", "m", calls.bytes(12), calls.bytes(16), b""),
             Keys(CHACHA, calls.mac, b"", calls.bytes(64), b""), keys]
    start, number = begins(keys), 0
    lines = []
    for behind in [keys] + other:
        payloads = [b"\x07" * 30, b"more"]
        packets, _ = packets_of(behind, payloads, SEED, number)
        lines += ["keys no " + words(behind), feed(*packets), came(payloads)]
        number += 2
    file.row("%s, keys behind keys" % calls.short, start, lines, "held 0", "end open")


def packets(file, calls):
    """Payloads as packets, written, read whole and cut."""
    place = PAIRS.index((calls.cipher, calls.mac))
    for n in sorted(set(range(1 + place, 45, 8)) | {7, 8, 11, 12, 24 + place, 200 + place}):
        keys, payload = calls.keys(), calls.bytes(n)
        sealed, each = packets_of(keys, [payload, payload], SEED)
        one, text = file.short(sealed[0]), file.short(payload)
        last = len(sealed[0]) - 1
        file.row("%s, payload of %d" % (calls.short, n), begins(keys), written("sealed", keys, 0, text, one), written("next", keys, 0, text, one, each[1].iv),
                 feed(cut(one, 0, last)), "came -", "held %d" % last, feed(cut(one, last), sealed[1]), came([text] * 2), "held 0", "end open")
    keys, payload = calls.keys(), b"\x07" * 32768
    if place in (0, 7):
        data = packet_of(keys, 0, payload, SEED)
        file.row("%s, payload of 32768" % calls.short, begins(keys), feed(data), "came 00008000 32768*07", "held 0", "end open")
    for n in (1, 30):
        keys, payload = calls.keys(), calls.bytes(n)
        file.row("%s, payload of %d, its number twice" % (calls.short, n), begins(keys), judged(keys, 0, packet_of(keys, 0, payload, SEED) * 2))
        file.row("%s, payload of %d, another number" % (calls.short, n), begins(keys), judged(keys, 0, packet_of(keys, 1, payload, SEED)))
        file.row("%s, payload of %d, its number not from 0" % (calls.short, n), begins(keys, 2), judged(keys, 2, packet_of(keys, 0, payload, SEED)))
    for blocks in (1, 2, 14):
        keys = calls.keys()
        first = packet_of(keys, 0, b"payload", SEED, blocks)
        file.row("%s, %d blocks of padding more" % (calls.short, blocks), begins(keys), feed(first, packet_of(advanced(keys, len(first)), 1, b"next", SEED)),
                 came([b"payload", b"next"]), "held 0", "end open")
    limits(file, calls, calls.keys())
    changed(file, calls)


def in_clear(keys, length, padding_, seq=0):
    """A packet with these fields, whatever they are, sealed."""
    return seal(keys, seq, u32(length) + bytes([padding_]) + bytes(i * 7 % 256 for i in range(length - 1)))


def limits(file, calls, keys):
    """packet_length is judged before the tag comes, and the padding after it was right."""
    front, tag = counted(keys), tag_len(keys)
    longest = max(n for n in range(34800, 35000) if is_length(keys, n))
    shortest = 16 - front
    first = lambda n: crossed(keys, 0, u32(n))
    for n in (shortest, shortest + 16, longest - 16, longest):
        assert is_length(keys, n)
        file.row("%s, length %d" % (calls.short, n), begins(keys), feed(first(n)), "held 4", "end open")
    for n in sorted({0, 1, 4, 8, shortest - 4, shortest - 1, shortest + 1, shortest + 4, shortest + 8, shortest + 12, longest - 1, longest + 1, longest + 4, longest + 12,
                     longest + 16, 2 ** 16 - 4, 2 ** 16, 2 ** 31, 2 ** 32 - 4, 2 ** 32 - 1}):
        assert not is_length(keys, n)
        file.row("%s, refused length %d" % (calls.short, n), begins(keys), feed(first(n)[:3]), "end open", "held 3", "part 1 " + hexa(first(n)[3:] + bytes(40)),
                 "end refused P1", "held 0", "part 0 " + hexa(first(n)))
    n = 32 - front
    for padding_ in (0, 3, 4, 5, n - 6, n - 2, n - 1, n, n + 1, 255):
        data = in_clear(keys, n, padding_)
        code = "refused P3" if padding_ == n - 1 else "refused P2" if not 4 <= padding_ < n else "open"
        assert read(keys, 0, data)[3] == code
        file.row("%s, padding %d of %d" % (calls.short, padding_, n), begins(keys), judged(keys, 0, data))
        if code != "open":
            wrong = data[:-1] + bytes([data[-1] ^ 1])
            assert read(keys, 0, wrong)[3] == "refused P4"
            file.row("%s, padding %d of %d and a wrong tag" % (calls.short, padding_, n), begins(keys), judged(keys, 0, wrong))
    assert 4 + longest + tag <= 35000


def changed(file, calls):
    """Each bit of a packet and of its tag changed, of some ciphers one of each byte. Where packet_length is sealed too, a changed one is another length."""
    keys, place = calls.keys(), PAIRS.index((calls.cipher, calls.mac))
    data = packet_of(keys, 0, b"payload", SEED)
    whole = place in (0, 3, 5, 6)
    packet, start = file.name("packet-%d" % place, data), begins(keys)
    for at in range(len(data)):
        for bit in range(8) if whole or at < 4 else [at % 8]:
            other = data[:at] + bytes([data[at] ^ 1 << bit]) + data[at + 1:]
            payloads, used, held, end = read(keys, 0, other)
            assert not payloads and end == ("refused P4" if at > 3 else end)
            byte = "%02x" % other[at]
            parts = [part for part in ("%s:0:%d" % (packet, at) if at else "", byte, "%s:%d" % (packet, at + 1) if at + 1 < len(data) else "") if part]
            given = "feed" if used == len(data) else "part %d" % used
            file.row("%s, bit %d of byte %d" % (calls.short, bit, at), start, "%s %s" % (given, " ".join(parts)), "end " + end,
                     "held %d" % held if end == "open" else "part 0 00")


def other_names(file):
    """Other MACs count as hmac-sha2-256; of ciphers that are near each is chacha20-poly1305@openssh.com, whose MAC isn't used."""
    calls = Calls(file, *PAIRS[0])
    packet = calls.bytes(36)
    for cipher in CTR:
        for mac in ("hmac-sha1", "hmac-sha1-etm@openssh.com", "hmac-sha2-256-96", "hmac-sha2-25", "hmac-sha2-2561", "HMAC-SHA2-512", "hmac-sha2-512-etm", "hmac-sha2-256-etm@openssh.co",
                    "hmac-sha2-512-etm@openssh.comm", "umac-64@openssh.com", "none", "m"):
            keys = Keys(cipher, mac, calls.bytes(16), calls.bytes(CTR[cipher]), calls.bytes(32))
            assert seal(keys, 9, packet) == seal(Keys(cipher, "hmac-sha2-256", keys.iv, keys.enc, keys.mac_key), 9, packet)
            calls.row("another MAC, %s, %s" % (cipher, mac), *both_lines(keys, 9, packet))
            in_a_row(file, "packets with another MAC, %s, %s" % (cipher, mac), keys, [b"one", b"two"])
    for cipher in ("aes192-ctr", "aes128-ct", "aes128-ctr2", "aes256-cbc", "AES256-CTR", "aes256-ctr@openssh.com", "3des-ctr", CHACHA):
        for mac in PLAIN[:1] + ETM[1:]:
            keys = Keys(cipher, mac, calls.bytes(16), calls.bytes(64), calls.bytes(64))
            assert seal(keys, 9, packet) == deployed.seal(keys.enc, 9, packet)
            calls.row("another cipher, %s, %s" % (cipher, mac), *both_lines(keys, 9, packet))
            in_a_row(file, "packets of another cipher, %s, %s" % (cipher, mac), keys, [b"one", b"two"])


def rows(file):
    standards(file)
    for cipher, mac in PAIRS:
        calls = Calls(file, cipher, mac)
        seals(calls)
        lens_of_keys(file, calls)
        counted_on(file, calls)
        packets(file, calls)
        calls.named()
    other_names(file)


def wrong_going(file):
    """What a counter that goes on otherwise would write and read, and tags over other bytes."""
    for cipher, mac in (PAIRS[0], PAIRS[3], PAIRS[5], PAIRS[6]):
        calls = Calls(file, cipher, mac)
        keys, payloads = calls.keys(), [b"\x07" * 30, b"next", b"third"]
        ways = {"not at all": lambda k, n: k, "twice": lambda k, n: advanced(advanced(k, n), n), "by packets": lambda k, n: later(k, 1),
                "by a payload's blocks": lambda k, n: later(k, 2), "by bytes": lambda k, n: later(k, n - tag_len(k) - (4 if covers_sealed(k) else 0)),
                "with the tag": lambda k, n: later(k, n // 16), "from the first each time": lambda k, n: later(keys, (n - tag_len(k)) // 16 + 1),
                "by a block more": lambda k, n: later(advanced(k, n), 1), "by a block less": lambda k, n: later(advanced(k, n), -1)}
        assert len(payloads[0]) // 16 + 1 != (number_of(packets_of(keys, payloads[:1], SEED)[1][1].iv) - number_of(keys.iv)) % 2 ** 128
        wrong_ways(file, calls.short + "-ctr", keys, payloads, ways)
        # the lowest bytes alone wrap
        for bits in (32, 64):
            full = with_iv(keys, keys.iv[:16 - bits // 8] + b"\xff" * (bits // 8))
            wraps = lambda k, n, whole=bits // 8: with_iv(k, k.iv[:16 - whole] + next_iv(k, n)[16 - whole:])
            wrong_ways(file, "%s-ctr, of %d bits," % (calls.short, bits), full, payloads[:2], {"in its last bytes": wraps})
        packets_, _ = packets_of(advanced(keys, len(packet_of(keys, 0, payloads[0], SEED))), payloads, SEED)
        file.row("%s-ctr goes on before the tag is judged" % calls.short, begins(keys), feed(*packets_), came(payloads), "end open")
        clear = clear_packet(keys, 0, b"payload", SEED)
        sealed, hash_ = seal(keys, 0, clear), mac_of(mac)[0]
        body = sealed[:len(clear)]
        for name, tag in (("the other form", hmac(hash_, keys.mac_key, u32(0) + (clear if covers_sealed(keys) else body))), ("no number", hmac(hash_, keys.mac_key, clear if not covers_sealed(keys) else body)),
                          ("no length", hmac(hash_, keys.mac_key, u32(0) + (clear if not covers_sealed(keys) else body)[4:])), ("its first byte changed", bytes([sealed[len(clear)] ^ 1]) + sealed[len(clear) + 1:]),
                          ("its last byte changed", sealed[len(clear):-1] + bytes([sealed[-1] ^ 128])), ("a byte less", sealed[len(clear):-1])):
            assert body + tag != sealed
            file.row("%s-ctr, a tag by %s is written" % (calls.short, name), "packets deployed", written("sealed", keys, 0, b"payload", body + tag))
            if name != "a byte less":
                file.row("%s-ctr, a tag by %s is taken" % (calls.short, name), begins(keys), feed(body + tag), came([b"payload"]), "end open")

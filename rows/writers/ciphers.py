"""Packets under the ciphers of the suite of deployed algorithms, as keys name them: AES byte by byte (FIPS 197), GCM by its algorithm 1 (NIST SP
800-38D), counter mode (RFC 4344 section 4), HMAC (RFC 2104), and of deployed.py ChaCha20 and Poly1305. Which vector the next packet has stands
here too. It asks no program."""
import functools
import hashlib

import deployed
from lab import Keys, feed, hexa, sha, terms, u32

CHACHA = "chacha20-poly1305@openssh.com"
# the ciphers of AES, each with how many bytes its key has
GCM = {"aes256-gcm@openssh.com": 32, "aes128-gcm@openssh.com": 16}
CTR = {"aes128-ctr": 16, "aes256-ctr": 32}
# the MACs beside -ctr (RFC 6668, OpenSSH PROTOCOL section 1.5): the hash, and whether the tag covers what is sealed
MACS = {"hmac-sha2-256": (hashlib.sha256, False), "hmac-sha2-512": (hashlib.sha512, False),
        "hmac-sha2-256-etm@openssh.com": (hashlib.sha256, True), "hmac-sha2-512-etm@openssh.com": (hashlib.sha512, True)}
R = 0xe1 << 120


# AES (FIPS 197). A state is 16 bytes, column by column.

def doubled(b):
    return b << 1 ^ (0x11b if b & 0x80 else 0)


def product(a, b):
    total = 0
    while a:
        if a & 1:
            total ^= b
        a, b = a >> 1, doubled(b)
    return total


def substituted(b):
    """Section 5.1.1: the inverse, and the affine map bit by bit."""
    inverse = next((c for c in range(256) if product(b, c) == 1), 0)
    bit = lambda i: inverse >> i % 8 & 1
    return sum((bit(i) ^ bit(i + 4) ^ bit(i + 5) ^ bit(i + 6) ^ bit(i + 7) ^ 0x63 >> i & 1) << i for i in range(8))


S_BOX = [substituted(b) for b in range(256)]
TWICE = [doubled(b) for b in range(256)]


@functools.lru_cache(maxsize=None)
def round_keys(key):
    """Section 5.2: 44 words of a key of 16 bytes, 60 of one of 32."""
    words, constant, count = [key[i:i + 4] for i in range(0, len(key), 4)], 1, len(key) // 4
    for i in range(count, 4 * (count + 7)):
        word = words[-1]
        if i % count == 0:
            word = bytes(S_BOX[b] for b in word[1:] + word[:1])
            word, constant = bytes([word[0] ^ constant]) + word[1:], doubled(constant)
        elif count > 6 and i % count == 4:
            word = bytes(S_BOX[b] for b in word)
        words.append(bytes(x ^ y for x, y in zip(words[i - count], word)))
    return tuple(b"".join(words[i:i + 4]) for i in range(0, len(words), 4))


def mixed_column(a):
    """Section 5.1.3."""
    return [TWICE[a[i]] ^ TWICE[a[(i + 1) % 4]] ^ a[(i + 1) % 4] ^ a[(i + 2) % 4] ^ a[(i + 3) % 4] for i in range(4)]


@functools.lru_cache(maxsize=1 << 16)
def aes(keys, block_):
    state, rounds = bytes(x ^ y for x, y in zip(block_, keys[0])), len(keys) - 1
    for i in range(1, rounds + 1):
        state = [S_BOX[state[(place + 4 * (place % 4)) % 16]] for place in range(16)]
        if i < rounds:
            state = sum((mixed_column(state[c:c + 4]) for c in range(0, 16, 4)), [])
        state = bytes(x ^ y for x, y in zip(state, keys[i]))
    return state


# GCM (SP 800-38D).

def times(x, y):
    """Algorithm 1: bit 0 of a block is its highest."""
    z, v = 0, y
    for i in range(128):
        if x >> 127 - i & 1:
            z ^= v
        v = v >> 1 ^ (R if v & 1 else 0)
    return z


def ghash(h, data):
    total = 0
    for i in range(0, len(data), 16):
        total = times(total ^ int.from_bytes(data[i:i + 16], "big"), h)
    return total.to_bytes(16, "big")


def filled(data):
    return data + bytes(-len(data) % 16)


def gcm(key, nonce, clear, additional):
    """Section 7.1, with a nonce of 12 bytes: the sealed bytes, and the tag."""
    keys = round_keys(key)
    stream = b"".join(aes(keys, nonce + u32(2 + i)) for i in range((len(clear) + 15) // 16))
    sealed = deployed.mixed(clear, stream)
    lens = (8 * len(additional)).to_bytes(8, "big") + (8 * len(sealed)).to_bytes(8, "big")
    tag = ghash(int.from_bytes(aes(keys, bytes(16)), "big"), filled(additional) + filled(sealed) + lens)
    return sealed, deployed.mixed(tag, aes(keys, nonce + u32(1)))


# Counter mode and HMAC.

def number_of(data):
    return int.from_bytes(data, "big")


def counters(key, first, n):
    """The first n bytes of the key stream from a counter on."""
    keys = round_keys(key)
    return b"".join(aes(keys, ((first + i) % 2 ** 128).to_bytes(16, "big")) for i in range((n + 15) // 16))[:n]


def hmac(hash_, key, data):
    """RFC 2104: a key that is longer than the hash's block is hashed first."""
    size = hash_().block_size
    key = fitted(hash_(key).digest() if len(key) > size else key, size)
    inner, outer = (bytes(b ^ pad for b in key) for pad in (0x36, 0x5c))
    return hash_(outer + hash_(inner + data).digest()).digest()


# What the suite makes of keys.

def fitted(key, n):
    """A key of another length than the cipher's: cut, or filled up with zeros."""
    return (key + bytes(n))[:n]


def mac_of(mac):
    """The hash of a MAC beside -ctr, and whether the tag covers what is sealed; every name that it hasn't is hmac-sha2-256."""
    return MACS.get(mac, MACS["hmac-sha2-256"])


def covers_sealed(keys):
    return keys.cipher in CTR and mac_of(keys.mac)[1]


def block(cipher):
    return 16 if cipher in GCM or cipher in CTR else 8


def tag_len(keys):
    return mac_of(keys.mac)[0]().digest_size if keys.cipher in CTR else 16


def counted(keys):
    """How many bytes of packet_length count towards the multiple of the block."""
    return 4 if keys.cipher in CTR and not covers_sealed(keys) else 0


def key_lens(cipher, mac):
    if cipher in CTR:
        return 16, CTR[cipher], mac_of(mac)[0]().digest_size
    return (12, GCM[cipher], 0) if cipher in GCM else (0, 64, 0)


def seal(keys, seq, packet):
    """The sealed packet with its tag; nothing of what has no length."""
    if len(packet) < 4:
        return b""
    if keys.cipher in GCM:
        sealed, tag = gcm(fitted(keys.enc, GCM[keys.cipher]), fitted(keys.iv, 12), packet[4:], packet[:4])
        return packet[:4] + sealed + tag
    if keys.cipher not in CTR:
        return deployed.seal(fitted(keys.enc, 64), seq, packet)
    front = 4 if covers_sealed(keys) else 0
    mask = counters(fitted(keys.enc, CTR[keys.cipher]), number_of(fitted(keys.iv, 16)), len(packet) - front)
    sealed = packet[:front] + deployed.mixed(packet[front:], mask)
    return sealed + hmac(mac_of(keys.mac)[0], keys.mac_key, u32(seq) + (sealed if front else packet))


def crossed(keys, seq, packet):
    """The packet the other way: what is sealed twice is clear."""
    return seal(keys, seq, packet)[:len(packet)]


def head(keys, seq, first):
    """packet_length, of the first four bytes of a sealed packet."""
    if keys.cipher in GCM or keys.cipher in CTR:
        return number_of(crossed(keys, seq, first))
    return number_of(deployed.mixed(first, length_stream(fitted(keys.enc, 64)[32:], seq)))


@functools.lru_cache(maxsize=1 << 12)
def length_stream(key, seq):
    """What packet_length is sealed with under chacha20-poly1305@openssh.com."""
    return deployed.chacha20(key, seq, 0, 4)


def unseal(keys, seq, sealed):
    """The packet in clear, or none where the tag isn't its own."""
    body = len(sealed) - tag_len(keys)
    if body < 4:
        return None
    clear = crossed(keys, seq, sealed[:body])
    return clear if seal(keys, seq, clear) == sealed else None


def next_iv(keys, size):
    """The vector after a packet of so many bytes, its tag among them."""
    if keys.cipher in CTR and len(keys.iv) == 16:
        blocks = max(0, size - tag_len(keys) - (4 if covers_sealed(keys) else 0)) // 16
        return ((number_of(keys.iv) + blocks) % 2 ** 128).to_bytes(16, "big")
    if keys.cipher in GCM and len(keys.iv) == 12:
        return keys.iv[:4] + ((number_of(keys.iv[4:]) + 1) % 2 ** 64).to_bytes(8, "big")
    return keys.iv


def advanced(keys, size):
    return Keys(keys.cipher, keys.mac, next_iv(keys, size), keys.enc, keys.mac_key)


# Packets.

@functools.lru_cache(maxsize=1 << 12)
def padding(seed, seq, n):
    return deployed.chacha20(sha(seed), seq, 0, n)


def clear_packet(keys, seq, payload, seed, more=0):
    """The packet of a payload before it is sealed; its padding is the least of at least four bytes, and so many blocks more."""
    size, front = (block(keys.cipher), counted(keys)) if keys else (8, 4)
    p = 4
    while (front + 1 + len(payload) + p) % size or front + 1 + len(payload) + p < (16 if front else 8):
        p += 1
    p += more * size
    return u32(1 + len(payload) + p) + bytes([p]) + payload + padding(seed, seq, p)


def packet_of(keys, seq, payload, seed, more=0):
    clear = clear_packet(keys, seq, payload, seed, more)
    return seal(keys, seq, clear) if keys else clear


def packets_of(keys, payloads, seed, seq=0, more=0, step=advanced):
    """The packets of payloads, each by the keys after the one before; and the keys of each, and those after them all."""
    packets, each = [], [keys]
    for n, payload in enumerate(payloads):
        packets.append(packet_of(each[-1], (seq + n) % 2 ** 32, payload, seed, more))
        each.append(step(each[-1], len(packets[-1])))
    return packets, each


def is_length(keys, n):
    """Whether a sealed packet may have this packet_length (RFC 4253 section 6, and at most 35000 bytes in all)."""
    front = counted(keys)
    return n >= 8 + front and (front + n) % block(keys.cipher) == 0 and 4 + n + tag_len(keys) <= 35000


def read(keys, seq, data):
    """What a reader makes of sealed bytes: the payloads that come, how many bytes it uses, how many of them it holds, and its end."""
    came, used = [], 0
    while True:
        first = data[used:used + 4]
        if len(first) < 4:
            return came, len(data), len(first), "open"
        n = head(keys, seq, first)
        if not is_length(keys, n):
            return came, used + 4, 0, "refused P1"
        whole = data[used:used + 4 + n + tag_len(keys)]
        if len(whole) < 4 + n + tag_len(keys):
            return came, len(data), len(whole), "open"
        used += len(whole)
        clear = unseal(keys, seq, whole)
        if clear is None:
            return came, used, 0, "refused P4"
        if not 4 <= clear[4] < n:
            return came, used, 0, "refused P2"
        if clear[4] == n - 1:
            return came, used, 0, "refused P3"
        came.append(clear[5:4 + n - clear[4]])
        keys, seq = advanced(keys, len(whole)), (seq + 1) % 2 ** 32


def words(keys):
    return "%s %s %s %s %s" % (keys.cipher, keys.mac, hexa(keys.iv), hexa(keys.enc), hexa(keys.mac_key))


# Lines of rows.

SEED = b"seed"


def seal_line(word, keys, seq, one, other):
    """`seal` or `unseal`; text (`none`) as it stands."""
    return "%s %s %d %s %s" % (word, words(keys), seq, hexa(one), other if isinstance(other, str) else hexa(other))


def both_lines(keys, seq, packet):
    sealed = seal(keys, seq, packet)
    return seal_line("seal", keys, seq, packet, sealed), seal_line("unseal", keys, seq, sealed, packet)


def written(word, keys, seq, payload, packet, *after):
    """`sealed`, or `next` with the vector after it. The payload and the packet may be terms."""
    return " ".join([word, words(keys), str(seq), hexa(SEED), terms([payload]), terms([packet]), *map(hexa, after)])


def came(payloads):
    """Payloads, of which each may be a term."""
    return "came " + (" ".join("+" + terms([payload]) for payload in payloads) or "-")


def begins(keys, number=0):
    """A reader with these keys whose next packet has this number, since so many came in clear."""
    clear = [packet_of(None, n, b"\x15", SEED) for n in range(number)]
    before = ["feed " + b"".join(clear).hex(), came([b"\x15"] * number)] if clear else []
    return ["packets deployed", *before, "keys %s %s" % ("no" if number else "yes", words(keys))]


def judged(keys, seq, data, behind=b"\x00"):
    """The lines of a reader that is given these bytes: up to the last that it uses, and then that one."""
    payloads, used, held, end = read(keys, seq, data)
    if end == "open":
        return ["feed " + hexa(data), came(payloads), "held %d" % held, "end open"]
    return ["feed " + hexa(data[:used - 1]), came(payloads), "end open", "part 1 " + hexa(data[used - 1:used] + behind), "end " + end, "held 0",
            "part 0 " + hexa(data)]


def in_a_row(file, name, keys, payloads, number=0, more=()):
    """Packets one after the other, by keys that go on: written, and read in one piece, packet by packet, and with more padding than needed."""
    packets, each = packets_of(keys, payloads, SEED, number)
    assert read(keys, number, b"".join(packets)) == (payloads, sum(map(len, packets)), 0, "open")
    texts, sealed = [file.short(payload) for payload in payloads], [file.short(packet) for packet in packets]
    file.row(name + ", written", "packets deployed", [written("next", each[n], number + n, text, sealed[n], each[n + 1].iv) for n, text in enumerate(texts)])
    start = begins(keys, number)
    file.row(name + ", read in one piece", start, feed(*sealed), came(texts), "held 0", "end open")
    file.row(name + ", read packet by packet", start, [[feed(cut(packet, 0, 5)), "held 5", feed(cut(packet, 5)), came([text])] for packet, text in zip(sealed, texts)],
             "held 0", "end open")
    for blocks in more:
        packets, _ = packets_of(keys, payloads, SEED, number, blocks)
        file.row("%s, %d blocks of padding more" % (name, blocks), start, feed(*packets), came(texts), "held 0", "end open")


def cut(term, start, end=None):
    """A part of bytes, or of what a name stands for."""
    return term[start:end] if isinstance(term, bytes) else "%s:%d" % (term, start) + ("" if end is None else ":%d" % end)


def out_of_order(file, name, keys, number=0):
    """What a peer or someone between may make of three packets. Under a MAC -etm the tag doesn't tell whether the vector was right, so there a packet
    with a right number that was sealed with the first vector once more comes to other bytes."""
    payloads = [b"one", b"two two two two two", b"three"]
    (one, two, three), _ = packets_of(keys, payloads, SEED, number)
    again = packet_of(keys, number + 1, payloads[1], SEED)
    ways = {"the first twice": one + one, "the second first": two + one + three, "the second is left out": one + three,
            "the second after the third": one + three + two, "the second sealed as the first was": one + again, "the third twice": one + two + three + three}
    for way, data in ways.items():
        end = read(keys, number, data)[3]
        assert end in ("refused P1", "refused P4") or end == "open" and counted(keys) or way == "the second sealed as the first was" and covers_sealed(keys)
        file.row("%s, %s" % (name, way), begins(keys, number), judged(keys, number, data))


def wrong_ways(file, name, keys, payloads, ways):
    """What a cipher that goes on otherwise would write and read: each way from keys and a packet's length to the next keys."""
    _, right = packets_of(keys, payloads, SEED)
    for way, step in ways.items():
        packets, each = packets_of(keys, payloads, SEED, step=step)
        assert each[1].iv != right[1].iv, way
        file.row("%s goes on %s, written" % (name, way), "packets deployed", written("next", keys, 0, payloads[0], packets[0], each[1].iv))
        file.row("%s goes on %s, read" % (name, way), begins(keys), feed(*packets), came(payloads), "end open")


def with_iv(keys, iv):
    return Keys(keys.cipher, keys.mac, iv, keys.enc, keys.mac_key)

"""Packets of both lab suites (RFC 4253 section 6; in the second, packet_length is in clear and isn't counted, as in RFC 5647):
written, read whole and cut, and refused."""
from lab import *

IV, ENC, MACKEY = bytes([1]) * 16, bytes([2]) * 48, bytes([3]) * 32
SEED_TEXT = b"seed"


def stream(keys, seq, n):
    return blocks(keys.enc + keys.iv, seq, n)


def sealed_raw(suite, keys, seq, clear):
    if keys is None:
        return clear
    if suite == "lab":
        return xor(clear, stream(keys, seq, len(clear))) + sha(keys.mac_key, u32(seq), clear)
    covered = clear[:4] + xor(clear[4:], stream(keys, seq, len(clear) - 4))
    return covered + sha(keys.enc, u32(seq), covered)[:16]


def clear_packet(suite, keys, seq, payload, seed=SEED_TEXT):
    block = 16 if keys and keys.cipher.endswith("16") else 8
    counted = 4 if suite == "lab" or keys is None else 0
    padding = 4
    while (counted + 1 + len(payload) + padding) % block or counted + 1 + len(payload) + padding < (16 if counted else 8):
        padding += 1
    return u32(1 + len(payload) + padding) + bytes([padding]) + payload + blocks(seed, seq, padding)


def packet_of(suite, keys, seq, payload, seed=SEED_TEXT):
    return sealed_raw(suite, keys, seq, clear_packet(suite, keys, seq, payload, seed))


def raw(suite, keys, length, padding, seq=0):
    return sealed_raw(suite, keys, seq, u32(length) + bytes([padding]) + bytes((i * 7) % 256 for i in range(length - 1)))


def words(keys):
    return "%s %s %s %s %s" % (keys.cipher, keys.mac, hexa(keys.iv), hexa(keys.enc), hexa(keys.mac_key))


def came(*payloads):
    return "came " + " ".join("+" + hexa(p) for p in payloads)


def keys_for(cipher):
    return Keys(cipher, "m", IV, ENC, MACKEY)


def again(code):
    return ["part 0 " + hexa(b"more"), "end refused " + code, "held 0", "part 0 " + hexa(packet_of("lab", None, 0, b"\x15"))]


def rows(file):
    for suite in ("lab", "second"):
        for cipher in (None, "c", "c16"):
            keys = cipher and keys_for(cipher)
            name = "%s %s" % (suite, cipher or "in clear")
            start = ["packets " + suite] + (["keys yes " + words(keys)] if keys else [])
            lengths(file, suite, keys, name, start)
            limits(file, suite, keys, name, start)
            paddings(file, suite, keys, name, start)
            if keys:
                tags(file, suite, keys, name, start)
        after(file, suite)
        one_piece(file, suite)
    going(file)


def lengths(file, suite, keys, name, start):
    """Payloads of many lengths, written and read again."""
    for n in list(range(1, 41)) + [255, 256, 1000]:
        for seq in (0, 7, 4294967295):
            payload = bytes((n + i) % 256 for i in range(n))
            data = packet_of(suite, keys, seq, payload)
            line = "sealed %s %d %s" % (words(keys), seq, hexa(SEED_TEXT)) if keys else "clear %d %s" % (seq, hexa(SEED_TEXT))
            read = []
            if seq == 0:
                read = [feed(data[:-1]), "came -", "held %d" % (len(data) - 1), part(1, data[-1:]), came(payload), "held 0", "end open",
                        feed(packet_of(suite, keys, 1, b"next"), packet_of(suite, keys, 2, b"third")), came(b"next", b"third")]
            file.row("packet %s of %d, number %d" % (name, n, seq), start, "%s %s %s" % (line, hexa(payload), hexa(data)), read)
    biggest = 32768
    payload = b"\x07" * biggest
    data = packet_of(suite, keys, 0, payload)
    file.row("packet %s of %d" % (name, biggest), start, feed(data[:4], data[4:-1]), "held %d" % (len(data) - 1), feed(data[-1:]),
             came(payload), "held 0")


def limit(suite, keys):
    """The longest packet_length, and what is its multiple."""
    block = 16 if keys and keys.cipher.endswith("16") else 8
    counted = 4 if suite == "lab" or keys is None else 0
    tag = 0 if keys is None else 32 if suite == "lab" else 16
    longest = max(n for n in range(34900, 35000) if 4 + n + tag <= 35000 and (counted + n) % block == 0)
    return longest, block, counted


def limits(file, suite, keys, name, start):
    longest, block, counted = limit(suite, keys)
    shortest = 16 - counted if counted else block
    clear = lambda n: xor(u32(n), stream(keys, 0, 4)) if keys and suite == "lab" else u32(n)
    for n in (shortest, shortest + block, longest - block, longest):
        file.row("packet %s, length %d" % (name, n), start, feed(clear(n)), "held 4", "end open")
    for n in (0, 1, 4, shortest - 1, shortest + 1, shortest + 2, shortest + 4, shortest + block - 1, longest - 1, longest + 1, longest + block, 65536,
              2147483648, 4294967295):
        if n + counted < shortest + counted or (n + counted) % block or n > longest:
            file.row("packet %s, refused length %d" % (name, n), start, feed(clear(n)[:3]), "end open", "held 3",
                     part(1, clear(n)[3:], bytes(40)), "end refused P1", "held 0", again("P1"))


def paddings(file, suite, keys, name, start):
    _, block, counted = limit(suite, keys)
    n = 2 * block - counted
    for padding in (0, 3, n, n + 1, 255, n - 1, 4, n - 2):
        data = raw(suite, keys, n, padding)
        code = "P3" if padding == n - 1 else "P2" if not 4 <= padding < n else None
        if code:
            file.row("packet %s, refused padding %d" % (name, padding), start, feed(data[:-1]), "end open", part(1, data[-1:], b"m"),
                     "end refused " + code, "held 0", again(code))
        else:
            payload = bytes((i * 7) % 256 for i in range(n - 1 - padding))
            file.row("packet %s, padding %d" % (name, padding), start, feed(data), came(payload), "held 0", "end open")


def tags(file, suite, keys, name, start):
    data = packet_of(suite, keys, 0, b"payload")
    for place in range(4, len(data)):
        bad = data[:place] + bytes([data[place] ^ 1]) + data[place + 1:]
        file.row("packet %s, byte %d changed" % (name, place), start, feed(bad[:-1]), "end open", part(1, bad[-1:], b"m"), "end refused P4",
                 "held 0", again("P4"))
    if suite == "lab":
        clear = clear_packet(suite, keys, 0, b"payload")
        data = sealed_raw(suite, keys, 0, clear)[:-32] + sealed_raw(suite, keys, 1, clear)[-32:]
        file.row("packet %s, the tag of another number" % name, start, feed(data), "end refused P4")
    if suite == "second":
        data = packet_of(suite, keys, 1, b"payload")
        file.row("packet %s, another number" % name, start, feed(data), "end refused P4")
    file.row("packet %s, wrong tag and padding" % name, start, feed(raw(suite, keys, 28 if suite == "lab" else 32, 3)[:-1] + b"\0"),
             "end refused P4")


def one_piece(file, suite):
    """The longest packet in clear, and twelve packets: six in clear in one piece, and six sealed in another."""
    file.row("packet %s, the longest in clear" % suite, "packets " + suite, "feed 000088b4 04 34994*07", "came -", "held 34999", "feed 07",
             "came 000088af 34991*07", "held 0", "end open")
    keys = keys_for("c")
    clear = [b"\x07" * n for n in (1, 17, 32768, 25, 33, 1)]
    sealed = [b"\x07" * n for n in (1, 32768, 100, 1000, 8, 9)]
    first = b"".join(packet_of(suite, None, n, payload) for n, payload in enumerate(clear))
    second = b"".join(packet_of(suite, keys, n + 6, payload) for n, payload in enumerate(sealed))
    file.row("packets %s, twelve in two pieces" % suite, "packets " + suite, "feed " + runs(first), came_again(clear), "held 0",
             "keys no " + words(keys), feed(second), came_again(sealed), "held 0", "end open")


def came_again(payloads):
    return "came " + " ".join("%s %d*%02x" % (u32(len(p)).hex(), len(p), p[0]) for p in payloads)


def runs(data):
    """The bytes as terms, with 32768 equal ones as one term."""
    long = b"\x07" * 32768
    front, back = data.split(long)
    return "%s 32768*07 %s" % (front.hex(), back.hex())


def after(file, suite):
    keys = keys_for("c")
    for reset in ("yes", "no"):
        one = 0 if reset == "yes" else 2
        clear = packet_of(suite, None, 0, b"\x15") + packet_of(suite, None, 1, b"two")
        sealed = packet_of(suite, keys, one, b"payload") + packet_of(suite, keys, one + 1, b"more")
        file.row("packets %s, sealed behind clear, reset %s" % (suite, reset), "packets " + suite, feed(clear), came(b"\x15", b"two"),
                 "keys %s %s" % (reset, words(keys)), feed(sealed), came(b"payload", b"more"), "end open", "held 0")
    other = Keys("c16", "m", b"iv", b"enc", b"mac")
    file.row("packets %s, keys behind keys" % suite, "packets " + suite, "keys no " + words(keys), feed(packet_of(suite, keys, 0, b"a")),
             came(b"a"), "keys no " + words(other), feed(packet_of(suite, other, 1, b"b")), came(b"b"), "keys yes " + words(keys),
             feed(packet_of(suite, keys, 0, b"c")), came(b"c"))


def next_iv(keys, size):
    """Of the second suite a cipher whose name ends with go counts the bytes in the last four of a vector of 12."""
    if not keys.cipher.endswith("go") or len(keys.iv) != 12:
        return keys.iv
    return keys.iv[:8] + u32((int.from_bytes(keys.iv[8:], "big") + size) % 2 ** 32)


def going_keys(count=0, cipher="c-go", start=bytes([1]) * 8):
    return Keys(cipher, "m", start + u32(count), ENC, MACKEY)


def advanced(keys, size):
    return Keys(keys.cipher, keys.mac, next_iv(keys, size), keys.enc, keys.mac_key)


def sealed_by(keys, payloads, seq=0, step=advanced):
    """The packets of payloads, of which each goes by the keys after the one before."""
    packets = []
    for n, payload in enumerate(payloads):
        packets.append(packet_of("second", keys, seq + n, payload))
        keys = step(keys, len(packets[-1]))
    return packets


def padded(keys, seq, payload, more):
    """A packet with so many blocks of padding more than needed."""
    clear = clear_packet("second", keys, seq, payload)
    padding = clear[4] + 8 * more
    return sealed_raw("second", keys, seq, u32(1 + len(payload) + padding) + bytes([padding]) + payload + blocks(SEED_TEXT, seq, padding))


def going(file):
    """A cipher that goes on: what is written leaves the next keys, and a reader goes on with them, whatever the padding."""
    payloads = [b"\x05", b"seven b", b"\x07" * 100, b"a", bytes(range(256)) * 4, b"last"]
    for count in (0, 4294967295 - 300, 4294967295):
        keys = going_keys(count)
        lines, packets, now = [], sealed_by(keys, payloads, 3), keys
        for n, (payload, packet) in enumerate(zip(payloads, packets)):
            after_it = advanced(now, len(packet))
            lines.append("next %s %d %s %s %s %s" % (words(now), 3 + n, hexa(SEED_TEXT), hexa(payload), hexa(packet), hexa(after_it.iv)))
            now = after_it
        start = ["packets second"] + ["feed " + hexa(packet_of("second", None, n, b"\x15")) for n in range(3)] + [came(*[b"\x15"] * 3), "keys no " + words(keys)]
        file.row("cipher that goes on from %d, written" % count, "packets second", *lines)
        file.row("cipher that goes on from %d, read in one piece" % count, *start, feed(*packets), came(*payloads), "held 0", "end open")
        each = [line for payload, packet in zip(payloads, packets) for line in (feed(packet[:5]), feed(packet[5:]), came(payload))]
        file.row("cipher that goes on from %d, read packet by packet" % count, *start, *each, "held 0", "end open")
    for more in (1, 2, 30):
        keys = going_keys()
        first = padded(keys, 0, b"payload", more)
        second = packet_of("second", advanced(keys, len(first)), 1, b"next")
        file.row("cipher that goes on, %d blocks of padding more" % more, "packets second", "keys yes " + words(keys), feed(first, second),
                 came(b"payload", b"next"), "held 0", "end open")
    for name, keys in (("c", going_keys(cipher="c")), ("c-go with a vector of 16 bytes", keys_for("c-go")), ("go with none", Keys("go", "m", b"", ENC, MACKEY)),
                       ("go-c", going_keys(cipher="go-c"))):
        packets = sealed_by(keys, [b"one", b"two"])
        line = "next %s 0 %s %s %s %s" % (words(keys), hexa(SEED_TEXT), hexa(b"one"), hexa(packets[0]), hexa(keys.iv))
        file.row("cipher %s stays as it is" % name, "packets second", line, "keys yes " + words(keys), feed(*packets), came(b"one", b"two"), "end open")
    keys = keys_for("c-go")
    packets = [packet_of("lab", keys, n, payload) for n, payload in enumerate((b"one", b"two"))]
    line = "next %s 0 %s %s %s %s" % (words(keys), hexa(SEED_TEXT), hexa(b"one"), hexa(packets[0]), hexa(keys.iv))
    file.row("no cipher of the lab suite goes on", "packets lab", line, "keys yes " + words(keys), feed(*packets), came(b"one", b"two"), "end open")


def wrong_going(file):
    """What a cipher that goes on otherwise would read and write."""
    keys = going_keys()
    payloads = [b"payload", b"next"]
    ways = {"twice": lambda k, n: advanced(advanced(k, n), n), "not at all": lambda k, n: k, "by the length without tag": lambda k, n: advanced(k, n - 16),
            "by the payload's length": lambda k, n: advanced(k, 7), "by packets": lambda k, n: advanced(k, 1)}
    for way, step in ways.items():
        packets = sealed_by(keys, payloads, step=step)
        file.row("keys advance %s, read" % way, "packets second", "keys yes " + words(keys), feed(*packets), came(*payloads), "end open")
        file.row("keys advance %s, written" % way, "packets second",
                 "next %s 0 %s %s %s %s" % (words(keys), hexa(SEED_TEXT), hexa(payloads[0]), hexa(packets[0]), hexa(step(keys, len(packets[0])).iv)))
    early = advanced(keys, len(packet_of("second", keys, 0, payloads[0])))
    packets = sealed_by(early, payloads)
    file.row("keys advance before the tag is judged, read", "packets second", "keys yes " + words(keys), feed(*packets), came(*payloads), "end open")
    file.row("keys advance before a packet is written", "packets second",
             "next %s 0 %s %s %s %s" % (words(keys), hexa(SEED_TEXT), hexa(payloads[0]), hexa(packets[0]), hexa(early.iv)))

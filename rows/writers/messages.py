"""Payloads: what is told, written again, and refused. By RFC 4250 to 4254, 8308 and the project's limits."""
from lab import *


def u(x):
    return u32(x)


def told(number, *words):
    return " ".join([str(number)] + list(words))


def digits(data):
    data = data.encode() if isinstance(data, str) else data
    return data.hex() or "-"


def names(*list_):
    return "'" + ",".join(list_)


def request_of(user, service_name, method, fields=b""):
    return b"\x32" + string(user) + string(service_name) + string(method) + fields


LISTS = [("k",), ("h",), ("cs",), ("sc",), ("ms",), ("mc",), ("zs",), ("zc",), ("ls",), ("lc",)]


def kexinit_of(lists, follows=b"\x00", reserved=u32(0), cookie=b"cookie of 16 byt"):
    return b"\x14" + cookie + b"".join(string(",".join(x)) for x in lists) + follows + reserved


def told_kexinit(lists, follows="no", cookie=b"cookie of 16 byt"):
    return told(20, digits(cookie), *([names(*x) for x in lists] + [follows]))


EMPTY = [()] * 10
SOME = [("k",), ("h",)] + [()] * 8
TWO = [("a", "b"), ("x", "y", "x"), ("c",), (), ("m", "n"), (), ("none",), ("zlib", "none"), (), ("en",)]

# payload, what is told, whether it ends where its fields end, and what is written where it isn't the payload
WRITTEN = [
    (b"\x01" + u(2) + string("bye") + u(0), told(1, "2", digits("bye"), "-")),
    (b"\x01" + u(4294967295) + u(0) + string("en"), told(1, "4294967295", "-", digits("en"))),
    (b"\x02" + u(0), told(2, "-")),
    (b"\x02" + string(b"\x00\xff"), told(2, "00ff")),
    (b"\x03" + u(0), told(3, "0")),
    (b"\x03" + u(4294967295), told(3, "4294967295")),
    (b"\x04\x01" + string("hi") + string("en"), told(4, "yes", digits("hi"), digits("en"))),
    (b"\x04\x00" + string("") + string(""), told(4, "no", "-", "-")),
    (b"\x05" + string("ssh-userauth"), told(5, digits("ssh-userauth"))),
    (b"\x06" + string("ssh-userauth"), told(6, digits("ssh-userauth"))),
    (b"\x06" + string(""), told(6, "-")),
    (b"\x07" + u(0), told(7)),
    (b"\x07" + u(1) + string("server-sig-algs") + string("ssh-ed25519"), told(7, digits("server-sig-algs"), digits("ssh-ed25519"))),
    (b"\x07" + u(2) + string("") + string("") + string("a") + string("b"), told(7, "-", "-", "61", "62")),
    (kexinit_of(SOME, b"\x01"), told_kexinit(SOME, "yes")),
    (kexinit_of(LISTS, b"\x01"), told_kexinit(LISTS, "yes")),
    (kexinit_of(TWO), told_kexinit(TWO)),
    (kexinit_of(EMPTY, cookie=bytes(range(16))), told_kexinit(EMPTY, cookie=bytes(range(16)))),
    (b"\x15", told(21)),
    (request_of("", "", "none"), told(50, "-", "-", "none")),
    (request_of("al", "ssh-connection", "none"), told(50, digits("al"), digits("ssh-connection"), "none")),
    (request_of(b"\xf0\x9f\x94\x91", "s", "password", b"\x00" + string("p")), told(50, "f09f9491", "73", "password", "70")),
    (request_of("u", "s", "password", b"\x01" + string("p") + string("q")), told(50, "75", "73", "change", "70", "71")),
    (request_of("u", "s", "publickey", b"\x00" + string("h") + string("k")), told(50, "75", "73", "query", "68", "6b")),
    (request_of("u", "s", "publickey", b"\x01" + string("h") + string("k") + string("z")),
     told(50, "75", "73", "publickey", "68", "6b", "7a")),
    (b"\x33" + string("") + b"\x01", told(51, "'", "yes")),
    (b"\x33" + string("password,publickey") + b"\x00", told(51, "'password,publickey", "no")),
    (b"\x34", told(52)),
    (b"\x35" + string("") + string(""), told(53, "-", "-")),
    (b"\x35" + string("hello\r\n") + string("en"), told(53, digits("hello\r\n"), "656e")),
    (b"\x3c" + string("h") + string(b"\xaa"), told(60, "68", "aa")),
    (b"\x3c" + string("") + string(""), told(60, "-", "-")),
    (b"\x3c" + string(b"\xff,") + string("h"), told(60, "ff2c", "68")),
]
MPINTS = [
    (b"\x1e" + string(b""), told(30, "mpint", "-")),
    (b"\x1e" + string(b"\x00\x80"), told(30, "mpint", "0080")),
    (b"\x1f" + string("k") + string(b"\xed\xcc") + string(""), told(31, "mpint", "6b", "edcc", "-")),
    (b"\x1f" + string("") + string(b"\x7f") + string("sig"), told(31, "mpint", "-", "7f", digits("sig"))),
]
OCTETS = [
    (b"\x1e" + string(b""), told(30, "octets", "-")),
    (b"\x1e" + string(b"\x00\x01"), told(30, "octets", "0001")),
    (b"\x1e" + string(b"\xff\x80"), told(30, "octets", "ff80")),
    (b"\x1f" + string("k") + string(b"\xff\x80") + string("s"), told(31, "octets", "6b", "ff80", "73")),
]
# methods that aren't known: their fields go on to the payload's end, so it can be cut there
OPEN = [
    (request_of("u", "s", "hostbased", b"any bytes"), told(50, "75", "73", "other", digits("hostbased"), digits("any bytes"))),
    (request_of("u", "s", "", b""), told(50, "75", "73", "other", "-", "-")),
    (request_of("u", "s", "nonE", b"\x00"), told(50, "75", "73", "other", digits("nonE"), "00")),
]
KNOWN = {1, 2, 3, 4, 5, 6, 7, 20, 21, 30, 31, 50, 51, 52, 53, 60}


def taken(file, name, form, payload, text, written=None, cuts=True):
    file.row(name, "message %s %s" % (form, hexa(payload)), "tells " + text, "writes " + hexa(payload if written is None else written),
             ["cuts"] if cuts else [])


def refused(file, name, form, payload, fault):
    file.row(name, "message %s %s" % (form, hexa(payload) if isinstance(payload, bytes) else payload), "refused " + fault)


def rows(file):
    for form in ("mpint", "octets", "hybrid"):
        own = MPINTS if form == "mpint" else OCTETS
        for payload, text in WRITTEN + own:
            taken(file, "message %s %s" % (form, shown(payload)), form, payload, text)
        for payload, text in OPEN:
            taken(file, "message %s %s" % (form, shown(payload)), form, payload, text, cuts=False)
    for number in range(256):
        if number not in (21, 52):
            refused(file, "message %d alone" % number, "mpint", bytes([number]), "M%d %d" % (2 if number in KNOWN else 1, number))
        if number not in KNOWN:
            refused(file, "message %d and more" % number, "octets", bytes([number]) + b"\x00\x00\x00\x00", "M1 %d" % number)
    for form in ("mpint", "octets", "hybrid"):
        refused(file, "message of no bytes, " + form, form, b"", "M2 0")
    booleans(file)
    malformed(file)
    long(file)


def shown(payload):
    return payload.hex() if len(payload) < 40 else payload[:24].hex() + ".." + sha(payload)[:4].hex()


def booleans(file):
    for byte in range(256):
        flag, one = ("yes", 1) if byte else ("no", 0)
        rest = string("") + string("")
        taken(file, "message DEBUG, boolean %d" % byte, "mpint", bytes([4, byte]) + rest, told(4, flag, "-", "-"), bytes([4, one]) + rest,
              cuts=False)
    for byte in (0, 1, 2, 128, 255):
        flag, one = ("yes", b"\x01") if byte else ("no", b"\x00")
        other = bytes([byte])
        head = b"\x33" + string("password,publickey")
        taken(file, "message FAILURE, boolean %d" % byte, "mpint", head + other, told(51, "'password,publickey", flag), head + one)
        taken(file, "message KEXINIT, boolean %d" % byte, "mpint", kexinit_of(SOME, other), told_kexinit(SOME, flag),
              kexinit_of(SOME, one))
        if byte:
            change = request_of("u", "s", "password", other + string("p") + string("q"))
            taken(file, "message password, boolean %d" % byte, "mpint", change, told(50, "75", "73", "change", "70", "71"),
                  request_of("u", "s", "password", b"\x01" + string("p") + string("q")))
            key = request_of("u", "s", "publickey", other + string("h") + string("k") + string("z"))
            taken(file, "message publickey, boolean %d" % byte, "mpint", key, told(50, "75", "73", "publickey", "68", "6b", "7a"),
                  request_of("u", "s", "publickey", b"\x01" + string("h") + string("k") + string("z")))


def malformed(file):
    for text in (b"\xff", b"\x80", b"\xc0\x80", b"\xed\xa0\x80", b"\xf4\x90\x80\x80", b"a\xe9"):
        refused(file, "message, user " + text.hex(), "mpint", request_of(text, "", "none"), "M2 50")
    refused(file, "message, a name-list with a byte of no name", "mpint", b"\x33" + string("a b") + b"\x00", "M2 51")
    for text in (",", "a,", ",a", "a,,b", "a\x7f"):
        refused(file, "message FAILURE, list " + text.encode().hex(), "mpint", b"\x33" + string(text) + b"\x00", "M2 51")
        for place in range(10):
            lists = [string(text if i == place else "x") for i in range(10)]
            payload = b"\x14" + bytes(16) + b"".join(lists) + b"\x00" + u(0)
            refused(file, "message KEXINIT, list %d %s" % (place, text.encode().hex()), "mpint", payload, "M2 20")
    refused(file, "message EXT_INFO, many counted", "mpint", b"\x07" + u(4294967295), "M2 7")
    refused(file, "message EXT_INFO, one counted too many", "mpint", b"\x07" + u(2) + string("a") + string("b"), "M2 7")
    refused(file, "message EXT_INFO, one counted too few", "mpint", b"\x07" + u(1) + (string("a") + string("b")) * 2, "M2 7")
    for body in (b"\x00\x7f", b"\x00", b"\xff\x80", b"\x00\x01"):
        refused(file, "message KEXDH_INIT " + body.hex(), "mpint", b"\x1e" + string(body), "M2 30")
        refused(file, "message KEXDH_REPLY " + body.hex(), "mpint", b"\x1f" + string("k") + string(body) + string("s"), "M2 31")


def long(file):
    name = "n" * 64
    lists = [(name,)] + [()] * 9
    taken(file, "message KEXINIT, a name of 64 bytes", "mpint", kexinit_of(lists), told_kexinit(lists))
    taken(file, "message KEXINIT, reserved 01020304", "mpint", kexinit_of(lists, reserved=b"\x01\x02\x03\x04"), told_kexinit(lists),
          kexinit_of(lists))
    refused(file, "message KEXINIT, a name of 65 bytes", "mpint", kexinit_of([(name + "n",)] + [()] * 9), "M2 20")
    file.row("message KEXDH_INIT, 4096 bytes", "message mpint 1e 00001000 4096*55", "writes 1e 00001000 4096*55")
    file.row("message IGNORE, the longest", "message mpint 02 00007ffb 32763*55", "writes 02 00007ffb 32763*55")
    file.row("message IGNORE, a byte too long", "message mpint 02 00007ffc 32764*55", "too long")
    longest(file)
    file.row("message EXT_INFO, a thousand pairs", "message mpint 07 000003e8 8000*00", "tells 7" + " -" * 2000, "writes 07 000003e8 8000*00")


def longest(file):
    """Of each message with a field that may be long: one of 32768 bytes, which is written, and one of a byte more."""
    def head(name, *strings):
        return b"\x32" + string("u") + string("s") + string(name) + b"".join(strings)

    s = string
    # form, what stands before the field, the field's length (none where the field goes on to the end), and what stands after
    cases = [("mpint", "DISCONNECT, description", b"\x01" + u(2), True, s("en")), ("mpint", "DISCONNECT, language", b"\x01" + u(2) + s("x"), True, b""),
             ("mpint", "DEBUG, text", b"\x04\x01", True, s("en")), ("mpint", "DEBUG, language", b"\x04\x00" + s("x"), True, b""),
             ("mpint", "SERVICE_REQUEST", b"\x05", True, b""), ("mpint", "SERVICE_ACCEPT", b"\x06", True, b""),
             ("mpint", "EXT_INFO, name", b"\x07" + u(2) + s("a") + s("b"), True, s("c")),
             ("mpint", "EXT_INFO, value", b"\x07" + u(2) + s("a") + s("b") + s("c"), True, b""),
             ("mpint", "KEXDH_INIT", b"\x1e", True, b""), ("octets", "KEX_ECDH_INIT", b"\x1e", True, b""),
             ("mpint", "user", b"\x32", True, s("s") + s("none")), ("mpint", "service", b"\x32" + s("u"), True, s("none")),
             ("mpint", "password", head("password", b"\x00"), True, b""), ("mpint", "old password", head("password", b"\x01"), True, s("q")),
             ("mpint", "new password", head("password", b"\x01", s("p")), True, b""),
             ("mpint", "algorithm of a query", head("publickey", b"\x00"), True, s("k")),
             ("mpint", "key of a query", head("publickey", b"\x00", s("h")), True, b""),
             ("mpint", "algorithm of a key", head("publickey", b"\x01"), True, s("k") + s("z")),
             ("mpint", "key", head("publickey", b"\x01", s("h")), True, s("z")),
             ("mpint", "signature", head("publickey", b"\x01", s("h"), s("k")), True, b""),
             ("mpint", "fields of another method", head("hostbased"), False, b""), ("mpint", "another method", b"\x32" + s("u") + s("s"), True, b"x"),
             ("mpint", "BANNER, text", b"\x35", True, s("en")), ("mpint", "BANNER, language", b"\x35" + s("x"), True, b""),
             ("mpint", "PK_OK, algorithm", b"\x3c", True, s("k")), ("mpint", "PK_OK, key", b"\x3c" + s("h"), True, b"")]
    for form, kind in (("mpint", "KEXDH_REPLY"), ("octets", "KEX_ECDH_REPLY")):
        cases += [(form, kind + ", host key", b"\x1f", True, s(b"\x01") + s("s")), (form, kind + ", share", b"\x1f" + s("k"), True, s("s")),
                  (form, kind + ", signature", b"\x1f" + s("k") + s(b"\x01"), True, b"")]
    file.shared.append("bytes long 32769*61")
    file.shared.append("bytes names 504*" + (b"n" * 64 + b",").hex())
    for form, name, front, counted, back in cases:
        for size in (32768, 32769):
            n = size - len(front) - len(back) - (4 if counted else 0)
            payload = " ".join(x for x in (front.hex(), u(n).hex() if counted else "", "$long:0:%d" % n, back.hex()) if x)
            file.row("message %s, %d bytes" % (name, size), "message %s %s" % (form, payload),
                     "writes " + payload if size == 32768 else "too long")
    full_lists(file)


def full_lists(file):
    """The same of a FAILURE and of each list of a KEXINIT: names of 64 bytes fill them, and a short one more."""
    def full(length):
        count = (length - 1) // 65
        return "%s $names:0:%d %d*79" % (u(length).hex(), count * 65, length - count * 65)

    for size in (32768, 32769):
        payloads = [("FAILURE", "33 %s 00" % full(size - 6))]
        for place in range(10):
            # the other nine lists have one name of one byte
            lists = ["00000001 78"] * 10
            lists[place] = full(size - 17 - 40 - 5 - 9)
            payloads.append(("KEXINIT, list %d" % place, "14 16*00 %s 00 00000000" % " ".join(lists)))
        for name, payload in payloads:
            file.row("message %s, %d bytes" % (name, size), "message mpint " + payload,
                     "writes " + payload if size == 32768 else "too long")

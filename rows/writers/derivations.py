"""What is hashed (RFC 4253 section 8), what is signed (RFC 4252 section 7), and keys (RFC 4253 section 7.2) by SHA-256; and the shares of
both lab suites, as docs/SSHLAB.md has them."""
from lab import *


def parts(*all_):
    return ["part " + hexa(p) for p in all_]


def rows(file):
    eight = (b"A", b"B", b"\x14", b"\x14", b"", b"\x02", b"\x03", b"\x00\x80")
    file.row("exchange of few bytes", "derive", parts(*eight),
             "exchange 00000001 41 00000001 42 00000001 14 00000001 14 00000000 00000001 02 00000001 03 00000002 0080")
    for place in range(8):
        one = [b""] * 8
        one[place] = bytes(range(place + 1))
        file.row("exchange, part %d alone" % place, "derive", parts(*one), "exchange " + hexa(b"".join(string(p) for p in one)))
    t = Talk()
    k = shared(RANDOM[CLIENT], share(RANDOM[SERVER]))
    own = (LINE[:-2], LINE[:-2], t.ci, t.si, BLOB, share(RANDOM[CLIENT]), share(RANDOM[SERVER]), k)
    file.row("exchange of the lab", "derive", parts(*own), "exchange " + hexa(b"".join(string(p) for p in own)))
    file.row("signed request", "derive", parts(b"\x01\x02\x03\x04", b"al", b"ssh-connection", b"h", b"\xaa"),
             "signed 00000004 01020304 32 00000002 'al 0000000e 'ssh-connection 00000009 'publickey 01 00000001 'h 00000001 aa")
    for session, user, service_name, algorithm, key in ((b"", b"", b"", b"h", b""), (t.hash, "é".encode(), b"s", b"ssh-ed25519", BLOB)):
        text = (string(session) + b"\x32" + string(user) + string(service_name) + string("publickey") + b"\x01" + string(algorithm)
                + string(key))
        file.row("signed request of %d" % len(text), "derive", parts(session, user, service_name, algorithm, key), "signed " + hexa(text))
    keys(file, t, k)
    shares(file)


def lab_answer(random, client):
    """The server's share, and what is shared."""
    return share(random), shared(random, client)


def second_answer(random, client):
    own = b"\x03" + xor(random, client[1:])
    return own, sha(random, client, own)


def shares(file):
    """Both sides' calls of a key exchange; and shares that are refused: of the other suite or the other side, and with one byte more or less."""
    for suite, first, wrong, answer in (("lab", 1, (0, 2, 3), lab_answer), ("second", 2, (0, 1, 3), second_answer)):
        for name, a, b in (("equal bytes", b"\x11" * 32, b"\x33" * 32), ("counted bytes", bytes(range(32)), bytes(range(255, 223, -1)))):
            client = bytes([first]) + a
            server, number = answer(b, client)
            data = lambda *parts_: " ".join(hexa(part) for part in parts_)
            refused = [bytes([byte]) + a for byte in wrong] + [client[:-1], client + b"\x00", b""]
            back = [bytes([byte]) + server[1:] for byte in range(4) if byte != server[0]] + [server[:-1], server + b"\x00", b""]
            file.row("shares of the suite %s, %s" % (suite, name), "suite " + suite, "public k " + data(a, client), "respond k " + data(b, client, server + number),
                     "shared k " + data(a, server, number), ["respond k %s none" % data(b, it) for it in refused], ["shared k %s none" % data(a, it) for it in back])


def keys(file, t, k):
    for kex, number, h, session in ((b"k", b"\x00\x80", b"hash", b"session"), (b"a", k, t.hash, t.hash), (b"a", k, t.hash, sha(b"first")),
                                    (b"b", b"", b"", b"")):
        for sender, letters in ((CLIENT, b"ACE"), (SERVER, b"BDF")):
            for mac in ("m", "m2"):
                own = [derived(number, h, letters[i:i + 1], session, n) for i, n in enumerate((16, 48, 32))]
                file.row("keys of %s, %s %s, %s %s" % (sender, kex.decode(), mac, hexa(h)[:8], hexa(session)[:8]), "derive",
                         parts(kex, number, h, session), "keys %s c %s %s %s %s" % ((sender, mac) + tuple(hexa(x) for x in own)))

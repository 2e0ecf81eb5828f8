"""Sessions over ciphers whose keys go on from packet to packet, -ctr under each MAC and -gcm, strict and not: whole ones up to a password, a key, and
both, with what is handed over and a link that goes on; cut; and under hostile use: packets that come twice, in another order or not at all, and
flipped bits. receiver.py works out what has to come of it, with ciphers.py."""
from lab import *
import ciphers
import deployed
from aes_ctr import PAIRS
from auth import LET_IN
from deployed_sessions import HOST, KEY, SHARE, DeployedReceiver, reply_of, shared_of, signature_by
from hostile import Session, flipped, judged
from signatures import by_signature

USER = bytes(range(64, 96))
USER_KEY = deployed.wrapped(deployed.key_of(USER))
METHOD, ALGORITHM = deployed.METHOD, deployed.ALGORITHM
GCM128, GCM256 = "aes128-gcm@openssh.com", "aes256-gcm@openssh.com"
SHORT = {"aes128-ctr": "ctr128", "aes256-ctr": "ctr256", GCM128: "gcm128", GCM256: "gcm256", ciphers.CHACHA: "chacha"}


class Way:
    """The ciphers and the MACs to the server and to the client."""

    def __init__(self, cs, sc, mcs, msc):
        self.names = self.cs, self.sc, self.mcs, self.msc = cs, sc, mcs, msc

    def short(self):
        of = lambda cipher, mac: SHORT[cipher] + ("-" + mac.replace("hmac-sha2-", "").replace("@openssh.com", "") if cipher in ciphers.CTR else "")
        return of(self.cs, self.mcs) + ("" if (self.cs, self.mcs) == (self.sc, self.msc) else " " + of(self.sc, self.msc))

    def lines(self, side):
        return ["%s %s %s" % (side, word, name) for word, name in zip(("cipher_cs", "cipher_sc", "mac_cs", "mac_sc"), self.names)]

    def keys_of(self, sender, k, h):
        cipher, mac = (self.cs, self.mcs) if sender == CLIENT else (self.sc, self.msc)
        letters = (b"A", b"C", b"E") if sender == CLIENT else (b"B", b"D", b"F")
        return Keys(cipher, mac, *(derived(k, h, letter, h, n) if n else b"" for letter, n in zip(letters, ciphers.key_lens(cipher, mac))))

    def offer(self, role, strict):
        return kexinit(role, (METHOD,), (ALGORITHM,), strict=strict, cs=self.cs, sc=self.sc, mcs=self.mcs, msc=self.msc)


def both_ways(cipher, mac):
    return Way(cipher, cipher, mac, mac)


ALL = [both_ways(*pair) for pair in PAIRS] + [both_ways(cipher, "hmac-sha2-256") for cipher in (GCM128, GCM256)]
# another cipher each way, and one whose keys stay beside one whose go on
ALL += [Way("aes128-ctr", "aes256-ctr", "hmac-sha2-512", "hmac-sha2-256-etm@openssh.com"), Way(GCM128, "aes256-ctr", "hmac-sha2-512", "hmac-sha2-512"),
        Way("aes256-ctr", ciphers.CHACHA, "hmac-sha2-256", "hmac-sha2-512")]
# aes256-ctr under hmac-sha2-256, aes128-ctr under hmac-sha2-512-etm@openssh.com, and aes128-gcm@openssh.com
PLAIN, ETM, GCM = ALL[4], ALL[3], ALL[8]


class CipherHalf(Half):
    """What one side writes, by keys that go on; a link pads by another seed."""

    def __init__(self, role, seed=None):
        super().__init__(role)
        self.seed = seed or SEED[role]

    def send(self, payload, more=0):
        p = ciphers.packet_of(self.keys, self.seq, payload, self.seed, more)
        self.seq += 1
        self.sent += p
        if self.keys:
            self.keys = ciphers.advanced(self.keys, len(p))
        return p

    def again(self, seed=None):
        """Another half that goes on from here."""
        other_ = CipherHalf(self.role, seed or self.seed)
        other_.seq, other_.keys = self.seq, self.keys
        return other_


class CipherTalk:
    """Both sides up to the accepted service, strict where the client is willing."""

    def __init__(self, way, strict=True):
        self.way, self.strict = way, strict
        c, s = self.c, self.s = CipherHalf(CLIENT), CipherHalf(SERVER)
        self.ci, self.si = way.offer(CLIENT, strict), way.offer(SERVER, True)
        c.sent = s.sent = LINE
        c.send(self.ci)
        s.send(self.si)
        self.c_first, self.s_first = c.sent, s.sent
        k = shared_of(RANDOM[CLIENT], SHARE[SERVER])
        self.hash = sha(*(string(x) for x in (LINE[:-2], LINE[:-2], self.ci, self.si, KEY, SHARE[CLIENT], SHARE[SERVER], k)))
        self.reply = reply_of(KEY, deployed.wrapped(signature_by(HOST, self.hash)), SHARE[SERVER])
        self.c_init, self.s_reply = c.send(b"\x1e" + string(SHARE[CLIENT])), s.send(self.reply)
        self.cs, self.sc = way.keys_of(CLIENT, k, self.hash), way.keys_of(SERVER, k, self.hash)
        self.s_newkeys, self.c_newkeys = s.switch(self.sc, strict), c.switch(self.cs, strict)
        self.c_service, self.s_accept = c.send(service(5, "ssh-userauth")), s.send(service(6, "ssh-userauth"))

    def lines(self, role=None):
        """The setting of a side, or of both."""
        lines = ["client hostkey " + ALGORITHM, "server hostkey %s %s" % (ALGORITHM, HOST.hex())]
        lines += [line for side in (CLIENT, SERVER) for line in ["%s kex %s" % (side, METHOD)] + self.way.lines(side)]
        return [line for line in lines + ["client strict no"] * (not self.strict) if role is None or line.startswith(role)]

    def signed(self):
        """The request of the user's key."""
        data = input_of(self.hash, algorithm=ALGORITHM, key=USER_KEY)
        return by_signature(deployed.wrapped(signature_by(USER, data)), algorithm=ALGORITHM, key=USER_KEY)

    def agreed(self):
        return "agreed %s %s %s none none %s %s" % (METHOD, ALGORITHM, " ".join(self.way.names), "yes" if self.strict else "no", self.hash.hex())


class CipherReceiver(DeployedReceiver):
    """An end over these ciphers and MACs."""
    half = CipherHalf
    WAY = PLAIN

    @classmethod
    def offer_of(cls, role, willing):
        return cls.WAY.offer(role, willing)

    @classmethod
    def keys_of(cls, sender, k, h):
        return cls.WAY.keys_of(sender, k, h)

    @property
    def TAG(self):
        return ciphers.tag_len(self.keys)

    def is_length(self, n):
        return ciphers.is_length(self.keys, n)

    def length_in(self, first):
        return u32(ciphers.head(self.keys, self.number, first))

    def unsealed(self, whole):
        return ciphers.unseal(self.keys, self.number, whole)

    def go_on(self, size):
        self.keys = self.keys and ciphers.advanced(self.keys, size)


class CipherCourse:
    """A session of one request: none, or a password, which the decisions accept."""

    def __init__(self, way, strict, by):
        t, self.by = CipherTalk(way, strict), by
        self.t, self.request = t, {"none": by_none(), "password": by_password(b"\x00")}[by]
        proof = {"none": "none", "password": "password 00"}[by]
        self.lines = t.lines() + ["client try al ssh-connection " + proof, "allow al " + proof]
        self.requests, self.answers, self.asked = [t.c.send(self.request)], [t.s.send(SUCCESS)], [[1]]

    def agreed(self):
        return self.t.agreed()


class CipherSession(Session):
    """That session as one role receives it."""

    def __init__(self, file, role, course):
        t = course.t
        self.receiver = type("OneReceiver", (CipherReceiver,), {"WAY": t.way, "REQUEST": course.request})
        super().__init__(file, role, "%s %s by %s" % (t.way.short(), "strict" if t.strict else "loose", course.by), course)
        self.begin = self.begin[:-1] + ["deployed " + role]
        ear = self.receiver(role, self.is_willing, self.received)
        assert (ear.own.sent, ear.end) == (self.says, LET_IN)

    def own_sealed(self):
        """The first sealed packet that this role sends."""
        t = self.course.t
        return t.c_service if self.role == CLIENT else t.s_accept


class Named:
    """A file whose names of bytes have no blank."""

    def __init__(self, file):
        self.file = file

    def name(self, name, data):
        return self.file.name(name.replace(" ", "-"), data)

    def row(self, name, *lines):
        self.file.row(name, *lines)


def rows(file):
    for way in ALL:
        for strict in (True, False):
            whole(file, way, strict)
    named = Named(file)
    for way in (PLAIN, ETM, GCM, ALL[1], ALL[-2]):
        for role in (SERVER, CLIENT):
            cuts(named, CipherSession(named, role, CipherCourse(way, way is not PLAIN, "password")))
    for way, strict in ((PLAIN, True), (ETM, True), (GCM, False)):
        for role in (SERVER, CLIENT):
            s = CipherSession(named, role, CipherCourse(way, strict, "none"))
            flips(named, s)
            orders(named, s)


# Whole sessions.

LINK_SEED = bytes(range(32))
PAYLOADS = [b"\x50", b"\x51" * 2, b"\x5a" * 17, b"\x5e" * 25, b"\x5e" * 33, b"\x62" * 100]


def whole(file, way, strict):
    """A password, and then a key, where both are required: a client whose suite signs, and a server that asks and waits. What is handed over
    goes on as a link."""
    t = CipherTalk(way, strict)
    c, s = t.c, t.s
    first, second = c.send(by_password(b"\x00")), c.send(t.signed())
    partial, success = s.send(failure(partial=1)), s.send(SUCCESS)
    name = "%s, %s" % (way.short(), "strict" if strict else "loose")
    plan = ["client try al ssh-connection password 00", "client try al ssh-connection publickey %s %s" % (ALGORITHM, USER.hex())]
    file.row("a client over " + name, t.lines(CLIENT), plan, "deployed client", says(t.c_first), feed(t.s_first), says(t.c_init), feed(t.s_reply, t.s_newkeys),
             says(t.c_newkeys, t.c_service), asked("host_key"), feed(t.s_accept), says(first), feed(partial), says(second), "verified 1", "signed 1", feed(success), "says -",
             "end " + LET_IN, t.agreed(), handed(CLIENT, t), linked(CLIENT, t))
    file.row("a server over " + name, t.lines(SERVER), "server required password,publickey", "waiting server deployed", says(t.s_first), feed(t.c_first, t.c_init),
             says(t.s_reply, t.s_newkeys), feed(t.c_newkeys, t.c_service), says(t.s_accept), feed(first), "question user 1 al ssh-connection password 00", "answer yes",
             says(partial), feed(second), "question user 2 al ssh-connection key %s %s signed" % (ALGORITHM, USER_KEY.hex()), "verified 1", "answer yes", says(success), "verified 0",
             "end " + LET_IN, t.agreed(), handed(SERVER, t), linked(SERVER, t))


def handed(role, t):
    """Both directions as they are handed over, with the vector of the next packet; of a cipher without a MAC key the line has no digits for it."""
    ways = [("out", t.c if role == CLIENT else t.s), ("in", t.s if role == CLIENT else t.c)]
    return ["session %s %d %s" % (way, half.seq, ciphers.words(half.keys)) for way, half in ways if half.keys.iv and half.keys.mac_key]


def linked(role, t):
    """Packets both ways, of which one is padded more than it needs, one comes cut, and one comes twice."""
    own, theirs = (t.c, t.s) if role == CLIENT else (t.s, t.c)
    mine, yours = own.again(LINK_SEED), theirs.again()
    lines = ["link " + hexa(LINK_SEED), "sealed 0", "opened 0"]
    for n, payload in enumerate(PAYLOADS):
        lines += ["opens %s %s" % (hexa(payload), hexa(yours.send(payload, n % 3))), "seals %s %s" % (hexa(payload), hexa(mine.send(payload)))]
    lines += ["seals - payload", "sealed %d" % len(PAYLOADS), "opened %d" % len(PAYLOADS)]
    keys, number = yours.keys, yours.seq
    data = yours.send(b"\x5e" * 40)
    lines += ["opens - " + hexa(data[:9]), "held 9", "seals 63 " + hexa(mine.send(b"\x63")), "opens %s %s" % (hexa(b"\x5e" * 40), hexa(data[9:])), "held 0"]
    # it comes again; what is refused by its length is refused by its first four bytes, and the row gives no more
    _, used, _, end = ciphers.read(yours.keys, yours.seq, data)
    if end == "open":
        return lines + ["opens - " + hexa(data), "held %d" % len(data)]
    assert ciphers.read(keys, number, data)[3] == "open" and end in ("refused P1", "refused P4")
    return lines + ["refuses %s %s" % (end[8:], hexa(data[:used])), "seals 64 " + hexa(mine.send(b"\x64"))]


# Cut, and under hostile use.

def cuts(file, s):
    """Whole, and cut into two about the edges of each packet and now and then."""
    file.row("%s %s, whole" % (s.role, s.name), s.begin, "feed " + s.receives, s.whole(), s.course.agreed(), "cut", "end " + LET_IN)
    edges, at = set(), 0
    for unit, _, _ in s.turns:
        at += len(unit)
        edges |= {at - 1, at, at + 1, at + 4, at + 5}
    sealed = sum(len(unit) for unit, _, _ in s.turns[:3])
    edges |= set(range(1, sealed, 101)) | set(range(sealed, len(s.received), 11))
    for at in sorted(edges & set(range(1, len(s.received)))):
        file.row("%s %s, cut at %d" % (s.role, s.name, at), s.begin, "feed %s:0:%d" % (s.receives, at), "feed %s:%d" % (s.receives, at), s.whole())
    for at in range(sealed, len(s.received), 7):
        sent, asks, held = s.by(at)
        file.row("%s %s, the input ends behind %d" % (s.role, s.name, at), s.begin, "feed %s:0:%d" % (s.receives, at), s.sent(sent), asked(*asks) if asks else [],
                 "held %d" % held, "end open", "cut", "end failed F16")


def flips(file, s):
    """A bit of each byte after NEWKEYS, and each bit of a packet's length."""
    sealed = sum(len(unit) for unit, _, _ in s.turns[:3])
    fronts = {sealed + at for at in range(4)}
    for place in range(sealed, len(s.received)):
        for bit in range(8) if place in fronts else [place % 8]:
            end = flipped(file, s, "%s %s, bit %d of byte %d" % (s.role, s.name, bit, place), s.received, place, bit)
            assert end in ("failed F2", "failed F4", "open")


def orders(file, s):
    """The sealed packets twice, in another order, and one left out."""
    units = [unit for unit, _, _ in s.turns]
    front, (one, two), n = b"".join(units[:3]), units[3:], len(b"".join(units[:3]))
    ends = n + len(one)
    names = {"the first sealed packet twice": (one + one + two, ["%s:%d:%d" % (s.receives, n, ends)] * 2 + ["%s:%d" % (s.receives, ends)]),
             "the second sealed packet first": (two + one, ["%s:%d" % (s.receives, ends), "%s:%d:%d" % (s.receives, n, ends)]),
             "the first sealed packet left out": (two, ["%s:%d" % (s.receives, ends)]), "its own first sealed packet": (s.own_sealed(), [s.own_sealed()])}
    for name, (data, parts) in names.items():
        end = judged(file, "%s %s, %s" % (s.role, s.name, name), s, ["%s:0:%d" % (s.receives, n), *parts], front + data)
        assert end in ("failed F2", "failed F4", "open")

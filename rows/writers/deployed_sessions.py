"""Hostile use of a session over the algorithms that are deployed: packets put in before NEWKEYS, the input that ends after each byte,
each cut into two pieces, and bits flipped: each bit after NEWKEYS, and one of each byte before. receiver.py works out what has to come of
it, with the suite of deployed.py."""
import functools

from lab import *
import deployed
from auth import LET_IN
from receiver import FORMS, Receiver
from hostile import Session, cuts, flipped, injected, truncated

CIPHER = "chacha20-poly1305@openssh.com"
HOST = bytes(range(32))
KEY = deployed.wrapped(deployed.key_of(HOST))
share_of = functools.lru_cache(maxsize=None)(deployed.public)
SHARE = {role: share_of(RANDOM[role]) for role in (CLIENT, SERVER)}
shared_of = functools.lru_cache(maxsize=None)(deployed.shared)
signature_by = functools.lru_cache(maxsize=None)(deployed.signature_of)


def offer(role, strict=True, host=deployed.ALGORITHM, method=deployed.METHOD):
    return kexinit(role, (method,), (host,), strict=strict, cs=CIPHER, sc=CIPHER)


def reply_of(key, signature, share):
    return b"\x1f" + string(key) + string(share) + string(signature)


def packet_of(payload, seq, seed, keys):
    """The packet of a payload, whose padding is the least: packet_length counts in clear, and not where it is sealed."""
    counted, p = 0 if keys else 4, 4
    while (counted + 1 + len(payload) + p) % 8 or counted + 1 + len(payload) + p < (16 if counted else 8):
        p += 1
    clear = u32(1 + len(payload) + p) + bytes([p]) + payload + deployed.chacha20(sha(seed), seq, 0, p)
    return deployed.seal(keys, seq, clear) if keys else clear


class DeployedHalf(Half):
    """What one side writes."""

    def send(self, payload):
        p = packet_of(payload, self.seq, SEED[self.role], self.keys)
        self.seq += 1
        self.sent += p
        return p


class DeployedReceiver(Receiver):
    """An end over the deployed algorithms."""

    FORMS = {**FORMS, 30: "s", 31: "sss"}
    METHOD, SHARE = deployed.METHOD, SHARE
    TAG, INIT, BLOB = 16, b"\x1e" + string(SHARE[CLIENT]), KEY
    half = DeployedHalf

    @classmethod
    def offer_of(cls, role, willing):
        return offer(role, willing, method=cls.METHOD)

    def is_length(self, n):
        return n >= 8 and not n % 8

    def length_in(self, first):
        return xor(first, deployed.chacha20(self.keys[32:], self.number, 0, 4))

    def unsealed(self, whole):
        covered, tag = whole[:-16], whole[-16:]
        if tag != deployed.poly1305(deployed.chacha20(self.keys[:32], self.number, 0, 32), covered):
            return None
        return self.length_in(covered[:4]) + xor(covered[4:], deployed.chacha20(self.keys[:32], self.number, 1, len(covered) - 4))

    @staticmethod
    def share(random):
        return share_of(random)

    @staticmethod
    def shared(random, theirs):
        return shared_of(random, theirs)

    @classmethod
    def reply(cls, h):
        return reply_of(KEY, deployed.wrapped(signature_by(HOST, h)), cls.SHARE[SERVER])

    @staticmethod
    def is_signed(key, h, signature):
        """A changed key, hash or signature isn't valid: whether another is would need another signature to be found."""
        return key == KEY and signature == deployed.wrapped(signature_by(HOST, h))

    @staticmethod
    def keys_of(sender, k, h):
        return derived(k, h, b"C" if sender == CLIENT else b"D", h, 64)


class DeployedTalk:
    """Both sides up to the accepted service, by the server's own key, or by another one: its algorithm, the public key, and what signs."""

    def __init__(self, host=(deployed.ALGORITHM, KEY, lambda h: deployed.wrapped(signature_by(HOST, h))), receiver=DeployedReceiver):
        self.strict, c, s = True, DeployedHalf(CLIENT), DeployedHalf(SERVER)
        self.c, self.s = c, s
        algorithm, key, sign_ = host
        self.ci, self.si = (offer(role, host=algorithm, method=receiver.METHOD) for role in (CLIENT, SERVER))
        c.sent = s.sent = LINE
        c.send(self.ci)
        s.send(self.si)
        self.c_first, self.s_first = c.sent, s.sent
        e, f = receiver.SHARE[CLIENT], receiver.SHARE[SERVER]
        k = receiver.shared(RANDOM[CLIENT], f)
        self.hash = sha(*(string(x) for x in (LINE[:-2], LINE[:-2], self.ci, self.si, key, e, f, k)))
        self.c_init, self.s_reply = c.send(receiver.INIT), s.send(reply_of(key, sign_(self.hash), f))
        self.s_newkeys = s.switch(receiver.keys_of(SERVER, k, self.hash), True)
        self.c_newkeys = c.switch(receiver.keys_of(CLIENT, k, self.hash), True)
        self.c_service, self.s_accept = c.send(service(5, "ssh-userauth")), s.send(service(6, "ssh-userauth"))


class DeployedCourse:
    """The simplest session: a user without a proof, who is accepted."""

    def __init__(self, receiver=DeployedReceiver):
        t = self.t = DeployedTalk(receiver=receiver)
        self.method = receiver.METHOD
        names = [("client", "hostkey " + deployed.ALGORITHM), ("server", "hostkey %s %s" % (deployed.ALGORITHM, HOST.hex()))]
        for side in ("client", "server"):
            names += [(side, "kex " + self.method), (side, "cipher_cs " + CIPHER), (side, "cipher_sc " + CIPHER)]
        self.lines = ["%s %s" % pair for pair in names] + ["client try al ssh-connection none", "allow al none"]
        self.requests, self.answers, self.asked = [t.c.send(by_none())], [t.s.send(SUCCESS)], [[1]]

    def agreed(self):
        return "agreed %s %s %s %s m m none none yes %s" % (self.method, deployed.ALGORITHM, CIPHER, CIPHER, self.t.hash.hex())


class DeployedSession(Session):
    """The session as one role receives it."""
    receiver = DeployedReceiver

    def __init__(self, file, role, course):
        super().__init__(file, role, "deployed", course)
        self.begin = self.begin[:-1] + ["deployed " + role]
        ear = self.receiver(role, True, self.received)
        assert (ear.own.sent, ear.end) == (self.says, LET_IN)


def rows(file):
    course = DeployedCourse()
    for role in (SERVER, CLIENT):
        s = DeployedSession(file, role, course)
        injected(file, s)
        all_fronts(file, s)
        cuts(file, s)
        flips(file, s)
    names_of_keys(file)


def names_of_keys(file):
    """A user's key is accepted under whatever name; only by a name with which the suite signs a query is asked about, and a signature verified.
    That signature is wrong, so nobody is asked about it."""
    t = DeployedTalk()
    known = [line for line in DeployedCourse().lines if not line.startswith(("allow ", "client try "))]
    lines = known + ["allow al publickey %s 00" % name for name in ("foo", "ssh-ed25518", deployed.ALGORITHM)]
    body, number = [], 0
    for name, good in (("foo", False), ("ssh-ed25518", False), (deployed.ALGORITHM, True)):
        number += 2
        body += [feed(t.c.send(by_query(name))), says(t.s.send(pk_ok(name, blob(name, b"\x00")) if good else failure())),
                 asked(*[number - 1] * good), "verified 0"]
        if number < 6:
            body += [feed(t.c.send(by_key(t.hash, name))), says(t.s.send(failure())), asked(), "verified 0"]
    body += [feed(t.c.send(by_key(t.hash, deployed.ALGORITHM))), says(t.s.send(disconnect(14))), asked(), "verified 1", "end failed F13"]
    file.row("a deployed server asks about no key under a name with which nothing signs", lines, "deployed server",
             feed(t.c_first, t.c_init, t.c_newkeys, t.c_service), says(t.s_first, t.s_reply, t.s_newkeys, t.s_accept), body)


def all_fronts(file, s):
    """The input ends after each byte up to where truncated of hostile.py begins, and from there on."""
    for count in range(sum(len(unit) for unit, _, _ in s.turns[:4 if s.role == SERVER else 3]) + 1):
        ear = DeployedReceiver(s.role, True, s.received[:count])
        file.row("%s %s, the input ends behind %d" % (s.role, s.name, count), s.begin, "feed %s:0:%d" % (s.receives, count),
                 s.sent(ear.own.sent), asked(*ear.asked) if ear.asked else [], "held %d" % ear.held, "end open", "cut", "end failed F16")
    truncated(file, s)


def flips(file, s):
    """Nothing but a length that the stream doesn't reach leaves the side open after NEWKEYS; before, padding alone means nothing."""
    sealed, nothing, at = sum(len(unit) for unit, _, _ in s.turns[:3]), set(), len(LINE)
    while at < sealed:
        end = at + 4 + int.from_bytes(s.received[at:at + 4], "big")
        nothing, at = nothing | set(range(end - s.received[at + 4], end)), end
    for place in range(len(s.received)):
        for bit in range(8) if place >= sealed else [place % 8]:
            end = flipped(file, s, "%s %s, bit %d of byte %d" % (s.role, s.name, bit, place), s.received, place, bit)
            assert (end == LET_IN) == (place in nothing)
            assert place < sealed or end in ("failed F2", "failed F4", "open")

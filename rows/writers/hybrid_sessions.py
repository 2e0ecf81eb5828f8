"""Sessions over mlkem768x25519-sha256 and the algorithms of deployed.py, whole, cut, and with bits flipped; a guess of another method before
it; and shares with one byte more and one less."""
import functools

from lab import *
import deployed
import hybrid
from deployed_sessions import CIPHER, HOST, KEY, DeployedCourse, DeployedHalf, DeployedReceiver, DeployedSession, packet_of, reply_of, signature_by
from hostile import flipped
from receiver import FORMS

public_of = functools.lru_cache(maxsize=None)(hybrid.public)
secret_of = functools.lru_cache(maxsize=None)(hybrid.shared)
response_of = functools.lru_cache(maxsize=None)(hybrid.respond)


class HybridReceiver(DeployedReceiver):
    """An end over the hybrid: the server's share depends on the client's."""
    METHOD = hybrid.NAME
    SHARE = {CLIENT: public_of(RANDOM[CLIENT]), SERVER: response_of(RANDOM[SERVER], public_of(RANDOM[CLIENT]))[0]}
    FORMS = {**FORMS, 30: "s", 31: "sss"}
    INIT = b"\x1e" + string(SHARE[CLIENT])

    @staticmethod
    def share(drawn):
        return public_of(drawn)

    @staticmethod
    def shared(drawn, theirs):
        if drawn == RANDOM[CLIENT]:
            return secret_of(drawn, theirs)
        made = response_of(drawn, theirs)
        return made and made[1]

    def receive_init(self, _, fields):
        made = response_of(RANDOM[SERVER], fields[0])
        own = made[0] if made else b""
        k, h = self.exchange(fields[0], own, self.BLOB)
        self.own.send(reply_of(KEY, deployed.wrapped(signature_by(HOST, h)), own))
        self.switch(k, h)


class HybridSession(DeployedSession):
    receiver = HybridReceiver


def rows(file):
    course = DeployedCourse(HybridReceiver)
    for role in (SERVER, CLIENT):
        s = HybridSession(file, role, course)
        file.row("%s hybrid, whole" % role, s.begin, "feed " + s.receives, s.whole())
        edges, at = set(), 0
        for unit, _, _ in s.turns:
            at += len(unit)
            edges |= {at - 1, at, at + 1}
        for at in sorted((edges | set(range(1, len(s.received), 61))) & set(range(1, len(s.received)))):
            file.row("%s hybrid, cut at %d" % (role, at), s.begin, "feed %s:0:%d" % (s.receives, at), "feed %s:%d" % (s.receives, at), s.whole())
        for place in range(len(LINE), len(s.received), 23):
            flipped(file, s, "%s hybrid, bit %d of byte %d" % (role, place % 8, place), s.received, place, place % 8)
    lengths(file, course)
    guess(file, course)


def settings(course, *kex):
    """The lines of a setting, with other methods listed."""
    return [line for line in course.lines if not (kex and line.startswith("client kex "))] + ["client kex " + ",".join(kex)] * bool(kex)


def lengths(file, course):
    """Shares of one byte more and one less end the exchange as F9, with a DISCONNECT."""
    t = course.t
    for name, size in (("more", 1), ("less", -1)):
        share = (HybridReceiver.SHARE[CLIENT] + b"\x00")[:hybrid.CLIENT_SHARE + size]
        c, s = DeployedHalf(CLIENT), DeployedHalf(SERVER)
        c.seq = s.seq = 1
        init, leaves = c.send(b"\x1e" + string(share)), s.send(disconnect(3))
        file.row("a client's share of the hybrid has a byte %s" % name, settings(course), "deployed server", "feed " + hexa(t.c_first), "feed " + hexa(init),
                 says(t.s_first, leaves), "asked nothing", "end failed F9")
        share = (HybridReceiver.SHARE[SERVER] + b"\x00")[:hybrid.SERVER_SHARE + size]
        c, s = DeployedHalf(CLIENT), DeployedHalf(SERVER)
        c.seq, s.seq = 2, 1
        answer, leaves = s.send(reply_of(KEY, b"", share)), c.send(disconnect(3))
        file.row("a server's share of the hybrid has a byte %s" % name, settings(course), "deployed client", "feed " + hexa(t.s_first), "feed " + hexa(answer),
                 says(t.c_first, t.c_init, leaves), "asked host_key", "end failed F9")


def guess(file, course):
    """A client guesses curve25519-sha256, and then exchanges by the hybrid: both shares are of the same random bytes, and neither shows what
    the other draws of them."""
    c, s = DeployedHalf(CLIENT), DeployedHalf(SERVER)
    own = kexinit(CLIENT, (deployed.METHOD, hybrid.NAME), (deployed.ALGORITHM,), cs=CIPHER, sc=CIPHER, follows=1)
    c.sent = s.sent = LINE
    c.send(own)
    c.send(b"\x1e" + string(deployed.public(RANDOM[CLIENT])))
    c.send(HybridReceiver.INIT)
    s.send(kexinit(SERVER, (hybrid.NAME,), (deployed.ALGORITHM,), cs=CIPHER, sc=CIPHER))
    setting = [line for line in course.lines if line.startswith("client") and not line.startswith("client kex")]
    file.row("a guess by curve25519 before the hybrid", setting, "client kex %s,%s" % (deployed.METHOD, hybrid.NAME), "client guess yes", "deployed client",
             "feed " + hexa(s.sent), says(c.sent), "asked nothing", "end open")

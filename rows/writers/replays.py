"""What was recorded of one connection, given to another endpoint of the same config at once. With the same draws it is authenticated and
sends what was recorded; another seed of the padding doesn't change that. Another cookie or other random bytes, be it by a bit, make another
exchange hash: a server refuses the first sealed packet, and a client the signature. Both ends are worked out by receiver.py."""
from lab import *
from auth import LET_IN
from receiver import Receiver

# the cookie, the random bytes of the exchange, and the seed of the padding, by which each side was recorded
DRAWS = {CLIENT: (b"\x01" * 16, b"\x01" * 32, b"\x01" * 32), SERVER: (b"\x02" * 16, b"\x02" * 32, b"\x02" * 32)}
PARTS = ("cookie", "random", "seed")
# that al is let in
LINES = {CLIENT: ["client try al ssh-connection none"], SERVER: ["allow al none"]}


class Drawing(Receiver):
    """An end that is strict, with draws of its own."""

    def __init__(self, role, stream, draws):
        self.cookie, self.random, self.seed = draws
        super().__init__(role, True, stream)

    def half(self, role):
        own = Half(role)
        own.seed = self.seed
        return own

    def offer_of(self, role, willing):
        return kexinit(role, strict=willing, cookie=self.cookie)

    @property
    def INIT(self):
        return b"\x1e" + string(share(self.random))

    def share(self, _):
        return share(self.random)

    def shared(self, _, theirs):
        return Receiver.shared(self.random, theirs)

    def reply(self, h):
        return reply(h, random=self.random)

    def switch(self, k, h):
        self.session = h
        super().switch(k, h)


def recorded():
    """What each side of a connection has sent: what the other had sent before goes to it, until nothing more is sent."""
    sent = {CLIENT: b"", SERVER: b""}
    while True:
        ears = {role: Drawing(role, sent[other(role)], DRAWS[role]) for role in sent}
        if all(ears[role].own.sent == sent[role] for role in sent):
            assert [ear.end for ear in ears.values()] == [LET_IN] * 2 and ears[CLIENT].session == ears[SERVER].session
            return sent
        sent = {role: ear.own.sent for role, ear in ears.items()}


def flipped(draws, which, place, bit):
    """The draws with one bit of one of them changed."""
    out = list(draws)
    out[which] = bytes(byte ^ (1 << bit if at == place else 0) for at, byte in enumerate(out[which]))
    return out


def rows(file):
    sent = recorded()
    for role in (SERVER, CLIENT):
        cookie, random, seed = DRAWS[role]
        name = "what another %s received" % role
        given(file, sent, name + ", the same draws", role, DRAWS[role], True)
        given(file, sent, name + ", another seed", role, (cookie, random, b"\x03" * 32), True)
        given(file, sent, name + ", another cookie", role, (b"\x03" * 16, random, seed), False)
        given(file, sent, name + ", other random bytes", role, (cookie, b"\x03" * 32, seed), False)
        given(file, sent, name + ", other draws", role, (b"\x03" * 16, b"\x03" * 32, b"\x03" * 32), False)
        for which, word in enumerate(("cookie", "random bytes")):
            for place in range(len(DRAWS[role][which])):
                for bit in range(8):
                    given(file, sent, "%s, bit %d of byte %d of its %s" % (name, bit, place, word), role, flipped(DRAWS[role], which, place, bit), False)


def given(file, sent, name, role, draws, is_let_in):
    """An endpoint with these draws that is given the recorded stream."""
    ear = Drawing(role, sent[other(role)], draws)
    heard, said = (file.name("%s-sent" % side, sent[side]) for side in (other(role), role))
    assert (ear.end == LET_IN) == is_let_in and (ear.own.sent == sent[role]) == (draws == DRAWS[role])
    assert is_let_in or ear.end in (("failed F11",) if role == CLIENT else ("failed F2", "failed F4", "open"))
    setting = ["%s %s %s" % (role, part_, hexa(drawn)) for part_, drawn in zip(PARTS, draws)] + LINES[role]
    received = "feed " + heard if ear.used + ear.held == len(sent[other(role)]) else "part %d %s" % (ear.used, heard)
    closing = ["held %d" % ear.held, "cut", "end failed F16"] if ear.end == "open" else []
    agreed = ["agreed a h c c m m none none yes " + ear.session.hex()] if is_let_in else []
    file.row(name, setting, "begin " + role, received, says(said if ear.own.sent == sent[role] else ear.own.sent), asked(*ear.asked) if ear.asked else [],
             "end " + ear.end, agreed, closing)

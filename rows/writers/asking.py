"""Endpoints that ask and wait, which the lines of their rows answer: what they ask, that they use and say nothing before the answer, what
they go on with, how often a signature is verified, and calls out of their order."""
from lab import *
import notices
from auth import direction
from disconnecting import told
from notices import debug, of_text
from requests import FAILURE, LET_IN, NO_NAMES, half, key_fields, long_query, request, signed, wrong_signature

AL = ["client try al ssh-connection none"]
BYE = b"bye"
NOTHING = ["question nothing", "says -"]


def host_key(key=BLOB, algorithm="h"):
    return "question host_key %s %s" % (algorithm, hexa(key))


def user(number, proof, name="al", service_name="ssh-connection"):
    return "question user %d %s %s %s" % (number, name, service_name, proof)


def of_password(password):
    return "password " + hexa(password)


def of_key(key=BLOB, algorithm="h"):
    return "key %s %s" % (algorithm, hexa(key))


def of_signed_key(key=BLOB, algorithm="h"):
    return of_key(key, algorithm) + " signed"


def answer(good):
    return "answer " + ("yes" if good else "no")


class Asking:
    """Rows of one side up to where its peer's packets ask."""

    def __init__(self, file, role, **how):
        self.file, self.role, t = file, role, Talk(**how)
        self.t, self.own, self.peer = t, Half(role), Half(other(role))
        self.head = [t.lines(), AL, "waiting " + role]
        if role == CLIENT:
            self.own.send(t.ci)
            self.own.send(INIT)
            self.peer.send(t.si)
            received, sent = [t.s_first], [t.c_first, t.c_init]
        else:
            self.own, self.peer = half(t.s), half(t.c)
            received, sent = [t.c_first, t.c_init, t.c_newkeys, t.c_service], [t.s_first, t.s_reply, t.s_newkeys, t.s_accept]
        self.start = [feed(file.short(*received)), says(*map(file.short, sent)), "question nothing"]

    def row(self, name, *lines, settings=()):
        self.file.row("a %s %s" % (self.role, name), list(settings), self.head, self.start, lines)


def rows(file):
    client(file)
    server(file)
    counted(file)
    out_of_order(file)


def client(file):
    """A host key is asked about before its signature is looked at, and the keys are taken after the answer."""
    for name, how in (("strict", {}), ("loose", {"strict": False})):
        a = Asking(file, CLIENT, **how)
        t = a.t
        yes = [answer(True), "question nothing", says(t.c_newkeys, t.c_service), "verified 1", "end open"]
        asks = [host_key(), "says -", "verified 0", "end open"]
        s, c = half(t.s), half(t.c)
        request_ = c.send(by_none())
        last = [feed(t.s_newkeys, t.s_accept), says(request_), feed(s.send(SUCCESS)), "says -", "question nothing", "verified 0",
                "end " + LET_IN, direction("in", s.seq, t.sc), direction("out", c.seq, t.cs)]
        a.row("goes on, " + name, feed(t.s_reply), asks, "held 0", yes, last)
        a.row("leaves what is behind the question, " + name, part(len(t.s_reply), t.s_reply, t.s_newkeys), asks,
              part(0, t.s_newkeys), asks, yes, last)
        a.row("is answered no, " + name, feed(t.s_reply), asks, answer(False), "question nothing",
              says(packet(disconnect(9), 2, SEED[CLIENT])), "verified 0", part(0, t.s_newkeys), "end failed F10", "session none")
    a = Asking(file, CLIENT)
    t = a.t
    wrong = Half(SERVER)
    wrong.send(t.si)
    a.row("is answered yes, and the signature is wrong", feed(wrong.send(reply(t.hash, signature=bytes(32)))), host_key(), "says -", "verified 0",
          answer(True), "question nothing", says(packet(disconnect(3), 2, SEED[CLIENT])), "verified 1", "end failed F11")
    a = Asking(file, CLIENT, strict=False)
    t, s = a.t, Half(SERVER)
    s.send(t.si)
    a.row("is told before it is asked", feed(s.send(debug(1, b"a")), s.send(reply(t.hash))), host_key(), notices.told(of_text("debug", b"a")), "says -",
          answer(True), notices.told(), says(t.c_newkeys, t.c_service), "end open")


def server(file):
    """What each request asks; what asks nothing is answered at once."""
    a = Asking(file, SERVER)
    h = a.t.hash
    good = {"nothing": (by_none(), user(1, "none"), 0), "a password": (by_password(b"\x00"), user(1, of_password(b"\x00")), 0),
            "an empty password": (by_password(b""), user(1, of_password(b"")), 0), "a key": (by_key(h), user(1, of_signed_key()), 1),
            "nothing, for another user": (by_none("bo"), user(1, "none", "bo"), 0)}
    for name, (payload, asks, verified) in good.items():
        for yes in (True, False):
            c, s = half(a.peer), half(a.own)
            request_, says_ = c.send(payload), s.send(SUCCESS if yes else FAILURE)
            end = "end open" if not yes else "end authenticated %s ssh-connection" % ("bo" if "another" in name else "al")
            a.row("is asked by %s, and the answer is %s" % (name, "yes" if yes else "no"), feed(request_), asks, "says -",
                  "verified %d" % verified, "end open", answer(yes), "question nothing", says(says_), "verified 0", end,
                  [direction("in", c.seq, a.t.cs), direction("out", s.seq, a.t.sc)] if yes else [])
    for yes in (True, False):
        c, s = half(a.peer), half(a.own)
        a.row("is asked about a key, and the answer is %s" % ("yes" if yes else "no"), feed(c.send(by_query())), user(1, of_key()), "says -",
              "verified 0", answer(yes), "question nothing", says(s.send(pk_ok() if yes else FAILURE)), "verified 0", "end open")
    for tries, says_, end in ((6, FAILURE, "open"), (1, disconnect(14), "failed F13")):
        c, s = half(a.peer), half(a.own)
        a.row("asks nothing at a wrong signature, of %d tries" % tries, feed(c.send(wrong_signature())), "question nothing", says(s.send(says_)),
              "verified 1", "end " + end, settings=["server tries %d" % tries])
    c, s = half(a.peer), half(a.own)
    a.row("asks nothing at twenty wrong signatures in one piece", feed(*[c.send(wrong_signature()) for _ in range(20)]), "question nothing",
          says(*[s.send(FAILURE) for _ in range(19)], s.send(disconnect(14))), "verified 20", "end failed F13", settings=["server tries 20"])
    unasked(a, h)
    both(a, h)
    telling(a, h)


def unasked(a, h):
    """Requests that claim nothing, and what else is answered at once."""
    name = request("al", "ssh-connection", "publickey", key_fields(NO_NAMES[2], signed(h, NO_NAMES[2])))
    cases = [("no name", name, FAILURE, "open", []),
             ("a change of the password", request("al", "ssh-connection", "password", b"\x01" + string(b"\x00") + string(b"\x01")), FAILURE,
              "open", []),
             ("an unknown method", request("al", "ssh-connection", "hostbased"), FAILURE, "open", []),
             ("a key that is too long", long_query(8193), FAILURE, "open", []),
             ("a method that isn't listed", by_password(b"\x00"), failure(("publickey",)), "open", ["server methods publickey"]),
             ("a key where that isn't listed", by_key(h), failure(("password",)), "open", ["server methods password"]),
             ("another service", by_none(service_name="odd"), disconnect(7), "failed F12", []),
             ("a query at the last try", by_query(), disconnect(14), "failed F13", ["server tries 1"]),
             ("a message without use", b"\x50", disconnect(2), "failed F6 80", [])]
    for what, payload, says_, end, settings in cases:
        c, s = half(a.peer), half(a.own)
        a.row("asks nothing at " + what, feed(c.send(payload)), "question nothing", says(s.send(says_)),
              "verified 0", "end " + end, settings=settings)


def both(a, h):
    """Requests in one piece, each of which asks in its turn; and two methods that are both required."""
    c, s = half(a.peer), half(a.own)
    first, second, third = c.send(by_password(b"\x00")), c.send(b"\x02" + string(b"")), c.send(by_none())
    a.row("is asked in turn by one piece", part(len(first), first, second, third), user(1, of_password(b"\x00")), "says -", answer(False),
          says(s.send(FAILURE)), feed(second, third), user(2, "none"), "says -", answer(True), says(s.send(SUCCESS)), "end " + LET_IN)
    c, s = half(a.peer), half(a.own)
    first, second = c.send(by_password(b"\x00")), c.send(by_key(h))
    a.row("is asked by both methods", feed(first), user(1, of_password(b"\x00")), answer(True), says(s.send(failure(partial=1))),
          "verified 0", feed(second), user(2, of_signed_key()), "says -", "verified 1", answer(True), says(s.send(SUCCESS)), "verified 0", "end " + LET_IN,
          settings=["server required password,publickey"])
    c, s = half(a.peer), half(a.own)
    first, second = c.send(by_none()), c.send(by_password(b"\x00"))
    a.row("is asked at the last try", feed(first), user(1, "none"), answer(False), says(s.send(FAILURE)), feed(second),
          user(2, of_password(b"\x00")), answer(False), says(s.send(disconnect(14))), "end failed F13", settings=["server tries 2"])


def telling(a, h):
    """What the peer tells people in front of a request is told before its question, and what it tells behind it after the answer, whatever the
    signature."""
    c, s = half(a.peer), half(a.own)
    first, request_, last = c.send(debug(1, b"a")), c.send(by_key(h)), c.send(debug(1, b"b"))
    a.row("is told before it is asked", part(len(first + request_), first, request_, last), user(1, of_signed_key()), notices.told(of_text("debug", b"a")),
          "says -", part(0, last), answer(False), notices.told(), says(s.send(FAILURE)), feed(last), notices.told(of_text("debug", b"b")), "question nothing",
          "end open")
    c, s = half(a.peer), half(a.own)
    wrong = c.send(debug(1, b"a")) + c.send(wrong_signature()) + c.send(debug(1, b"b"))
    a.row("is told around a wrong signature", feed(wrong, c.send(by_key(h))), user(2, of_signed_key()), "verified 2", says(s.send(FAILURE)),
          notices.told(*[of_text("debug", text) for text in (b"a", b"b")]), answer(True), says(s.send(SUCCESS)), notices.told(), "end " + LET_IN)


def counted(file):
    """A signature is verified once, before its user is asked about, however often the question is looked at and however the pieces are cut."""
    a = Asking(file, SERVER)
    c, s = half(a.peer), half(a.own)
    request_ = c.send(by_key(a.t.hash))
    asks = [user(1, of_signed_key()), "says -"]
    a.row("verifies a signature once", feed(request_[:20]), "verified 0", "held 20", "question nothing", feed(request_[20:]), asks, "verified 1", asks,
          part(0, request_), asks, "verified 0", answer(True), says(s.send(SUCCESS)), "verified 0", "end " + LET_IN)
    c, s = half(a.peer), half(a.own)
    steps = []
    for number in range(1, 6):
        steps += [feed(c.send(by_query())), user(2 * number - 1, of_key()), "verified 0", answer(True), says(s.send(pk_ok())), "verified 0",
                  feed(c.send(by_key(a.t.hash))), user(2 * number, of_signed_key()), "verified 1", answer(number == 5),
                  says(s.send(SUCCESS if number == 5 else FAILURE)), "verified 0"]
    a.row("verifies no query, and each request once", steps, "end " + LET_IN, settings=["server tries 20"])


def out_of_order(file):
    """Calls out of their order: answers that nothing asked for, bytes while it waits, the end of the input, and a DISCONNECT."""
    for role in (CLIENT, SERVER):
        a = Asking(file, role)
        t = a.t
        c, s = half(a.peer), half(a.own)
        if role == CLIENT:
            packet_, asks, after = t.s_reply, host_key(), [t.c_newkeys, t.c_service]
            own, more = Half(CLIENT), t.s_newkeys
            own.seq = 2
        else:
            packet_, asks, after = c.send(by_none()), user(1, "none"), [s.send(SUCCESS)]
            own, more = half(a.own), half(a.peer).send(by_none())
        end = "end open" if role == CLIENT else "end " + LET_IN
        no_answer = [answer(True), *NOTHING, answer(False), *NOTHING]
        a.row("is answered before it asks", no_answer, feed(packet_), asks, answer(True), says(*after), end)
        a.row("is answered twice", feed(packet_), asks, answer(True), "question nothing", says(*after), no_answer, end)
        a.row("is answered within a packet", feed(packet_[:-1]), "held %d" % (len(packet_) - 1), no_answer, "held %d" % (len(packet_) - 1),
              feed(packet_[-1:]), "held 0", asks, answer(True), says(*after), end)
        waits = [asks, "says -", "held 0", "end open"]
        a.row("uses nothing while it asks", feed(packet_), waits, part(0, more), waits, part(0, b"\x00" * 40000), waits, feed(), waits,
              answer(True), says(*after), end)
        ended = [*no_answer, part(0, more), "held 0"]
        a.row("whose input ends while it asks", feed(packet_), asks, "cut", *NOTHING, "end failed F16", ended, "cut", "end failed F16",
              told(11, BYE), "says -", "end failed F16", "agreed nothing", "session none")
        a.row("that is told to disconnect while it asks", feed(packet_), asks, told(11, BYE), "question nothing",
              says(own.send(disconnect(11, BYE))), "end disconnected 11", ended, "cut", told(12), "says -", "end disconnected 11",
              "session none")
        refusal = [packet(disconnect(9), 2, SEED[CLIENT])] if role == CLIENT else [half(a.own).send(FAILURE)]
        a.row("is answered yes after no", feed(packet_), asks, answer(False), says(*refusal), no_answer,
              "end failed F10" if role == CLIENT else "end open")
        a.file.row("a %s is answered at its making" % role, a.head, says(t.c_first if role == CLIENT else t.s_first), no_answer, "end open")

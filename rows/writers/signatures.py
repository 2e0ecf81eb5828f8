"""Endpoints over a suite that holds no private key: each signature is asked for. What they ask, that they use and say nothing before the
answer, what they go on with, by what is made in place of a signature that is refused, and what asks nothing. Their configs have the
public key in the place of the private one."""
import deployed
import notices
from lab import *
from asking import BYE, NOTHING, answer, of_password, of_signed_key
from auth import direction
from configs import over_deployed, over_lab
from deployed_sessions import CIPHER, DeployedTalk
from disconnecting import told
from requests import FAILURE, LET_IN, half, request
from rsa import Key, prime

LONGEST = 8192
KEY, QUERY, PASSWORD, NOBODY = "publickey h " + hexa(BLOB), "query h " + hexa(BLOB), "password 00", "none"
TALKS = (("strict", {}), ("loose", {"strict": False}))
# how often a server asks its suite for a share and for a hash: once for each of an exchange, and for six keys of 16, 48 and 32 bytes by a hash
# of 32 (RFC 4253 section 7.2)
HASHED, EXCHANGED = ["responded 1", "digested 1"], ["responded 1", "digested %d" % (1 + 2 * (1 + 2 + 1))]
# what is made in place of a signature, and how the line of a row is answered so
REFUSALS = {"unsigned": (None, "answer unsigned"), "yes": (None, answer(True)), "no": (None, answer(False)),
            "a signature of 8193 bytes": (bytes([0x5a]) * (LONGEST + 1), "answer signature %d*5a" % (LONGEST + 1))}


def tries(*proofs, name="al", service_name="ssh-connection"):
    return ["client try %s %s %s" % (name, service_name, proof) for proof in proofs]


def by_signature(signature, name="al", service_name="ssh-connection", algorithm="h", key=BLOB):
    return request(name, service_name, "publickey", b"\x01" + string(algorithm) + string(key) + string(signature))


class Question:
    """What is asked, by a line `question` and by a line `asked`; how a row's line answers it; and what makes its decisions answer it so."""

    def __init__(self, words, asked_words, reply, made):
        self.words, self.asked_words, self.reply, self.made = "question " + words, asked_words, reply, made


def to_sign(number, data, signature, reply=None, algorithm="h", key=BLOB):
    """The question for a signature, which is made or refused."""
    words = "signature %d %s %s %s" % (number, algorithm, hexa(key), hexa(data))
    made = [] if signature is None else ["signature %d %s" % (number, short(signature))]
    return Question(words, words, reply or "answer signature " + short(signature), made)


def short(signature):
    """A term for a signature."""
    often = len(signature) > 64 and len(set(signature)) == 1
    return "%d*%02x" % (len(signature), signature[0]) if often else hexa(signature)


def to_trust(yes=True, key=BLOB, reply=None):
    return Question("host_key h " + hexa(key), "host_key", reply or answer(yes), [])


def to_accept(number, proof, yes, reply=None):
    return Question("user %d al ssh-connection %s" % (number, proof), str(number), reply or answer(yes), [])


class Signing:
    """Rows of one side."""

    def __init__(self, file, role, **how):
        self.file, self.role, self.t = file, role, Talk(**how)
        self.input = input_of(self.t.hash) if role == CLIENT else self.t.hash
        self.signature = sign("h", b"\x00", self.input)

    def term(self, *packets):
        """Packets as one term."""
        found = self.file.short(*packets)
        return found if isinstance(found, str) else found.hex()

    def start(self):
        """What is received and sent up to its signature: what is received, what that asks, and what is sent to it."""
        t, name = self.t, self.term
        if self.role == CLIENT:
            self.own, self.peer = half(t.c), half(t.s)
            return [([], None, [name(t.c_first)]), ([name(t.s_first)], None, [name(t.c_init)]),
                    ([name(t.s_reply)], to_trust(), [name(t.c_newkeys), name(t.c_service)])]
        self.own, self.peer = Half(SERVER), half(t.c)
        self.own.seq = 1
        return [([], None, [name(t.s_first)]), ([name(t.c_first)], None, [])]

    def ready(self):
        """What the packet is that asks for the first signature, or would."""
        t, name = self.t, self.term
        return [name(t.s_newkeys), name(t.s_accept)] if self.role == CLIENT else [name(t.c_init)]

    def both(self, name, settings, steps, *last, begin=None):
        """A row that its lines answer, and one whose decisions do. A step has what is received (packets, or the payload of the next one),
        what it asks, and the payloads that are sent to it."""
        start = self.start()
        waiting, begun, made = [], [], []
        for received, question, sent in (begin or start) + steps:
            if isinstance(received, bytes):
                received = [self.peer.send(received)]
            sent = [payload if isinstance(payload, str) else self.send(payload) for payload in sent]
            lines = [feed(*received)] if received else []
            if question is None:
                waiting += [lines, "question nothing", says(*sent)]
                begun += [lines, says(*sent), asked()]
            else:
                waiting += [lines, question.words, "says -", "held 0", "end open", question.reply, "question nothing", says(*sent)]
                begun += [lines, says(*sent), asked(question.asked_words)]
                made += question.made
        setting = [self.t.lines(), ["server hostkey h " + hexa(BLOB)] if self.role == SERVER else [], settings]
        name = "a %s %s" % (self.role, name)
        self.file.row(name + ", by its lines", setting, "waiting %s elsewhere" % self.role, waiting, "signed 0", last)
        self.file.row(name + ", by its decisions", setting, "begin %s elsewhere" % self.role, made, begun, "signed 0", last)

    def send(self, payload):
        """The packet of a payload; NEWKEYS takes its side's keys."""
        t = self.t
        keys = t.cs if self.role == CLIENT else t.sc
        return self.own.switch(keys, t.strict) if payload == NEWKEYS else self.own.send(payload)

    def let_in(self, received, sent):
        """The end of a session in which so many packets were received and sent under its keys: what goes on, as where the suite holds the
        key."""
        t = self.t
        ours, theirs = (t.c.seq, t.s.seq) if self.role == CLIENT else (t.s.seq, t.c.seq)
        own, peer = (t.cs, t.sc) if self.role == CLIENT else (t.sc, t.cs)
        agreed = "agreed %s %s %s none none %s %s" % (t.method, t.host_key[0], " ".join(t.chosen), "yes" if t.strict else "no", t.hash.hex())
        return ["end " + LET_IN, agreed, direction("in", theirs + received, peer), direction("out", ours + sent, own)]


def rows(file):
    for name, how in TALKS:
        a = Signing(file, CLIENT, **how)
        client_signs(a, name)
        client_plans(a, name)
        client_queries(a, name)
        server_signs(Signing(file, SERVER, **how), name)
    client_told(Signing(file, CLIENT))
    client_unasked(Signing(file, CLIENT))
    server_unasked(file)
    kinds(file)
    for role in (CLIENT, SERVER):
        out_of_order(Signing(file, role))
    holding(file)
    suites(file)
    over_deployed(file, "by names over the deployed suite", named)
    over_lab(file, "by names over", named)
    by_rsa(file)


# Clients.

def client_signs(a, name):
    """The attempt is made with the signature that is answered, whatever that is, or by `none` where it is refused."""
    one = tries(KEY)
    for what, signature in (("the signature", a.signature), ("another signature", bytes(32)), ("no byte", b""), ("8192 bytes", bytes([0x5a]) * LONGEST)):
        a.both("is answered with %s, %s" % (what, name), one, [
            (a.ready(), to_sign(0, a.input, signature), [by_signature(signature)]), (SUCCESS, None, [])], a.let_in(1, 1))
    for what, (made, line) in REFUSALS.items():
        a.both("is answered %s, %s" % (what, name), one, [
            (a.ready(), to_sign(0, a.input, made, line), [by_none()]), (FAILURE, None, [disconnect(14)])], "end failed F14", "session none")
        a.both("is answered %s, and let in, %s" % (what, name), one, [
            (a.ready(), to_sign(0, a.input, made, line), [by_none()]), (SUCCESS, None, [])], a.let_in(1, 1))


def client_plans(a, name):
    """Each attempt by a key asks for its own signature, with the number of those that are left after it."""
    other_ = bytes([7]) * 32
    plan, refused = tries(KEY, PASSWORD, KEY), REFUSALS["unsigned"]
    password = (FAILURE, None, [by_password(b"\x00")])
    a.both("asks for the same key twice, " + name, plan, [
        (a.ready(), to_sign(2, a.input, a.signature), [by_signature(a.signature)]), password,
        (FAILURE, to_sign(0, a.input, other_), [by_signature(other_)]), (SUCCESS, None, [])], a.let_in(3, 3))
    a.both("is refused the first of two, " + name, plan, [
        (a.ready(), to_sign(2, a.input, *refused), [by_none()]), password,
        (FAILURE, to_sign(0, a.input, a.signature), [by_signature(a.signature)]), (SUCCESS, None, [])], a.let_in(3, 3))
    a.both("is refused the second of two, " + name, plan, [
        (a.ready(), to_sign(2, a.input, a.signature), [by_signature(a.signature)]), password,
        (FAILURE, to_sign(0, a.input, *refused), [by_none()]), (FAILURE, None, [disconnect(14)])], "end failed F14", "session none")
    a.both("is refused both, " + name, plan, [
        (a.ready(), to_sign(2, a.input, *refused), [by_none()]), password,
        (FAILURE, to_sign(0, a.input, *refused), [by_none()]), (SUCCESS, None, [])], a.let_in(3, 3))
    a.both("skips a password, " + name, plan, [
        (a.ready(), to_sign(2, a.input, a.signature), [by_signature(a.signature)]),
        (failure(("publickey",)), to_sign(0, a.input, other_), [by_signature(other_)]), (SUCCESS, None, [])], a.let_in(2, 2))
    a.both("skips a key, " + name, tries(PASSWORD, KEY, PASSWORD), [
        (a.ready(), None, [by_password(b"\x00")]), (failure(("password",)), None, [by_password(b"\x00")]), (SUCCESS, None, [])], a.let_in(2, 2))
    a.both("asks after nothing was let in, " + name, tries(NOBODY, KEY), [
        (a.ready(), None, [by_none()]), (FAILURE, to_sign(0, a.input, a.signature), [by_signature(a.signature)]), (SUCCESS, None, [])], a.let_in(2, 2))
    key = string("k") + b"\x01\x02\x03"
    for what, held, told in (("another user, service, algorithm and key", key, key), ("another user, service and algorithm, with a key that has no name", key[5:], b"")):
        named = ("bo", "odd", "g", told)
        a.both("asks of %s, %s" % (what, name), tries("publickey g " + hexa(held), name="bo", service_name="odd"), [
            (a.ready(), to_sign(0, input_of(a.t.hash, *named), a.signature, algorithm="g", key=told), [by_signature(a.signature, *named)])],
            "end open", "session none")
    a.both("has a banner before its attempt, " + name, tries(PASSWORD, KEY), [
        (a.ready(), None, [by_password(b"\x00")]), (banner("hi"), None, []), (FAILURE, to_sign(0, a.input, a.signature), [by_signature(a.signature)])],
        "end open", "session none")


def client_queries(a, name):
    """A query asks for nothing; the attempt is made after PK_OK, and asks then."""
    one, refused = tries(QUERY), REFUSALS["unsigned"]
    ok = pk_ok()
    a.both("queries first, " + name, one, [
        (a.ready(), None, [by_query()]), (ok, to_sign(0, a.input, a.signature), [by_signature(a.signature)]), (SUCCESS, None, [])], a.let_in(2, 2))
    a.both("queries first, and is refused the signature, " + name, tries(QUERY, PASSWORD), [
        (a.ready(), None, [by_query()]), (ok, to_sign(1, a.input, *refused), [by_none()]), (FAILURE, None, [by_password(b"\x00")]),
        (SUCCESS, None, [])], a.let_in(3, 3))
    a.both("queries twice, " + name, tries(QUERY, QUERY), [
        (a.ready(), None, [by_query()]), (FAILURE, None, [by_query()]), (ok, to_sign(0, a.input, a.signature), [by_signature(a.signature)]),
        (SUCCESS, None, [])], a.let_in(3, 3))
    a.both("queries, and is let in unasked, " + name, one, [
        (a.ready(), None, [by_query()]), (SUCCESS, None, [])], a.let_in(1, 1))
    a.both("queries, and the next attempt asks, " + name, tries(QUERY, KEY), [
        (a.ready(), None, [by_query()]), (FAILURE, to_sign(0, a.input, a.signature), [by_signature(a.signature)]), (SUCCESS, None, [])], a.let_in(2, 2))
    a.both("is told PK_OK again, " + name, one, [
        (a.ready(), None, [by_query()]), (ok, to_sign(0, a.input, a.signature), [by_signature(a.signature)]), (ok, None, [disconnect(2)])],
        "end failed F6 60", "session none")


def client_told(a):
    """What the answer to the attempt before tells people is told before the signature is asked for."""
    t, name = a.t, a.file.short
    c, s = half(t.c), half(t.s)
    question = to_sign(0, a.input, a.signature)
    a.file.row("a client is told before it is asked", tries(NOBODY, KEY), "waiting client elsewhere", feed(name(t.s_first)), says(name(t.c_first), name(t.c_init)),
               feed(name(t.s_reply)), to_trust().words, answer(True), says(name(t.c_newkeys), name(t.c_service)), feed(name(t.s_newkeys), name(t.s_accept)),
               says(c.send(by_none())), feed(s.send(banner("hi")), s.send(FAILURE)), question.words,
               notices.told(notices.of_text("banner", b"hi"), notices.of_failure("password,publickey", 0)), "says -", question.reply, "question nothing",
               notices.told(), says(c.send(by_signature(a.signature))), "end open")


def client_unasked(a):
    """What makes no attempt by a key asks for no signature."""
    unexpected = [disconnect(2)]
    for what, message in (("another key", pk_ok("h", blob("h", b"\x01"))), ("another algorithm", pk_ok("g")), ("no key", pk_ok("h", b""))):
        a.both("asks nothing at PK_OK of " + what, tries(QUERY), [
            (a.ready(), None, [by_query()]), (message, None, unexpected)], "end failed F6 60", "session none")
    for what, message in (("PK_OK", b"\x3c"), ("FAILURE", b"\x33")):
        a.both("asks nothing at a malformed " + what, tries(QUERY, KEY), [
            (a.ready(), None, [by_query()]), (message, None, unexpected)], "end failed F5 %d" % message[0], "session none")
    a.both("asks nothing at PK_OK without a query", tries(PASSWORD, KEY), [
        (a.ready(), None, [by_password(b"\x00")]), (pk_ok(), None, unexpected)], "end failed F6 60", "session none")
    a.both("asks nothing at FAILURE that lists no key", tries(PASSWORD, KEY), [
        (a.ready(), None, [by_password(b"\x00")]), (failure(("password",)), None, [disconnect(14)])], "end failed F14", "session none")
    for name in ("ssh-connection", "ssh-userauth2", ""):
        other_ = packet(service(6, name), a.t.s.seq - 1, SEED[SERVER], a.t.sc)
        a.both("asks nothing at the answer of %s" % (name or "no service"), tries(KEY), [
            ([a.term(a.t.s_newkeys), other_], None, unexpected)], "end failed F6 6", "session none")
    a.both("asks nothing without an attempt", [], [(a.ready(), None, [disconnect(14)])], "end failed F14", "session none")
    for what, proofs, sent in (("a password", [PASSWORD], by_password(b"\x00")), ("nothing", [NOBODY], by_none())):
        a.both("asks nothing by " + what, tries(*proofs), [(a.ready(), None, [sent]), (SUCCESS, None, [])], a.let_in(1, 1))


# Servers.

def server_signs(a, name):
    """The exchange hash is signed by the answer, whatever that is; without one the exchange fails as F9."""
    settings = ["allow al none", "allow al publickey h 00"]
    request_ = (by_key(a.t.hash), to_accept(1, of_signed_key(), True), [SUCCESS])
    a.both("is answered with the signature, " + name, settings, [
        (a.ready(), to_sign(0, a.t.hash, a.signature), [reply(a.t.hash), NEWKEYS]),
        ([a.t.c_newkeys, a.t.c_service], None, [service(6, "ssh-userauth")]), request_], "verified 1", EXCHANGED, a.let_in(1, 1))
    for what, signature in (("a bit off", bytes([a.signature[0] ^ 1]) + a.signature[1:]), ("no byte", b""), ("8192 bytes", bytes([0x5a]) * LONGEST)):
        a.both("is answered with %s, %s" % (what, name), settings, [
            (a.ready(), to_sign(0, a.t.hash, signature), [reply(a.t.hash, signature), NEWKEYS]),
            ([a.t.c_newkeys, a.t.c_service], None, [service(6, "ssh-userauth")]),
            (by_none(), to_accept(1, "none", True), [SUCCESS])], "verified 0", EXCHANGED, a.let_in(1, 1))
    for what, (made, line) in REFUSALS.items():
        a.both("is answered %s, %s" % (what, name), settings, [
            (a.ready(), to_sign(0, a.t.hash, made, line), [disconnect(3)])], "end failed F9", HASHED, part(0, a.t.c_newkeys), "says -", "end failed F9", "session none")


def server_unasked(file):
    """What isn't the client's share asks for no signature: a share that the suite refuses, one that is guessed wrong, and what has no place."""
    a = Signing(file, SERVER)
    for what, payload, says_, end, times in (("a share of 32 bytes", b"\x1e" + string(share(RANDOM[CLIENT])[:32]), disconnect(3), "failed F9", 1),
                                             ("an empty share", b"\x1e" + string(b""), disconnect(3), "failed F9", 1),
                                             ("a malformed share", b"\x1e", disconnect(2), "failed F5 30", 0),
                                             ("a reply", reply(a.t.hash), disconnect(2), "failed F7 31", 0)):
        first = Half(CLIENT)
        first.send(a.t.ci)
        packet_ = first.send(payload)
        a.both("asks nothing at " + what, [], [([packet_], None, [says_])], "responded %d" % times, "digested 0", "end " + end, "session none")
    a = Signing(file, SERVER, guess=True, crossed=True)
    a.both("asks nothing at a wrong guess", [], [
        (a.ready(), to_sign(0, a.t.hash, a.signature), [reply(a.t.hash), NEWKEYS])], EXCHANGED, "end open", "session none")
    a = Signing(file, SERVER, guess=True)
    t = a.t
    for name, received in (("right guess", [t.c_first]), ("right guess in a packet of its own", [t.c_first[:-len(t.guessed)], t.guessed])):
        steps = [([], None, [t.s_first.hex()])] + [([piece], None, []) for piece in received[:-1]]
        a.both("asks at a " + name, [], [
            ([received[-1]], to_sign(0, t.hash, a.signature), [reply(t.hash), NEWKEYS])], EXCHANGED, "end open", "session none", begin=steps)


# Both.

def kinds(file):
    """An answer of the wrong kind is a no, or none."""
    a = Signing(file, CLIENT)
    t = a.t
    for what, line in (("a signature", "answer signature 00"), ("the server's signature", "answer signature " + hexa(sign("h", b"\x00", t.hash))),
                       ("unsigned", "answer unsigned")):
        wrong = packet(disconnect(9), 2, SEED[CLIENT])
        file.row("a client whose host key is answered %s" % what, tries(KEY), "waiting client elsewhere", feed(file.short(t.s_first)),
                 says(file.short(t.c_first), file.short(t.c_init)), feed(file.short(t.s_reply)), to_trust().words, line, "question nothing", says(wrong),
                 "verified 0", "end failed F10", "session none")
        c, s = half(t.c), half(t.s)
        refused = [s.send(FAILURE), s.send(SUCCESS)]
        heard, said = file.short(t.c_first, t.c_init, t.c_newkeys, t.c_service), file.short(t.s_first, t.s_reply, t.s_newkeys, t.s_accept)
        file.row("a server whose user is answered %s" % what, "waiting server", feed(heard), says(said), feed(c.send(by_key(t.hash))),
                 to_accept(1, of_signed_key(), True).words, "verified 1", line, "question nothing", says(refused[0]), "verified 0", "end open", feed(c.send(by_password(b"\x00"))),
                 to_accept(2, of_password(b"\x00"), True).words, answer(True), says(refused[1]), "end " + LET_IN)


def out_of_order(a):
    """Calls out of their order: answers that nothing asked for, bytes while it waits, the end of the input, and a DISCONNECT."""
    t, file, role = a.t, a.file, a.role
    question = to_sign(0, a.input, a.signature)
    no_answer = [line for word in ("signature 00", "unsigned", "yes", "no") for line in ("answer " + word, *NOTHING)]
    waits = [question.words, "says -", "held 0", "signed 0", "end open"]
    if role == CLIENT:
        settings, own, after = tries(KEY), half(t.c), [half(t.c).send(by_signature(a.signature))]
        start = ["waiting client elsewhere", feed(file.short(t.s_first)), says(file.short(t.c_first), file.short(t.c_init)), feed(file.short(t.s_reply)),
                 to_trust().words, answer(True), says(file.short(t.c_newkeys, t.c_service)), feed(file.short(t.s_newkeys))]
        packet_, more = t.s_accept, half(t.s).send(SUCCESS)
    else:
        settings, own, after = ["server hostkey h " + hexa(BLOB)], Half(SERVER), [t.s_reply, t.s_newkeys]
        own.seq = 1
        start = ["waiting server elsewhere", feed(file.short(t.c_first)), says(file.short(t.s_first))]
        packet_, more = t.c_init, t.c_newkeys

    def row(name, *lines):
        file.row("a %s %s" % (role, name), settings, start, lines)

    row("is answered before it asks", no_answer, feed(packet_), waits, question.reply, "question nothing", says(*after), "end open")
    row("is answered twice", feed(packet_), waits, question.reply, "question nothing", says(*after), no_answer, "end open")
    row("is answered within a packet", feed(packet_[:-1]), "held %d" % (len(packet_) - 1), no_answer, feed(packet_[-1:]), waits, question.reply, says(*after),
        "end open")
    row("leaves what is behind the question", part(len(packet_), packet_, more), waits, part(0, more), waits, question.reply, says(*after), feed(more), "says -",
        "held 0", "end " + LET_IN if role == CLIENT else "end open")
    row("uses nothing while it asks", feed(packet_), waits, part(0, more), waits, part(0, b"\x00" * 4000), waits, feed(), waits, question.reply, says(*after),
        "end open")
    ended = [*no_answer, part(0, more), "held 0"]
    row("whose input ends while it asks", feed(packet_), waits, "cut", *NOTHING, "end failed F16", ended, "cut", told(11, BYE), "says -", "end failed F16",
        "agreed nothing", "session none")
    row("that is told to disconnect while it asks", feed(packet_), waits, told(11, BYE), "question nothing", says(own.send(disconnect(11, BYE))),
        "end disconnected 11", ended, "cut", told(12), "says -", "end disconnected 11", "session none")


def holding(file):
    """Where the suite holds the key, nothing is asked, and the suite signs once."""
    t = Talk()
    c, s = half(t.c), half(t.s)
    sent, success = c.send(by_key(t.hash)), s.send(SUCCESS)
    heard, said = file.short(t.s_first, t.s_reply), file.short(t.c_first, t.c_init, t.c_newkeys, t.c_service)
    keys = [direction("in", s.seq, t.sc), direction("out", c.seq, t.cs)]
    file.row("a client whose suite holds its key", tries("publickey h 00"), "begin client", feed(heard), says(said), asked("host_key"), "signed 0",
             feed(t.s_newkeys, t.s_accept), says(sent), asked(), "signed 1", feed(success), "says -", "signed 0", "end " + LET_IN, keys)
    file.row("a client that waits, whose suite holds its key", tries("publickey h 00"), "waiting client", feed(heard), to_trust().words, answer(True), says(said),
             feed(t.s_newkeys, t.s_accept), "question nothing", says(sent), "signed 1", feed(success), "says -", "signed 0", "end " + LET_IN, keys)
    for act in ("begin", "waiting"):
        asks = asked() if act == "begin" else "question nothing"
        file.row("a server whose suite holds its key, %s" % act, act + " server", feed(t.c_first), says(t.s_first), "signed 0", feed(t.c_init),
                 says(t.s_reply, t.s_newkeys), asks, "signed 1", "end open")


def suites(file):
    """Which keys the suites hold, and what public keys they have of those that they don't."""
    long_key = bytes([0x5a]) * (LONGEST + 1)
    keys = (("no byte", b""), ("a byte", b"\x00"), ("31 bytes", bytes(31)), ("32 bytes", bytes(32)), ("33 bytes", bytes(33)), ("a public key", BLOB),
            ("8192 bytes", long_key[:-1]), ("8193 bytes", long_key))
    for name, key in keys:
        term = short(key)
        file.row("what is held elsewhere: " + name, "suite elsewhere", "holds h %s no" % term, "blob h %s %s" % (term, short(public_part(key, LONGEST))))
        file.row("what the lab suite holds: " + name, "suite lab", "holds h %s yes" % term, "blob h %s %s" % (term, hexa(blob("h", key))))
        held = len(key) == 32
        own = string("ssh-ed25519") + string(deployed.key_of(key)) if held else public_part(key, LONGEST)
        file.row("what the deployed suite holds: " + name, "suite deployed", "holds ssh-ed25519 %s %s" % (term, "yes" if held else "no"),
                 "blob ssh-ed25519 %s %s" % (term, short(own)), *["holds %s %s no" % (other_, term) for other_ in ("rsa-sha2-256", "rsa-sha2-512", "ssh-rsa", "h")],
                 "blob rsa-sha2-256 %s %s" % (term, short(public_part(key, LONGEST))))


def named(verdict):
    """What comes of a config's names, where a line `judged` says this of its names and private keys."""
    front, by_key, _ = verdict.replace("judged", "named", 1).partition("C14")
    return front + "fits" if by_key else front


def by_rsa(file):
    """A user's key and a host key of RSA over the deployed algorithms, whose suite verifies signatures of them and makes none."""
    pair = Key(prime(1024, 0), prime(1024, 1), 65537)
    key, names = pair.blob(), ("rsa-sha2-256", "rsa-sha2-512")
    for name in names:
        made = lambda data: string(name) + string(pair.signed(name, data))
        t = DeployedTalk((name, key, made))
        c, s = t.c, t.s
        data = input_of(t.hash, algorithm=name, key=key)
        request_, success = c.send(by_signature(made(data), algorithm=name, key=key)), s.send(SUCCESS)
        setting = ["%s %s %s" % (side, word, value) for side in (CLIENT, SERVER)
                   for word, value in (("kex", deployed.METHOD), ("cipher_cs", CIPHER), ("cipher_sc", CIPHER))]
        setting += ["client hostkey " + name, "server hostkey %s %s" % (name, hexa(key))]
        one, host = "client try al ssh-connection publickey %s %s" % (name, hexa(key)), hexa(key)
        of_user, of_host = to_sign(0, data, made(data), algorithm=name, key=key), to_sign(0, t.hash, made(t.hash), algorithm=name, key=key)
        end = ["end " + LET_IN, "agreed %s %s %s %s m m none none yes %s" % (deployed.METHOD, name, CIPHER, CIPHER, t.hash.hex())]
        keys_out = says(t.c_newkeys, t.c_service)
        file.row("a client's key of %s is elsewhere, by its lines" % name, setting, one, "waiting client deployed", feed(t.s_first), says(t.c_first, t.c_init),
                 feed(t.s_reply), "question host_key %s %s" % (name, host), answer(True), keys_out, "verified 1", feed(t.s_newkeys, t.s_accept), of_user.words, "says -",
                 of_user.reply, says(request_), feed(success), "says -", "signed 0", end)
        file.row("a client's key of %s is elsewhere, by its decisions" % name, setting, one, "deployed client", of_user.made, feed(t.s_first), says(t.c_first, t.c_init),
                 feed(t.s_reply), keys_out, asked("host_key"), "verified 1", feed(t.s_newkeys, t.s_accept), says(request_), asked(of_user.asked_words), feed(success),
                 "says -", "signed 0", end)
        asks = "user 1 al ssh-connection " + of_signed_key(key, name)
        file.row("a server's key of %s is elsewhere, by its lines" % name, setting, "waiting server deployed", feed(t.c_first), says(t.s_first), feed(t.c_init),
                 of_host.words, "says -", of_host.reply, says(t.s_reply, t.s_newkeys), feed(t.c_newkeys, t.c_service), says(t.s_accept), feed(request_),
                 "question " + asks, "verified 1", answer(True), says(success), "verified 0", "signed 0", end)
        file.row("a server's key of %s is elsewhere, by its decisions" % name, setting, "deployed server", of_host.made, feed(t.c_first), says(t.s_first), feed(t.c_init),
                 says(t.s_reply, t.s_newkeys), asked(of_host.asked_words), "signed 0", feed(t.c_newkeys, t.c_service), says(t.s_accept), "end open")

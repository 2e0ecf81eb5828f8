"""Endpoints that are told to disconnect: what they say, by the keys and the number at hand, and that they have ended. A description of
more than 1024 bytes isn't sent. Their phase, strictness and algorithms stay as they were, and so they do where the input ends."""
from lab import *
from deployed_sessions import DeployedCourse, packet_of
from requests import half

AL = ["client try al ssh-connection none"]
LIMIT = 1024
BYE = b"bye"
# reasons of RFC 4253 section 11.1, and others
REASONS = (0, 1, 2, 11, 14, 15, 16, 255, 256, 2 ** 31, 2 ** 32 - 1)
TALKS = {"strict": {}, "loose": {"strict": False}, "guessing": {"guess": True}, "guessed": {"guess": True, "crossed": True},
         "loosely guessing": {"strict": False, "guess": True}}


def told(reason, description=b""):
    often = len(description) > 4 and len(set(description)) == 1
    return "disconnect %d %s" % (reason, "%d*%02x" % (len(description), description[0]) if often else hexa(description))


def ended(reason, more, stands_):
    """It stands so for good, whatever comes: bytes, the end of its input, another word of its owner."""
    end = "end disconnected %d" % reason
    return ["held 0", end, stands_, part(0, more), "cut", told(reason + 1, BYE), end, stands_, "says -", "agreed nothing", "session none"]


def cut_off(more, stands_):
    """The same of one whose input has ended."""
    end = "end failed F16"
    return ["cut", "held 0", end, stands_, part(0, more), "cut", told(11, BYE), end, stands_, "says -", "agreed nothing", "session none"]


# the phase at each place, by the message that it waits for
PHASES = {"behind KEXINIT": "exchange", "behind the share": "newkeys", "behind the reply": "newkeys", "behind NEWKEYS": "service",
          "in authentication": "auth", "within an answer": "auth", "behind a refused request": "auth"}


def stands(t, place):
    """How an endpoint stands there: both sides are strict where both announce it, and there are algorithms once the peer's KEXINIT has come."""
    if place not in PHASES:
        return "stands kexinit none"
    return "stands %s %s %s %s %s none none" % (PHASES[place], "yes" if t.strict else "no", t.method, t.host_key[0], " ".join(t.chosen))


def client_places(t):
    """Up to where a client has come, what it has received for that, what it has sent to it, how it goes on to say, and what it is asked."""
    c = Half(CLIENT)
    c.send(t.ci)
    if t.guess:
        c.send(INIT)
    yield "at its making", [], [], half(c), []
    yield "behind the version line", [LINE], [], half(c), []
    yield "within KEXINIT", [t.s_first[:-1]], [], half(c), []
    if t.c_init:
        c.send(INIT)
    yield "behind KEXINIT", [t.s_first], [t.c_init], half(c), []
    c.switch(t.cs, t.strict)
    c.send(service(5, "ssh-userauth"))
    sent = [t.c_init, t.c_newkeys, t.c_service]
    yield "behind the reply", [t.s_first, t.s_reply], sent, half(c), ["host_key"]
    yield "behind NEWKEYS", [t.s_first, t.s_reply, t.s_newkeys], sent, half(c), ["host_key"]
    request_ = c.send(by_none())
    received = [t.s_first, t.s_reply, t.s_newkeys, t.s_accept]
    yield "in authentication", received, sent + [request_], half(c), ["host_key"]
    s = half(t.s)
    yield "within an answer", received + [s.send(b"\x35" + string(b"hi") + string(b""))[:-1]], sent + [request_], half(c), ["host_key"]


def server_places(t):
    """The same of a server."""
    s = Half(SERVER)
    s.send(t.si)
    yield "at its making", [], [], half(s), []
    yield "within the version line", [LINE[:-1]], [], half(s), []
    yield "behind the version line", [LINE], [], half(s), []
    if t.c_init:
        yield "behind KEXINIT", [t.c_first], [], half(s), []
    s.send(reply(t.hash))
    s.switch(t.sc, t.strict)
    sent = [t.s_reply, t.s_newkeys]
    yield "behind the share", [t.c_first, t.c_init], sent, half(s), []
    yield "behind NEWKEYS", [t.c_first, t.c_init, t.c_newkeys], sent, half(s), []
    received = [t.c_first, t.c_init, t.c_newkeys, t.c_service]
    accept = s.send(service(6, "ssh-userauth"))
    yield "in authentication", received, sent + [accept], half(s), []
    c = half(t.c)
    refused = s.send(failure())
    yield "behind a refused request", received + [c.send(by_none())], sent + [accept, refused], half(s), [1]


def begun(file, role, first, received, sent, questions):
    """An endpoint up to one of these places."""
    return ["begin " + role, [feed(file.short(*received))] if received else [], says(file.short(first, *sent)), asked(*questions) if questions else []]


def rows(file):
    for name, how in TALKS.items():
        t = Talk(**how)
        for role, places, first in ((CLIENT, client_places, t.c_first), (SERVER, server_places, t.s_first)):
            for place, received, sent, own, questions in places(t):
                begun_ = begun(file, role, first, received, sent, questions)
                standing = stands(t, place)
                file.row("a %s %s, %s" % (role, place, name), t.lines(), AL, begun_, "end open", standing,
                         told(11, BYE), says(own.send(disconnect(11, BYE))), ended(11, LINE, standing))
                file.row("the input of a %s ends %s, %s" % (role, place, name), t.lines(), AL, begun_, "end open", standing, cut_off(LINE, standing))
    reasons(file)
    descriptions(file)
    over(file)
    deployed(file)
    words(file)


def both(file, t, sealed):
    """Each side at its making, or in authentication where packets are sealed."""
    for role, places in ((CLIENT, client_places), (SERVER, server_places)):
        place, received, sent, own, questions = next(x for x in places(t) if x[0] == ("in authentication" if sealed else "at its making"))
        first = t.c_first if role == CLIENT else t.s_first
        yield role, own, begun(file, role, first, received, sent, questions)


def reasons(file):
    """Any reason is taken."""
    for reason in REASONS:
        for role, own, start in both(file, Talk(), True):
            file.row("a %s, reason %d" % (role, reason), AL, start, told(reason), says(own.send(disconnect(reason))), "end disconnected %d" % reason)


def descriptions(file):
    """A description up to its limit, in clear and sealed; a longer one isn't sent. It is counted in bytes, and any text is taken."""
    texts = {"of %d bytes" % n: bytes([97 + n % 26]) * n for n in (0, 1, LIMIT - 1, LIMIT, LIMIT + 1, LIMIT + 2, 4096, 32768, 70000)}
    texts.update({"with control characters": b"\x00\x07\r\n\x1b[0m\x7f", "of two lines": b"a\r\nb", "beyond ASCII": "\u00e4\u20ac\U0001f512".encode(),
                  "of 1024 bytes, two for each character": "\u00e4".encode() * 512, "of 1025 bytes, two for most characters": b"x" + "\u00e4".encode() * 512})
    for how, text in texts.items():
        sent_text = text if len(text) <= LIMIT else b""
        for sealed in (False, True):
            for role, own, start in both(file, Talk(), sealed):
                file.row("a %s, a description %s, %s" % (role, how, "sealed" if sealed else "in clear"), AL, start, told(11, text),
                         says(own.send(disconnect(11, sent_text))), "end disconnected 11")


def over(file):
    """An endpoint that has ended sends nothing, and stands as it did."""
    t = Talk()
    for role, own, start in both(file, t, True):
        peer = half(t.s if role == CLIENT else t.c)
        nothing = [told(11, BYE), "says -"]
        file.row("a %s that is told of a DISCONNECT" % role, AL, start, feed(peer.send(disconnect(2))), "end closed 2", nothing, "end closed 2", "session none")
        file.row("a %s whose input has ended" % role, AL, start, "cut", nothing, "end failed F16", "session none")
        wrong = bytearray(half(t.s if role == CLIENT else t.c).send(NEWKEYS))
        wrong[-1] ^= 1
        file.row("a %s that has failed" % role, AL, start, feed(bytes(wrong)), says(half(own).send(disconnect(5))), "end failed F4", nothing, "end failed F4")
        if role == CLIENT:
            last, answers, questions = half(t.s).send(SUCCESS), [], []
        else:
            last, answers, questions = half(t.c).send(by_none()), [half(own).send(SUCCESS)], [1]
        numbers = ((t.s.seq + 1, own.seq) if role == CLIENT else (t.c.seq + 1, own.seq + 1))
        file.row("a %s that is authenticated" % role, AL, "allow al none", start, feed(last), says(*answers), asked(*questions) if questions else [], nothing,
                 "end authenticated al ssh-connection",
                 ["session %s %d c m %s %s %s" % (way, n, k.iv.hex(), k.enc.hex(), k.mac_key.hex())
                  for way, n, k in zip(("in", "out"), numbers, (t.sc, t.cs) if role == CLIENT else (t.cs, t.sc))])
        file.row("a %s's DISCONNECT closes its peer" % role, AL, "begin " + other(role),
                 feed(*([t.c_first, t.c_init, t.c_newkeys, t.c_service] if role == CLIENT else [t.s_first, t.s_reply, t.s_newkeys])),
                 says(*([t.s_first, t.s_reply, t.s_newkeys, t.s_accept] if role == CLIENT else [t.c_first, t.c_init, t.c_newkeys, t.c_service])),
                 asked("host_key") if role == SERVER else [],
                 feed(closing(t, role)), "end closed 11", "says -")


def closing(t, role):
    """What a side sends that is told to disconnect where its peer goes on to receive."""
    if role == CLIENT:
        return half(t.c).send(disconnect(11, BYE))
    s = half(t.s)
    s.seq = 0
    return s.send(disconnect(11, BYE))


def deployed(file):
    """The same over the algorithms that are deployed."""
    course = DeployedCourse()
    t, names = course.t, [line for line in course.lines if not line.startswith("allow ")]
    request_, answer = course.requests[0], course.answers[0]
    for role, received, sent, own, questions in (
            (CLIENT, [t.s_first, t.s_reply, t.s_newkeys, t.s_accept], [t.c_first, t.c_init, t.c_newkeys, t.c_service, request_], t.c, ["host_key"]),
            (SERVER, [t.c_first, t.c_init, t.c_newkeys, t.c_service], [t.s_first, t.s_reply, t.s_newkeys, t.s_accept], t.s, [])):
        # the server of the course has sent SUCCESS besides
        number = own.seq if role == CLIENT else own.seq - 1
        for text in (b"", BYE, b"x" * LIMIT, b"x" * (LIMIT + 1)):
            sent_text = text if len(text) <= LIMIT else b""
            file.row("a deployed %s, a description of %d bytes" % (role, len(text)), names, "deployed " + role, feed(*received), says(*sent),
                     asked(*questions) if questions else [], told(11, text), says(packet_of(disconnect(11, sent_text), number, SEED[role], own.keys)),
                     "end disconnected 11", part(0, answer if role == CLIENT else request_), "end disconnected 11", "session none")


def words(file):
    """Of two words the first holds. After packets that are told one by one memory may be wanting (scripts/memory_rows.py)."""
    t = Talk()
    for role, own, start in both(file, t, False):
        file.row("a %s is told twice" % role, AL, start, told(11, BYE), told(2), says(own.send(disconnect(11, BYE))), "end disconnected 11")
    for role, places, first in ((CLIENT, client_places, t.c_first), (SERVER, server_places, t.s_first)):
        _, received, sent, own, questions = next(x for x in places(t) if x[0] == "in authentication")
        file.row("a %s in authentication, packet by packet" % role, AL, "begin " + role, feed(*received), says(first, *sent),
                 asked(*questions) if questions else [], told(11, BYE), says(own.send(disconnect(11, BYE))), "end disconnected 11")

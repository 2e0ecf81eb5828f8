"""What an endpoint is told that its peer tells people: by a line before the version line, a DISCONNECT, a DEBUG with always_display, a
banner and a FAILURE; and nothing of a message that is refused, dropped, or says nothing to people."""
from lab import *
from deployed_sessions import DeployedCourse, packet_of
from disconnecting import begun, client_places, server_places
from requests import half

AL = ["client try al ssh-connection none"]
TEXTS = {"no text": b"", "a text": b"hi", "two lines": b"a\r\nb\n", "any bytes": b"\xff\x00\x1b[2J\x80", "1025 bytes": b"t" * 1025}
TALKS = {"strict": {}, "loose": {"strict": False}, "guessed": {"guess": True, "crossed": True},
         "loosely guessed": {"strict": False, "guess": True, "crossed": True}}


def debug(display, text=b"hi", language=b""):
    return b"\x04" + bytes([display]) + string(text) + string(language)


def banner_of(text, language=b""):
    return b"\x35" + string(text) + string(language)


def lists(names, partial):
    """A FAILURE with this text and this flag."""
    return b"\x33" + string(names) + bytes([partial])


def told(*notices):
    return "told " + (" ".join(notices) or "nothing")


def of_text(kind, text, language=b""):
    return "%s %s %s" % (kind, hexa(text), hexa(language))


def of_failure(names, partial):
    return "failure '%s %s" % (names, "yes" if partial else "no")


class Place:
    """A side that has come so far, and its peer, which goes on to say."""

    def __init__(self, file, t, role, name, lines=()):
        places = client_places(t) if role == CLIENT else server_places(t)
        _, received, sent, self.own, questions = next(x for x in places if x[0] == name)
        first = t.c_first if role == CLIENT else t.s_first
        self.begun = [t.lines(), AL, *lines, begun(file, role, first, received, sent, questions)]
        self.file, self.peer = file, peer_at(t, role, name)

    def row(self, name, payloads, notices, answers=(), end="open"):
        """Each payload in a piece of its own, then all that was told."""
        self.file.row(name, self.begun, [feed(self.peer.send(p)) for p in payloads], says(*[self.own.send(p) for p in answers]), told(*notices),
                      "end " + end)


def peer_at(t, role, name):
    """What the peer sends with after what the side has received."""
    peer = Half(other(role))
    if name in ("at its making", "behind the version line"):
        return peer
    peer.send(t.si if role == CLIENT else t.ci)
    if role == SERVER and t.guess:
        peer.send(INIT)
    if name == "behind KEXINIT":
        return peer
    if role == CLIENT:
        peer.send(reply(t.hash))
    elif t.c_init:
        peer.send(INIT)
    if name in ("behind the reply", "behind the share"):
        return peer
    peer.switch(t.sc if role == CLIENT else t.cs, t.strict)
    if name == "behind NEWKEYS":
        return peer
    peer.send(service(6 if role == CLIENT else 5, "ssh-userauth"))
    return peer


PLACES = {CLIENT: ("behind the version line", "behind KEXINIT", "behind the reply", "behind NEWKEYS", "in authentication"),
          SERVER: ("behind the version line", "behind KEXINIT", "behind the share", "behind NEWKEYS", "in authentication")}
# a second attempt, which a FAILURE of `none` leads to
BO = ["client try bo ssh-connection none"]


def in_auth(file, t, role=CLIENT, lines=()):
    return Place(file, t, role, "in authentication", lines)


def rows(file):
    for name, how in TALKS.items():
        t = Talk(**how)
        for role in (CLIENT, SERVER):
            for place in PLACES[role]:
                everywhere(file, t, role, place, "a %s %s, %s" % (role, place, name))
    t = Talk()
    texts(file, t)
    failures(file, t)
    several(file, t)
    ended(file, t)
    malformed(file, t)
    useless(file, t)
    refused(file, t)
    dropped(file)
    deployed(file)
    lines_before(file, t)


def lines_before(file, t):
    """Lines before the version line: a client takes 20 at the most, a server none; the one that is one too many is told too, as the last."""
    client, server = ["begin client", says(t.c_first)], ["begin server", says(t.s_first)]

    def row(name, begun, received, lines, end, used=None):
        notices = told(*["line " + hexa(line) for line in lines])
        file.row("lines before the version line: " + name, begun, part(len(received) if used is None else used, received), notices, "end " + end)

    first = t.s_first
    for name, line in (("a text", b"hi"), ("none in it", b""), ("any bytes", b"\xff\x1b[2J\x80"), ("a CR inside", b"a\rb"),
                       ("253 bytes", b"l" * 253), ("SSH-, not in front", b" SSH-2.0-x"), ("SSH without a hyphen", b"SSH")):
        row(name, client, line + b"\r\n", [line], "open")
        row(name + ", and the version line", client, line + b"\r\n" + LINE, [line], "open")
    row("without CR", client, b"hi\n", [b"hi"], "open")
    row("254 bytes without CR", client, b"l" * 254 + b"\n", [b"l" * 254], "open")
    row("two CRs", client, b"hi\r\r\n", [b"hi\r"], "open")
    row("one that isn't ended", client, b"hi", [], "open")
    row("255 bytes without LF", client, b"a\n" + b"l" * 255, [b"a"], "failed F1")
    row("a NUL", client, b"a\nb\0c\n", [b"a"], "failed F1", 4)
    row("a version line that is refused", client, b"a\nSSH-1.99-x\r\nb\n", [b"a"], "failed F1", 14)
    twenty = [b"line %d" % n for n in range(20)]
    row("20", client, b"".join(line + b"\r\n" for line in twenty), twenty, "open")
    row("21", client, b"".join(line + b"\r\n" for line in twenty + [b"too many"]), twenty + [b"too many"], "failed F1")
    ended = b"".join(line + b"\r\n" for line in twenty + [b"too many"])
    row("two behind the 21st", client, ended + b"b\r\nc\r\n", twenty + [b"too many"], "failed F1", len(ended))
    row("255 bytes, LF, and a line", client, b"a\n" + b"l" * 255 + b"\nb\n", [b"a"], "failed F1", 257)
    row("three at a server", server, b"GET / HTTP/1.1\r\nHost: a\r\n\r\n", [b"GET / HTTP/1.1"], "failed F1", 16)
    row("one at a server", server, b"GET / HTTP/1.1\r\n", [b"GET / HTTP/1.1"], "failed F1")
    file.row("lines before the version line: none behind it", client, feed(b"a\n" + first), says(t.c_init), told("line 61"), "end open")


def everywhere(file, t, role, place, name):
    """DISCONNECT is told of in each place; DEBUG where it may be shown, and is no deviation from a strict key exchange."""
    if role == SERVER and place == "behind KEXINIT" and t.guess:
        # the packet of the wrong guess stands before what is sent here
        return
    Place(file, t, role, place).row(name + ": DISCONNECT", [disconnect(11, b"bye", b"en")], ["disconnect 11 627965 656e"], end="closed 11")
    ruled = t.strict and place in ("behind KEXINIT", "behind the reply", "behind the share")
    for display in (0, 1):
        notices = [of_text("debug", b"hi", b"de")] if display and not ruled else []
        Place(file, t, role, place).row("%s: DEBUG %d" % (name, display), [debug(display, b"hi", b"de")], notices, [disconnect(2)] if ruled else [],
                                        "failed F7 4" if ruled else "open")


def texts(file, t):
    """The bytes of a text and of its language, as they came, of each kind."""
    for how, text in TEXTS.items():
        for language in (b"", b"en", b"\x00\xff"):
            name = "%s, language %s" % (how, hexa(language))
            for role in (CLIENT, SERVER):
                for reason in (0, 11, 2 ** 32 - 1) if text == b"hi" else (2,):
                    in_auth(file, t, role).row("a %s's DISCONNECT of %d, %s" % (other(role), reason, name), [disconnect(reason, text, language)],
                                               [of_text("disconnect %d" % reason, text, language)], end="closed %d" % reason)
                in_auth(file, t, role).row("a %s's DEBUG, %s" % (other(role), name), [debug(1, text, language)], [of_text("debug", text, language)])
            in_auth(file, t).row("a banner, " + name, [banner_of(text, language)], [of_text("banner", text, language)])
    # each byte but 00 is true (RFC 4251 section 5)
    for display in range(256):
        in_auth(file, t).row("DEBUG with always_display %02x" % display, [debug(display)], [of_text("debug", b"hi")] if display else [])


def failures(file, t):
    """The methods that can continue, and whether the request was successful as one of several."""
    for names in ("", "password", "password,publickey", "publickey,password,x@example.com", "none"):
        for partial in (0, 1, 2, 255):
            answer, end = (by_none("bo"), "open") if names == "none" else (disconnect(14), "failed F14")
            in_auth(file, t, lines=BO).row("FAILURE of %s, %d" % (names or "nothing", partial), [lists(names, partial)], [of_failure(names, partial)],
                                           [answer], end)


def several(file, t):
    """Several are told in their order, each once."""
    received = [(banner_of(b"a"), [of_text("banner", b"a")]), (debug(0), []), (debug(7, b"b"), [of_text("debug", b"b")]), (b"\x02" + string(b"c"), []),
             (unimplemented(0), []), (banner_of(b"d", b"e"), [of_text("banner", b"d", b"e")])]
    last = [(lists("none", 1), [of_failure("none", 1)]), (disconnect(3, b"f"), [of_text("disconnect 3", b"f")])]
    payloads, notices = [p for p, _ in received + last], [n for _, ns in received + last for n in ns]
    in_auth(file, t, lines=BO).row("several, one by one", payloads, notices, [by_none("bo")], "closed 3")
    place = in_auth(file, t, lines=BO)
    file.row("several, looked at one by one", place.begun, told(), [[feed(place.peer.send(p)), told(*ns)] for p, ns in received],
             feed(place.peer.send(last[0][0])), told(*last[0][1]), says(place.own.send(by_none("bo"))), "end open")
    place = in_auth(file, t, lines=BO)
    file.row("several in one piece", place.begun, feed(*[place.peer.send(p) for p in payloads]), says(place.own.send(by_none("bo"))), told(*notices),
             "end closed 3")
    for text in (b"hi", b""):
        own = Talk(banner_text=text.decode())
        place = Place(file, own, CLIENT, "behind NEWKEYS")
        file.row("a banner of %d bytes in one piece with the answer before" % len(text), place.begun, feed(own.s_accept + own.s_banner),
                 says(place.own.send(by_none())), told(of_text("banner", text)), "end open")


def ended(file, t):
    """Nothing is told before a message is whole, and nothing once the endpoint has ended."""
    place = Place(file, t, SERVER, "behind KEXINIT")
    file.row("an unfinished DISCONNECT", place.begun, feed(place.peer.send(disconnect(11))[:-1]), told(), "end open")
    place = in_auth(file, t)
    closing, more = place.peer.send(disconnect(3, b"f")), place.peer.send(banner_of(b"a"))
    file.row("nothing behind a DISCONNECT", place.begun, part(len(closing), closing, more), told(of_text("disconnect 3", b"f")), "end closed 3",
             part(0, more), told(), "end closed 3")
    place = in_auth(file, t)
    success, more = place.peer.send(SUCCESS), place.peer.send(debug(1))
    file.row("nothing behind SUCCESS", place.begun, part(len(success), success, more), told(), "end authenticated al ssh-connection")
    place = in_auth(file, t)
    file.row("nothing behind an own DISCONNECT", place.begun, "disconnect 11 -", says(place.own.send(disconnect(11))), part(0, place.peer.send(banner_of(b"a"))),
             told(), "end disconnected 11")


def malformed(file, t):
    """Nothing is told of a message that can't be read."""
    for name, payload, roles in (("DISCONNECT", disconnect(11, b"hi"), (CLIENT, SERVER)), ("DEBUG", debug(1), (CLIENT, SERVER)),
                                 ("banner", banner_of(b"hi"), (CLIENT,)), ("FAILURE", failure(), (CLIENT,))):
        for how, wrong in (("cut", payload[:-1]), ("and more", payload + b"\x00"), ("alone", payload[:1])):
            for role in roles:
                in_auth(file, t, role).row("a %s hears a malformed %s, %s" % (role, name, how), [wrong], [], [disconnect(2)], "failed F5 %d" % payload[0])
    in_auth(file, t).row("a client hears a FAILURE with an empty name", [lists(",a", 0)], [], [disconnect(2)], "failed F5 51")


def useless(file, t):
    """Nothing of a message that came where it has no use."""
    loose = Talk(strict=False)
    for payload in (banner_of(b"hi"), failure()):
        n = payload[0]
        for name, place, end in (("a server hears %d" % n, in_auth(file, t, SERVER), "failed F6 %d"),
                                 ("a client hears %d before its service is accepted" % n, Place(file, t, CLIENT, "behind NEWKEYS"), "failed F6 %d"),
                                 ("a client hears %d in clear" % n, Place(file, loose, CLIENT, "behind KEXINIT"), "failed F6 %d"),
                                 ("a strict client hears %d in clear" % n, Place(file, t, CLIENT, "behind KEXINIT"), "failed F7 %d")):
            place.row(name, [payload], [], [disconnect(2)], end % n)


def refused(file, t):
    """Nothing of a packet with a wrong tag. What was told before a failure stays told."""
    for role in (CLIENT, SERVER):
        for name, payload in (("DISCONNECT", disconnect(11, b"hi")), ("DEBUG", debug(1))):
            place = in_auth(file, t, role)
            wrong = bytearray(place.peer.send(payload))
            wrong[-1] ^= 1
            file.row("a %s hears a %s with a wrong tag" % (role, name), place.begun, feed(bytes(wrong)), says(place.own.send(disconnect(5))), told(),
                     "end failed F4")
        Place(file, t, role, "behind the version line").row("a %s, DEBUG before KEXINIT" % role, [debug(1), t.si if role == CLIENT else t.ci],
                                                            [of_text("debug", b"hi")], [disconnect(2)], "failed F7 20")


def dropped(file):
    """In the place of a wrong guess nothing is read but DISCONNECT."""
    for strict in (True, False):
        t, how = Talk(strict=strict, guess=True, crossed=True), "strict" if strict else "loose"
        c, s = Half(CLIENT), Half(SERVER)
        s.seq = 1
        received = LINE + c.send(t.ci)
        start = [t.lines(), "begin server", feed(file.short(received)), says(file.short(t.s_first))]
        file.row("DISCONNECT in the place of a guess, " + how, start, feed(half(c).send(disconnect(11, b"hi"))), told(of_text("disconnect 11", b"hi")),
                 "end closed 11")
        file.row("DEBUG in the place of a guess, " + how, start, feed(half(c).send(debug(1))), says(s.send(disconnect(2))) if strict else "says -", told(),
                 "end failed F7 4" if strict else "end open")


def deployed(file):
    """The same over the algorithms that are deployed."""
    course = DeployedCourse()
    t, names = course.t, [line for line in course.lines if not line.startswith("allow ")]
    received, sent = [t.s_first, t.s_reply, t.s_newkeys, t.s_accept], [t.c_first, t.c_init, t.c_newkeys, t.c_service, course.requests[0]]
    # the server of the course has sent SUCCESS besides
    number = t.s.seq - 1
    payloads = [banner_of(b"hi", b"en"), debug(0), debug(1, b"a"), disconnect(11, b"bye")]
    file.row("a deployed client", names, "deployed client", feed(*received), says(*sent), asked("host_key"),
             feed(*[packet_of(p, number + n, SEED[SERVER], t.s.keys) for n, p in enumerate(payloads)]),
             told(of_text("banner", b"hi", b"en"), of_text("debug", b"a"), of_text("disconnect 11", b"bye")), "end closed 11")

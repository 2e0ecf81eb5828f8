"""Hostile use of whole sessions: packets put in, streams cut off or into pieces, and each bit of them flipped. What has to come of it
is worked out by receiver.py, or by the pieces of the session itself; no program is asked."""
from lab import *
from auth import COURSES, Course, LET_IN
from receiver import Receiver
from limits import accepted

# the numbers that UNIMPLEMENTED answers (RFC 4253 section 11.4; which these are is profile)
UNKNOWN = {*range(8, 20), *range(22, 30), *range(32, 50), *range(54, 60), *range(61, 80)}
# A flipped bit means nothing in the padding of the three packets in clear: it may be any bytes (RFC 4253 section 6), no MAC covers it
# before NEWKEYS (section 6.4), and it isn't hashed (section 8). Its places in the stream that a side receives:
PADDING = {(SERVER, "strict"): [(125, 135), (178, 183), (189, 199)], (SERVER, "loose"): [(96, 103), (146, 151), (157, 167)],
           (CLIENT, "strict"): [(125, 135), (259, 263), (269, 279)], (CLIENT, "loose"): [(125, 135), (259, 263), (269, 279)]}

# how many flipped bits end so, as docs/HOSTILE.md has it
ENDS = ["failed F1", "failed F2", "failed F3", "failed F4", "failed F5", "failed F6", "failed F7", "failed F8", "failed F9", "failed F11", "open",
        LET_IN[:10]]
COUNTS = {(SERVER, "strict"): (88, 737, 12, 1094, 437, 7, 16, 102, 7, 0, 44, 200),
          (CLIENT, "strict"): (88, 97, 11, 835, 502, 7, 16, 102, 7, 1225, 46, 192),
          (SERVER, "loose"): (88, 517, 12, 0, 396, 20, 0, 96, 7, 0, 24, 176),
          (CLIENT, "loose"): (88, 61, 11, 0, 502, 20, 0, 102, 7, 1225, 24, 192)}


class Session:
    """A whole session as one role receives it: each unit, what is sent for it, and what that asks."""
    receiver = Receiver

    def __init__(self, file, role, name, course):
        t, self.role, self.course, self.name = course.t, role, course, name
        c, s = [t.c_init, t.c_newkeys + t.c_service] + course.requests, [t.s_reply + t.s_newkeys, t.s_accept] + course.answers
        if role == SERVER:
            units, self.first, questions = [t.c_first, t.c_init, t.c_newkeys, t.c_service] + course.requests, t.s_first, course.asked
            sent, asks = [b"", s[0], b""] + s[1:], [[], [], [], []] + questions
        else:
            units, self.first = [t.s_first, t.s_reply, t.s_newkeys, t.s_accept] + course.answers, t.c_first
            sent, asks = c[:2] + [b""] + c[2:] + [b""], [[], ["host_key"], [], []] + [[]] * len(course.answers)
        self.turns = list(zip(units, sent, asks))
        self.received, self.says = b"".join(units), self.first + b"".join(sent)
        self.marks = [len(self.first + b"".join(sent[:n])) for n in range(len(sent) + 1)]
        self.receives = file.name("%s-%s" % (other(role), name), self.received)
        self.own = file.name("%s-%s" % (role, name), self.says)
        self.is_strict, self.is_willing = course.t.strict, course.t.strict or role == SERVER
        lines = [line for line in course.lines if not line.startswith(other(role)) and (role == SERVER or not line.startswith("allow"))]
        self.begin = lines + ["begin " + role]

    def by(self, count):
        """What is sent and asked by the first bytes, past the first unit, and how many of them are held."""
        sent, asks, rest = self.first, [], count
        for unit, answer, questions in self.turns:
            if rest < len(unit):
                return sent, asks, rest
            sent, asks, rest = sent + answer, asks + questions, rest - len(unit)
        return sent, asks, 0

    def whole(self):
        return ["says " + self.own, asked(*self.by(len(self.received))[1]), "end " + LET_IN]

    def sent(self, data):
        """Terms for what is sent: answers as the session has them by the name, and what stands after those."""
        same = max(n for n in self.marks if data[:n] == self.says[:n])
        return says(self.own if same == len(self.says) else "%s:0:%d" % (self.own, same), data[same:])


def rows(file):
    simple, loose, both = (Course(COURSES[name], how) for name, how in (("simplest", {}), ("simplest", {"strict": False}), ("both", {})))
    for role in (SERVER, CLIENT):
        strict, loosely, twice = (Session(file, role, name, course) for name, course in (("strict", simple), ("loose", loose), ("both", both)))
        assert [len(x.received) for x in (strict, loosely, twice)] == {SERVER: [343, 311, 519], CLIENT: [391, 391, 463]}[role]
        for session in (strict, loosely):
            injected(file, session)
            flips(file, session)
        for session in (strict, twice):
            truncated(file, session)
            cuts(file, session)
        unread(file, strict)
        three_pieces(file, strict)
        injected(file, twice)
    other_line(file, Session(file, CLIENT, "strict", simple))


def judged(file, name, session, terms_, data):
    """A row of a stream that is received as far as it goes. Where the end is open, the input ends after it."""
    ear = session.receiver(session.role, session.is_willing, data)
    if ear.end == LET_IN:
        assert ear.own.sent == session.says
    received = feed(*terms_) if ear.used + ear.held == len(data) else part(ear.used, *terms_)
    closing = ["held %d" % ear.held, "cut", "end failed F16"] if ear.end == "open" else []
    file.row(name, session.begin, received, session.sent(ear.own.sent), asked(*ear.asked) if ear.asked else [], "end " + ear.end,
             [session.course.agreed()] if ear.end == LET_IN else [], closing)
    return ear.end


def end_of(n, place, strict, share_number):
    """The end of a stream in front of whose packet a number stands alone."""
    if n == 1 or n in (2, 3, 4) and (place == 0 or not strict) or (place, n) in ((0, 20), (1, share_number)):
        return "failed F5 %d" % n
    if strict and place:
        return "failed F7 %d" % n
    if n in UNKNOWN:
        return "failed F7 20" if strict else "open"
    return "failed F6 %d" % n


def injected(file, s):
    """A packet of each number alone, with a padding of ten bytes 00, stands in front of packet 0, 1 or 2, and the stream ends after
    NEWKEYS; then IGNORE, UNIMPLEMENTED and DEBUG that are whole."""
    first, second, third = (len(unit) for unit, _, _ in s.turns[:3])
    share_number = 30 if s.role == SERVER else 31
    whole = {2: b"\x02" + u32(0), 3: b"\x03" + u32(0), 4: b"\x04\x00" + u32(0) + u32(0)}
    for place, at in enumerate((len(LINE), first, first + second)):
        # 21 in front of NEWKEYS is NEWKEYS itself
        numbers = [n for n in range(256) if (place, n) != (2, 21)]
        cases = [("%d alone" % n, "0000000c0a%02x 10*00" % n, end_of(n, place, s.is_strict, share_number)) for n in numbers]
        cases += [("a whole %d" % n, packet(whole[n], place, SEED[other(s.role)]).hex(),
                   "open" if not s.is_strict else "failed F7 %d" % (n if place else 20)) for n in whole]
        for name, put, wanted in cases:
            end = judged(file, "%s %s, %s in front of packet %d" % (s.role, s.name, name, place), s,
                         ["%s:0:%d" % (s.receives, at), put, "%s:%d:%d" % (s.receives, at, first + second + third)],
                         s.received[:at] + bytes.fromhex(put.replace("10*00", "00" * 10)) + s.received[at:first + second + third])
            assert end == wanted


def flips(file, s):
    """Each bit of the stream; of a loose one each up to NEWKEYS, since nothing changes after it but numbers."""
    ends = []
    nothing = {place for start, end in PADDING[s.role, s.name] for place in range(start, end)}
    sealed = sum(len(unit) for unit, _, _ in s.turns[:3])
    for place in range(len(s.received) if s.is_strict else sealed):
        for bit in range(8):
            end = flipped(file, s, "%s %s, bit %d of byte %d" % (s.role, s.name, bit, place), s.received, place, bit)
            assert (end == LET_IN) == (place in nothing)
            # after NEWKEYS a packet is refused by its length or its tag; byte 262 of the client's is the last of its first tag
            assert place < sealed or end in ("failed F2", "failed F4", "open")
            assert (s.role, place) != (SERVER, 262) or end == "failed F4"
            ends.append(end[:10].rstrip())
    assert tuple(ends.count(end) for end in ENDS) == COUNTS[s.role, s.name] and len(ends) == sum(COUNTS[s.role, s.name])


def flipped(file, s, name, data, place, bit):
    byte = bytes([data[place] ^ 1 << bit])
    front = ["%s:0:%d" % (s.receives, place)] if data is s.received else [data[:place]]
    back = ["%s:%d" % (s.receives, place + 1)] if data is s.received else [data[place + 1:len(data) - len(s.received)], s.receives]
    return judged(file, name, s, front + [byte] + back, data[:place] + byte + data[place + 1:])


def other_line(file, s):
    """A line before the version line. It isn't hashed, and may be any bytes (RFC 4253 section 4.2) but a NUL, up to an LF: so a bit means
    nothing, unless it makes the line begin with SSH-, or a NUL, or takes the LF away."""
    line = b"RSH-J *\r\n"
    for place in range(len(line)):
        for bit in range(8):
            end = flipped(file, s, "%s, bit %d of byte %d of a line before" % (s.role, bit, place), line + s.received, place, bit)
            assert (end == LET_IN) == ((place, bit) not in ((0, 0), (5, 5)) and place != 8)


def unread(file, s):
    """Each bit of first_kex_packet_follows and of the reserved word, where the peer has sent it so: the guess is a right one, the word
    means nothing, and both sides hash them (RFC 4253 sections 7, 7.1 and 8)."""
    offer = s.course.t.ci if s.role == SERVER else s.course.t.si
    for place in range(len(offer) - 5, len(offer)):
        for bit in range(8):
            changed = offer[:place] + bytes([offer[place] ^ 1 << bit]) + offer[place + 1:]
            accepted(file, "%s, bit %d of byte %d of a KEXINIT, sent so" % (s.role, bit, place), s.role, changed)


def truncated(file, s):
    """The input ends after each byte past the fronts that endpoint.py has, which are the same in each session: a server's up to
    SERVICE_REQUEST, a client's up to NEWKEYS."""
    for count in range(sum(len(unit) for unit, _, _ in s.turns[:4 if s.role == SERVER else 3]) + 1, len(s.received)):
        sent, asks, held = s.by(count)
        if s.name == "strict":
            ear = Receiver(s.role, True, s.received[:count])
            assert (ear.own.sent, ear.asked, ear.held) == (sent, asks, held)
        file.row("%s %s, the input ends behind %d" % (s.role, s.name, count), s.begin, "feed %s:0:%d" % (s.receives, count), s.sent(sent),
                 asked(*asks) if asks else [], "held %d" % held, "end open", "cut", "end failed F16", "held 0", "part 0 %s:%d" % (s.receives, count),
                 "end failed F16")
    file.row("%s %s, whole" % (s.role, s.name), s.begin, "feed " + s.receives, s.whole(), s.course.agreed(), "cut", "end " + LET_IN)


def cuts(file, s):
    for at in range(1, len(s.received)):
        file.row("%s %s, cut at %d" % (s.role, s.name, at), s.begin, "feed %s:0:%d" % (s.receives, at), "feed %s:%d" % (s.receives, at), s.whole())


def three_pieces(file, s):
    """Each cut into three pieces whose places are among the first 120."""
    for at in range(1, 120):
        for then in range(at + 1, 121):
            file.row("%s, cut at %d and %d" % (s.role, at, then), s.begin, "feed %s:0:%d" % (s.receives, at),
                     "feed %s:%d:%d" % (s.receives, at, then), "feed %s:%d" % (s.receives, then), s.whole())

"""Packets that say nothing, after NEWKEYS: how many bytes of them are taken, on both sides of the limit, at both roles. Each
counts its payload and 276 bytes more."""
from lab import *

IGNORE = b"\x02" + string(b"\xa5" * 40)
UNKNOWN = b"\x3d"
KINDS = {"IGNORE": IGNORE, "an empty IGNORE": b"\x02" + string(b""), "UNIMPLEMENTED": b"\x03" + u32(7),
         "DEBUG": b"\x04\x00" + string(b"hi") + string(b""), "EXT_INFO": b"\x07" + u32(0), "a number without a meaning": UNKNOWN,
         "the last such number": b"\x4f" + bytes(9), "a long IGNORE": b"\x02" + string(bytes(3000))}


def cost(payload):
    return len(payload) + 276


def answers(payload, seq):
    """What is sent for a payload that is taken."""
    return [unimplemented(seq)] if payload[0] not in (2, 3, 4, 7) else []


class Side:
    """Rows of an endpoint of this role, right after the peer's NEWKEYS. `clear`: what the peer sends in clear besides, after its
    KEXINIT, where it isn't strict."""

    def __init__(self, file, role, clear=()):
        self.file, self.role = file, role
        strict = not clear
        t = self.t = Talk(strict=strict or role == CLIENT, server_strict=strict or role == SERVER)
        own, keys = Half(other(role)), t.cs if role == SERVER else t.sc
        self.peer = own
        first = own.send(t.ci if role == SERVER else t.si)
        besides = b"".join(own.send(payload) for payload in clear)
        exchange = own.send(INIT if role == SERVER else reply(t.hash))
        newkeys = own.switch(keys, strict)
        line = b"SSH-2.0-lab_1\r\n"
        if role == SERVER:
            self.start = [feed(line, first, besides, exchange, newkeys), says(t.s_first, t.s_reply, t.s_newkeys)]
            self.own = after(SERVER, t.sc, strict, 3)
        else:
            self.start = [says(t.c_first), feed(line, first, besides), says(t.c_init), feed(exchange, newkeys),
                          says(t.c_newkeys, t.c_service), asked("host_key")]
            self.own = after(CLIENT, t.cs, strict, 3)
            self.own.seq += 1

    def row(self, name, limit, payloads, end, fails=None):
        """All payloads are taken but the last, where the session fails."""
        peer, own, body = half(self.peer), half(self.own), []
        for place, payload in enumerate(payloads):
            seq = peer.seq
            piece = feed(peer.send(payload))
            last = fails and place == len(payloads) - 1
            body += [piece, says(*[own.send(x) for x in ([disconnect(2)] if last else answers(payload, seq))])]
        lines = [] if limit is None else ["ignored %d" % limit]
        self.file.row("%s, %s" % (self.role, name), "config " + self.role, lines, "generous", self.start, body, "end " + end)

    def limits(self, name, payloads):
        """One byte below what these payloads count, exactly that, and one byte more than that: where all are taken, one more isn't."""
        whole = sum(cost(payload) for payload in payloads)
        self.row(name + ", one byte below", whole - 1, payloads, "failed F17", True)
        self.row(name + ", at the limit", whole, payloads, "open")
        self.row(name + ", at the limit, and one more", whole, payloads + [payloads[0]], "failed F17", True)
        self.row(name + ", one byte above", whole + 1, payloads, "open")


def half(of):
    own = Half(of.role)
    own.seq, own.keys = of.seq, of.keys
    return own


def after(role, keys, strict, sent):
    """A side that has sent so many packets, NEWKEYS the last of them."""
    own = Half(role)
    own.seq, own.keys = 0 if strict else sent, keys
    return own


def rows(file):
    for role in (CLIENT, SERVER):
        side = Side(file, role)
        for name, payload in KINDS.items():
            side.limits(name, [payload])
        side.limits("each kind", list(KINDS.values()))
        side.limits("100 of them", [IGNORE] * 100)
        side.row("no limit", None, [IGNORE] * 100 + [KINDS["a long IGNORE"]] * 3, "open")
        side.row("the greatest limit", 4294967295, [IGNORE] * 100, "open")
        side.row("nothing may come", 0, [IGNORE], "failed F17", True)
        short = b"\x02" + u32(5)
        side.row("malformed, at the limit", cost(short), [short], "failed F5 2", True)
        side.row("malformed, one byte below", cost(short) - 1, [short], "failed F17", True)
        clear(file, role)
    goes_on(file)


def clear(file, role):
    """What came in clear doesn't count."""
    side = Side(file, role, [IGNORE] * 3)
    side.row("three in clear, and one sealed", cost(IGNORE), [IGNORE], "open")
    side.row("three in clear, and two sealed", cost(IGNORE), [IGNORE, IGNORE], "failed F17", True)
    side.row("three in clear, and nothing may come", 0, [], "open")
    side.row("three in clear, and one of too many", 0, [IGNORE], "failed F17", True)


def goes_on(file):
    """Messages that say something don't count, and all that may come may come between them."""
    side = Side(file, SERVER)
    peer, own = half(side.peer), half(side.own)
    lines = ["config server", "ignored %d" % (2 * cost(IGNORE)), "generous", side.start]
    lines += [feed(peer.send(IGNORE)), "says -", feed(peer.send(service(5, "ssh-userauth"))), says(own.send(service(6, "ssh-userauth")))]
    lines += [feed(peer.send(IGNORE)), "says -"]
    file.row("server, at the limit the user is let in", lines, feed(peer.send(by_none())), says(own.send(b"\x34")), asked(1),
             "end authenticated al ssh-connection")
    lines = ["config server", "ignored 0", "generous", side.start]
    peer, own = half(side.peer), half(side.own)
    lines += [feed(peer.send(service(5, "ssh-userauth"))), says(own.send(service(6, "ssh-userauth")))]
    file.row("server, where nothing may come the user is let in", lines, feed(peer.send(by_none())), says(own.send(b"\x34")), asked(1),
             "end authenticated al ssh-connection")

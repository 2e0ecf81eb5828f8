"""An endpoint in small: what one of the lab's ends says to a stream that may be any bytes, and its end, from the formats and the
profile alone. Of what is sealed it knows what a packet has to be, and of messages after NEWKEYS those of the simplest session."""
import re

from lab import *
from auth import LET_IN
from choices import chosen, guess
from requests import is_name
from table import PLACES, ranges

VERSION = re.compile(rb"SSH-2\.0-[!-,.-~]+( [ -~]*)?\r\n")
# what stands after a number: one byte, 16 bytes, a uint32, a string, a name-list, an mpint, any bytes to the end
FORMS = {1: "uss", 2: "s", 3: "u", 4: "bss", 5: "s", 6: "s", 20: "c" + 10 * "l" + "bu", 21: "", 30: "m", 31: "sms", 50: "*", 52: ""}
TABLE = {place[:3]: ranges(place[4]) for place in PLACES if not place[3]}


class Ends(Exception):
    """The end, and the reason of the DISCONNECT that is sent of it, or none."""


def is_shortest(body):
    """Whether it is the shortest body of an mpint (RFC 4251 section 5)."""
    return not (body[:1] == b"\x00" and body[1:2] < b"\x80" or body[:1] == b"\xff" and body[1:2] >= b"\x80")


def fields_of(payload, forms=FORMS):
    """The fields of a message, or None where it is malformed."""
    rest, out = payload[1:], []
    for kind in forms[payload[0]]:
        size = {"b": 1, "c": 16, "u": 4, "*": len(rest)}.get(kind)
        if size is None:
            size, rest = int.from_bytes(rest[:4], "big") if len(rest) > 3 else len(rest) + 1, rest[4:]
        if size > len(rest):
            return None
        field, rest = rest[:size], rest[size:]
        if kind == "l" and field and not all(is_name(name) for name in field.split(b",")) or kind == "m" and not is_shortest(field):
            return None
        out.append(field)
    return None if rest else out


def lists_of(fields):
    """The eight lists of a KEXINIT that are chosen from."""
    return [tuple(body.decode().split(",")) if body else () for body in fields[1:9]]


class Receiver:
    """One of the lab's ends: a client with the attempt `none`, or a server that grants it. It receives a stream up to its end, or as far
    as that goes. What is the lab suite's own is a method each, for another suite."""

    FORMS, TAG, INIT, BLOB, REQUEST = FORMS, 32, INIT, BLOB, by_none()
    half = Half

    def __init__(self, role, willing, stream):
        self.role, self.willing, self.stream, self.strict, self.phase = role, willing, stream, False, "kexinit"
        self.own, self.number, self.keys, self.used, self.asked, self.end = self.half(role), 0, None, 0, [], "open"
        self.own.sent, self.offer = LINE, self.offer_of(role, willing)
        self.own.send(self.offer)
        try:
            self.receive_line()
            while self.receive_packet():
                pass
        except Ends as ends:
            self.end, reason = ends.args
            if reason:
                self.own.send(disconnect(reason))
        self.held = len(stream) - self.used if self.end == "open" else 0

    def receive_line(self):
        """Lines up to the version line (RFC 4253 section 4.2)."""
        start, others = 0, 0
        for at, byte in enumerate(self.stream):
            if byte == 0 or at - start == 254 and byte != 10:
                self.used = at + 1
                raise Ends("failed F1", None)
            if byte == 10:
                line, start, self.used = self.stream[start:at + 1], at + 1, at + 1
                others += 1
                if VERSION.fullmatch(line):
                    self.version = line[:-2]
                    return
                if line.startswith(b"SSH-") or others > (20 if self.role == CLIENT else 0):
                    raise Ends("failed F1", None)
        raise Ends("open", None)

    @staticmethod
    def offer_of(role, willing):
        return kexinit(role, strict=willing)

    def is_length(self, n):
        """Whether a packet may have this length."""
        return n >= 12 and not (4 + n) % 8

    def length_in(self, first):
        """packet_length in the first four bytes of a packet that is sealed."""
        return xor(first, blocks(self.keys.enc + self.keys.iv, self.number, 4))

    def unsealed(self, whole):
        """The packet in clear, or none where its tag is wrong."""
        clear = xor(whole[:-32], blocks(self.keys.enc + self.keys.iv, self.number, len(whole) - 32))
        return clear if whole[-32:] == sha(self.keys.mac_key, u32(self.number), clear) else None

    def go_on(self, size):
        """Makes the keys of the next packet of those of a packet of so many bytes."""

    def receive_packet(self):
        """One packet (RFC 4253 section 6), and what comes of it; none where it isn't whole."""
        place, tag = self.used, self.TAG if self.keys else 0
        first = self.stream[place:place + 4]
        if len(first) < 4:
            return False
        n = int.from_bytes(self.length_in(first) if self.keys else first, "big")
        whole = self.stream[place:place + 4 + n + tag]
        if not (self.is_length(n) if self.keys else Receiver.is_length(self, n)) or 4 + n + tag > 35000:
            self.used += 4
            raise Ends("failed F2", 2)
        if len(whole) < 4 + n + tag:
            return False
        self.used += len(whole)
        clear = self.unsealed(whole) if self.keys else whole
        if clear is None:
            raise Ends("failed F4", 5)
        if clear[4] < 4 or clear[4] >= n - 1:
            raise Ends("failed F3", 2)
        self.number += 1
        self.go_on(len(whole))
        self.receive(clear[5:4 + n - clear[4]])
        return True

    def receive(self, payload):
        """What the phase table has for it."""
        number = payload[0]
        word = TABLE[self.role, self.phase, self.strict or self.phase == "kexinit"][number]
        if word in ("deviates", "unexpected"):
            raise Ends("failed %s %d" % ("F7" if word == "deviates" else "F6", number), 2)
        if word == "unknown":
            self.own.send(unimplemented(self.number - 1))
            return
        fields = fields_of(payload, self.FORMS)
        if fields is None:
            raise Ends("failed F5 %d" % number, 2)
        if word == "closes":
            raise Ends("closed %d" % int.from_bytes(fields[0], "big"), None)
        if word != "ignores":
            {20: self.receive_kexinit, 30: self.receive_init, 31: self.receive_reply, 21: self.receive_newkeys}.get(number, self.after)(payload, fields)

    def receive_kexinit(self, payload, fields):
        lists = lists_of(fields)
        self.theirs, self.phase = payload, "exchange"
        self.strict = self.willing and MARK[other(self.role)] in lists[0]
        if self.strict and self.number != 1:
            raise Ends("failed F7 20", 2)
        pair = [lists_of(fields_of(self.offer)), lists][::1 if self.role == CLIENT else -1]
        if chosen(*pair).startswith("none"):
            raise Ends("failed F8 " + chosen(*pair)[5:], 3)
        # so no packet is dropped as that of a wrong guess
        assert fields[11] == b"\x00" or guess(*pair) == "guess yes"
        if self.role == CLIENT:
            self.own.send(self.INIT)

    @staticmethod
    def share(random):
        return share(random)

    @staticmethod
    def shared(random, theirs):
        """What both sides share, or none where the share is refused."""
        return shared(random, theirs) if len(theirs) == 33 and theirs[0] == 1 else None

    @staticmethod
    def reply(h):
        return reply(h)

    @staticmethod
    def is_signed(key, h, signature):
        return is_signed_by(key, h, signature)

    @staticmethod
    def keys_of(sender, k, h):
        return keys_of(sender, k, h)

    def exchange(self, e, f, key):
        """The shared secret and the exchange hash (RFC 4253 section 8)."""
        random, theirs = (RANDOM[CLIENT], f) if self.role == CLIENT else (RANDOM[SERVER], e)
        k, order = self.shared(random, theirs), 1 if self.role == CLIENT else -1
        if k is None:
            raise Ends("failed F9", 3)
        parts = [LINE[:-2], self.version][::order] + [self.offer, self.theirs][::order] + [key, e, f, k]
        return k, sha(*(string(x) for x in parts))

    def switch(self, k, h):
        """Sends NEWKEYS, and keeps the keys for what is received after the other's."""
        self.own.switch(self.keys_of(self.role, k, h), self.strict)
        self.coming, self.phase = self.keys_of(other(self.role), k, h), "newkeys"

    def receive_init(self, _, fields):
        k, h = self.exchange(fields[0], self.share(RANDOM[SERVER]), self.BLOB)
        self.own.send(self.reply(h))
        self.switch(k, h)

    def receive_reply(self, _, fields):
        self.asked.append("host_key")
        k, h = self.exchange(self.share(RANDOM[CLIENT]), fields[1], fields[0])
        if not self.is_signed(fields[0], h, fields[2]):
            raise Ends("failed F11", 3)
        self.switch(k, h)
        self.own.send(service(5, "ssh-userauth"))

    def receive_newkeys(self, *_):
        self.keys, self.phase, self.number = self.coming, "service", 0 if self.strict else self.number

    def after(self, payload, _):
        """After NEWKEYS a changed packet is refused by its length or its tag, so each that comes here is as it was sent."""
        answer = {service(5, "ssh-userauth"): service(6, "ssh-userauth"), service(6, "ssh-userauth"): self.REQUEST, self.REQUEST: SUCCESS,
                  SUCCESS: None}[payload]
        self.phase = "auth"
        if payload[0] == 50:
            self.asked.append(1)
        if answer:
            self.own.send(answer)
        if payload[0] in (50, 52):
            raise Ends(LET_IN, None)

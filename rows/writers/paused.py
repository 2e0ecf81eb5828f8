"""The record of a paused endpoint: what stands in it, as bytes, and which bytes are the record of an endpoint with a config and a suite."""

from lab import *
import ciphers
from receiver import fields_of
from requests import is_name

VERSION = 4
PHASES = ("kexinit", "exchange", "newkeys", "service", "auth")
MPINT, OCTETS, HYBRID = range(3)
LINE_LIMIT, PACKET_LIMIT, DIGEST_LIMIT, BLOB_LIMIT, TRIES_LIMIT = 255, 35000, 64, 8192, 20
# the message that leaves each phase
LEAVING = {CLIENT: (20, 31, 21, 6, 52), SERVER: (20, 30, 21, 5, 50)}


class Unreadable(Exception):
    """The bytes are no record."""


class Record:
    """What stands in a record; at first that of an endpoint which has received nothing. Keys are a Keys of lab.py or None; algorithms
    eight names or None; `lines` how many other lines are taken and the unfinished one, or None; `packets` keys, number and the unfinished
    packet; `waiting` the payload of a packet or None; `suite` what it is written over; `missing` how many bytes more are
    wanted, where that isn't what they are."""

    def __init__(self, role, left=0, **parts):
        self.role, self.confirmed, self.left, self.phase, self.guess = role, True, left, 0, False
        self.form, self.strict, self.first, self.version, self.kexinit, self.session, self.algorithms = MPINT, False, True, b"", b"", b"", None
        self.request, self.allowance, self.user, self.service, self.password, self.publickey = 1, None, b"", b"", False, False
        self.pending, self.own_version, self.host_key, self.user_key = None, b"", b"", None
        self.keys, self.number = None, 1
        self.lines, self.packets, self.waiting = (20 if role == CLIENT else 0, b""), None, None
        self.suite, self.missing = Lab, None
        self.put(**parts)

    def put(self, **parts):
        """The same with other parts."""
        assert set(parts) <= set(self.__dict__)
        self.__dict__.update(parts)
        return self

    def text(self):
        missing = self.wanted(self.suite) if self.missing is None else self.missing
        out = [VERSION, missing, self.held(), int(self.role == SERVER), self.confirmed, self.left, self.phase, self.guess]
        out += [self.form, self.strict, self.first, self.version, self.kexinit, self.session, *maybe(self.algorithms)]
        out += [self.request, *maybe(None if self.allowance is None else [self.allowance])]
        out += [self.user, self.service, self.password, self.publickey]
        out += [*maybe(parts_of(self.pending)), self.own_version, self.host_key, *maybe(self.user_key)]
        out += [*maybe(parts_of(self.keys)), self.number]
        if self.lines:
            out += [0, self.lines[0]]
        else:
            keys, number, _ = self.packets
            out += [1, *maybe(parts_of(keys)), number]
        out += maybe(None if self.waiting is None else [self.waiting])
        return b"".join(string(x) if isinstance(x, bytes) else u32(x) for x in out)

    def held(self):
        """The bytes of the unfinished line or packet."""
        return self.lines[1] if self.lines else self.packets[2]

    def wanted(self, suite):
        """How many bytes more are wanted before anything comes of them: up to the end of the field of the packet's length, then up to the
        packet's end; none of a line, of which each byte is looked at, and none where a packet waits."""
        if self.lines or self.waiting is not None:
            return 0
        keys, number, held = self.packets
        return max(0, whole_len(suite, keys, number, held) - len(held))


def maybe(parts):
    """What may be missing: a flag, and where it is there its parts."""
    return [0] if parts is None else [1, *parts]


def parts_of(keys):
    return keys and [keys.cipher.encode(), keys.mac.encode(), keys.iv, keys.enc, keys.mac_key]


class Text:
    """The bytes of a record that aren't read yet."""

    def __init__(self, rest):
        self.rest = rest

    def take(self, n):
        if len(self.rest) < n:
            raise Unreadable
        out, self.rest = self.rest[:n], self.rest[n:]
        return out

    def number(self, end=2 ** 32):
        n = int.from_bytes(self.take(4), "big")
        if n >= end:
            raise Unreadable
        return n

    def flag(self):
        return self.number(2) == 1

    def bytes(self):
        return self.take(self.number())

    def maybe(self, read):
        return read() if self.flag() else None

    def names(self, count):
        """So many names (RFC 4251 section 6)."""
        out = [self.bytes() for _ in range(count)]
        if not all(is_name(name) for name in out):
            raise Unreadable
        return [name.decode() for name in out]

    def keys(self):
        return Keys(*self.names(2), self.bytes(), self.bytes(), self.bytes())

    def utf8(self):
        try:
            return self.bytes().decode("utf-8").encode()
        except UnicodeDecodeError:
            raise Unreadable from None

    def most(self, limit):
        """Bytes, of which there are at most so many."""
        out = self.bytes()
        if len(out) > limit:
            raise Unreadable
        return out

    def record(self):
        self.number()
        missing, held = self.number(), self.bytes()
        r = Record((CLIENT, SERVER)[self.number(2)], missing=missing)
        r.confirmed, r.left, r.phase, r.guess = self.flag(), self.number(), self.number(5), self.flag()
        r.form, r.strict, r.first = self.number(3), self.flag(), self.flag()
        r.version, r.kexinit, r.session = self.most(LINE_LIMIT), self.most(PACKET_LIMIT), self.most(DIGEST_LIMIT)
        r.algorithms = self.maybe(lambda: self.names(8))
        r.request, r.allowance = self.number(TRIES_LIMIT + 1), self.maybe(self.number)
        r.user, r.service, r.password, r.publickey = self.utf8(), self.utf8(), self.flag(), self.flag()
        r.pending, r.own_version, r.host_key = self.maybe(self.keys), self.bytes(), self.bytes()
        r.user_key = self.maybe(lambda: (self.utf8(), self.bytes()))
        r.keys, r.number = self.maybe(self.keys), self.number()
        if self.number(2):
            r.lines, r.packets = None, (self.maybe(self.keys), self.number(), held)
        else:
            r.lines = (self.number(), held)
        r.waiting = self.maybe(lambda: self.most(PACKET_LIMIT))
        if self.rest:
            raise Unreadable
        return r


class Lab:
    """What the lab suite answers."""

    @staticmethod
    def tag_len(keys):
        return 32

    @staticmethod
    def counted(keys):
        return 4

    @staticmethod
    def form(kex):
        return MPINT

    @staticmethod
    def block(cipher):
        return 16 if cipher.endswith("16") else 8

    @staticmethod
    def head(keys, number, first):
        return xor(first, blocks(keys.enc + keys.iv, number, 4))

    @staticmethod
    def holds(algorithm, private):
        return True

    @staticmethod
    def blob(algorithm, private):
        return blob(algorithm, private)

    @staticmethod
    def can_sign(algorithm):
        return True

    @staticmethod
    def is_signed(key, data, signature):
        return is_signed_by(key, data, signature)

    @staticmethod
    def responds(kex, theirs):
        return len(theirs) == 33 and theirs[0] == 1


class Elsewhere(Lab):
    """The lab suite without its private keys."""

    @staticmethod
    def holds(algorithm, private):
        return False

    @staticmethod
    def blob(algorithm, private):
        return public_part(private)


class Deployed:
    """What the suite of deployed algorithms answers of what no key exchange is about."""

    tag_len, counted, block = map(staticmethod, (ciphers.tag_len, ciphers.counted, ciphers.block))

    @staticmethod
    def form(kex):
        return MPINT if kex == "diffie-hellman-group14-sha256" else OCTETS

    @staticmethod
    def head(keys, number, first):
        return u32(ciphers.head(keys, number, first))


class Config:
    """What of a config and its suite a record is judged by. An attempt is its user, its service and its proof: None, the bytes of a password,
    or an algorithm, the private key, and whether it is asked about first."""

    def __init__(self, role, suite=Lab, plan=(), tries=6, services=("ssh-connection",), methods=("password", "publickey"), private=b"\x00"):
        self.role, self.suite, self.plan, self.tries, self.services, self.methods = role, suite, list(plan), tries, services, methods
        # of a server's host keys, by their algorithms
        self.host_keys = {"h": private}

    def left(self, r):
        """What is left of the plan, of which the first attempt may be confirmed."""
        left = self.plan[max(0, len(self.plan) - r.left):]
        if r.confirmed and left and isinstance(left[0][2], tuple):
            left[0] = left[0][:2] + (left[0][2][:2] + (False,),)
        return left


def reads(text, config):
    """What the bytes make that are taken for a record: `v`, another version; `u`, no record; `m`, an endpoint with this record."""
    if len(text) >= 4 and text[:4] != u32(VERSION):
        return "v"
    try:
        return "m" if fits(Text(text).record(), config) else "u"
    except Unreadable:
        return "u"


def fits(r, config):
    """Whether an endpoint with this config and this suite may have what stands in the record."""
    exchanged, chosen = r.phase >= 2, r.phase >= 1
    if r.role != config.role or (r.algorithms is not None) != chosen or r.keys and not exchanged:
        return False
    if chosen and r.form != config.suite.form(r.algorithms[0]):
        return False
    if r.lines:
        reads_on = len(r.lines[1]) < LINE_LIMIT and not set(r.lines[1]) & {0, 10}
    else:
        reads_on = is_unfinished(config.suite, *r.packets)
    idle = r.lines is None and r.packets[2] == b""
    return reads_on and r.missing == r.wanted(config.suite) and (r.waiting is None or idle and asks(r, config, r.waiting))


def whole_len(suite, keys, number, held):
    """How many bytes there are once more is judged of the packet that begins with these (RFC 4253 section 6): its length, or it."""
    if len(held) < 4:
        return 4
    first = suite.head(keys, number, held[:4]) if keys else held[:4]
    return 4 + int.from_bytes(first, "big") + (suite.tag_len(keys) if keys else 0)


def is_unfinished(suite, keys, number, held):
    """Whether the bytes are the first of a packet whose length is taken, and not all of it."""
    if len(held) < 4:
        return True
    tag, block, counted = (suite.tag_len(keys), suite.block(keys.cipher), suite.counted(keys)) if keys else (0, 8, 4)
    whole = whole_len(suite, keys, number, held)
    n = whole - 4 - tag
    return n >= 8 + counted and (n + counted) % block == 0 and whole <= PACKET_LIMIT and len(held) < whole


def has_place(r, number, waits):
    """Whether a packet of this number, one of those that may ask, is read there."""
    ruled, leaves = r.strict and r.phase in (1, 2), number == LEAVING[r.role][r.phase]
    if r.guess:
        return False
    if ruled or leaves:
        return leaves
    return r.phase == 4 and r.role == CLIENT and (number == 51 or waits and number == 60)


def asks(r, config, payload):
    """Whether a packet with this payload asks something."""
    forms = {6: "s", 30: "m", 31: "sms", 50: "*", 51: "lb", 60: "ss"} if r.form == MPINT else {6: "s", 30: "s", 31: "sss", 50: "*", 51: "lb", 60: "ss"}
    number, left = payload[0] if payload else None, config.left(r)
    if number not in forms or not has_place(r, number, bool(left) and is_query(left[0])):
        return False
    fields = fields_of(payload, forms)
    if fields is None:
        return False
    if number == 31:
        return True
    if number == 30:
        algorithm = r.algorithms[1]
        return config.suite.responds(r.algorithms[0], fields[0]) and not config.suite.holds(algorithm, config.host_keys.get(algorithm, b""))
    if number == 50:
        return request_asks(r, config, payload)
    if number == 51:
        listed = fields[0].decode().split(",") if fields[0] else []
        later = left[1:]
        while later and method_of(later[0]) not in listed:
            later = later[1:]
        return attempt_asks(config, later)
    if number == 6:
        return fields[0] == b"ssh-userauth" and attempt_asks(config, left)
    algorithm, key = fields
    proof = left[0][2]
    return algorithm == proof[0].encode() and key == config.suite.blob(*proof[:2]) and not config.suite.holds(*proof[:2])


def is_query(attempt):
    return isinstance(attempt[2], tuple) and attempt[2][2]


def method_of(attempt):
    proof = attempt[2]
    return "none" if proof is None else "password" if isinstance(proof, bytes) else "publickey"


def attempt_asks(config, left):
    """Whether the first of these attempts asks for its signature when it is made."""
    proof = left[0][2] if left else None
    return isinstance(proof, tuple) and not proof[2] and not config.suite.holds(*proof[:2])


def request_asks(r, config, payload):
    """Whether a request asks (RFC 4252 sections 5 to 8): one by a key only by a signature that is right in the record's session."""
    text = Text(payload[1:])
    try:
        user, service_name, method = text.utf8(), text.bytes(), text.bytes()
        if method == b"none":
            return not text.rest and in_list(service_name, config.services)
        if method not in (b"password", b"publickey"):
            return False
        flag = text.take(1) != b"\x00"
        algorithm = text.bytes() if flag or method == b"publickey" else None
        key = text.bytes()
        signature = text.bytes() if method == b"publickey" and flag else None
    except Unreadable:
        return False
    if text.rest or not in_list(service_name, config.services) or not in_list(method, config.methods):
        return False
    if method == b"password":
        return not flag
    if not is_name(algorithm) or not config.suite.can_sign(algorithm.decode()):
        return False
    if flag:
        return config.suite.is_signed(key, input_of(r.session, user, service_name, algorithm, key), signature)
    return r.request < config.tries and len(key) <= BLOB_LIMIT


def in_list(name, names):
    return name in [n.encode() for n in names]


def runs(letters):
    """The letters, each with how many of it stand one after the other."""
    out = []
    for letter in letters:
        if out and out[-1][1] == letter:
            out[-1][0] += 1
        else:
            out.append([1, letter])
    return "".join("%d%s" % (count, letter) for count, letter in out)


def spoilt(record, mask, config):
    """What the record makes with each of its bytes changed by the mask in turn."""
    changed = (record[:at] + bytes([byte ^ mask]) + record[at + 1:] for at, byte in enumerate(record))
    return runs(reads(text, config) for text in changed)

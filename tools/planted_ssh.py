"""What the planted server and the planted client have in common: one end of an SSH connection up to its keys, right but for one planted fault.

An end is a class over End. It runs over a connected socket until the connection is over: `Server(socket, faults, settings).run()`. A fault is a
name of the table FAULTS of a module; where it matters the code asks `self.has(NAME)`. FAULTS of this module are those that either end may have.

Over this class an end writes `handler`, which answers what receives a message of a number in the phase of now, and `receive_share`; End does
version lines, packets, KEXINIT, the choice, keys, NEWKEYS, strict key exchange and new keys at any time later.
"""
import contextlib
import dataclasses
import hashlib
import hmac
import os
import re
import socket
import struct

from cryptography.exceptions import InvalidSignature
from cryptography.hazmat.primitives import poly1305, serialization
from cryptography.hazmat.primitives.asymmetric import ed25519, x25519
from cryptography.hazmat.primitives.ciphers import Cipher, algorithms, modes

DISCONNECT, IGNORE, UNIMPLEMENTED, DEBUG, SERVICE_REQUEST, SERVICE_ACCEPT, EXT_INFO = 1, 2, 3, 4, 5, 6, 7
KEXINIT, NEWKEYS, KEXDH_INIT, KEXDH_REPLY = 20, 21, 30, 31
USERAUTH_REQUEST, FAILURE, SUCCESS, BANNER, PK_OK = 50, 51, 52, 53, 60
GLOBAL_REQUEST, REQUEST_FAILURE = 80, 82
CHANNEL_OPEN, CHANNEL_OPEN_CONFIRMATION = 90, 91
# Reasons of a DISCONNECT (RFC 4253 section 11.1); the first is none, and leaves the connection open.
STAYS, PROTOCOL_ERROR, KEY_EXCHANGE_FAILED, MAC_ERROR, NO_SERVICE, NO_MORE_METHODS = 0, 2, 3, 5, 7, 14

CHACHA, CTR, HMAC = b'chacha20-poly1305@openssh.com', b'aes256-ctr', b'hmac-sha2-256'
CURVE, CURVE_LIBSSH, GROUP14 = b'curve25519-sha256', b'curve25519-sha256@libssh.org', b'diffie-hellman-group14-sha256'
ED25519 = b'ssh-ed25519'
STRICT_CLIENT, STRICT_SERVER = b'kex-strict-c-v00@openssh.com', b'kex-strict-s-v00@openssh.com'
# Names in a list of methods that are none.
MARKERS = (STRICT_CLIENT, STRICT_SERVER, b'ext-info-c', b'ext-info-s')
USERAUTH, CONNECTION = b'ssh-userauth', b'ssh-connection'

LINE_LIMIT, NOTICE_LINES, NAME_LIMIT, PACKET_LIMIT, PAYLOAD_LIMIT = 2048, 20, 64, 35000, 32768
# The prime of group 14 (RFC 3526 section 3).
PRIME = int(
    'ffffffffffffffffc90fdaa22168c234c4c6628b80dc1cd129024e088a67cc74020bbea63b139b22514a08798e3404ddef9519b3cd3a431b302b0a6df25f1437'
    '4fe1356d6d51c245e485b576625e7ec6f44c42e9a637ed6b0bff5cb6f406b7edee386bfb5a899fa5ae9f24117c4b1fe649286651ece45b3dc2007cb8a163bf05'
    '98da48361c55d39a69163fa8fd24cf5f83655d23dca3ad961c62f356208552bb9ed529077096966d670c354e4abc9804f1746c08ca18217c32905e462e36ce3b'
    'e39e772c180e86039b2783a2ec07a28fb5c55df06f4c52c9de2bcbf6955817183995497cea956ae515d2261898fa051015728e5a8aacaa68ffffffffffffffff', 16)

# Faults that either end may have, and what is wrong by each.
FAULTS = {
    'closes_nothing': 'a connection that has failed is left open, and nothing is told to the peer',
    'passes_over_bad_frames': 'a packet that has not the form of one is passed over',
    'limits_padding_to_a_block': 'a packet with more padding than it needs is refused',
    'limits_payloads_to_16384': 'a packet of more than 16384 bytes is refused',
    'has_no_packet_limit': 'a packet may have any length',
    'verifies_nothing_sealed': 'what is sealed is deciphered and used: neither its tag nor its size is looked at',
    'takes_near_numbers': 'a packet that fits another number than the one that is due is taken, where the two are near',
    'takes_clear_packets': 'a packet in clear is taken where keys are in use',
    'limits_lines_to_200': 'a version line of more than 200 bytes is refused',
    'writes_version_anew': 'the exchange hash has the version line of the peer as it was understood, written again without comments',
    'strips_two_bytes': 'the last two bytes of a version line are taken for what ends it',
    'passes_over_other_lines': 'lines before a version line are passed over, whoever sends them, and however many',
    'drops_after_version_line': 'what comes in one piece with a version line is dropped',
    'drops_parts_of_lines': '16 bytes are read at once, and those of a line that is not whole are dropped',
    'chooses_markers': 'a marker counts as a method',
    'seals_nothing_without_mac': 'a direction without a MAC in common stays in clear',
    'judges_guesses_by_other_order': 'the own KEXINIT lists the methods in another order than that by which guesses are judged',
    'chooses_first_own': 'the own first name is chosen where there is none in common',
    'refuses_unknown_names': 'a list with a name that is not known is refused',
    'refuses_long_names': 'a name of 64 bytes is refused',
    'writes_kexinit_anew': 'the exchange hash has the KEXINIT of the peer as it was understood, written again',
    'compares_names_without_case': 'names are compared without their case',
    'fills_cut_kexinit': 'fields that a KEXINIT lacks are those of an ordinary one',
    'looks_for_markers_anywhere': 'the strict marker counts in each list of KEXINIT',
    'looks_for_marker_at_end': 'the strict marker counts only at the end of its list',
    'drops_guesses': 'the packet of a right guess is dropped',
    'takes_any_number_before_kexinit': 'where both are strict, what came before KEXINIT is not looked at',
    'passes_over_ignored_when_strict': 'where both are strict, IGNORE, UNIMPLEMENTED and DEBUG are passed over during the exchange',
    'passes_over_all_when_strict': 'where both are strict, what does not belong into the exchange is passed over',
    'keeps_numbers': 'where both are strict, the number of incoming packets is not reset at NEWKEYS',
    'keeps_numbers_later': 'where both are strict, numbers are reset at the first NEWKEYS alone',
    'resets_incoming_always': 'the number of incoming packets is reset at NEWKEYS, whether both are strict or not',
    'resets_outgoing_always': 'the number of outgoing packets is reset at NEWKEYS, whether both are strict or not',
    'takes_marker_later': 'the strict marker counts in each KEXINIT, and not in the first alone',
    'is_strict_later': 'each exchange is strict, and not the first alone',
    'is_strict_always': 'an exchange is strict though nobody has asked for it',
    'lists_no_marker': 'the own KEXINIT has no strict marker',
    'passes_over_disconnect': 'a DISCONNECT is passed over',
    'stays_open_after_disconnect': 'after a DISCONNECT the connection is left open, and nothing is read',
    'reads_disconnect': 'a DISCONNECT that is malformed is passed over',
    'refuses_ignored': 'IGNORE and DEBUG are refused',
    'answers_by_failure': 'what has no place, or means nothing, is answered by FAILURE',
    'passes_over_misplaced': 'a message that has no place is passed over',
    'passes_over_shares_early': 'a share before KEXINIT is passed over, and is no packet to the rule that KEXINIT comes first',
    'passes_over_longer': 'a message with bytes after its last field is passed over',
    'takes_cut_shares': 'a share that its packet cuts off is filled up by bytes of the own one',
    'takes_any_share_length': 'a share that is too short is filled up by bytes of the own one, and of one that is too long the first are used',
    'takes_small_order': 'a shared secret of zeros is used',
    'takes_any_number_of_group': 'a share of group 14 is used whatever number it is',
    'refuses_new_keys': 'a KEXINIT after the first exchange is refused',
    'refuses_extensions': 'EXT_INFO is refused',
}


class Over(Exception):
    """The connection is over. `reason` is that of the DISCONNECT that tells the peer; without one nothing is sent."""

    def __init__(self, why, reason=PROTOCOL_ERROR):
        super().__init__(why)
        self.reason = reason


@dataclasses.dataclass
class Settings:
    """What both ends know: private keys of ssh-ed25519, of which the other end knows the public half."""

    user: bytes
    password: bytes
    user_key: ed25519.Ed25519PrivateKey
    host_key: ed25519.Ed25519PrivateKey
    # Whether the server requires a key and a password.
    is_required: bool = False


# -- fields of messages (RFC 4251 section 5)


def string(data):
    return struct.pack('>I', len(data)) + data


def uint32(number):
    return struct.pack('>I', number & 0xffffffff)


def mpint(number):
    """A positive number, or zero."""
    return string(number.to_bytes(number.bit_length() // 8 + 1, 'big') if number else b'')


# A FAILURE, whatever asked for it.
FAILED = bytes([FAILURE]) + string(b'none') + b'\0'


class Fields:
    """The fields of a payload after its number; one that isn't there ends the connection."""

    def __init__(self, payload, place=1):
        self.payload, self.place = payload, place

    def take(self, count):
        if self.place + count > len(self.payload):
            raise Over('a message ends within a field')
        self.place += count
        return self.payload[self.place - count:self.place]

    def byte(self):
        return self.take(1)[0]

    def boolean(self):
        return self.byte() != 0

    def uint32(self):
        return struct.unpack('>I', self.take(4))[0]

    def string(self):
        return self.take(self.uint32())

    def rest(self):
        return self.take(len(self.payload) - self.place)

    def has_more(self):
        return self.place < len(self.payload)

    def end(self):
        if self.place != len(self.payload):
            raise Over('bytes stand after the last field of a message')


def blob_of(key):
    """The public half of a private or public key of ssh-ed25519, as SSH writes it (RFC 8709 section 4)."""
    public = key.public_key() if isinstance(key, ed25519.Ed25519PrivateKey) else key
    return string(ED25519) + string(public.public_bytes(serialization.Encoding.Raw, serialization.PublicFormat.Raw))


def signature_of(key, text):
    """A signature as SSH writes it (RFC 8709 section 6)."""
    return string(ED25519) + string(key.sign(text))


def is_signed(key_bytes, signature_bytes, text):
    """Whether the 64 bytes are a signature of the text by the key of 32 bytes."""
    try:
        ed25519.Ed25519PublicKey.from_public_bytes(key_bytes).verify(signature_bytes, text)
    except (InvalidSignature, ValueError):
        return False
    return True


# -- methods of key exchange


class Curve25519:
    """curve25519-sha256 (RFC 8731)."""

    def __init__(self, has):
        self.has, self.private = has, x25519.X25519PrivateKey.generate()
        self.share = self.private.public_key().public_bytes(serialization.Encoding.Raw, serialization.PublicFormat.Raw)

    def secret(self, peer):
        """K as it is hashed."""
        if self.has('takes_any_share_length'):
            peer = (peer + self.share)[:32]
        if len(peer) != 32:
            raise Over('a share that has not 32 bytes', KEY_EXCHANGE_FAILED)
        return mpint(int.from_bytes(self.multiplied(peer), 'big'))

    def multiplied(self, peer):
        try:
            return self.private.exchange(x25519.X25519PublicKey.from_public_bytes(peer))
        except ValueError:
            if self.has('takes_small_order'):
                return b'\0' * 32
            raise Over('a shared secret of zeros', KEY_EXCHANGE_FAILED) from None


class Group14:
    """diffie-hellman-group14-sha256 (RFC 4253 section 8, RFC 8268)."""

    def __init__(self, has):
        self.has, self.private = has, int.from_bytes(os.urandom(32), 'big') | 1 << 255
        self.share = mpint(pow(2, self.private, PRIME))[4:]

    def secret(self, peer):
        number = int.from_bytes(peer, 'big', signed=True)
        if not self.has('takes_any_number_of_group') and (not 2 <= number <= PRIME - 2 or mpint(number)[4:] != peer):
            raise Over('a share that is no number from 2 to p - 2', KEY_EXCHANGE_FAILED)
        return mpint(pow(number, self.private, PRIME))


METHODS = {CURVE: Curve25519, CURVE_LIBSSH: Curve25519, GROUP14: Group14}


# -- ciphers


class ChaCha:
    """chacha20-poly1305@openssh.com (PROTOCOL.chacha20poly1305)."""

    # The size of a block, of a tag, and how many bytes of the length count for whole blocks.
    block, tag, counted, letters = 8, 16, 0, [('C', 64)]

    def __init__(self, key):
        self.key, self.length_key = key[:32], key[32:]

    @staticmethod
    def stream(key, counter, number, data):
        nonce = struct.pack('<Q', counter) + struct.pack('>Q', number)
        return Cipher(algorithms.ChaCha20(key, nonce), None).encryptor().update(data)

    def length(self, number, head):
        return struct.unpack('>I', self.stream(self.length_key, 0, number, head))[0]

    def tag_of(self, number, sealed):
        return poly1305.Poly1305.generate_tag(self.stream(self.key, 0, number, b'\0' * 32), sealed)

    def seal(self, number, body):
        sealed = self.stream(self.length_key, 0, number, uint32(len(body))) + self.stream(self.key, 1, number, body)
        return sealed + self.tag_of(number, sealed)

    def open(self, number, packet):
        """The body, and whether the tag is right."""
        sealed, tag = packet[:-16], packet[-16:]
        return self.stream(self.key, 1, number, sealed[4:]), hmac.compare_digest(self.tag_of(number, sealed), tag)


class Ctr:
    """aes256-ctr with hmac-sha2-256 (RFC 4344, RFC 6668)."""

    block, tag, counted, letters = 16, 32, 4, [('A', 16), ('C', 32), ('E', 32)]

    def __init__(self, vector, key, mac_key):
        self.cipher, self.mac_key, self.head = Cipher(algorithms.AES(key), modes.CTR(vector)).encryptor(), mac_key, b''

    def length(self, _, head):
        if not self.head:
            self.head = self.cipher.update(head)
        return struct.unpack('>I', self.head)[0]

    def tag_of(self, number, plain):
        return hmac.digest(self.mac_key, uint32(number) + plain, 'sha256')

    def seal(self, number, body):
        plain = uint32(len(body)) + body
        return self.cipher.update(plain) + self.tag_of(number, plain)

    def open(self, number, packet):
        plain, self.head = self.head + self.cipher.update(packet[4:-32]), b''
        return plain[4:], hmac.compare_digest(self.tag_of(number, plain), packet[-32:])


CIPHERS = {CHACHA: ChaCha, CTR: Ctr}


class Direction:
    """The keys of one direction, those that NEWKEYS brings, and the number of the next packet."""

    def __init__(self):
        self.cipher, self.next, self.number = None, None, 0

    def switch(self, resets):
        self.cipher, self.next = self.next, None
        if resets:
            self.number = 0


# -- KEXINIT


class KexInit:
    """A KEXINIT: its ten lists, and whether a guess follows. Names are read as they stand, and nobody looks at what follows its fields."""

    def __init__(self, payload, has, ordinary=()):
        fields, self.cookie, self.lists = Fields(payload), bytes(16), []
        try:
            self.cookie = fields.take(16)
            for _ in range(10):
                text = fields.string()
                self.lists.append(text.split(b',') if text else [])
            self.guesses = fields.boolean()
            fields.uint32()
        except Over:
            if not has('fills_cut_kexinit'):
                raise
            self.guesses = False
            self.lists += [names.split(b',') for names in ordinary[len(self.lists):]]
        if has('refuses_long_names') and any(len(name) >= NAME_LIMIT for names in self.lists for name in names):
            raise Over('a list has a name that is too long')

    def methods(self, has=None):
        return [name for name in self.lists[0] if name not in MARKERS or has and has('chooses_markers')]

    def written(self):
        """The payload of what was understood: each name that is one, once."""
        kept = [dict.fromkeys(name for name in names if re.fullmatch(rb'[!-~]{1,64}', name)) for names in self.lists]
        return bytes([KEXINIT]) + self.cookie + b''.join(string(b','.join(names)) for names in kept) + bytes([self.guesses]) + bytes(4)


# -- one end


class End:
    """One end of a connection. `role` is `client` or `server`, and `faults` the names of what is wrong with it."""

    role = None
    version = b'SSH-2.0-planted_0.1'
    methods, ciphers = [CURVE, CURVE_LIBSSH, GROUP14], [CHACHA, CTR]

    def __init__(self, sock, faults, settings):
        self.sock, self.faults, self.settings = sock, frozenset(faults), settings
        self.buffer, self.incoming, self.outgoing = bytearray(), Direction(), Direction()
        self.peer_version = self.own_kexinit = self.peer_kexinit = self.method = self.session = None
        # What an exchange waits for (`kexinit`, `exchange` or `newkeys`), none where none goes on; and what follows it.
        self.exchange, self.stage = 'kexinit', 'service'
        self.is_strict, self.drops_guess = False, False
        # The number of the packet that was read last, and the kinds that were agreed on.
        self.last, self.chosen = 0, {}
        # How many packets are none to the rule that KEXINIT comes first.
        self.uncounted = 0

    def has(self, fault):
        return fault in self.faults

    @property
    def is_client(self):
        return self.role == 'client'

    @property
    def phase(self):
        """`kexinit`, `exchange`, `newkeys`, `service`, `auth`, or `open` after authentication."""
        return self.exchange or self.stage

    # - the connection

    def run(self):
        """Runs until the connection is over, and reads then what the peer still sends, so that no reset overtakes what it was sent."""
        with contextlib.suppress(OSError):
            try:
                self.begin()
                while True:
                    self.receive(self.read_payload())
            except Over as over:
                self.leave(over.reason)
            while self.sock.recv(1 << 16):
                pass

    def leave(self, reason):
        """Tells the peer why, and closes."""
        if reason == STAYS or self.has('closes_nothing') and reason is not None:
            return
        if reason is not None:
            self.send(bytes([DISCONNECT]) + uint32(reason) + string(b'') + string(b''))
        self.sock.shutdown(socket.SHUT_WR)

    def begin(self):
        self.sock.sendall(self.version + b'\r\n')
        self.send_kexinit()
        self.peer_version = self.read_version()

    def more(self, most=1 << 16):
        piece = self.sock.recv(most)
        if not piece:
            raise Over('the connection was closed', None)
        self.buffer += piece

    def taken(self, count):
        """The next bytes."""
        while len(self.buffer) < count:
            self.more()
        piece = bytes(self.buffer[:count])
        del self.buffer[:count]
        return piece

    # - version lines (RFC 4253 section 4.2)

    def read_version(self):
        """The peer's version line, without what ends it; a client passes over some lines before."""
        lines = NOTICE_LINES if self.is_client else 0
        while True:
            line = self.read_line()
            if line.startswith(b'SSH-'):
                return self.version_of(line)
            lines -= 1
            if lines < 0 and not self.has('passes_over_other_lines'):
                raise Over('a line that is no version line', None)

    def read_line(self):
        """A line with what ends it."""
        while b'\n' not in self.buffer[:LINE_LIMIT]:
            if len(self.buffer) >= LINE_LIMIT:
                raise Over('a line that is too long', None)
            self.more(16 if self.has('drops_parts_of_lines') else 1 << 16)
            if self.has('drops_parts_of_lines') and b'\n' not in self.buffer:
                self.buffer.clear()
        line = self.taken(self.buffer.index(b'\n') + 1)
        if self.has('drops_after_version_line'):
            self.buffer.clear()
        return line

    def version_of(self, line):
        """The version of a line that begins with `SSH-`, as the exchange hash has it."""
        text = line[:-2] if self.has('strips_two_bytes') else line[:-1].removesuffix(b'\r')
        parts = text.split(b'-', 2)
        if len(parts) < 3 or parts[1] not in (b'2.0', b'1.99') or b'\0' in text:
            raise Over('a version line of another form', None)
        if self.has('limits_lines_to_200') and len(line) > 200:
            raise Over('a version line that is too long', None)
        if self.has('writes_version_anew'):
            return b'SSH-2.0-' + (re.split(rb'[ -]', parts[2])[0][:200] or b'unknown')
        return text

    # - packets (RFC 4253 section 6)

    def send(self, payload):
        """Sends a packet with this payload, under the keys of this moment."""
        self.sock.sendall(self.sealed(payload))
        self.outgoing.number += 1

    def sealed(self, payload):
        """The packet with this payload that has the next number."""
        cipher = self.outgoing.cipher
        block, counted = (cipher.block, cipher.counted) if cipher else (8, 4)
        padding = 4 + -(counted + 1 + len(payload) + 4) % block
        body = bytes([padding]) + payload + os.urandom(padding)
        return cipher.seal(self.outgoing.number, body) if cipher else uint32(len(body)) + body

    def read_payload(self):
        """The payload of the next packet."""
        while True:
            body = self.read_sealed() if self.incoming.cipher else self.read_clear()
            payload = self.payload_of(body)
            if payload is None and self.has('passes_over_bad_frames'):
                continue
            if payload is None:
                raise Over('a packet of another form')
            self.last = self.incoming.number
            self.incoming.number = (self.incoming.number + 1) & 0xffffffff
            return payload

    def payload_of(self, body):
        """The payload of a body; none where the body has not the form of one."""
        if not body:
            return None
        padding = body[0]
        if not 4 <= padding < len(body) or self.has('limits_padding_to_a_block') and padding > 20:
            return None
        payload = body[1:len(body) - padding]
        return payload if 1 <= len(payload) <= PAYLOAD_LIMIT else None

    def read_clear(self):
        length = struct.unpack('>I', self.taken(4))[0]
        if not self.is_length(length, 8, 4):
            return self.refused(length)
        return self.taken(length)

    def is_length(self, length, block, counted):
        """Whether a packet may have this length."""
        most = 16384 if self.has('limits_payloads_to_16384') else PACKET_LIMIT
        if length > most and not self.has('has_no_packet_limit'):
            return False
        return length >= 8 and length + counted >= 4 * counted and (length + counted) % block == 0

    def refused(self, length):
        """What is read in the place of a body whose length is refused."""
        if not self.has('passes_over_bad_frames'):
            raise Over('a packet of a length that none has')
        self.taken(length)
        return b''

    def read_sealed(self):
        """The body of a packet under keys."""
        cipher, head = self.incoming.cipher, self.taken(4)
        if self.has('takes_clear_packets') and head[:2] == b'\0\0':
            return self.taken(struct.unpack('>I', head)[0])
        number = self.near_number(head) if self.has('takes_near_numbers') else self.incoming.number
        length = cipher.length(number, head)
        is_any = self.has('verifies_nothing_sealed') and length <= PACKET_LIMIT
        if not is_any and not self.is_length(length, cipher.block, cipher.counted):
            return self.refused(length)
        body, is_right = cipher.open(number, head + self.taken(length + cipher.tag))
        if not is_right and not is_any:
            raise Over('a tag that is wrong', MAC_ERROR)
        return body

    def near_number(self, head):
        """The number near the one that is due by which a packet has a length."""
        cipher, due = self.incoming.cipher, self.incoming.number
        for number in (due, *range(due + 1, due + 9), *range(max(0, due - 8), due)):
            if self.is_length(cipher.length(number, head), cipher.block, cipher.counted):
                return number
        return due

    # - what a message is, by its number and by what the end waits for

    def receive(self, payload):
        """Receives a message: the first line of this table that applies decides."""
        number = payload[0]
        if number == DISCONNECT:
            self.receive_disconnect(payload)
        elif number == self.leaving_share() and self.exchange == 'kexinit' and self.has('passes_over_shares_early'):
            self.uncounted += 1
        elif self.is_dropped(number):
            self.drops_guess = False
        elif self.is_ruled() and number != self.leaving():
            self.deviates(number)
        elif receiver := self.exchange_receiver(number) or self.handler(number):
            receiver(payload)
        elif number in (IGNORE, UNIMPLEMENTED, DEBUG):
            self.receive_ignored(payload)
        elif number == EXT_INFO and self.exchange is None:
            self.receive_extensions(payload)
        elif self.is_unknown(number):
            self.answer_unknown()
        else:
            self.misplaced(number)

    def handler(self, number):
        """What receives a message of this number where no exchange goes on, or none: the part of the role."""
        raise NotImplementedError

    def receive_share(self, payload):
        """Receives KEXDH_INIT or KEXDH_REPLY: the part of the role."""
        raise NotImplementedError

    def is_ruled(self):
        """Whether strictness rules the packets of now (OpenSSH PROTOCOL section 1.10)."""
        is_strict = (self.is_first or self.has('is_strict_later')) and (self.is_strict or self.has('is_strict_always'))
        return is_strict and self.exchange in ('exchange', 'newkeys')

    @property
    def is_first(self):
        """Whether the exchange of now is the first."""
        return self.incoming.cipher is None

    def leaving(self):
        """The number of the message that leaves the phase of now."""
        return {'kexinit': KEXINIT, 'exchange': self.leaving_share(), 'newkeys': NEWKEYS}.get(self.exchange)

    def leaving_share(self):
        return KEXDH_REPLY if self.is_client else KEXDH_INIT

    def is_dropped(self, number):
        """Whether this is the packet of a wrong guess."""
        return self.drops_guess and (not self.is_ruled() or 30 <= number <= 49)

    def deviates(self, number):
        """A message that strictness forbids."""
        is_ignored = number in (IGNORE, UNIMPLEMENTED, DEBUG)
        if self.has('passes_over_ignored_when_strict') and is_ignored or self.has('passes_over_all_when_strict'):
            return
        raise Over('strictness forbids this message')

    def exchange_receiver(self, number):
        """What receives a message of an exchange."""
        if self.exchange is None and number == KEXINIT:
            return self.receive_kexinit_later
        if self.exchange == 'newkeys' and number == NEWKEYS:
            return self.receive_newkeys
        if number == self.leaving():
            return self.receive_kexinit if number == KEXINIT else self.receive_share if self.method else self.pass_over
        return None

    def pass_over(self, payload):
        """Does nothing."""

    @staticmethod
    def is_unknown(number):
        """Whether the number has no meaning up to the end of authentication (RFC 4250 section 4.1)."""
        return any(first <= number <= last for first, last in ((8, 19), (22, 29), (32, 49), (54, 59), (61, 79)))

    def answer_unknown(self):
        """Answers by UNIMPLEMENTED (RFC 4253 section 11.4)."""
        self.send(bytes([UNIMPLEMENTED]) + uint32(self.last))

    def misplaced(self, number):
        """A message that has no place now. After authentication it may be one of a channel, which is answered."""
        if self.phase == 'open' and number >= 80:
            self.answer_unknown()
        elif self.has('answers_by_failure'):
            self.send(FAILED)
        elif not self.has('passes_over_misplaced'):
            raise Over('a message that has no place')

    def receive_disconnect(self, payload):
        """A DISCONNECT ends the connection whatever its fields are."""
        if self.has('passes_over_disconnect'):
            return
        if self.has('reads_disconnect'):
            try:
                fields = Fields(payload)
                fields.uint32(), fields.string(), fields.string()
            except Over:
                return
        raise Over('the peer has ended', STAYS if self.has('stays_open_after_disconnect') else None)

    def receive_ignored(self, payload):
        """IGNORE, UNIMPLEMENTED and DEBUG: read, and passed over."""
        fields, number = Fields(payload), payload[0]
        if self.has('answers_by_failure'):
            self.send(FAILED)
            return
        if number != UNIMPLEMENTED and self.has('refuses_ignored'):
            raise Over('a message that is refused')
        if number == IGNORE:
            fields.string()
        elif number == UNIMPLEMENTED:
            fields.uint32()
        else:
            fields.boolean(), fields.string(), fields.string()
        fields.end()

    def receive_extensions(self, payload):
        """EXT_INFO (RFC 8308 section 2.3): read, and passed over."""
        if self.has('refuses_extensions'):
            raise Over('EXT_INFO is refused')
        if self.has('answers_by_failure'):
            self.send(FAILED)
            return
        fields = Fields(payload)
        for _ in range(fields.uint32()):
            fields.string(), fields.string()
        fields.end()

    # - KEXINIT, and the choice (RFC 4253 section 7.1)

    def marker(self, is_peer=False):
        """The own strict marker, or the peer's."""
        return STRICT_CLIENT if self.is_client != is_peer else STRICT_SERVER

    def own_lists(self):
        """The ten lists of the own KEXINIT."""
        methods = [CURVE_LIBSSH, CURVE] if self.has('judges_guesses_by_other_order') else self.methods
        methods = methods if self.has('lists_no_marker') else [*methods, self.marker()]
        ciphers, macs, none = b','.join(self.ciphers), HMAC, b'none'
        return [b','.join(methods), ED25519, ciphers, ciphers, macs, macs, none, none, b'', b'']

    def send_kexinit(self):
        payload = bytes([KEXINIT]) + os.urandom(16) + b''.join(string(names) for names in self.own_lists()) + bytes(5)
        self.own_kexinit = payload
        self.send(payload)

    def receive_kexinit(self, payload):
        """Receives a KEXINIT, and chooses."""
        ordinary = [names.replace(self.marker(), self.marker(is_peer=True)) for names in self.own_lists()]
        peer = KexInit(payload, self.has, ordinary)
        self.peer_kexinit = peer.written() if self.has('writes_kexinit_anew') else payload
        self.agree_on_strictness(peer)
        own = KexInit(self.own_kexinit, lambda _: False)
        client, server = (own, peer) if self.is_client else (peer, own)
        self.chosen = {'method': self.common(client.methods(self.has), server.methods(self.has))}
        for place, kind in ((1, 'host_key'), (2, 'cipher_client'), (3, 'cipher_server'), (4, 'mac_client'), (5, 'mac_server'),
                            (6, 'compression_client'), (7, 'compression_server')):
            try:
                self.chosen[kind] = self.common(client.lists[place], server.lists[place])
            except Over:
                if not kind.startswith('mac') or not self.has('seals_nothing_without_mac'):
                    raise
        if self.has('refuses_unknown_names') and set(peer.methods()) - set(own.methods()):
            raise Over('a name that is not known', KEY_EXCHANGE_FAILED)
        is_right = [peer.methods()[:1], peer.lists[1][:1]] == [self.methods[:1], own.lists[1][:1]]
        self.drops_guess = peer.guesses and (not is_right or self.has('drops_guesses'))
        self.method, self.exchange = self.method_of(self.chosen['method']), 'exchange'

    def method_of(self, name):
        """The method of this name; a marker has none."""
        return METHODS[name](self.has) if name in METHODS else None

    def agree_on_strictness(self, peer):
        """Finds whether both are strict, of the first KEXINITs alone, which have to be the first packets then."""
        if self.session is not None and not self.has('takes_marker_later'):
            return
        marker = self.marker(is_peer=True)
        listed = sum(peer.lists, []) if self.has('looks_for_markers_anywhere') else peer.lists[0]
        if self.has('looks_for_marker_at_end'):
            listed = listed[-1:]
        if self.has('compares_names_without_case'):
            listed = [name.lower() for name in listed]
        self.is_strict = marker in listed and not self.has('lists_no_marker')
        if self.is_strict and self.session is None and self.last != self.uncounted and not self.has('takes_any_number_before_kexinit'):
            raise Over('where both are strict KEXINIT comes first')

    def common(self, client, server):
        """The client's first name that the server has."""
        own = client if self.is_client else server
        for name in client:
            if any(self.is_same(name, other) for other in server):
                return next(other for other in own if self.is_same(name, other))
        if self.has('chooses_first_own') and own:
            return own[0]
        raise Over('nothing in common', KEY_EXCHANGE_FAILED)

    def is_same(self, name, other):
        return name.lower() == other.lower() if self.has('compares_names_without_case') else name == other

    def receive_kexinit_later(self, payload):
        """New keys (RFC 4253 section 9): the own KEXINIT answers."""
        if self.has('refuses_new_keys'):
            raise Over('no new keys')
        KexInit(payload, self.has)
        self.send_kexinit()
        self.receive_kexinit(payload)

    # - keys (RFC 4253 sections 7.2, 7.3 and 8)

    def exchange_hash(self, blob, client_share, server_share, secret):
        """The hash that the host key signs. `secret` is K as it is hashed."""
        versions, payloads = [self.version, self.peer_version], [self.own_kexinit, self.peer_kexinit]
        if not self.is_client:
            versions.reverse()
            payloads.reverse()
        parts = [*versions, *payloads, blob, client_share, server_share]
        return hashlib.sha256(b''.join(string(part) for part in parts) + secret).digest()

    def share_of(self, fields):
        """A field that is a share."""
        place = fields.place
        try:
            return fields.string()
        except Over:
            if not self.has('takes_cut_shares'):
                raise
        return (fields.payload[place + 4:] + self.method.share)[:len(self.method.share)]

    def use_secret(self, secret, digest):
        """Makes the keys that NEWKEYS switches to, of K and the exchange hash, and waits for NEWKEYS."""
        self.session = self.session or digest
        for side, direction in (('client', 0), ('server', 1)):
            kind = CIPHERS[self.chosen[f'cipher_{side}']]
            letters = [(chr(ord(letter) + direction).encode(), size) for letter, size in kind.letters]
            cipher = kind(*(self.derived(secret, digest, letter, size) for letter, size in letters)) if f'mac_{side}' in self.chosen else None
            (self.outgoing if side == self.role else self.incoming).next = cipher
        self.exchange = 'newkeys'

    def derived(self, secret, digest, letter, size):
        key = hashlib.sha256(secret + digest + letter + self.session).digest()
        while len(key) < size:
            key += hashlib.sha256(secret + digest + key).digest()
        return key[:size]

    def send_newkeys(self):
        self.send(bytes([NEWKEYS]))
        self.outgoing.switch(self.resets(self.outgoing))

    def receive_newkeys(self, payload):
        Fields(payload).end()
        self.exchange = None
        self.incoming.switch(self.resets(self.incoming) and not self.has('keeps_numbers'))

    def resets(self, direction):
        """Whether NEWKEYS resets the numbers of a direction."""
        if self.has('keeps_numbers_later') and direction.cipher is not None:
            return False
        always = 'resets_incoming_always' if direction is self.incoming else 'resets_outgoing_always'
        return self.is_strict or self.has(always)

"""A small SSH client, right by checks/client.checks but for one planted fault: `Client(socket, faults, settings).run()`.

It takes a server's notice lines, agrees on keys, believes one host key, and authenticates: it begins with a request that proves nothing, asks
whether its key would do before it signs, and tries a password at last. After SUCCESS it opens a channel. FAULTS has what may be wrong with it
beside the faults of planted_ssh, which either end may have.
"""
import re
import select
import sys

sys.dont_write_bytecode = True
import planted_ssh  # noqa: E402, without leaving its compiled form
from planted_ssh import (  # noqa: E402
    BANNER, CHANNEL_OPEN, CONNECTION, DEBUG, ED25519, EXT_INFO, FAILURE, IGNORE, KEXDH_INIT, KEY_EXCHANGE_FAILED, NEWKEYS, NO_MORE_METHODS,
    NO_SERVICE, PK_OK, SERVICE_ACCEPT, SERVICE_REQUEST, SUCCESS, UNIMPLEMENTED, USERAUTH, USERAUTH_REQUEST, End, Fields, Over, blob_of, is_signed,
    mpint, signature_of, string, uint32)

FAULTS = {
    **planted_ssh.FAULTS,
    'ends_its_line_by_lf': 'the own version line ends with LF alone',
    'lists_a_comma': 'the own lists of languages are a comma',
    'takes_no_notice_lines': 'a line before the version line is refused',
    'searches_100_bytes_for_lines': 'the version line is looked for in the first 100 bytes alone, and then waited for',
    'takes_any_line_of_ssh': 'a line that begins with SSH is taken for the version line',
    'passes_over_other_versions': 'a version line that has not the form of RFC 4253 is passed over as a notice line is',
    'refuses_1_99': 'the protocol version 1.99 is refused',
    'drops_what_comes_early': 'what comes before the own version line is sent is dropped, but for the version line',
    'has_room_for_16384_bytes': 'a packet of more than 16384 bytes never comes to its end',
    'passes_over_empty_payloads': 'a packet of which the padding leaves no payload is passed over',
    'takes_clear_packets_uncounted': 'a packet in clear is taken where keys are in use, and has no number',
    'passes_over_clear_newkeys': 'NEWKEYS in clear is passed over where keys are in use',
    'answers_refused': 'what is refused is answered by UNIMPLEMENTED, and the connection goes on',
    'answers_other_booleans': 'a message with a boolean that is neither 0 nor 1 is answered by UNIMPLEMENTED',
    'counts_ignored_as_sent': 'a message that is passed over takes a number of the own packets',
    'answers_ignored_by_unimplemented': 'IGNORE, UNIMPLEMENTED and DEBUG are answered by UNIMPLEMENTED',
    'refuses_empty_extensions': 'an EXT_INFO without extensions is refused',
    'refuses_unknown_extensions': 'an EXT_INFO with an extension that is not known is refused',
    'answers_reserved': 'a KEXINIT whose reserved word is not 0 is answered by UNIMPLEMENTED',
    'needs_a_language': 'where languages are offered, one has to be in common',
    'begins_for_each_place': 'the exchange begins once for each place at which the chosen method stands',
    'answers_dropped_guess': 'the packet of a wrong guess is answered by UNIMPLEMENTED',
    'takes_own_marker': "the own strict marker counts in the server's list",
    'takes_marker_prefix': 'a name that begins as the strict marker counts as it',
    'answers_newkeys_early': 'NEWKEYS before the reply is answered by NEWKEYS',
    'needs_no_newkeys': 'what comes after the reply is taken whether NEWKEYS has come or not',
    'trusts_any_host_key': 'each host key is trusted',
    'compares_shorter_host_key': 'the host key is compared with the trusted one as far as both go',
    'compares_key_bytes': 'of the host key the last 32 bytes alone are compared',
    'verifies_no_signature': 'the signature of the host key is not verified',
    'needs_no_signature': 'a reply without a signature is taken',
    'takes_any_signature_name': 'the algorithm that a signature names is not looked at',
    'takes_long_signatures': 'of a signature that is too long the first 64 bytes are used',
    'fills_short_signatures': 'a signature that is too short is taken where its bytes are those of a right one',
    'takes_rest_of_signature': 'bytes after a signature, within its field, are not looked at',
    'reduces_signatures': 'S of a signature is reduced before it is verified',
    'takes_empty_shares': 'of a share without bytes the shared secret is 0',
    'begins_again': 'an exchange that has failed is begun again by another share',
    'waits_for_extensions': 'the service is requested after a pause, and what comes meanwhile has to be EXT_INFO',
    'takes_any_service': 'the service that SERVICE_ACCEPT names is not looked at',
    'takes_success_early': 'SUCCESS is taken before SERVICE_ACCEPT',
    'answers_unproved_success': 'SUCCESS in answer to a request that proves nothing is answered by UNIMPLEMENTED',
    'takes_any_pk_ok': 'PK_OK makes the client sign, whatever it names and whether it was asked for or not',
    'passes_over_listed_methods': 'the methods that a FAILURE lists are not looked at',
    'tries_without_end': 'where all attempts have failed they are made again',
    'refuses_banners': 'a BANNER is refused',
}

# The form of a version line (RFC 4253 section 4.2), with protocol version 1.99 too (section 5.1).
FORM = re.compile(rb'SSH-(2\.0|1\.99)-[!-,.-~]+( [ -~]*)?\r\n')
# Methods of authentication in the order in which they are tried.
ATTEMPTS = [b'none', b'publickey', b'password']
# Extensions that have a meaning.
EXTENSIONS = {b'server-sig-algs', b'ext-info-in-auth@openssh.com'}
# The order of the group of ed25519 (RFC 8032 section 5.1).
ORDER = 2**252 + 27742317777372353535851937790883648493
# Seconds of a pause, where a fault makes one; and how many bytes it has room for.
PAUSE, LINES_ROOM, PACKET_ROOM = 2, 100, 16384
# How long a version line may be (RFC 4253 section 4.2).
LINE_LIMIT = 255


class Client(End):
    """A client of one connection."""

    role = 'client'

    def __init__(self, sock, faults, settings):
        super().__init__(sock, faults, settings)
        # The attempts that are left, and what the answer that is due is about: a method, or `query`.
        self.attempts, self.waits = list(ATTEMPTS), None
        self.searched = 0

    # - the version line

    def begin(self):
        if self.has('drops_what_comes_early'):
            self.peer_version = self.read_version()
            if self.comes_soon() and not self.buffer:
                self.more()
            self.buffer.clear()
        self.sock.sendall(self.version + (b'\n' if self.has('ends_its_line_by_lf') else b'\r\n'))
        self.send_kexinit()
        self.peer_version = self.peer_version or self.read_version()

    def read_version(self):
        if not self.has('passes_over_other_versions'):
            return super().read_version()
        while True:
            while b'\n' not in self.buffer:
                self.more()
            line = self.taken(self.buffer.index(b'\n') + 1)
            if FORM.fullmatch(line) and len(line) <= LINE_LIMIT:
                return line[:-2]

    def read_line(self):
        room = LINES_ROOM - self.searched
        while self.has('searches_100_bytes_for_lines') and b'\n' not in self.buffer[:room]:
            if len(self.buffer) >= room:
                self.lose()
            self.more()
        line = super().read_line()
        self.searched += len(line)
        if self.has('takes_no_notice_lines') and not line.startswith(b'SSH-'):
            raise Over('a line before the version line', None)
        if self.has('takes_any_line_of_ssh') and line.startswith(b'SSH'):
            return b'SSH-' + line.removeprefix(b'SSH').removeprefix(b'-')
        return line

    def version_of(self, line):
        if self.has('refuses_1_99') and line.startswith(b'SSH-1.99-'):
            raise Over('another protocol version', None)
        return super().version_of(line)

    # - packets

    def comes_soon(self):
        """Whether more comes before a pause is over."""
        return bool(self.buffer or select.select([self.sock], [], [], PAUSE)[0])

    def lose(self):
        """Reads what comes, and finds nothing in it."""
        while True:
            self.buffer.clear()
            self.more()

    def taken(self, count):
        if self.has('has_room_for_16384_bytes') and count > PACKET_ROOM:
            self.lose()
        return super().taken(count)

    def payload_of(self, body):
        if self.has('passes_over_empty_payloads') and body and 1 + body[0] >= len(body):
            return bytes([IGNORE]) + string(b'')
        return super().payload_of(body)

    def read_sealed(self):
        while self.has('passes_over_clear_newkeys') and self.is_clear(NEWKEYS):
            self.read_clear()
        if self.has('takes_clear_packets_uncounted') and self.is_clear():
            self.incoming.number -= 1
            return self.read_clear()
        return super().read_sealed()

    def is_clear(self, *numbers):
        """Whether the next packet is one in clear, of a message of one of these numbers where there are some."""
        while len(self.buffer) < 6:
            self.more()
        return self.buffer[:2] == b'\0\0' and (not numbers or self.buffer[5] in numbers)

    def read_payload(self):
        while True:
            try:
                return super().read_payload()
            except Over as over:
                if over.reason is None or not self.has('answers_refused'):
                    raise
            self.buffer.clear()
            self.answer_by_unimplemented()

    def receive(self, payload):
        """Receives a message."""
        if self.has('answers_dropped_guess') and self.is_dropped(payload[0]):
            self.answer_by_unimplemented()
        if self.has('answers_other_booleans') and has_other_boolean(payload):
            self.answer_by_unimplemented()
            return
        try:
            super().receive(payload)
        except Over as over:
            if over.reason is None or not self.has('answers_refused'):
                raise
            self.answer_by_unimplemented()

    def answer_by_unimplemented(self):
        """Answers the packet that was read last."""
        self.send(bytes([UNIMPLEMENTED]) + uint32(self.last))

    def receive_ignored(self, payload):
        super().receive_ignored(payload)
        if self.has('answers_ignored_by_unimplemented'):
            self.answer_by_unimplemented()
        self.outgoing.number += self.has('counts_ignored_as_sent')

    def receive_extensions(self, payload):
        super().receive_extensions(payload)
        if self.has('refuses_empty_extensions') and not extensions_of(payload):
            raise Over('no extensions')
        if self.has('refuses_unknown_extensions') and extensions_of(payload) - EXTENSIONS:
            raise Over('an extension that is not known')
        self.outgoing.number += self.has('counts_ignored_as_sent')

    # - the exchange

    def own_lists(self):
        methods, *lists = super().own_lists()
        if self.has('lists_a_comma'):
            lists[-2:] = [b',', b',']
        return [methods + b',ext-info-c', *lists]

    def receive_kexinit(self, payload):
        lists = [] if self.has('fills_cut_kexinit') else lists_of(payload)
        super().receive_kexinit(payload)
        if self.has('needs_a_language') and any(lists[8:]):
            raise Over('no language in common', KEY_EXCHANGE_FAILED)
        if self.has('answers_reserved') and payload[-4:] != bytes(4):
            self.answer_by_unimplemented()
        for _ in range(lists[0].count(self.chosen['method']) if self.has('begins_for_each_place') else 1):
            self.send_share()

    def receive_kexinit_later(self, payload):
        lists_of(payload)
        super().receive_kexinit_later(payload)

    def send_share(self):
        if self.method:
            self.send(bytes([KEXDH_INIT]) + string(self.method.share))

    def agree_on_strictness(self, peer):
        super().agree_on_strictness(peer)
        marker, names = self.marker(is_peer=True), peer.lists[0]
        if self.has('takes_own_marker') and self.marker() in names:
            self.is_strict = True
        if self.has('takes_marker_prefix') and any(name.startswith(marker) for name in names):
            self.is_strict = True

    def receive_share(self, payload):
        """Receives the reply to the share: host key, share and signature (RFC 4253 section 8)."""
        try:
            self.take_reply(payload)
        except Over:
            if not self.has('begins_again'):
                raise
            self.method = self.method_of(self.chosen['method'])
            self.send_share()

    def take_reply(self, payload):
        fields, is_first = Fields(payload), self.is_first
        blob, share = fields.string(), self.share_of(fields)
        has_none = self.has('needs_no_signature') and fields.place == len(payload)
        signature = b'' if has_none else fields.string()
        fields.end()
        self.judge_host_key(blob)
        secret = mpint(0) if self.has('takes_empty_shares') and not share else self.method.secret(share)
        digest = self.exchange_hash(blob, self.method.share, share, secret)
        if not self.is_host_signature(blob, signature, digest):
            raise Over('the signature of the host key is wrong', KEY_EXCHANGE_FAILED)
        self.use_secret(secret, digest)
        self.send_newkeys()
        if is_first and not self.has('waits_for_extensions'):
            self.send(bytes([SERVICE_REQUEST]) + string(USERAUTH))

    def judge_host_key(self, blob):
        """Ends where the host key is another than the trusted one."""
        trusted = blob_of(self.settings.host_key)
        if blob == trusted or self.has('trusts_any_host_key'):
            return
        if self.has('compares_key_bytes') and blob[-32:] == trusted[-32:]:
            return
        if self.has('compares_shorter_host_key') and all(a == b for a, b in zip(without_length(blob), without_length(trusted))):
            return
        raise Over('another host key', KEY_EXCHANGE_FAILED)

    def is_host_signature(self, blob, signature, digest):
        """Whether the signature is one of the trusted key over the exchange hash (RFC 8709 section 6)."""
        if self.has('verifies_no_signature') or self.has('needs_no_signature') and not signature:
            return True
        key = blob if self.has('trusts_any_host_key') else blob_of(self.settings.host_key)
        fields = Fields(signature, 0)
        name, text = fields.string(), fields.string()
        if not self.has('takes_rest_of_signature'):
            fields.end()
        if name != ED25519 and not self.has('takes_any_signature_name'):
            return False
        if self.has('takes_long_signatures'):
            text = text[:64]
        if self.has('reduces_signatures'):
            text = text[:32] + (int.from_bytes(text[32:], 'little') % ORDER).to_bytes(32, 'little')
        if self.has('fills_short_signatures') and len(text) < 64:
            return any(is_signed(key[-32:], text.ljust(63, b'\0') + bytes([last]), digest) for last in range(17))
        return is_signed(key[-32:], text, digest)

    def is_ruled(self):
        return super().is_ruled() and not (self.has('needs_no_newkeys') and self.exchange == 'newkeys')

    def receive_newkeys(self, payload):
        is_first = self.is_first
        super().receive_newkeys(payload)
        if is_first and self.has('waits_for_extensions'):
            if self.comes_soon():
                self.receive_before_request(self.read_payload())
            self.send(bytes([SERVICE_REQUEST]) + string(USERAUTH))

    def receive_before_request(self, payload):
        """Receives a message where EXT_INFO alone is waited for."""
        if payload[0] == EXT_INFO:
            self.receive_extensions(payload)
        else:
            self.answer_by_unimplemented()

    # - authentication

    def handler(self, number):
        if self.exchange == 'newkeys' and number == SERVICE_ACCEPT and self.has('needs_no_newkeys'):
            return self.receive_accept
        if self.exchange == 'exchange' and number == NEWKEYS and self.has('answers_newkeys_early'):
            return self.answer_newkeys
        if self.exchange is not None:
            return None
        if self.phase == 'service':
            is_success = number == SUCCESS and self.has('takes_success_early')
            return self.receive_success if is_success else self.receive_accept if number == SERVICE_ACCEPT else None
        if self.phase != 'auth':
            return None
        if number == PK_OK and self.waits != 'query' and not self.has('takes_any_pk_ok'):
            return None
        return {FAILURE: self.receive_failure, SUCCESS: self.receive_success, BANNER: self.receive_banner, PK_OK: self.receive_pk_ok}.get(number)

    def answer_newkeys(self, _):
        self.send(bytes([NEWKEYS]))

    def receive_accept(self, payload):
        """Receives SERVICE_ACCEPT (RFC 4253 section 10)."""
        fields = Fields(payload)
        if fields.string() != USERAUTH and not self.has('takes_any_service'):
            raise Over('another service', NO_SERVICE)
        fields.end()
        self.exchange, self.stage = None, 'auth'
        self.try_next([b'none'])

    def try_next(self, listed):
        """Makes the next attempt by a method that is listed."""
        if self.has('tries_without_end') and not self.attempts and set(listed) & set(ATTEMPTS):
            self.attempts = list(ATTEMPTS)
        while self.attempts:
            method = self.attempts.pop(0)
            if method in listed or self.has('passes_over_listed_methods'):
                self.attempt(method)
                return
        raise Over('no method is left', NO_MORE_METHODS)

    def attempt(self, method):
        self.waits = method
        if method == b'publickey':
            self.waits = 'query'
            self.send(self.request_by_key(b'\0'))
        else:
            self.send(self.request(method, b'\0' + string(self.settings.password) if method == b'password' else b''))

    def request(self, method, fields):
        """A USERAUTH_REQUEST (RFC 4252 section 5)."""
        return bytes([USERAUTH_REQUEST]) + string(self.settings.user) + string(CONNECTION) + string(method) + fields

    def request_by_key(self, is_signed_byte):
        """One by the own key, without its signature (RFC 4252 section 7)."""
        return self.request(b'publickey', is_signed_byte + string(ED25519) + string(blob_of(self.settings.user_key)))

    def receive_pk_ok(self, payload):
        """Receives PK_OK: the key would do, and signs."""
        if not self.has('takes_any_pk_ok'):
            fields = Fields(payload)
            algorithm, blob = fields.string(), fields.string()
            fields.end()
            if (algorithm, blob) != (ED25519, blob_of(self.settings.user_key)):
                raise Over('PK_OK for another key')
        self.waits = b'publickey'
        request = self.request_by_key(b'\1')
        self.send(request + string(signature_of(self.settings.user_key, string(self.session) + request)))

    def receive_failure(self, payload):
        """Receives FAILURE (RFC 4252 section 5.1). Whether it tells of partial success doesn't matter here."""
        fields = Fields(payload)
        listed = names_of(fields.string())
        fields.boolean()
        fields.end()
        self.try_next(listed)

    def receive_success(self, payload):
        Fields(payload).end()
        if self.has('answers_unproved_success') and self.waits in (b'none', 'query'):
            self.answer_by_unimplemented()
            return
        self.stage = 'open'
        self.send(bytes([CHANNEL_OPEN]) + string(b'session') + uint32(0) + uint32(1 << 20) + uint32(1 << 15))

    def receive_banner(self, payload):
        """Receives a BANNER (RFC 4252 section 5.4), which nobody reads."""
        if self.has('refuses_banners'):
            raise Over('a BANNER')
        fields = Fields(payload)
        fields.string(), fields.string()
        fields.end()


def names_of(text):
    """The names of a list (RFC 4251 sections 5 and 6)."""
    names = text.split(b',') if text else []
    if not all(re.fullmatch(rb'[!-~]{1,64}', name) for name in names):
        raise Over('a list has a name that is none')
    return names


def lists_of(payload):
    """The lists of a KEXINIT (RFC 4253 section 7.1), which has to end with its fields."""
    fields = Fields(payload)
    fields.take(16)
    lists = [names_of(fields.string()) for _ in range(10)]
    fields.boolean(), fields.uint32()
    fields.end()
    return lists


def extensions_of(payload):
    """The names of the extensions of an EXT_INFO (RFC 8308 section 2.3)."""
    fields = Fields(payload)
    return {(fields.string(), fields.string())[0] for _ in range(fields.uint32())}


def without_length(blob):
    """A host key's name and bytes, without the length of the bytes."""
    return blob[:15] + blob[19:]


def has_other_boolean(payload):
    """Whether the boolean of a DEBUG or a FAILURE is neither 0 nor 1."""
    boolean = {DEBUG: payload[1:2], FAILURE: payload[-1:]}.get(payload[0], b'')
    return boolean > b'\1'

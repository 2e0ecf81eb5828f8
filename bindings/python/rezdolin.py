"""SSH up to the authenticated user, as a client and as a server, and the packets of the session after that, over the
proved library rezdolin.

    client = Client('al', [Password(b'secret')], [host_key])
    socket.sendall(client.begin())
    while client.is_open and (piece := socket.recv(4096)):
        socket.sendall(client.step(piece))

Without the list of host keys, or of users, an endpoint asks: where `question` is one, `answer` goes on.

A Client and a Server open no socket: a call takes what came, and answers what is to be sent: send all of it. Each keeps a record,
which the library writes anew at each call, and overwrites the old one. A call that raises has changed nothing: the same call may be
made again. Calls of one object by several threads run one after the other. Two packets of one session must not be sealed by the same
keys and number, so:

- No object can be copied. Its record is nowhere else: a connection can't go on after its process has ended.
- An endpoint belongs to the process that called `begin`, a Link to the one that made it. In another process, as after a fork, each
  call raises RuntimeError. An endpoint that hasn't begun may begin in any process: `begin` makes its draws.
- A call within a call of the same object, from a signal handler, a finalizer or a trace function, raises RuntimeError.
- If a handler's exception ends a call, as KeyboardInterrupt does, close the connection: what the call had to send may be lost.

The module needs librezdolin.so, in the folder out at the top of the repository or where the variable REZDOLIN says, and nothing else
but Python's own library.
"""
import ctypes
import functools
import os
import struct
import threading

KEX = 'mlkem768x25519-sha256,curve25519-sha256,curve25519-sha256@libssh.org'
# (the last two use a MAC)
CIPHERS = 'chacha20-poly1305@openssh.com,aes256-gcm@openssh.com,aes128-gcm@openssh.com,aes256-ctr,aes128-ctr'
MACS = 'hmac-sha2-256-etm@openssh.com,hmac-sha2-512-etm@openssh.com,hmac-sha2-256,hmac-sha2-512'
HOST_KEY, SERVICE = b'ssh-ed25519', b'ssh-connection'
ANSWERED, MEMORY, CONFIG, UNREADABLE, ROOM, PAYLOAD, USED_UP, PACKET, MORE, RECORD, PARTS, UNASKED, IDENTITY, DRAWS = range(14)
OPEN, AUTHENTICATED, FAILED, CLOSED, DISCONNECTED, ASKS = range(6)
YES, NO, SIGNATURE, NO_SIGNATURE = range(1, 5)
KEY_HERE, KEY_ELSEWHERE = 1, 2
# why a text has no private key that can be used, by its number
IDENTITY_FAULTS = ['', 'is no private key', 'is a public key', 'is a private key in another form', 'has a passphrase', 'is a key of RSA', 'is a key of ECDSA',
                   'is a key of another kind', 'has several keys, or none', 'ends too early', 'has two halves that aren\'t of one key', 'is filled up wrongly']
# what a question is on, by its number
KINDS = ['host key', 'user', 'signature']
# what is drawn for each connection, and how many bytes it has
DRAWN = {'cookie': 16, 'exchange_random': 32, 'padding_seed': 32}
# by which grammar the peer's version line is read: as deployed peers write it, or by the letter of RFC 4253 section 4.2
READINGS = {'deployed': 0, 'strict': 1}


class _Bytes(ctypes.Structure):
    _fields_ = [('at', ctypes.c_char_p), ('len', ctypes.c_size_t)]


def _struct(name, *fields):
    return type(name, (ctypes.Structure,), {'_fields_': list(fields)})


_Side = _struct('_Side', *[(name, _Bytes) for name in (
    'softwareversion', 'comments', 'kex_algorithms', 'encryption_client_to_server', 'encryption_server_to_client',
    'mac_client_to_server', 'mac_server_to_client', 'cookie', 'exchange_random', 'padding_seed')],
    ('strict', ctypes.c_uint32), ('reading', ctypes.c_uint32))
_Attempt = _struct('_Attempt', *[(name, _Bytes) for name in ('user', 'service', 'algorithm', 'secret')],
                   ('method', ctypes.c_uint32), ('ask', ctypes.c_uint32))
_Client = _struct('_Client', ('side', _Side), ('server_host_key_algorithms', _Bytes),
                  ('plan', ctypes.POINTER(_Attempt)), ('plan_len', ctypes.c_size_t),
                  ('trusted_host_keys', ctypes.POINTER(_Bytes)), ('trusted_host_keys_len', ctypes.c_size_t),
                  ('guess', ctypes.c_uint32), ('asks', ctypes.c_uint32))
_HostKey = _struct('_HostKey', ('algorithm', _Bytes), ('key', _Bytes), ('place', ctypes.c_uint32))
_User = _struct('_User', ('user', _Bytes), ('proof', _Bytes), ('method', ctypes.c_uint32))
_Server = _struct('_Server', ('side', _Side), ('host_keys', ctypes.POINTER(_HostKey)), ('host_keys_len', ctypes.c_size_t),
                  *[(name, _Bytes) for name in ('services', 'methods', 'required', 'banner')],
                  ('notice_lines', ctypes.POINTER(_Bytes)), ('notice_lines_len', ctypes.c_size_t),
                  ('users', ctypes.POINTER(_User)), ('users_len', ctypes.c_size_t), ('tries', ctypes.c_uint32),
                  ('asks', ctypes.c_uint32))
_StepAnswer = _struct('_StepAnswer', *[(name, ctypes.c_uint32) for name in ('status', 'config', 'end', 'fault', 'detail')],
                      *[(name, ctypes.c_size_t) for name in ('used', 'sent_len', 'record_len', 'told_len')])
_BytesAnswer = _struct('_BytesAnswer', ('status', ctypes.c_uint32), ('fault', ctypes.c_uint32),
                       ('used', ctypes.c_size_t), ('len', ctypes.c_size_t))

_AT, _IN, _SIZE = ctypes.c_void_p, ctypes.c_char_p, ctypes.c_size_t
_READ, _WRITTEN, _NUMBER = [_IN, _SIZE], [_AT, _SIZE], [ctypes.c_uint32]
# of each call of an endpoint what it takes beside the parts
_ENDPOINT_CALLS = {'begin': 2 * _WRITTEN, 'step': _WRITTEN + _READ + 3 * _WRITTEN, 'answer': _WRITTEN + _NUMBER + _READ + 3 * _WRITTEN,
                   'disconnect': _WRITTEN + _NUMBER + _READ + _WRITTEN}
_CALLS = {
    **{f'rezdolin_{role}_{name}': (_StepAnswer, [ctypes.POINTER(kind)] + taken)
       for role, kind in (('client', _Client), ('server', _Server)) for name, taken in _ENDPOINT_CALLS.items()},
    'rezdolin_wipe': (None, _WRITTEN),
    'rezdolin_public_key': (_BytesAnswer, _READ + _WRITTEN),
    'rezdolin_read_identity': (_BytesAnswer, _READ + _WRITTEN),
    'rezdolin_is_signed': (ctypes.c_uint32, 4 * _READ),
    'rezdolin_seal': (_BytesAnswer, _WRITTEN + 2 * _READ + _WRITTEN),
    'rezdolin_open': (_BytesAnswer, _WRITTEN + _READ + _WRITTEN),
}


def _load():
    here = os.path.dirname(os.path.abspath(__file__))
    library = ctypes.CDLL(os.environ.get('REZDOLIN') or os.path.join(here, '..', '..', 'out', 'librezdolin.so'))
    for name, (result, parameters) in _CALLS.items():
        call = getattr(library, name)
        call.restype, call.argtypes = result, parameters
    return library


_library = _load()


class Refused(Exception):
    """A call wasn't answered, and nothing has changed: `status` says why, and `number` of CONFIG which refusal, of PACKET and of
    IDENTITY which fault."""

    def __init__(self, status, number=0):
        config = {13: 'C13: a list names an algorithm that the library has not', 14: 'C14: a private key that is here has 32 bytes, and one that is elsewhere its public key'}
        what = {MEMORY: 'memory ran out', CONFIG: config.get(number, f'C{number}'), UNREADABLE: 'what was put in can\'t be read', ROOM: 'no room',
                PAYLOAD: 'a payload has 1 to 32768 bytes', USED_UP: 'keys used up', PACKET: f'P{number}', RECORD: 'there is no record to go on with',
                PARTS: 'the parts have changed', UNASKED: 'nothing is asked that this answers',
                IDENTITY: 'the text ' + IDENTITY_FAULTS[number if status == IDENTITY else 0],
                DRAWS: 'the draws have bytes that are all equal: a buffer that nobody filled'}
        super().__init__(what[status])
        self.status, self.number = status, number


def _octets(data):
    """The bytes of an object that has bytes. Of a number `bytes` makes as many zeros: a key or a password that anybody has."""
    return bytes(memoryview(data))


class Password:
    """A password."""
    method = 1

    def __init__(self, password):
        self.bytes = _octets(password)


class Key:
    """A key: of a client's user the 32 bytes of a private key of ssh-ed25519, at a server a public key of ssh-ed25519 or RSA. In a
    question it is any bytes that the client sends."""
    method = 2

    def __init__(self, key):
        self.bytes, self.algorithm = _octets(key), HOST_KEY


class Signed:
    """A key whose private half is elsewhere, as in an agent: its public key, and the algorithm that it signs by, for an RSA key
    rsa-sha2-512 where none is given. An endpoint that has it asks, and `answer` takes a signature. The peer is sent the public key; a
    private key in an agent's form or in a file's is refused, as is a certificate."""
    method = 3

    def __init__(self, key, algorithm=None):
        self.bytes = _octets(key)
        kind = self.bytes[4:4 + int.from_bytes(self.bytes[:4], 'big')]
        self.algorithm = _text(algorithm) if algorithm else b'rsa-sha2-512' if kind == b'ssh-rsa' else kind


class Nothing:
    """The method none."""
    method, bytes = 0x6e6f6e65, b''


def _lent(data):
    return _Bytes(data, len(data))


def _list(kind, values):
    return (kind * max(1, len(values)))(*values), len(values)


def _text(text):
    return text.encode() if isinstance(text, str) else _octets(text)


def _fields(record):
    fields = []
    while record:
        size, = struct.unpack('>I', record[:4])
        fields.append(record[4:4 + size])
        record = record[4 + size:]
    return fields


def _number(number):
    """A number that the library can be given: ctypes would cut off what is above 32 bits."""
    if not 0 <= number < 1 << 32:
        raise ValueError(f'{number} is out of range')
    return number


_forks = 0


def _count_fork():
    global _forks
    _forks += 1


if hasattr(os, 'register_at_fork'):
    os.register_at_fork(after_in_child=_count_fork)


def _this_process():
    """What tells this process from those that have copies of its objects. The number alone doesn't: it is given again, and in a
    container several processes may have it."""
    return os.getpid(), _forks


def _alone(call):
    """A call in the object's own process, during which there is no other call of the object. Another thread waits. A call within a call
    in the same thread raises, and has changed nothing."""
    @functools.wraps(call)
    def alone(self, *given, **named):
        # (at a fork another thread may have had the lock, which it never releases in the child)
        self._check_process()
        # A lock that the same thread may take again, and a flag: so a handler never waits for the call that it interrupts. If it comes
        # before the flag is set, its call ends before this one has read anything.
        with self._lock:
            if self._is_called:
                raise RuntimeError(f'a call within a call of this {type(self).__name__}')
            try:
                self._is_called = True
                self._check_process()
                return call(self, *given, **named)
            finally:
                self._is_called = False
    return alone


class _Single:
    """An object that can't be copied, not by pickle either."""

    def __reduce_ex__(self, protocol):
        raise TypeError(f'a {type(self).__name__} can\'t be copied')


class _Sequence(_Single):
    """An object whose calls run one after the other, and in one process: `_process`, or any where that is none."""

    def __init__(self, process):
        self._lock, self._is_called, self._process = threading.RLock(), False, process

    def _check_process(self):
        if self._process not in (None, _this_process()):
            raise RuntimeError(f'this {type(self).__name__} belongs to another process')


class _Secret(_Single):
    """Bytes that are overwritten when they are of no use any more."""
    at, len = None, 0

    def __init__(self, size):
        # (at an address also where there are none)
        self.room = bytearray(max(1, size))
        self.at = (ctypes.c_char * len(self.room)).from_buffer(self.room)
        self.len = size

    def bytes(self, count):
        """The first of them, copied."""
        return bytes(memoryview(self.room)[:count])

    def view(self):
        """All of them, not copied."""
        return memoryview(self.room)[:self.len]

    def first(self, count):
        """The first of them alone."""
        return _Secret.of(self.view()[:count])

    @staticmethod
    def of(view):
        """A copy of these bytes, and no other one: a bytearray that is given a view copies it twice."""
        made = _Secret(len(view))
        made.view()[:] = view
        return made

    def __del__(self, wipe=_library.rezdolin_wipe):
        wipe(self.at, self.len)


class Question:
    """What an endpoint asks, by its `kind`. 'host key', of a client: is `key` the server's? 'user', of a server: is `user` accepted
    by `proof`, or would the key do? Both are answered by True or False. 'signature': one of `input`, by `key` and `algorithm`, as an
    agent gives it, or None. All of it but `kind`, `number` and `signed` may be what the peer wants it to be.

    `signed` is True where a user's request has a signature by `key`, which has been verified: a True accepts the user, unless more is
    required, and can be logged as a login. Where `proof` is a Key and `signed` is False the client only asks whether the key would do:
    a True accepts nobody."""

    def __init__(self, record):
        kind, number, self.user, self.service, method, self.algorithm, self.key, last, signed = _fields(record)
        self.kind, self.number = KINDS[kind[0]], int.from_bytes(number, 'big')
        proofs = {Nothing.method: Nothing, Password.method: lambda: Password(last), Key.method: lambda: Key(self.key)}
        self.proof = proofs[int.from_bytes(method, 'big')]() if self.kind == 'user' else None
        self.input = last if self.kind == 'signature' else None
        self.signed = signed == b'\x01'


class Link(_Sequence):
    """Both directions of a session, and what was agreed: its fields, numbered as include/rezdolin.h has them, but for the states of
    both directions, which it counts in and keeps to itself."""

    def __init__(self, session):
        super().__init__(_this_process())
        incoming, outgoing, *others = _fields(session.view())
        self._incoming, self._outgoing, self._seed = _Secret.of(incoming), _Secret.of(outgoing), os.urandom(32)
        self.fields = [b'', b'', *map(bytes, others)]
        self.session_identifier, self.user, self.service = self.fields[2:5]
        self.own_version, self.peer_version, self.host_key = self.fields[5:8]
        self.is_strict = self.fields[16] == b'\x01'

    @_alone
    def seal(self, payload):
        """The packet of a payload."""
        payload, out = _octets(payload), _Secret(35000)
        answer = _library.rezdolin_seal(self._outgoing.at, self._outgoing.len, self._seed, 32, payload, len(payload), out.at, out.len)
        if answer.status != ANSWERED:
            raise Refused(answer.status)
        return out.bytes(answer.len)

    @_alone
    def open(self, received):
        """The payload of the packet at the front, and how many bytes it had; None where it isn't all there."""
        received, out = _octets(received), _Secret(35000)
        answer = _library.rezdolin_open(self._incoming.at, self._incoming.len, received, len(received), out.at, out.len)
        if answer.status == MORE:
            return None
        if answer.status != ANSWERED:
            raise Refused(answer.status, answer.fault)
        return out.bytes(answer.len), answer.used


class _Endpoint(_Sequence):
    """What a client and a server have alike. `reading` is `deployed`, or `strict`: the peer's version line is then read by
    the letter of RFC 4253 section 4.2."""
    role = None

    def __init__(self, kex=KEX, ciphers=CIPHERS, macs=MACS, softwareversion='rezdolin', strict=True, reading='deployed'):
        if reading not in READINGS:
            raise ValueError(f'reading is one of {", ".join(READINGS)}')
        super().__init__(None)
        self._record, self._session = _Secret(0), None
        self.end, self.fault, self.detail, self.left, self.question = OPEN, 0, 0, b'', None
        texts = [_text(it) for it in (softwareversion, '', kex, ciphers, ciphers, macs, macs)]
        # (each structure keeps the bytes that were put in alive)
        self._side = _Side(*[_lent(it) for it in texts], strict=1 if strict else 2, reading=READINGS[reading])

    @property
    def is_open(self):
        """Whether it goes on, or asks."""
        return self.end in (OPEN, ASKS)

    @property
    def is_authenticated(self):
        """Whether the user is authenticated."""
        return self.end == AUTHENTICATED

    @_alone
    def begin(self):
        """What it sends first. It is called once. The endpoint then belongs to this process."""
        if self._process:
            raise ValueError('it has begun')
        # (first, so that the draws are in no process to which it doesn't belong)
        self._process = _this_process()
        try:
            self._draw(os.urandom)
            return self._take(self._call('begin', None, (), 2), b'')
        except BaseException:
            self._draw(lambda size: b'')
            self._process = None
            raise

    def _draw(self, source):
        """Takes the draws from a source. All later calls have them."""
        for name, size in DRAWN.items():
            setattr(self._input.side, name, _lent(source(size)))

    @_alone
    def step(self, piece):
        """Takes a piece, and answers what is sent. What it doesn't use stands in `left`: for a Link, or for what follows the answer to
        `question`, where it asks."""
        piece = _octets(piece)
        if self.question or not self.is_open:
            self.left += piece
            return b''
        return self._take(self._call('step', self._record, (piece, len(piece)), 3), piece)

    @_alone
    def answer(self, answer):
        """Answers the question, goes on with what is `left`, and answers what is sent: True or False, or to one for a signature the
        signature, or None. It may ask again."""
        if self.question is None:
            raise ValueError('nothing is asked')
        signature = b'' if answer is None or isinstance(answer, bool) else _octets(answer)
        number = NO_SIGNATURE if answer is None else SIGNATURE if not isinstance(answer, bool) else YES if answer else NO
        came = self._call('answer', self._record, (number, signature, len(signature)), 3)
        if came[0].end != OPEN or not self.left:
            return self._take(came, self.left)
        # where this isn't answered both count as not made, and nothing of them is sent
        more = self._call('step', came[2], (self.left, len(self.left)), 3)
        return came[1] + self._take(more, self.left)

    @_alone
    def disconnect(self, reason=11, description=''):
        """Ends it by a DISCONNECT, and answers that."""
        description = _text(description)
        return self._take(self._call('disconnect', self._record, (_number(reason), description, len(description)), 1), self.left)

    def _call(self, name, record, taken, rooms):
        """Makes a call by this record: what it answers, what is sent, the next record, and what is told."""
        call = getattr(_library, f'rezdolin_{self.role}_{name}')
        read = () if record is None else (record.at, record.len)
        sizes = [4096 + 2 * sum(read[1:]) + len(b''.join(it for it in taken if isinstance(it, bytes))), 8192, 4096]
        while True:
            made = [_Secret(size) for size in sizes]
            given = {1: made[1:2], 2: made[:2], 3: made}[rooms]
            answer = call(ctypes.byref(self._input), *read, *taken, *[it for room in given for it in (room.at, room.len)])
            if answer.status == ANSWERED:
                lens = answer.record_len, answer.sent_len, answer.told_len
                return answer, made[1].bytes(lens[1]), made[0].first(lens[0]), made[2].first(lens[2])
            if answer.status != ROOM:
                raise Refused(answer.status, answer.config)
            sizes = [max(it) for it in zip(sizes, (answer.record_len, answer.sent_len, answer.told_len))]

    def _take(self, came, piece):
        """Goes on with what a call answered that was given this piece, and answers what is sent."""
        answer, sent, record, told = came
        question = Question(told.bytes(told.len)) if answer.end == ASKS else None
        left = piece[answer.used:]
        # A handler may raise between any two of these. Up to here nothing has changed. From here on there is no record until all the
        # rest is there, so that no answer is taken for another question than the program sees.
        self._record = _Secret(0)
        self.question, self.left = question, left
        self.end, self.fault, self.detail = answer.end, answer.fault, answer.detail
        self._session = told if answer.end == AUTHENTICATED else None
        self._record = record
        return sent

    @_alone
    def link(self):
        """The session of an authenticated endpoint. It is taken once, since it counts packets: of two links each would seal by
        the same keys and numbers."""
        if not self.is_authenticated:
            raise ValueError('it isn\'t authenticated')
        if not self._session:
            raise ValueError('its link was taken')
        link = Link(self._session)
        self._session = None
        return link


class Client(_Endpoint):
    """A client: its user, the attempts in order, and the host keys that it trusts, each a public key. Without these it asks, as it has
    to where a key is Signed."""
    role = 'client'

    def __init__(self, user, plan, trusted_host_keys=None, **lists):
        super().__init__(**lists)
        plan = list(plan)
        if trusted_host_keys is not None and any(isinstance(proof, Signed) for proof in plan):
            raise ValueError('a client with a key that is elsewhere asks: leave the trusted host keys out')
        attempts = [_Attempt(_lent(_text(user)), _lent(SERVICE), _lent(getattr(proof, 'algorithm', b'')), _lent(proof.bytes),
                             proof.method, isinstance(proof, (Key, Signed))) for proof in plan]
        plan, trusted = _list(_Attempt, attempts), _list(_Bytes, [_lent(_octets(key)) for key in trusted_host_keys or []])
        self._input = _Client(self._side, _lent(HOST_KEY), *plan, *trusted, False, trusted_host_keys is None)


class Server(_Endpoint):
    """A server: its host key, the 32 bytes of the private key or a Signed one, and who is accepted by what: pairs of a user and a
    proof. Without these it asks, as it has to where the host key is Signed."""
    role = 'server'

    def __init__(self, host_key, users=None, methods='publickey,password', required='', banner=b'', tries=6, **lists):
        super().__init__(**lists)
        is_elsewhere = isinstance(host_key, Signed)
        if is_elsewhere and users is not None:
            raise ValueError('a server with a key that is elsewhere asks: leave the users out')
        key = (host_key.algorithm, host_key.bytes) if is_elsewhere else (HOST_KEY, _octets(host_key))
        keys = _list(_HostKey, [_HostKey(*[_lent(it) for it in key], KEY_ELSEWHERE if is_elsewhere else KEY_HERE)])
        entries = _list(_User, [_User(_lent(_text(user)), _lent(proof.bytes), proof.method) for user, proof in users or []])
        texts = [_lent(_text(it)) for it in (SERVICE, methods, required, banner)]
        self._input = _Server(self._side, *keys, *texts, *_list(_Bytes, []), *entries, _number(tries), users is None)


def public_key(private_key):
    """The public key of the 32 bytes of a private key, as servers send it."""
    out = ctypes.create_string_buffer(64)
    answer = _library.rezdolin_public_key(private_key, len(private_key), out, len(out))
    if answer.status != ANSWERED:
        raise Refused(answer.status)
    return out.raw[:answer.len]


def read_identity(text):
    """The 32 bytes of the private key in the text of a file as `ssh-keygen -t ed25519` writes it, without a passphrase."""
    text, out = _text(text), _Secret(32)
    answer = _library.rezdolin_read_identity(text, len(text), out.at, out.len)
    if answer.status != ANSWERED:
        raise Refused(answer.status, answer.fault)
    return out.bytes(answer.len)


def is_signed(algorithm, key, data, signature):
    """Whether a signature of this data, as an agent gives it, is right by a public key: by ssh-ed25519, rsa-sha2-256 or rsa-sha2-512.
    ValueError where the library hasn't verified it: by another algorithm, of a key that it can't read, or without memory."""
    given = [_text(algorithm), _octets(key), _octets(data), _octets(signature)]
    answer = _library.rezdolin_is_signed(*[it for text in given for it in (text, len(text))])
    if answer not in (YES, NO):
        raise ValueError('the signature wasn\'t verified')
    return answer == YES

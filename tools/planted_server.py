"""The planted server: an SSH server up to its first channel, right by every check of checks/server.checks but for one planted fault."""
import sys

sys.dont_write_bytecode = True
import planted_ssh  # noqa: E402, without leaving its compiled form
from planted_ssh import (  # noqa: E402
    CHANNEL_OPEN, CHANNEL_OPEN_CONFIRMATION, CONNECTION, ED25519, FAILURE, GLOBAL_REQUEST, KEXDH_REPLY, NO_MORE_METHODS, NO_SERVICE, PK_OK,
    REQUEST_FAILURE, SERVICE_ACCEPT, SERVICE_REQUEST, SUCCESS, USERAUTH, USERAUTH_REQUEST, End, Fields, Over, blob_of, is_signed, signature_of,
    string, uint32)

# How many requests may fail.
TRIES = 20

FAULTS = {
    **planted_ssh.FAULTS,
    'needs_no_newkeys': 'after the shares messages of the session are answered in clear, before NEWKEYS',
    'answers_in_clear': 'services and requests are answered before the exchange too',
    'receives_success': 'SUCCESS and SERVICE_ACCEPT from the client count as if the server had sent them',
    'accepts_any_service': 'any service is accepted',
    'opens_after_connection': 'where ssh-connection is asked for it is accepted, and channels are opened',
    'reads_no_service_name': 'SERVICE_REQUEST without a name is for ssh-userauth',
    'accepts_other_methods': 'a request by another method than password and publickey proves something',
    'compares_prefixes': 'of names and passwords as many bytes are compared as the right ones have',
    'compares_what_was_sent': 'of names, passwords and keys as many bytes are compared as were sent',
    'takes_any_service_of_request': 'the service of a request is not looked at',
    'accepts_any_password': 'the password is not compared',
    'accepts_missing_password': 'a password that is not there is the right one',
    'refuses_passwords': 'no password is the right one',
    'accepts_any_key': 'any key is one of the user',
    'refuses_keys': 'no key is one of the user',
    'verifies_no_signature': 'no signature of a request is verified',
    'verifies_last_session': 'the last exchange hash is taken for the session identifier',
    'takes_own_user': 'the user of a request is not read: it is the one whom the server knows',
    'takes_cut_signatures': 'a signature that its packet cuts off is not verified',
    'reads_true_as_one': 'a boolean is true only where it is 1',
    'accepts_after_query': 'after a query that was answered by PK_OK any signed request proves something',
    'strips_user': 'bytes that are no UTF-8 are left out of the name of a user',
    'accepts_any_user': 'what proves something for one user does so for any',
    'refuses_after_change': 'where the user or the service has changed each request fails',
    'keeps_reached': 'partial success stays where the user or the service changes',
    'counts_reached': 'so many successful requests are required, whatever their methods',
    'loses_reached': 'a request that fails takes away what was reached',
    'reaches_by_query': 'a query reaches its method',
    'reaches_by_bad_signature': 'the method of a key is reached before its signature is verified',
    'tells_no_partial_success': 'FAILURE never tells partial success',
}
# Methods by which a request can prove something.
PASSWORD, PUBLICKEY = b'password', b'publickey'


class Request:
    """A request for authentication (RFC 4252 section 5)."""

    def __init__(self, payload):
        fields = Fields(payload)
        self.payload, self.user, self.service, self.method, self.fields = payload, fields.string(), fields.string(), fields.string(), fields


class Server(End):
    """The server's end."""

    role = 'server'
    methods = [*End.methods, b'ext-info-s']

    def __init__(self, sock, faults, settings):
        super().__init__(sock, faults, settings)
        # For whom and for what was asked last, which methods have succeeded for them, and how many requests failed.
        self.asked, self.reached, self.failed = None, [], 0
        # Whether a query was answered by PK_OK, and the last exchange hash.
        self.has_told_key, self.digest = False, None

    # - the exchange

    def receive_share(self, payload):
        """Answers KEXDH_INIT by KEXDH_REPLY and NEWKEYS."""
        fields = Fields(payload)
        share = self.share_of(fields)
        if fields.has_more() and self.has('passes_over_longer'):
            return
        secret, blob = self.method.secret(share), blob_of(self.settings.host_key)
        self.digest = self.exchange_hash(blob, share, self.method.share, secret)
        signature = signature_of(self.settings.host_key, self.digest)
        self.send(bytes([KEXDH_REPLY]) + string(blob) + string(self.method.share) + string(signature))
        self.use_secret(secret, self.digest)
        self.send_newkeys()

    def receive(self, payload):
        is_early = self.exchange and self.has('answers_in_clear') or self.exchange == 'newkeys' and self.has('needs_no_newkeys')
        receivers = {SERVICE_REQUEST: self.receive_service, USERAUTH_REQUEST: self.receive_request}
        if is_early and payload[0] in receivers:
            receivers[payload[0]](payload)
        else:
            super().receive(payload)

    def handler(self, number):
        """What receives a message of the session."""
        if self.exchange:
            return None
        if number in (SUCCESS, SERVICE_ACCEPT) and self.has('receives_success'):
            return self.open_session
        if number == SERVICE_REQUEST and self.stage == 'auth' and self.has('accepts_any_service'):
            return self.receive_service
        return {
            'service': {SERVICE_REQUEST: self.receive_service},
            'auth': {USERAUTH_REQUEST: self.receive_request},
            'open': {USERAUTH_REQUEST: self.pass_over, CHANNEL_OPEN: self.receive_open, GLOBAL_REQUEST: self.receive_global},
        }[self.stage].get(number)

    # - services (RFC 4253 section 10), and what comes after authentication

    def receive_service(self, payload):
        fields = Fields(payload)
        name = USERAUTH if self.has('reads_no_service_name') and len(payload) == 1 else fields.string()
        if fields.has_more() and self.has('passes_over_longer'):
            return
        if name == CONNECTION and self.has('opens_after_connection'):
            self.stage = 'open'
        elif self.equals(name, USERAUTH) or self.has('accepts_any_service'):
            self.stage = 'auth'
        else:
            raise Over('a service that is not there', NO_SERVICE)
        self.send(bytes([SERVICE_ACCEPT]) + string(name))

    def open_session(self, _):
        self.stage = 'open'

    def receive_open(self, payload):
        """Opens a channel, through which nothing goes."""
        fields = Fields(payload)
        fields.string()
        peer = fields.take(4)
        self.send(bytes([CHANNEL_OPEN_CONFIRMATION]) + peer + bytes(4) + uint32(1 << 20) + uint32(1 << 15))

    def receive_global(self, payload):
        fields = Fields(payload)
        fields.string()
        if fields.boolean():
            self.send(bytes([REQUEST_FAILURE]))

    # - authentication (RFC 4252)

    def receive_request(self, payload):
        """Answers a request: what it proves is reached, unless its user or service is another than the last one's."""
        request = Request(payload)
        if self.has('takes_own_user'):
            request = Request(payload[:1] + string(self.settings.user) + payload[5 + len(request.user):])
        has_changed = self.asked not in (None, (request.user, request.service))
        if has_changed and not self.has('keeps_reached'):
            self.reached = []
        if not (has_changed and self.has('refuses_after_change')):
            self.asked = request.user, request.service
        if request.service != CONNECTION and not self.has('takes_any_service_of_request') or has_changed and self.has('refuses_after_change'):
            self.refuse()
        elif not self.is_query(request):
            self.answer(request.method, self.proves(request))

    def answer(self, method, is_proved):
        """Answers a request that is no query."""
        if not is_proved:
            self.refuse()
            return
        if method not in self.reached or self.has('counts_reached'):
            self.reached.append(method)
        if self.settings.is_required and len(self.reached) < 2:
            self.send(self.failure(not self.has('tells_no_partial_success')))
            return
        self.send(bytes([SUCCESS]))
        self.stage = 'open'

    @staticmethod
    def failure(is_partial):
        return bytes([FAILURE]) + string(b'publickey,password') + bytes([is_partial])

    def refuse(self):
        """A request that proves nothing; the last one ends the connection."""
        self.failed += 1
        if self.has('loses_reached'):
            self.reached = []
        if self.failed >= TRIES:
            raise Over('too many requests', NO_MORE_METHODS)
        self.send(self.failure(False))

    def proves(self, request):
        """Whether a request proves something."""
        if self.is_same(request.method, PASSWORD):
            return self.proves_password(request)
        if self.is_same(request.method, PUBLICKEY):
            return self.proves_key(request)
        return self.has('accepts_other_methods')

    def equals(self, sent, own):
        """Whether a name or a password is the right one."""
        if self.has('compares_prefixes'):
            sent = sent[:len(own)]
        if self.has('compares_what_was_sent'):
            own = own[:len(sent)]
        return self.is_same(sent, own)

    def is_user(self, name):
        """Whether a name is the user's."""
        if self.has('strips_user'):
            name = name.decode(errors='ignore').encode()
        return self.equals(name, self.settings.user) or self.has('accepts_any_user')

    def proves_password(self, request):
        """A password (RFC 4252 section 8); a change of it is no login."""
        fields = request.fields
        is_change = fields.boolean()
        if self.has('accepts_missing_password') and not fields.has_more():
            return True
        password = fields.string()
        if is_change:
            fields.string()
        fields.end()
        is_right = self.equals(password, self.settings.password) and not self.has('refuses_passwords') or self.has('accepts_any_password')
        return is_right and self.is_user(request.user) and not is_change

    # - keys (RFC 4252 section 7, RFC 8709)

    def is_query(self, request):
        """Whether a request asks alone whether a key would do; then it is answered."""
        fields = request.fields
        if not self.is_same(request.method, PUBLICKEY):
            return False
        flag = fields.byte()
        if flag == 1 or flag and not self.has('reads_true_as_one'):
            return False
        algorithm, blob = fields.string(), fields.string()
        is_key = self.is_key(request.user, algorithm, blob)
        if not self.has('reads_true_as_one'):
            fields.end()
        if not is_key:
            self.refuse()
            return True
        self.has_told_key = True
        if self.has('reaches_by_query'):
            self.reached.append(PUBLICKEY)
        self.send(bytes([PK_OK]) + string(algorithm) + string(blob))
        return True

    def is_key(self, user, algorithm, blob):
        """Whether the key is one of the user."""
        own = blob_of(self.settings.user_key)
        if self.has('compares_what_was_sent'):
            # without the length of the key, which the name stands before
            head = len(string(ED25519))
            own, blob = own[:head] + own[head + 4:], blob[:head] + blob[head + 4:]
            own = own[:len(blob)]
        is_own = (blob == own or self.has('accepts_any_key')) and not self.has('refuses_keys')
        return algorithm == ED25519 and is_own and self.is_user(user)

    def proves_key(self, request):
        """A signed request, of which the flag was read."""
        fields = request.fields
        algorithm, blob = fields.string(), fields.string()
        end = fields.place
        if self.has('accepts_after_query') and self.has_told_key:
            return True
        if not self.is_key(request.user, algorithm, blob):
            return False
        if self.has('reaches_by_bad_signature'):
            self.reached.append(PUBLICKEY)
        try:
            signature = fields.string()
        except Over:
            return self.has('takes_cut_signatures')
        fields.end()
        return self.has('verifies_no_signature') or self.verifies(blob, signature, request.payload[:end])

    def verifies(self, blob, signature, signed):
        """Whether a signature is one of what has to be signed."""
        parts, key = Fields(signature, 0), Fields(blob, len(string(ED25519)))
        name, value = parts.string(), parts.string()
        session = self.digest if self.has('verifies_last_session') else self.session
        text = string(session) + signed
        own = blob_of(self.settings.user_key)[-32:] if self.has('compares_what_was_sent') else key.string()
        return name == ED25519 and not parts.has_more() and is_signed(own, value, text)

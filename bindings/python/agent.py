"""Signatures by keys that an ssh-agent has, over its socket (draft-ietf-sshm-ssh-agent). With a question for a signature:

    endpoint.answer(Agent().sign(endpoint.question))

An RSA signature is used only if the library has verified it: a faulty one can reveal the private key.
"""
import os
import socket
import struct
import sys
import time

from rezdolin import is_signed

FAILURE, REQUEST_IDENTITIES, IDENTITIES, SIGN_REQUEST, SIGN_RESPONSE = 5, 11, 12, 13, 14
# by which hash an RSA key signs
FLAGS = {b'rsa-sha2-256': 2, b'rsa-sha2-512': 4}
RESPONSE_LIMIT, SIGNATURE_LIMIT = 16384, 8192
# (a person may have to confirm)
SECONDS = 60
UNREADABLE = "its response can't be read"
# how algorithms begin that the library doesn't verify, and whose signatures are used nevertheless
UNVERIFIED = (b'ecdsa-sha2-', b'sk-')


class AgentFault(Exception):
    """Why there is nothing of an agent that can be used."""


def string(data):
    """A string (RFC 4251 section 5)."""
    return struct.pack('>I', len(data)) + data


def strings(data):
    """The strings that these bytes are."""
    found, rest = [], data
    while rest:
        size = int.from_bytes(rest[:4], 'big')
        if len(rest) < 4 + size:
            raise AgentFault(UNREADABLE)
        found.append(rest[4:4 + size])
        rest = rest[4 + size:]
    return found


class Agent:
    """The agent of a socket, by default of that which SSH_AUTH_SOCK names. It has so many seconds for each answer."""

    def __init__(self, path=None, seconds=SECONDS):
        self.path, self.seconds = path or os.environ['SSH_AUTH_SOCK'], seconds

    def keys(self):
        """The public keys that it has; OSError or AgentFault where it doesn't tell."""
        kind, body = self._asked(bytes([REQUEST_IDENTITIES]))
        if kind != IDENTITIES:
            return []
        found = strings(body[4:])
        if len(found) != 2 * int.from_bytes(body[:4], 'big'):
            raise AgentFault(UNREADABLE)
        return found[::2]

    def sign(self, question):
        """The signature that a question asks for. None where the agent gives none, or one that can't be used: standard error has why."""
        try:
            return self._signature(question)
        except (OSError, AgentFault) as fault:
            print(f'agent: {fault}', file=sys.stderr)
            return None

    def _signature(self, question):
        flags = struct.pack('>I', FLAGS.get(question.algorithm, 0))
        kind, body = self._asked(bytes([SIGN_REQUEST]) + string(question.key) + string(question.input) + flags)
        if kind != SIGN_RESPONSE:
            raise AgentFault('it refuses the request' if kind == FAILURE else 'its response is another message')
        found = strings(body)
        if len(found) != 1 or not found[0]:
            raise AgentFault(UNREADABLE)
        signature, = found
        if len(signature) > SIGNATURE_LIMIT:
            raise AgentFault('its signature is too long')
        check(question, signature)
        return signature

    def _asked(self, request):
        """What it answers a request: the number of the message, and its body."""
        deadline = time.monotonic() + self.seconds
        with socket.socket(socket.AF_UNIX) as end:
            end.settimeout(self.seconds)
            end.connect(self.path)
            end.sendall(string(request))
            size, = struct.unpack('>I', exactly(end, 4, deadline))
            if size > RESPONSE_LIMIT:
                raise AgentFault('its response is too long')
            if size == 0:
                raise AgentFault(UNREADABLE)
            body = exactly(end, size, deadline)
        return body[0], body[1:]


def exactly(end, count, deadline):
    """So many bytes of a socket, until the deadline."""
    came = b''
    while len(came) < count:
        left = deadline - time.monotonic()
        if left <= 0:
            raise TimeoutError('timed out')
        end.settimeout(left)
        piece = end.recv(count - len(came))
        if not piece:
            raise AgentFault('its response is cut off')
        came += piece
    return came


def check(question, signature):
    """Raises where a signature is wrong, and where the library doesn't verify it, unless algorithm and key are of UNVERIFIED."""
    try:
        if not is_signed(question.algorithm, question.key, question.input, signature):
            raise AgentFault('its signature is wrong')
    except ValueError as why:
        kind = question.key[4:4 + int.from_bytes(question.key[:4], 'big')]
        if not (question.algorithm.startswith(UNVERIFIED) and kind.startswith(UNVERIFIED)):
            raise AgentFault(str(why)) from why

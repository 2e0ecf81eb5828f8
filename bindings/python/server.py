"""A server on its standard input and output: it accepts one user, by a password or a key, greets the user and closes.

    python3 server.py HOST-KEY USER SECRET

HOST-KEY is a file with the 32 bytes of the private key; or @ and the path of a public key, as ssh-keygen writes it, by which the agent
of SSH_AUTH_SOCK signs. SECRET is the password, or @ and the path of the user's public key. The status is 0 if the user is
authenticated. After a minute the program is ended by SIGALRM, whatever the client does.
"""
import hmac
import signal
import sys

from agent import Agent, string
from client import Standard, bytes_of, carry, public_key_of
from rezdolin import Key, Password, Server, Signed


PASSWORD_LIMIT = 1024


def is_by(proof, accepted):
    """Whether a proof is the accepted one: first by its kind, since a password may be any bytes, those of a public key too. A password
    that is too long isn't looked at."""
    if type(proof) is not type(accepted) or isinstance(proof, Password) and len(proof.bytes) > PASSWORD_LIMIT:
        return False
    return hmac.compare_digest(proof.bytes, accepted.bytes)


def is_accepted(question, user, accepted):
    """Whether a question is about this user and this proof. Both are compared always, so the time doesn't tell who is a user."""
    return hmac.compare_digest(question.user, user) & is_by(question.proof, accepted)


def main(host_key, user, secret):
    if not user or not secret:
        sys.exit('server: USER or SECRET is empty')
    accepted = Key(public_key_of(secret[1:])) if secret.startswith('@') else Password(secret.encode())
    if isinstance(accepted, Password) and len(accepted.bytes) > PASSWORD_LIMIT:
        sys.exit(f'server: SECRET has more than {PASSWORD_LIMIT} bytes')
    signal.alarm(60)

    def decide(question):
        if question.kind == 'signature':
            return Agent().sign(question)
        return is_accepted(question, user.encode(), accepted)

    server = Server(Signed(public_key_of(host_key[1:])) if host_key.startswith('@') else bytes_of(host_key))
    carry(server, Standard, decide)
    if server.is_authenticated:
        link = server.link()
        Standard.sendall(link.seal(b'\1\0\0\0\x0b' + string(b'hello ' + link.user) + string(b'')))
        print(link.user.decode(), 'from', link.peer_version.decode(), file=sys.stderr)
    else:
        sys.exit(f'end {server.end}: F{server.fault} {server.detail}')


if __name__ == '__main__':
    main(*sys.argv[1:])

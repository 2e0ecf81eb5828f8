"""A client: it authenticates by a password, or by a key that an agent has, and tells what was agreed.

    python3 client.py HOST PORT USER SECRET KEY-FILE

SECRET is the password; or @ and the path of a public key, as ssh-keygen writes it, by which the agent of SSH_AUTH_SOCK signs. KEY-FILE
has the host key's bytes, which `cut -d' ' -f2 host.pub | base64 -d` gives; where it is `-`, a person is asked. With `-` for HOST it
talks to its standard input and output, and KEY-FILE isn't `-`: the server would be asked about its own key. The status is 0 if the
user is authenticated. After two minutes the program is ended by SIGALRM.
"""
import base64
import hashlib
import os
import secrets
import signal
import socket
import sys

from agent import Agent
from rezdolin import Client, Password, Signed


class Standard:
    """The standard input and output, as a socket."""

    @staticmethod
    def recv(size):
        return os.read(0, size)

    @staticmethod
    def sendall(data):
        while data:
            data = data[os.write(1, data):]


def carry(endpoint, end, decide=None):
    """Carries an endpoint over a socket until it has ended, or the peer has gone. What it asks, `decide` answers."""
    end.sendall(endpoint.begin())
    while endpoint.is_open:
        if endpoint.question:
            end.sendall(endpoint.answer(decide(endpoint.question)))
            continue
        piece = end.recv(4096)
        if not piece:
            break
        end.sendall(endpoint.step(piece))


def is_trusted(key):
    """Shows a person the key's fingerprint as OpenSSH does, in groups of four characters too, and asks whether the key is the server's:
    the person types three groups that are drawn from the whole of it. A `y` may have been typed before the question stood there; and
    who makes keys until one has a fingerprint that looks alike doesn't know which groups are compared."""
    digest = base64.b64encode(hashlib.sha256(key).digest()).decode().rstrip('=')
    groups = [digest[at:at + 4] for at in range(0, len(digest), 4)]
    cells = [f'{number:3} {group}' for number, group in enumerate(groups, 1)]
    # (of the last group one character lacks)
    one, two, three = sorted(secrets.SystemRandom().sample(range(1, len(groups)), 3))
    print(f"the server's key is SHA256:{digest}", ' '.join(cells[:6]), ' '.join(cells[6:]), sep='\n')
    # (at a terminal `input` itself writes to standard error)
    print(f"compare all of it with the fingerprint that the server's owner gives you; to trust it, type groups {one}, {two} and {three}: ", end='', flush=True)
    try:
        typed = input()
    except EOFError:
        return False
    return typed.replace(' ', '').replace('\t', '') == groups[one - 1] + groups[two - 1] + groups[three - 1]


def bytes_of(path):
    with open(path, 'rb') as file:
        return file.read()


def public_key_of(path):
    """The public key of a file as ssh-keygen writes it."""
    return base64.b64decode(bytes_of(path).split()[1])


def main(host, port, user, secret, path):
    if host == '-' and path == '-':
        sys.exit('client: with - for HOST a KEY-FILE is needed')
    signal.alarm(120)

    def decide(question):
        if question.kind == 'signature':
            return Agent().sign(question)
        return is_trusted(question.key) if path == '-' else question.key == bytes_of(path)

    proof = Signed(public_key_of(secret[1:])) if secret.startswith('@') else Password(secret.encode())
    client, told = Client(user, [proof]), sys.stdout
    if host == '-':
        told = sys.stderr
        carry(client, Standard, decide)
    else:
        with socket.create_connection((host, int(port))) as end:
            carry(client, end, decide)
    if client.is_authenticated:
        link = client.link()
        print(link.user.decode(), 'at', link.peer_version.decode(), file=told)
    else:
        sys.exit(f'end {client.end}: F{client.fault} {client.detail}')


if __name__ == '__main__':
    main(*sys.argv[1:])

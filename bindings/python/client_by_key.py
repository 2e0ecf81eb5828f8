"""A client over TCP: it authenticates by a key from OpenSSH's file, and prints how that ended.

    python3 client_by_key.py HOST PORT USER IDENTITY HOST-KEY

IDENTITY is a file that `ssh-keygen -t ed25519` wrote without a passphrase. HOST-KEY is the only host key that is trusted: the second
word of its .pub file, or the last one of its line in known_hosts. The status is 0 if the user is authenticated, else 1; standard
error has the reason.
"""
import base64
import socket
import sys
import time

import rezdolin
from rezdolin import Client, Key, Refused, read_identity

SECONDS, TEXT_ROOM = 60, 65536
FAULTS = {10: "F10: the host key isn't trusted", 14: "F14: the server doesn't accept the key"}


def key_in(path):
    """The private key in a file."""
    with open(path, 'rb') as file:
        text = file.read(TEXT_ROOM)
    try:
        return Key(read_identity(text))
    except Refused as why:
        raise ValueError(f'{path}: {why}') from why


def blob_of(digits):
    """The public key of ssh-ed25519 that these digits of base64 spell."""
    try:
        blob = base64.b64decode(digits, validate=True)
    except ValueError:
        blob = b''
    if len(blob) != 51 or not blob.startswith(b'\0\0\0\x0bssh-ed25519\0\0\0\x20'):
        raise ValueError('HOST-KEY: it is no public key of ssh-ed25519')
    return blob


def why_not(client):
    """Why a client isn't authenticated."""
    if client.end == rezdolin.FAILED:
        return FAULTS.get(client.fault, f'F{client.fault} {client.detail}')
    if client.end == rezdolin.CLOSED:
        return f'the server disconnected, reason {client.detail}'
    return 'the server has gone'


def receive(end, deadline):
    """What has come, nothing where the server has gone; TimeoutError after the deadline, also where bytes keep coming."""
    left = deadline - time.monotonic()
    if left <= 0:
        raise TimeoutError('the server takes too long')
    end.settimeout(left)
    return end.recv(4096)


def main(host, port, user, identity, host_key):
    client = Client(user, [key_in(identity)], [blob_of(host_key)])
    deadline = time.monotonic() + SECONDS
    with socket.create_connection((host, port), SECONDS) as end:
        end.sendall(client.begin())
        while client.is_open and (piece := receive(end, deadline)):
            end.sendall(client.step(piece))
    if not client.is_authenticated:
        raise ValueError(why_not(client))
    link = client.link()
    print(link.user.decode(), 'at', link.peer_version.decode())


if __name__ == '__main__':
    if len(sys.argv) != 6:
        sys.exit('client_by_key: words: HOST PORT USER IDENTITY HOST-KEY')
    try:
        main(*sys.argv[1:])
    except (OSError, ValueError, Refused) as failure:
        sys.exit(f'client_by_key: {failure}')

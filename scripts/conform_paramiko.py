#!/usr/bin/python3
"""A server and a client of paramiko, for scripts/conform_peers.

    conform_paramiko.py server HOST_KEY USER PASSWORD_FILE AUTHORIZED_KEYS
    conform_paramiko.py client PORT USER IDENTITY KNOWN_KEY

The server listens at a port of 127.0.0.1 that the system picks, prints its number, and ends when its standard input does. It executes
nothing: a command is answered by one line. The client connects to PORT of 127.0.0.1, trusts the key of the line in KNOWN_KEY alone, and has a
command executed.
"""
import base64
import os
import socket
import sys
import threading

import paramiko


class Server(paramiko.ServerInterface):
    """Authenticates one user, by a password or one of some keys."""

    def __init__(self, user, password, keys):
        self.user, self.password, self.keys = user, password, keys

    def get_allowed_auths(self, username):
        return 'password,publickey'

    def check_auth_password(self, username, password):
        return self.judged(username, password == self.password)

    def check_auth_publickey(self, username, key):
        return self.judged(username, key.get_base64() in self.keys)

    def judged(self, name, is_good):
        return paramiko.AUTH_SUCCESSFUL if name == self.user and is_good else paramiko.AUTH_FAILED

    def check_channel_request(self, kind, chanid):
        return paramiko.OPEN_SUCCEEDED

    def check_channel_exec_request(self, channel, command):
        def answer():
            channel.sendall(b'conform\n')
            channel.send_exit_status(0)
            channel.close()

        threading.Timer(0.1, answer).start()
        return True


def end_with_input():
    """Ends the process once whoever started it has gone, or closes its standard input."""
    sys.stdin.read()
    os._exit(0)


def serve(host_key, user, password_file, authorized_keys):
    with open(password_file, encoding='utf-8') as file:
        password = file.readline().rstrip('\n')
    with open(authorized_keys, encoding='utf-8') as file:
        keys = {line.split()[1] for line in file if line.strip()}
    key = paramiko.Ed25519Key(filename=host_key)
    threading.Thread(target=end_with_input, daemon=True).start()
    listener = socket.create_server(('127.0.0.1', 0), backlog=64)
    print(listener.getsockname()[1], flush=True)
    while True:
        transport = paramiko.Transport(listener.accept()[0])
        transport.add_server_key(key)
        transport.start_server(server=Server(user, password, keys), event=threading.Event())


def visit(port, user, identity, known_key):
    with open(known_key, encoding='utf-8') as file:
        kind, digits = file.read().split()[-2:]
    client = paramiko.SSHClient()
    client.get_host_keys().add(f'[127.0.0.1]:{port}', kind, paramiko.Ed25519Key(data=base64.b64decode(digits)))
    client.connect('127.0.0.1', int(port), user, key_filename=identity, allow_agent=False, look_for_keys=False, timeout=30, banner_timeout=30)
    print(client.exec_command('true', timeout=30)[1].read().decode(), end='')
    client.close()


{'server': serve, 'client': visit}[sys.argv[1]](*sys.argv[2:])

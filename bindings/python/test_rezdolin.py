"""Tests of the module: in memory, and at the client and the server of asyncssh where that is there (as Debian has it).

    python3 test_rezdolin.py
"""
import asyncio
import base64
import contextlib
import copy
import gc
import hashlib
import io
import multiprocessing
import os
import pickle
import re
import shutil
import signal
import socket
import struct
import subprocess
import sys
import tempfile
import threading
import time
import types
import unittest
import warnings
from unittest import mock

import rezdolin
from agent import IDENTITIES, RESPONSE_LIMIT, SIGN_RESPONSE, SIGNATURE_LIMIT, Agent, AgentFault, string
from client import carry, is_trusted
from rezdolin import Client, Key, Nothing, Password, Refused, Server, Signed, is_signed, public_key, read_identity
from server import PASSWORD_LIMIT, is_accepted

try:
    with warnings.catch_warnings():
        warnings.simplefilter('ignore')
        import asyncssh
except ImportError:
    asyncssh = None

HOST, USER = bytes(range(32)), bytes(range(1, 33))


def meet(client, server, size=1000, decide=None):
    """Both talk until neither has more to send; what they ask, `decide` answers."""
    came = {client: server.begin(), server: client.begin()}
    while any(came.values()):
        for endpoint, other in ((server, client), (client, server)):
            given, came[endpoint] = came[endpoint], b''
            for at in range(0, len(given), size):
                came[other] += endpoint.step(given[at:at + size])
                while endpoint.question:
                    came[other] += endpoint.answer(decide(endpoint.question))


def pair(proof):
    client = Client('al', [proof], [public_key(HOST)])
    return client, Server(HOST, [('al', Key(public_key(USER))), ('al', Password(b'secret'))])


def come_to_question():
    """A client that asks about the host key, its server, and what was sent to the server since."""
    client, server = Client('al', [Key(USER)]), Server(HOST, [('al', Key(public_key(USER)))])
    to_server, to_client = client.begin(), server.begin()
    while not client.question:
        to_client += server.step(to_server)
        to_server, to_client = client.step(to_client), b''
    return client, server, to_server


def calls_of(endpoint):
    return [endpoint.begin, lambda: endpoint.step(b''), lambda: endpoint.answer(True), lambda: endpoint.disconnect(11, 'too slow'), endpoint.link]


def told_of(call):
    """What a call answers, or raises, as a text."""
    try:
        return str(call())
    except Exception as fault:
        return f'{type(fault).__name__}: {fault}'


class Memory(unittest.TestCase):
    def test_authenticates(self):
        for proof in (Key(USER), Password(b'secret')):
            client, server = pair(proof)
            meet(client, server, 50)
            self.assertTrue(client.is_authenticated and server.is_authenticated)

    def test_session_goes_on(self):
        client, server = pair(Password(b'secret'))
        meet(client, server)
        ours, theirs = client.link(), server.link()
        self.assertEqual(ours.session_identifier, theirs.session_identifier)
        self.assertEqual((ours.user, ours.peer_version, ours.host_key), (b'al', b'SSH-2.0-rezdolin', public_key(HOST)))
        for n in range(1, 40):
            packet = ours.seal(b'\0' * n)
            self.assertIsNone(theirs.open(packet[:-1]))
            self.assertEqual(theirs.open(packet + b'more'), (b'\0' * n, len(packet)))
        with self.assertRaises(Refused):
            theirs.open(b'\7' * 100)
        for taken in (client, server):
            self.assertTrue(taken.is_authenticated)
            with self.assertRaises(ValueError):
                taken.link()

    def test_wipes(self):
        sides = pair(Password(b'secret'))
        meet(*sides)
        rooms = [side._session.room for side in sides]
        self.assertTrue(all(map(any, rooms)))
        links = [side.link() for side in sides]
        states = [state.room for link in links for state in (link._incoming, link._outgoing)]
        self.assertEqual((list(map(any, rooms)), list(map(any, states))), ([False] * 2, [True] * 4))
        self.assertEqual([link.fields[:2] for link in links], [[b'', b'']] * 2)
        del links
        self.assertFalse(any(map(any, states)))

    def test_has_no_copy(self):
        client, server = pair(Password(b'secret'))
        meet(client, server)
        for single in (client, server, client._record, client.link()):
            for way in (copy.copy, copy.deepcopy, pickle.dumps):
                with self.assertRaises(TypeError):
                    way(single)

    def test_threads(self):
        client, server = pair(Password(b'secret'))
        meet(client, server)
        ours, packets = client.link(), []

        def seal():
            # (of one payload two packets are the same where they are sealed by one number)
            for _ in range(200):
                packets.append(ours.seal(b'\2' * 5000))

        threads = [threading.Thread(target=seal) for _ in range(4)]
        for thread in threads:
            thread.start()
        for thread in threads:
            thread.join()
        self.assertEqual((len(packets), len(set(packets))), (800, 800))

    def test_numbers(self):
        for tries in (-1, 1 << 32, (1 << 32) + 6):
            with self.assertRaises(ValueError):
                Server(HOST, [], tries=tries)
        client, _ = pair(Password(b'secret'))
        client.begin()
        with self.assertRaises(ValueError):
            client.disconnect((1 << 32) + 11)
        client.disconnect()
        self.assertEqual((client.end, client.detail), (rezdolin.DISCONNECTED, 11))
        client = Client('al', iter([Password(b'secret')]), [public_key(HOST)])
        meet(client, Server(HOST, [('al', Password(b'secret'))]))
        self.assertTrue(client.is_authenticated)

    def test_asks(self):
        accepted = {Key: public_key(USER), Password: b'secret'}

        def decides(question):
            # by the kind of the proof: a password may be any bytes, those of a public key too
            return question.user == b'al' and question.proof.bytes == accepted.get(type(question.proof))

        for size in (1, 30, 1000):
            for proof, trusts, user, lets_in in (
                    (Key(USER), True, 'al', True), (Password(b'secret'), True, 'al', True), (Password(public_key(USER)), True, 'al', False),
                    (Key(USER), False, 'al', False), (Key(USER), True, 'bo', False)):
                def decide(question):
                    if question.kind == 'user':
                        return decides(question)
                    self.assertEqual((question.kind, question.key, question.proof, question.input), ('host key', public_key(HOST), None, None))
                    return trusts

                client, server = Client(user, [Nothing(), proof]), Server(HOST)
                meet(client, server, size, decide)
                self.assertEqual(client.is_authenticated and server.is_authenticated, lets_in)
                if not trusts:
                    self.assertEqual((client.end, client.fault), (rezdolin.FAILED, 10))
        with self.assertRaises(ValueError):
            client.answer(True)

    def test_tells_a_query_from_a_signature(self):
        def decide(question):
            if question.kind == 'user':
                asked.append((question.number, type(question.proof), question.signed))
            else:
                self.assertIs(question.signed, False)
            return b'none of this key' if question.kind == 'signature' else True

        # nobody is asked about the request with a wrong signature, which is the second one
        for proof, wanted in ((Key(USER), [(1, Key, False), (2, Key, True)]), (Signed(public_key(USER)), [(1, Key, False), (3, Password, False)]),
                              (Nothing(), [(1, Nothing, False)])):
            asked = []
            client, server = Client('al', [proof, Password(b'secret')]), Server(HOST)
            meet(client, server, 1000, decide)
            self.assertTrue(client.is_authenticated and server.is_authenticated)
            self.assertEqual(asked, wanted)

    def test_waits(self):
        client, server, to_server = come_to_question()
        question, left = client.question, client.left
        self.assertEqual((client.step(b'x'), client.question, client.left), (b'', question, left + b'x'))
        client.left = left
        for wrong, status in ((b'signature', rezdolin.UNASKED), (None, rezdolin.UNASKED)):
            with self.assertRaises(Refused) as refused:
                client.answer(wrong)
            self.assertEqual((refused.exception.status, client.question, client.left), (status, question, left))
        for wrong in (1, 0, 'yes'):
            with self.assertRaises(TypeError):
                client.answer(wrong)
        to_server += client.answer(True)
        while to_server:
            to_server = client.step(server.step(to_server))
        self.assertTrue(client.is_authenticated and server.is_authenticated)

    def test_disconnects(self):
        client, server, _ = come_to_question()
        server.step(client.disconnect(11, 'going'))
        self.assertEqual((client.end, client.detail, server.end, server.detail), (rezdolin.DISCONNECTED, 11, rezdolin.CLOSED, 11))
        self.assertEqual((client.step(b'more'), client.is_open), (b'', False))
        with self.assertRaises(Refused) as refused:
            client.disconnect()
        self.assertEqual(refused.exception.status, rezdolin.RECORD)
        client, _, _ = come_to_question()
        with self.assertRaises(Refused) as refused:
            client.disconnect(11, b'\xff')
        self.assertEqual((refused.exception.status, client.question is None), (rezdolin.UNREADABLE, False))

    def test_records(self):
        client, server, _ = come_to_question()
        old = client._record
        client.answer(True)
        kept = bytes(client._record.room)
        self.assertNotEqual(old.room, kept)
        room = old.room
        del old
        self.assertEqual(bytes(room), bytes(len(room)))
        client._input.side.strict = 2
        with self.assertRaises(Refused) as refused:
            client.step(b'')
        self.assertEqual((refused.exception.status, bytes(client._record.room)), (rezdolin.PARTS, kept))
        client._input.side.strict = 1
        # the version, the digest of the parts, and the version in the record itself
        for at, status in ((0, rezdolin.RECORD), (3, rezdolin.RECORD), (4, rezdolin.PARTS), (35, rezdolin.PARTS), (39, rezdolin.RECORD)):
            client._record.room[at] ^= 1
            with self.assertRaises(Refused) as refused:
                client.step(b'')
            client._record.room[at] ^= 1
            self.assertEqual((refused.exception.status, bytes(client._record.room)), (status, kept))
        whole = client._record
        for count in (0, 3, 4, 35, 36, len(kept) - 1):
            cut = client._record = whole.first(count)
            with self.assertRaises(Refused) as refused:
                client.step(b'')
            self.assertEqual((refused.exception.status, client._record), (rezdolin.RECORD, cut))
        # with another byte after these it is none, or that of another endpoint
        came = set()
        for at in range(36, len(kept)):
            changed = whole.first(len(kept))
            changed.room[at] ^= 1
            try:
                client._call('step', changed, (b'', 0), 3)
                came.add(rezdolin.ANSWERED)
            except Refused as refusal:
                came.add(refusal.status)
        self.assertEqual(came - {rezdolin.MEMORY}, {rezdolin.ANSWERED, rezdolin.RECORD})
        client._record = whole
        client.step(b'')
        with self.assertRaises(ValueError):
            client.begin()

    def test_refusals(self):
        client, server = pair(Password(b'wrong'))
        meet(client, server)
        self.assertEqual((client.end, client.fault, server.end, server.detail), (rezdolin.FAILED, 14, rezdolin.CLOSED, 14))
        client = Client('al', [Nothing()], [])
        meet(client, Server(HOST, []))
        self.assertEqual((client.end, client.fault), (rezdolin.FAILED, 10))
        with self.assertRaises(Refused) as refused:
            Client('al', [], [], kex='').begin()
        self.assertEqual((refused.exception.status, refused.exception.number), (rezdolin.CONFIG, 1))
        for wrong in (b'', HOST[1:], HOST + b'\n', HOST + HOST):
            for endpoint in (Client('al', [Key(wrong)], []), Server(wrong, [])):
                with self.assertRaises(Refused) as refused:
                    endpoint.begin()
                self.assertEqual((refused.exception.status, refused.exception.number), (rezdolin.CONFIG, 14))
        agent_s = public_key(USER) + string(USER + public_key(USER)[19:]) + string(b'al@host')
        for private in (USER, agent_s, agent_s[4:], b''):
            for endpoint in (Client('al', [Signed(private, 'ssh-ed25519')]), Server(Signed(private, 'ssh-ed25519'))):
                with self.assertRaises(Refused) as refused:
                    endpoint.begin()
                self.assertEqual((refused.exception.status, refused.exception.number), (rezdolin.CONFIG, 14))
        with self.assertRaises(Refused) as refused:
            Client('al', [], [], ciphers='aes192-ctr').begin()
        self.assertEqual((refused.exception.status, refused.exception.number), (rezdolin.CONFIG, 13))
        for user, proof in (('al', Password(b'')), ('al', Key(b'')), ('', Password(b'secret')), ('', Nothing())):
            with self.assertRaises(Refused) as refused:
                Server(HOST, [('al', Password(b'secret')), (user, proof)]).begin()
            self.assertEqual(refused.exception.status, rezdolin.UNREADABLE)
        blob = public_key(USER)
        for made in (lambda: Client('al', [Signed(blob)], [public_key(HOST)]), lambda: Server(Signed(public_key(HOST)), [])):
            with self.assertRaises(ValueError):
                made()

    def test_a_number_is_no_key(self):
        # of a number `bytes` makes zeros
        for made in (lambda: Password(8), lambda: Key(32), lambda: Server(32, []), lambda: Client('al', [], [51]), lambda: Client(2, [Nothing()])):
            with self.assertRaises(TypeError):
                made()
        self.assertEqual((Password(bytearray(b'secret')).bytes, Key(memoryview(USER)).bytes), (b'secret', USER))

    def test_readings(self):
        lines = {b'SSH-2.0-a_b\r\n': (True, True, True, True), b'SSH-2.0-a-b\r\n': (True, True, False, False),
                 b'SSH-2.0-a\n': (True, True, False, False), b'SSH-1.99-a\r\n': (True, False, False, False)}
        for line, taken in lines.items():
            endpoints = [made for how in ({}, {'reading': 'strict'}) for made in (Client('al', [], [], **how), Server(HOST, [], **how))]
            for endpoint, is_taken in zip(endpoints, taken):
                endpoint.begin()
                endpoint.step(line)
                self.assertEqual((endpoint.end, endpoint.fault), (rezdolin.OPEN, 0) if is_taken else (rezdolin.FAILED, 1), line)
        with self.assertRaises(ValueError):
            Client('al', [], [], reading='lax')
        for endpoint in (Client('al', [], []), Server(HOST, [])):
            endpoint._input.side.reading = 2
            with self.assertRaises(Refused) as refused:
                endpoint.begin()
            self.assertEqual(refused.exception.status, rezdolin.UNREADABLE)

    def test_draws(self):
        def draws():
            return [getattr(endpoint._input.side, name).len for name in rezdolin.DRAWN]

        for endpoint in pair(Password(b'secret')):
            self.assertEqual(draws(), [0, 0, 0])
            with mock.patch.object(os, 'urandom', bytes), self.assertRaises(Refused) as refused:
                endpoint.begin()
            self.assertEqual((refused.exception.status, draws()), (rezdolin.DRAWS, [0, 0, 0]))
            self.assertEqual((endpoint.begin()[:8], draws()), (b'SSH-2.0-', [16, 32, 32]))
            with self.assertRaises(ValueError):
                endpoint.begin()
        client, server = pair(Password(b'secret'))
        meet(client, server)
        with mock.patch.object(os, 'urandom', bytes):
            link = client.link()
        with self.assertRaises(Refused) as refused:
            link.seal(b'x')
        self.assertEqual(refused.exception.status, rezdolin.DRAWS)

    def test_nothing(self):
        client, server = Client('al', [Nothing()], [public_key(HOST)]), Server(HOST, [('al', Nothing())], strict=False)
        meet(client, server)
        self.assertTrue(client.is_authenticated and server.is_authenticated)
        self.assertFalse(client.link().is_strict)


@unittest.skipUnless(hasattr(os, 'fork'), 'there is no fork')
class Forks(unittest.TestCase):
    """Child processes, which have copies of all objects."""

    def start(self, call):
        """Starts a child that makes a call: its number, and where it tells what that answers."""
        read, write = os.pipe()
        child = os.fork()
        if child == 0:
            try:
                signal.alarm(60)
                os.write(write, told_of(call).encode())
            finally:
                os._exit(0)
        os.close(write)
        return child, read

    def told(self, started):
        child, read = started
        with open(read, encoding='utf-8') as file:
            told = file.read()
        os.waitpid(child, 0)
        return told

    def in_child(self, call):
        return self.told(self.start(call))

    def test_draws(self):
        for endpoint in pair(Password(b'secret')):
            begun = [self.in_child(endpoint.begin), self.in_child(endpoint.begin), str(endpoint.begin())]
            # (what stands for bytes begins with b and a quote, of which there are two)
            self.assertEqual((len(set(begun)), [it[2:10] for it in begun]), (3, ['SSH-2.0-'] * 3))

    def test_begins_after_a_refusal(self):
        client = Client('al', [], [])
        with mock.patch.object(os, 'urandom', bytes), self.assertRaises(Refused):
            client.begin()
        self.assertIn('SSH-2.0-', self.in_child(client.begin))

    def test_replay(self):
        # a server that is made once, and begins in a child for each connection: what one child was sent lets nobody into the next
        def serve():
            other.settimeout(30)
            carry(server, other)
            return server.end

        client, server = pair(Password(b'secret'))
        one, other = socket.socketpair()
        with one, other:
            child, sent = self.start(serve), []
            carry(client, types.SimpleNamespace(recv=one.recv, sendall=lambda data: (sent.append(data), one.sendall(data))))
            self.assertEqual((client.end, self.told(child)), (rezdolin.AUTHENTICATED, str(rezdolin.AUTHENTICATED)))
        one, other = socket.socketpair()
        with one, other:
            child = self.start(serve)
            one.sendall(b''.join(sent))
            self.assertEqual(self.told(child), str(rezdolin.FAILED))

    def test_belongs(self):
        client, server = pair(Password(b'secret'))
        meet(client, server)
        asking, _, _ = come_to_question()
        ours, theirs, number = client.link(), server.link(), os.getpid()
        packet, kept = theirs.seal(b'x'), (bytes(asking._record.room), asking.question, asking.left)
        for call in (*calls_of(asking), *calls_of(server), lambda: ours.seal(b'x'), lambda: ours.open(packet)):
            def by_the_same_number(call=call):
                # (as processes of two containers may have)
                with mock.patch.object(os, 'getpid', lambda: number):
                    return call()

            for told in (self.in_child(call), self.in_child(lambda call=call: self.in_child(call)), self.in_child(by_the_same_number)):
                self.assertRegex(told, r'^RuntimeError: this \w+ belongs to another process$')
        self.assertEqual((bytes(asking._record.room), asking.question, asking.left), kept)
        self.assertEqual((ours.open(packet)[0], theirs.open(ours.seal(b'y'))[0]), (b'x', b'y'))

    def test_of_a_child(self):
        def act():
            meet(client, server)
            return self.in_child(client.link), client.link().user

        client, server = pair(Password(b'secret'))
        self.assertEqual(self.in_child(act), str(('RuntimeError: this Client belongs to another process', b'al')))

    def test_lock(self):
        # a thread that has the lock as the process forks isn't there to release it in the child
        def hold():
            with client._lock:
                has.set()
                goes.wait(60)

        client, has, goes = pair(Password(b'secret'))[0], threading.Event(), threading.Event()
        client.begin()
        thread = threading.Thread(target=hold)
        thread.start()
        has.wait()
        told = self.in_child(client.disconnect)
        goes.set()
        thread.join()
        self.assertEqual(told, 'RuntimeError: this Client belongs to another process')

    def test_multiprocessing(self):
        def begun():
            ours, theirs = context.Pipe()
            process = context.Process(target=lambda endpoint: theirs.send(told_of(endpoint.begin)), args=(server,))
            process.start()
            told = ours.recv()
            process.join()
            return told

        context, (_, server) = multiprocessing.get_context('fork'), pair(Password(b'secret'))
        self.assertEqual(len({begun(), begun(), str(server.begin())}), 3)
        self.assertEqual(begun(), 'RuntimeError: this Server belongs to another process')


class Within(unittest.TestCase):
    """What runs in the midst of a call, in the same thread."""

    @contextlib.contextmanager
    def amid(self, front, act):
        """In each of the library's calls whose name begins so, once it has answered, this is done."""
        def called(call, *given):
            answer = call(*given)
            act()
            return answer

        with contextlib.ExitStack() as stack:
            for name in rezdolin._CALLS:
                if name.startswith(front):
                    call = getattr(rezdolin._library, name)
                    stack.enter_context(mock.patch.object(rezdolin._library, name, lambda *given, call=call: called(call, *given)))
            yield

    def by_signal(self, act):
        before = signal.signal(signal.SIGUSR1, lambda number, frame: act())
        try:
            signal.raise_signal(signal.SIGUSR1)
        finally:
            signal.signal(signal.SIGUSR1, before)

    def by_finalizer(self, act):
        class Handle:
            def __init__(self):
                self.me = self

            def __del__(self):
                act()

        Handle()
        gc.collect()

    def test_is_refused(self):
        def decide(question):
            return question.kind == 'host key' or question.proof.bytes == b'secret'

        for way in (lambda act: act(), self.by_signal, self.by_finalizer):
            for role in ('client', 'server'):
                def act(way=way):
                    way(lambda: refused.update(map(told_of, calls)))

                client, server, refused = Client('al', [Password(b'wrong'), Password(b'secret')]), Server(HOST), set()
                calls = calls_of({'client': client, 'server': server}[role])
                with self.amid(f'rezdolin_{role}_', act):
                    meet(client, server, 1000, decide)
                self.assertEqual(refused, {f'RuntimeError: a call within a call of this {role.capitalize()}'})
                self.assertTrue(client.is_authenticated and server.is_authenticated)
            ours, theirs, refused = client.link(), server.link(), set()
            calls = [lambda: ours.seal(b'x'), lambda: ours.open(b'x')]
            with self.amid('rezdolin_seal', act):
                packets = [ours.seal(b'1'), ours.seal(b'2')]
            with self.amid('rezdolin_open', act):
                self.assertEqual(ours.open(theirs.seal(b'3'))[0], b'3')
            self.assertEqual(refused, {'RuntimeError: a call within a call of this Link'})
            self.assertEqual([theirs.open(packet)[0] for packet in packets], [b'1', b'2'])

    @contextlib.contextmanager
    def at_line(self, number, act):
        """At the line of this number that the module runs from here on, this is done."""
        def trace(frame, event, _):
            nonlocal number
            if frame.f_code.co_filename != rezdolin.__file__:
                return None
            if event == 'line':
                number -= 1
                if number == -1:
                    act()
            return trace

        before = sys.gettrace()
        sys.settrace(trace)
        try:
            yield
        finally:
            sys.settrace(before)

    def test_at_each_line(self):
        client, server = pair(Password(b'secret'))
        meet(client, server)
        ours, theirs, number, refused = client.link(), server.link(), 0, 0
        while True:
            inner = []
            with self.at_line(number, lambda: inner.append(self.sealed(ours))):
                outer = ours.seal(b'outer')
            if not inner:
                break
            packets, number, refused = [it for it in (inner[0], outer) if it], number + 1, refused + (inner[0] is None)
            # each packet has a number of its own: they are all opened, in the one order or the other
            opened = self.opened(theirs, packets) or self.opened(theirs, packets[::-1])
            self.assertEqual(sorted(opened), [b'inner', b'outer'][-len(packets):])
        self.assertGreater(refused, 3)
        self.assertGreater(number - refused, 3)

    def sealed(self, link):
        try:
            return link.seal(b'inner')
        except RuntimeError:
            return None

    def opened(self, link, packets):
        try:
            return [link.open(packet)[0] for packet in packets]
        except Refused:
            return []

    def test_interrupted(self):
        """A handler that raises leaves an endpoint as it was, as the call would have left it, or without a record: never the one
        question beside the record of another."""
        def interrupt():
            come.append(number)
            raise KeyboardInterrupt

        client, _, _ = come_to_question()
        record, question, left = client._record, client.question, client.left
        kept, found, come, number = bytes(record.room), set(), [], 0
        while len(come) == number:
            client._record, client.question, client.left, client.end, client._is_called = record.first(record.len), question, left, rezdolin.ASKS, False
            number += 1
            # (an exception in a finalizer is ignored)
            with contextlib.suppress(KeyboardInterrupt), self.at_line(number - 1, interrupt), mock.patch.object(sys, 'unraisablehook', lambda _: None):
                client.answer(True)
            if client._record.len == 0:
                found.add('none')
                with self.assertRaises((Refused, ValueError, RuntimeError)):
                    client.answer(True)
            elif bytes(client._record.room) == kept:
                found.add('as it was')
                self.assertEqual((client.question, client.left, client.end), (question, left, rezdolin.ASKS))
            else:
                found.add('went on')
                self.assertEqual((client.question, client.end), (None, rezdolin.OPEN))
        self.assertEqual(found, {'none', 'as it was', 'went on'})


class Examples(unittest.TestCase):
    """What the client and the server of this folder decide."""

    def asked(self, key, answer):
        """Whether a person trusts a key who answers so, what was shown, and the numbers of the groups that were asked."""
        shown = io.StringIO()

        def typed():
            numbers.extend(map(int, re.search(r'to trust it, type groups (\d+), (\d+) and (\d+): $', shown.getvalue()).groups()))
            return answer(*numbers)

        numbers = []
        with contextlib.redirect_stdout(shown), mock.patch('builtins.input', typed):
            return is_trusted(key), shown.getvalue(), numbers

    def test_person(self):
        digest = base64.b64encode(hashlib.sha256(b'key').digest()).decode()[:43]
        groups, drawn = re.findall('.{1,4}', digest), set()

        def joined(*numbers):
            return [groups[number - 1] for number in numbers]

        for _ in range(300):
            is_yes, shown, numbers = self.asked(b'key', lambda *numbers: ''.join(joined(*numbers)))
            self.assertTrue(is_yes)
            self.assertEqual(numbers, sorted(set(numbers)))
            drawn.update(numbers)
        self.assertEqual(drawn, set(range(1, 11)))
        table = '  {} {}   {} {}   {} {}   {} {}   {} {}   {} {}\n  {} {}   {} {}   {} {}  {} {}  {} {}\n'.format(*[it for pair in enumerate(groups, 1) for it in pair])
        self.assertEqual(shown, f"the server's key is SHA256:{digest}\n{table}compare all of it with the fingerprint that the server's owner gives you; "
                                'to trust it, type groups {}, {} and {}: '.format(*numbers))
        for answer, wanted in ((lambda *asked: ' '.join(joined(*asked)), True), (lambda *asked: ''.join(joined(*asked[::-1])), False),
                               (lambda *asked: ''.join(joined(*asked))[:-1], False), (lambda *asked: ''.join(joined(*asked)) + 'A', False),
                               (lambda *asked: ''.join(joined(*asked)).swapcase(), False), (lambda *asked: digest, False), (lambda *asked: '', False),
                               (lambda *asked: 'yes', False), (mock.Mock(side_effect=EOFError), False)):
            self.assertEqual(self.asked(b'key', answer)[0], wanted)

    def test_user(self):
        def compared(user, proof, accepted):
            """Whether the question is accepted, and what was compared for that."""
            with mock.patch('hmac.compare_digest', side_effect=lambda one, other: found.append({one, other}) or one == other):
                found = []
                return is_accepted(types.SimpleNamespace(user=user, proof=proof), b'al', accepted), found

        secret, key = Password(b'secret'), Key(public_key(USER))
        for user in (b'al', b'bo'):
            for proof in (Password(b'secret'), Password(b'wrong'), Password(b'x' * PASSWORD_LIMIT)):
                is_in, found = compared(user, proof, secret)
                self.assertEqual((is_in, found), (user == b'al' and proof.bytes == b'secret', [{user, b'al'}, {proof.bytes, b'secret'}]))
            for proof, accepted in ((Password(b'x' * (PASSWORD_LIMIT + 1)), Password(b'x' * (PASSWORD_LIMIT + 1))), (Password(key.bytes), key), (Key(b'secret'), secret), (Nothing(), secret)):
                self.assertEqual(compared(user, proof, accepted), (False, [{user, b'al'}]))
            self.assertEqual(compared(user, Key(public_key(USER)), key)[0], user == b'al')


class HostileAgents(unittest.TestCase):
    """By agents that answer what they like."""

    @contextlib.contextmanager
    def agent(self, *pieces, seconds=5):
        """An agent that answers by these pieces, and then closes; None for one is a wait."""
        def serve():
            end, _ = door.accept()
            with end, contextlib.suppress(OSError):
                end.recv(4096)
                for piece in pieces:
                    if piece is None:
                        gone.wait(30)
                    else:
                        end.sendall(piece)
                        time.sleep(0.05)

        with tempfile.TemporaryDirectory(prefix='rezdolin-agent.') as room, socket.socket(socket.AF_UNIX) as door:
            door.bind(f'{room}/agent')
            door.listen()
            gone, thread = threading.Event(), threading.Thread(target=serve)
            thread.start()
            try:
                yield Agent(f'{room}/agent', seconds)
            finally:
                gone.set()
                thread.join()

    def signed(self, *pieces, key=public_key(USER), algorithm=b'ssh-ed25519', data=b'data', **how):
        """What such an agent's signature comes to, and why."""
        why = io.StringIO()
        with self.agent(*pieces, **how) as agent, contextlib.redirect_stderr(why):
            return agent.sign(types.SimpleNamespace(key=key, algorithm=algorithm, input=data)), why.getvalue()

    def response(self, signature):
        return string(bytes([SIGN_RESPONSE]) + string(signature))

    def test_answers(self):
        right = self.response(b'x' * 80)
        many = [struct.pack('>I', 1000)] + [b'x'] * 999
        front, unread = bytes([SIGN_RESPONSE]), "its response can't be read"
        for pieces, why in (([b'\xff\xff\xff\xff', b'x' * 1000], 'its response is too long'), ([struct.pack('>I', RESPONSE_LIMIT + 1)], 'its response is too long'),
                            ([], 'its response is cut off'), ([right[:3]], 'its response is cut off'), ([right[:4]], 'its response is cut off'), ([right[:-1]], 'its response is cut off'),
                            ([string(bytes(RESPONSE_LIMIT))], 'its response is another message'), ([string(b'\5')], 'it refuses the request'), ([bytes(4)], unread),
                            ([string(front)], unread), ([string(front + b'\0\0')], unread), ([string(front + b'\xff\xff\xff\xff' + b'x' * 80)], unread),
                            ([string(front + string(b'x') + string(b'x'))], unread), ([self.response(b'')], unread),
                            ([self.response(b'x' * (SIGNATURE_LIMIT + 1))], 'its signature is too long'), ([self.response(b'x' * SIGNATURE_LIMIT)], 'its signature is wrong'),
                            ([right], 'its signature is wrong'), ([self.response(string(b'ssh-ed25519') + string(b'x' * 64))], 'its signature is wrong')):
            self.assertEqual(self.signed(*pieces), (None, f'agent: {why}\n'))
        begun = time.monotonic()
        for pieces in ([None], [right[:2], None], many):
            self.assertEqual(self.signed(*pieces, seconds=0.5), (None, 'agent: timed out\n'))
        self.assertLess(time.monotonic() - begun, 20)

    def test_kinds(self):
        ecdsa, rsa = string(b'ecdsa-sha2-nistp256') + string(b'nistp256') + string(b'x' * 65), string(b'ssh-rsa') + string(b'\1\0\1') + string(b'\0' + b'\xff' * 256)
        signature = string(b'ecdsa-sha2-nistp256') + string(b'x' * 70)
        self.assertEqual(self.signed(self.response(signature), key=ecdsa, algorithm=b'ecdsa-sha2-nistp256'), (signature, ''))
        # one by RSA is verified, whatever names it has
        for algorithm in (b'rsa-sha2-512', b'rsa-sha2-256', b'ssh-rsa', b'ecdsa-sha2-nistp256', b'sk-ssh-ed25519@openssh.com', b''):
            self.assertEqual(self.signed(self.response(string(b'rsa-sha2-512') + string(b'x' * 256)), key=rsa, algorithm=algorithm)[0], None)
        for algorithm in (b'rsa-sha2-512', b'ssh-rsa', b'ssh-ed25519', b'nothing'):
            self.assertEqual(self.signed(self.response(signature), key=ecdsa, algorithm=algorithm)[0], None)

    def test_keys(self):
        def keys(*pieces):
            with self.agent(*pieces) as agent:
                return agent.keys()

        two = string(b'one') + string(b'a comment') + string(b'two') + string(b'')
        self.assertEqual(keys(string(bytes([IDENTITIES]) + struct.pack('>I', 2) + two)), [b'one', b'two'])
        for count, body in ((2, two[:-1]), (1, two), (3, two), (2, b'')):
            with self.assertRaises(AgentFault):
                keys(string(bytes([IDENTITIES]) + struct.pack('>I', count) + body))
        self.assertEqual(keys(string(b'\5')), [])

    def test_goes_on(self):
        def decide(question):
            if question.kind == 'signature':
                with self.agent(self.response(b'x' * 80)) as agent, contextlib.redirect_stderr(io.StringIO()):
                    return agent.sign(question)
            return True

        client, server = Client('al', [Signed(public_key(USER)), Password(b'secret')]), Server(HOST, [('al', Key(public_key(USER))), ('al', Password(b'secret'))])
        meet(client, server, 1000, decide)
        self.assertTrue(client.is_authenticated and server.is_authenticated)
        self.assertEqual(server.link().fields[17], b'\x01')


@unittest.skipUnless(all(map(shutil.which, ('ssh-agent', 'ssh-add', 'ssh-keygen'))), 'OpenSSH is not there')
class Agents(unittest.TestCase):
    """By keys that a real ssh-agent alone has."""

    @classmethod
    def setUpClass(cls):
        cls.room = tempfile.TemporaryDirectory(prefix='rezdolin-agent.')
        path = os.path.join(cls.room.name, 'agent')
        cls.process = subprocess.Popen(['ssh-agent', '-D', '-a', path], stdout=subprocess.DEVNULL)
        while not os.path.exists(path):
            time.sleep(0.02)
        cls.agent, cls.keys = Agent(path), {}
        for name in ('ed25519', 'rsa'):
            key = os.path.join(cls.room.name, name)
            subprocess.run(['ssh-keygen', '-q', '-t', name, '-N', '', '-f', key], check=True)
            subprocess.run(['ssh-add', '-q', key], check=True, env={**os.environ, 'SSH_AUTH_SOCK': path})
            os.remove(key)
            with open(key + '.pub', encoding='utf-8') as file:
                cls.keys[name] = base64.b64decode(file.read().split()[1])

    @classmethod
    def tearDownClass(cls):
        cls.process.terminate()
        cls.process.wait()
        cls.room.cleanup()

    def test_lists(self):
        self.assertEqual(sorted(self.agent.keys()), sorted(self.keys.values()))

    def test_signs(self):
        def decide(question):
            asked.append((question.kind, question.key, question.signed))
            if question.kind == 'signature':
                return self.agent.sign(question)
            return question.key == (user if question.kind == 'user' else public_key(HOST))

        for user in self.keys.values():
            for size in (9, 1000):
                asked = []
                client, server = Client('al', [Signed(user)]), Server(HOST)
                meet(client, server, size, decide)
                self.assertTrue(client.is_authenticated and server.is_authenticated, (client.fault, server.fault))
                self.assertEqual(asked, [('host key', public_key(HOST), False), ('user', user, False), ('signature', user, False), ('user', user, True)])
                self.assertEqual(server.link().fields[19], user)

    def test_verifies(self):
        for name, algorithms in (('ed25519', [b'ssh-ed25519']), ('rsa', [b'rsa-sha2-256', b'rsa-sha2-512'])):
            for algorithm in algorithms:
                question = types.SimpleNamespace(key=self.keys[name], algorithm=algorithm, input=b'data')
                signature = self.agent.sign(question)
                self.assertIs(is_signed(algorithm, question.key, b'data', signature), True)
                self.assertIs(is_signed(algorithm.decode(), bytearray(question.key), b'data', signature), True)
                changed = signature[:-1] + bytes([signature[-1] ^ 1])
                for wrong in ((question.key, b'dat', signature), (question.key, b'data', changed), (question.key, b'data', b''), (question.key, b'data', signature + b'x'),
                              (public_key(USER), b'data', signature), (b'', b'data', signature)):
                    self.assertIs(is_signed(algorithm, *wrong), False)
                for other in ('ssh-rsa', 'ecdsa-sha2-nistp256', '', b'\xff', 'ssh-ed25519,rsa-sha2-512'):
                    with self.assertRaises(ValueError):
                        is_signed(other, question.key, b'data', signature)
                # an agent of the same key that errs in one bit
                told = HostileAgents().signed(HostileAgents().response(changed), key=question.key, algorithm=algorithm)
                self.assertEqual(told, (None, 'agent: its signature is wrong\n'))
                self.assertEqual(HostileAgents().signed(HostileAgents().response(signature), key=question.key, algorithm=algorithm), (signature, ''))

    def test_host_key(self):
        def decide(question):
            return self.agent.sign(question) if question.kind == 'signature' else True

        client, server = Client('al', [Nothing()], [self.keys['ed25519']]), Server(Signed(self.keys['ed25519']))
        meet(client, server, 77, decide)
        self.assertTrue(client.is_authenticated and server.is_authenticated, (client.fault, server.fault))

    def test_files(self):
        def read(name):
            with open(os.path.join(self.room.name, name), encoding='utf-8') as file:
                return file.read()

        for name, words in (('plain', ['-t', 'ed25519', '-N', '']), ('locked', ['-t', 'ed25519', '-N', 'a phrase']), ('other', ['-t', 'ecdsa', '-N', '']),
                            ('pem', ['-t', 'rsa', '-m', 'PEM', '-N', ''])):
            subprocess.run(['ssh-keygen', '-q', *words, '-f', os.path.join(self.room.name, name)], check=True)
        key, text = read_identity(read('plain')), read('plain')
        self.assertEqual(public_key(key), base64.b64decode(read('plain.pub').split()[1]))
        self.assertEqual(read_identity(text.encode()), key)
        for refused_text, number in (('', 1), ('no key', 1), (read('plain.pub'), 2), (read('pem'), 3), (read('locked'), 4), (read('other'), 6)):
            with self.assertRaises(Refused) as refused:
                read_identity(refused_text)
            self.assertEqual((refused.exception.status, refused.exception.number), (rezdolin.IDENTITY, number), refused_text)
        with self.assertRaises(Refused) as refused:
            read_identity(b'\xff')
        self.assertEqual(refused.exception.status, rezdolin.UNREADABLE)

    def test_refuses(self):
        host = Signed(public_key(HOST))  # which it hasn't

        def decide(question):
            with contextlib.redirect_stderr(io.StringIO()):
                return self.agent.sign(question) if question.kind == 'signature' else True

        client, server = Client('al', [Nothing()]), Server(host)
        meet(client, server, 1000, decide)
        self.assertEqual((server.end, server.fault, client.end, client.detail), (rezdolin.FAILED, 9, rezdolin.CLOSED, 3))
        client, server = Client('al', [Signed(public_key(USER)), Password(b'secret')]), Server(HOST, [('al', Password(b'secret'))])
        meet(client, server, 1000, decide)
        self.assertTrue(client.is_authenticated and server.is_authenticated)


@unittest.skipUnless(asyncssh, 'asyncssh is not there')
class Asyncssh(unittest.TestCase):
    """At the client and the server of asyncssh, over TCP at this machine itself."""

    def test_client(self):
        key = asyncssh.generate_private_key('ssh-ed25519')

        class Doors(asyncssh.SSHServer):
            def begin_auth(self, username):
                return True

            def password_auth_supported(self):
                return True

            def validate_password(self, username, password):
                return (username, password) == ('al', 'secret')

        async def met():
            server = await asyncssh.listen('127.0.0.1', 0, server_factory=Doors, server_host_keys=[key])
            with socket.create_connection(server.sockets[0].getsockname()) as end:
                await asyncio.get_running_loop().run_in_executor(None, carry, client, end, lambda question: question.key == key.public_data)
            server.close()

        for client in (Client('al', [Password(b'secret')], [key.public_data]), Client('al', [Password(b'secret')])):
            asyncio.run(met())
            self.assertTrue(client.is_authenticated, (client.end, client.fault, client.detail))
            self.assertEqual(client.link().host_key, key.public_data)

    def test_server(self):
        def serve():
            with listening.accept()[0] as end:
                carry(server, end, lambda question: question.user == b'al' and question.proof.bytes == b'secret')
                gone.wait(10)

        async def met():
            host, port = listening.getsockname()
            end = await asyncssh.connect(host, port, username='al', password='secret', known_hosts=None, client_keys=None, config=None)
            end.abort()

        for server in (Server(HOST, [('al', Password(b'secret'))]), Server(HOST)):
            gone = threading.Event()
            with socket.create_server(('127.0.0.1', 0)) as listening:
                thread = threading.Thread(target=serve)
                thread.start()
                asyncio.run(met())
                gone.set()
                thread.join()
            self.assertTrue(server.is_authenticated, (server.end, server.fault, server.detail))
            link = server.link()
            self.assertEqual((link.user, link.fields[17]), (b'al', b'\x01'))


if __name__ == '__main__':
    unittest.main()

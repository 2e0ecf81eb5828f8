"""OpenSSH's server and client beside ours, for tools/bench_peers: what a process takes of the processor, from its start to its
end, in handshakes and while it carries bytes. It wants root, and Debian's openssh-server and openssh-client, which it installs by apt-get
where they lack. It makes a user `rezdolin-bench`, and takes that user away at its end; nothing listens on a port."""
import ctypes
import os
import re
import shutil
import signal
import socket
import subprocess
import tempfile

NEEDED = ['/usr/sbin/sshd', '/usr/bin/ssh', '/usr/bin/ssh-keygen']
USER = 'rezdolin-bench'
KEX, CIPHER = 'curve25519-sha256', 'chacha20-poly1305@openssh.com'
SECONDS = 120
# of prctl: who has no parent any more becomes this process's child
SET_CHILD_SUBREAPER = 36
QUIET = {'stdout': subprocess.DEVNULL, 'stderr': subprocess.DEVNULL}


class Failed(Exception):
    """Why there are no figures."""


def install():
    """Installs what lacks, where that is possible."""
    missing = [path for path in NEEDED if not os.path.exists(path)]
    if os.geteuid():
        raise Failed('not root')
    if missing and shutil.which('apt-get'):
        around = dict(os.environ, DEBIAN_FRONTEND='noninteractive')
        for words in (['update'], ['install', '-y', '--no-install-recommends', 'openssh-server', 'openssh-client']):
            subprocess.run(['apt-get', '-q', *words], check=False, env=around, timeout=600, **QUIET)
    missing = [path for path in NEEDED if not os.path.exists(path)]
    if missing:
        raise Failed('without ' + ', '.join(missing))


def version():
    ran = subprocess.run(['ssh', '-V'], capture_output=True, text=True, check=True)
    return ran.stderr.split(',')[0]


class Room:
    """A scratch folder with keys, and a user whom one of them accepts."""

    def __init__(self, folder):
        self.folder = folder
        os.chmod(folder, 0o755)
        for name in ('host', 'user'):
            subprocess.run(['ssh-keygen', '-q', '-t', 'ed25519', '-N', '', '-C', name, '-f', self.path(name)], check=True)
        with open(self.path('host.pub'), encoding='utf-8') as file:
            key = ' '.join(file.read().split()[:2])
        with open(self.path('known'), 'w', encoding='utf-8') as file:
            file.write(f'real {key}\n')
        self.close()
        subprocess.run(['useradd', '-m', '-s', '/bin/sh', USER], check=True, **QUIET)
        # a password that nobody has, since an account without one is locked
        subprocess.run(['usermod', '-p', '*', USER], check=True, **QUIET)
        home = os.path.expanduser('~' + USER)
        os.makedirs(f'{home}/.ssh', mode=0o700, exist_ok=True)
        shutil.copy(self.path('user.pub'), f'{home}/.ssh/authorized_keys')
        os.chmod(f'{home}/.ssh/authorized_keys', 0o600)
        subprocess.run(['chown', '-R', f'{USER}:', home], check=True)
        os.chmod(home, 0o755)
        os.makedirs('/run/sshd', exist_ok=True)

    def path(self, name):
        return f'{self.folder}/{name}'

    @staticmethod
    def close():
        subprocess.run(['userdel', '-r', USER], check=False, **QUIET)


def too_long(_signal, _frame):
    raise TimeoutError


class Processes:
    """Runs processes to their end, and tells the processor time of each that was started, and of all that these left
    after."""

    def __init__(self, processor):
        os.sched_setaffinity(0, {processor})
        ctypes.CDLL(None).prctl(SET_CHILD_SUBREAPER, 1, 0, 0, 0)
        signal.signal(signal.SIGALRM, too_long)

    @staticmethod
    def started(words, source, out, error=subprocess.DEVNULL):
        around = {name: value for name, value in os.environ.items() if name != 'SSH_AUTH_SOCK'}
        return subprocess.Popen(words, stdin=source, stdout=out, stderr=error, env=around)

    @staticmethod
    def ended(started):
        """Waits until nothing runs, and answers the seconds of each, and after them those of all others; and the statuses."""
        seconds, status, pids = {}, {}, [process.pid for process in started]
        signal.alarm(SECONDS)
        try:
            while True:
                pid, how, used = os.wait4(-1, 0)
                seconds[pid], status[pid] = used.ru_utime + used.ru_stime, os.waitstatus_to_exitcode(how)
        except ChildProcessError:
            signal.alarm(0)
        except TimeoutError:
            for process in started:
                process.kill()
            raise Failed(f'{" ".join(started[0].args)} went on for {SECONDS} s') from None
        for process in started:
            process.returncode = status[process.pid]
        others = sum(took for pid, took in seconds.items() if pid not in pids)
        return [*(seconds[pid] for pid in pids), others], [status[pid] for pid in pids]

    def joined(self, client, server):
        """A client and a server on the two ends of a socket: the seconds of each."""
        one, other = socket.socketpair()
        with one, other:
            ran = [self.started(client, one, one), self.started(server, other, other)]
        (client_took, server_took, others), (status, _) = self.ended(ran)
        if status:
            raise Failed(f'{" ".join(client)} at {server[0]} ended by {status}')
        return client_took, server_took + others

    def alone(self, words):
        """A process whose input ends at once."""
        took, _ = self.ended([self.started(words, subprocess.DEVNULL, subprocess.DEVNULL)])
        return sum(took)

    def proxied(self, words):
        """A client that starts its server itself: the seconds of both, and what the client says on standard error."""
        with tempfile.TemporaryFile() as error:
            (client_took, others), [status] = self.ended([self.started(words, subprocess.DEVNULL, subprocess.DEVNULL, error)])
            error.seek(0)
            said = error.read().decode(errors='replace')
        if status:
            raise Failed(f'{" ".join(words)} ended by {status}: {said[-500:]}')
        return client_took, others, said


class Peers:
    """The words of each side, and what it takes."""

    def __init__(self, room, processes, sshauth):
        self.processes, path = processes, room.path
        self.sshd = ['/usr/sbin/sshd', '-i', '-f', '/dev/null', '-h', path('host'), '-o', 'UsePAM=no', '-o', 'LogLevel=QUIET']
        self.server = [sshauth, 'server', '--user', USER, '--host-key', path('host'), '--authorized-keys', path('user.pub')]
        self.client = [sshauth, 'client', '--user', USER, '--host', 'real', '--known-hosts', path('known'), '--identity', path('user')]
        self.ssh = ['ssh', '-F', '/dev/null', '-i', path('user'), '-c', CIPHER, f'{USER}@real']
        for option in ('IdentitiesOnly=yes', 'UpdateHostKeys=no', 'StrictHostKeyChecking=yes', 'UserKnownHostsFile=' + path('known'),
                       'KexAlgorithms=' + KEX, 'PreferredAuthentications=publickey', 'LogLevel=ERROR'):
            self.ssh[1:1] = ['-o', option]
        self.at_sshd, self.at_ours = [self.proxy(path(name), words) for name, words in (('at_sshd', self.sshd), ('at_ours', self.server))]

    @staticmethod
    def proxy(path, words):
        """A program that is a server: ssh ends what it has started by a signal, which would cut off what it takes."""
        with open(path, 'w', encoding='utf-8') as file:
            file.write("#!/bin/sh\ntrap '' HUP TERM\nexec " + ' '.join(f"'{word}'" for word in words) + '\n')
        os.chmod(path, 0o755)
        return path

    def ssh_at(self, proxy, command):
        return [*self.ssh[:1], '-o', f'ProxyCommand={proxy}', *self.ssh[1:], command]

    def handshake(self, server):
        return self.processes.joined(self.client, server)[1]

    def visit(self, client):
        """A client that has a command executed at our server, by which it says one line."""
        if client == 'ssh':
            return self.processes.proxied(self.ssh_at(self.at_ours, 'hi'))[0]
        return self.processes.joined([*self.client, '--exec', 'hi'], self.server)[0]

    def carry(self, count):
        """What ssh and sshd take while one sends so many bytes to the other, without what sends and starts there."""
        took = []
        for n in (count, 0):
            ssh, others, said = self.processes.proxied(self.ssh_at(self.at_sshd, f'head -c {n} /dev/zero; times >&2'))
            times = re.findall(r'(\d+)m([\d.]+)s', said)
            if len(times) != 4:
                raise Failed('no times: ' + said)
            took.append((ssh, others - sum(60 * int(minutes) + float(rest) for minutes, rest in times[2:])))
        return [whole - start for whole, start in zip(*took)]


def means(works, rounds, count):
    """What each of some works takes: the least of so many rounds, in each of which every one is done so many times, in turn."""
    taken = [[] for _ in works]
    for _ in range(rounds):
        sums = [0.0] * len(works)
        for _ in range(count):
            for n, work in enumerate(works):
                sums[n] += work()
        for n, total in enumerate(sums):
            taken[n].append(total / count)
    return [min(each) for each in taken]


def ratio_line(title, names, took, starts):
    """Both sides' milliseconds, those of their start alone, and the ratios."""
    theirs, ours = took
    each = ', '.join(f'{name} {1e3 * whole:.2f} (its start {1e3 * start:.2f})' for name, whole, start in zip(names, took, starts))
    rest = [whole - start for whole, start in zip(took, starts)]
    return (f'{title}, ms: {each}; a second: {1 / theirs:.0f} and {1 / ours:.0f}, ratio {theirs / ours:.2f}; '
            f'without the start {1e3 * rest[0]:.2f} and {1e3 * rest[1]:.2f}, ratio {rest[0] / rest[1]:.2f}')


def measure(sshauth, processor, rounds, count, megabytes):
    """Prints what handshakes take, and answers what ssh and sshd take for each of so many millions of bytes."""
    install()
    kept = os.sched_getaffinity(0)
    with tempfile.TemporaryDirectory(prefix='bench-') as folder:
        room = Room(folder)
        try:
            peers = Peers(room, Processes(processor), sshauth)
            alone = peers.processes.alone
            servers = [lambda: peers.handshake(peers.sshd), lambda: peers.handshake(peers.server), lambda: alone(peers.sshd), lambda: alone(peers.server)]
            took = means(servers, rounds, count)
            print(ratio_line('handshakes of a server', ['sshd -i', 'sshauth'], took[:2], took[2:]), flush=True)
            at_none = [*peers.ssh[:1], '-o', 'ProxyCommand=true', *peers.ssh[1:], 'hi']
            clients = [lambda: peers.visit('ssh'), lambda: peers.visit('sshauth'), lambda: alone(at_none), lambda: alone(peers.client)]
            took = means(clients, rounds, count)
            print(ratio_line('visits of a client', ['ssh', 'sshauth'], took[:2], took[2:]), flush=True)
            carried = [peers.carry(megabytes * 1000000) for _ in range(rounds)]
            return [side / megabytes for side in min(carried, key=sum)]
        finally:
            room.close()
            os.sched_setaffinity(0, kept)

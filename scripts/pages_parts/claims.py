"""Writes the claim pages from the sources: each has the public clauses that promise something, and every definition on which
they rest, word for word. Those of KEPT are docs/claims/NAME.md; `scripts/pages --print claims NAME` prints each.

After the clauses come the parts of a page: what the clauses themselves say, then what stands below that, put off by PAGES.
Within a part the layers stand from the top to the bottom, and in a layer each definition where a reader first meets its name.
None stands twice on a page. What a name leads to tells scripts/statements.py.

docs/claims/names.txt has the names of each page's definitions, file by file: so a review shows what more has to be believed.

Each word of the library that a page names has to be in a table of docs/NOTATION.md.

Each page of KEPT and the names have to be what would be written now, git may have no other page in docs/claims, and docs/AUDIT.md has to
link each page of KEPT and to have the command that prints each other. Pages are counted, and the names of each.
"""
import os
import re

from pages_parts import ROOT, files, read, write_to
from statements import Wrong

LAYERS = {
    'sshpromises': 'what a user may conclude',
    'sshworld': 'two endpoints and the bytes between them',
    'sshcore': 'one endpoint',
    'sshneg': 'choices, hashes and keys',
    'sshmsg': 'messages',
    'sshpacket': 'packets, and the suite of algorithms',
    'sshwire': 'version lines and data types',
    'sshsuite': 'deployed algorithms',
    'sshmlkem': 'ML-KEM-768',
    'sshcurve': 'the curve of X25519 and Ed25519',
    'sshkeccak': 'SHA-3 and SHAKE',
}
# What stands at the end of each page, part by part: the heading, the names that the part opens, and words about it.
RECEIVED = ('What an endpoint has received and sent', ['EndpointAfter', 'EachReplies', 'IsNew'],
         'The bytes received read as units, the bytes sent spell the answers to these, and the endpoint stands as they say. On this stands [the endpoint\'s theorem](endpoint.md), whose page has the same definitions.')
MESSAGES = ('How a payload is read and written as a message', ['message_in', 'written_message'],
            'The layouts of RFC 4253, RFC 4252, RFC 5656 and RFC 8308, field by field.')
INSIDE = ('What an endpoint keeps, and that it agrees with what was received and sent', ['IsInside', 'StateData', 'state_data', 'State', 'Input', 'held_by'],
          'What an endpoint has in memory between two calls. A caller sees none of it; it is here since `EndpointAfter` says that it agrees with the bytes.')
CALLS = ('What the calls are given, and what is asked of what they are given',
         'The types and traits in the heads of the functions, and the laws of a suite. Of a trait its ghost members stand here; of a type that hides its fields what contracts see of it, without what always holds of the fields.')


class Page:
    """A page: `clauses` has functions with the clauses that stand on it; with `whole` each function stands there with its body. Of what
    is `opaque` the name stands there and nothing more: calls tell all that is claimed of it, or another page has it."""

    def __init__(self, title, words, clauses, later, opaque=(), whole=False):
        self.title, self.words, self.clauses, self.opaque, self.whole = title, words.strip(), clauses, opaque, whole
        self.later = [*later, MESSAGES, INSIDE]


PAGES = {
    'headline': Page('The headline', """
**To whom:** those who run a client and a server of this project against each other over a faithful wire, and those who want to know whether two configs work together.

**What:** take a client and a server with configs that `judge` accepts, deployed algorithms and one value that makes the decisions of both; the client lists curve25519-sha256 alone, by either of its names. Deliver what each sends to the other, in order, in any pieces, as `run_deployed` does over two vectors. Then each side that has ended, be it authenticated or not, has the end that one function of configs, suite and decisions gives (`outcome`). `run_deployed` also returns whether nothing is left to deliver: whether each side has ended or used all that the other has sent. If nothing is left, both have ended, and one is authenticated if and only if the other is, both with the same algorithms, strictness, session identifier, user and service. `run_any_deployed` says so of each method of `DeployedSuite` by which both sides can agree, and `run_by_hand`, which does the work, of any suite, if the configs are compatible.

**What you have to believe:** that `HasRunByHand` is what a wire does, that `outcome` is what you want, that `EndpointAfter` says what an endpoint does, and that `deployed` is what you mean by these algorithms. `EndpointAfter` is on the page of [the endpoint's theorem](endpoint.md). [PROVED](../PROVED.md#layers-and-algorithms) says what of `deployed` and of `deployed_inventory` (which algorithms there are) is proved to be the standards'. `scripts/pages --print claims agreement` prints what `hybrid_noise` and the numbers of group14 are. `Endpoint`, `ClientConfig` and `ServerConfig` are opaque: `endpoint_end` is what `end()` of an endpoint returns, and the data of a config are its parts. What a suite has to keep is on [a page of its own](suite.md). Bodies of functions are no part of the promise.

**Premises of `run_deployed`:** the suite has the algorithms that both configs list, and holds each private key (`IsFit`, which is what `judge` tests). Decisions are a function of what they are asked (`Decisions`). Nothing is assumed of the algorithms. It doesn't matter which form of version line a side accepts (`reading`). If the result is `Memory`, nothing is promised; that it is so only if an allocation failed isn't proved.

**Premises of the others:** with `run_any_deployed` each method that the client lists, chosen or not, brings both sides to one shared secret (`CanAgree`). By mlkem768x25519-sha256 that is so if the noise of ML-KEM is small: 256 numbers that the random bytes of both configs give (`hybrid_noise`, `are_small`). By group14 it is so if both shares and the secret are from 2 to p - 2. With `run_by_hand` the two configs are compatible (`AreCompatible`); with an `AgreeingSuite` any two are (`run_agreeing`, [by_hand.rt](../../crates/sshpromises/src/by_hand.rt)). `settle_by_hand` there says how many rounds are enough. For two sides that go on after each call, see the claim page that `scripts/pages --print claims world` prints.
""", [
        ('sshpromises/src/deployed.rt', 'run_deployed', ['ran', 'headline']),
        ('sshpromises/src/deployed.rt', 'run_any_deployed', ['ran', 'headline']),
        ('sshpromises/src/by_hand.rt', 'run_by_hand', ['ran', 'headline']),
    ], [('What the two configs come to', ['outcome'], 'The outcome as a function of both configs, the suite and the decisions.'),
        ('When a suite fits a config, and when two configs are compatible', ['IsFit', 'CanAgree', 'AreCompatible'])],
        ('Endpoint', 'EndpointAfter', 'Input', 'State', 'ClientConfig', 'ServerConfig', 'IsLawful', 'Suite', 'deployed', 'deployed_inventory', 'hybrid_noise', 'power', 'exponent_of'), True),
    'suite': Page('What is asked of a suite of algorithms', """
**To whom:** those who write a suite, and those who want to know what all promises assume of one.

**What:** the trait `Suite` with the laws of one end (`IsLawful`), and the trait `AgreeingSuite` for a suite whose ends agree. Without the laws of one end it is no `Suite`: the prover wants them proved. `DeployedSuite`, the suites for tests and each inventory of algorithms have them, proved.
""", [
        ('sshpromises/src/by_hand.rt', 'run_agreeing', []),
    ], [], ('Endpoint', 'EndpointData', 'ClientConfig', 'ServerConfig', 'Headline', 'outcome', 'endpoint_end', 'Decisions', 'Delivery', 'Memory')),
    'agreement': Page('Two ends of the deployed algorithms', """
**To whom:** those who want to know when a client and a server with deployed algorithms come to one shared secret, and that a signature by a key that is held verifies.

**What:** by curve25519-sha256 two ends come to one shared secret, whatever their random bytes are (`curve25519_law`). By mlkem768x25519-sha256 they do if the noise of ML-KEM between their random bytes is small; the client decrypts the server's message if and only if that noise keeps each bit of it (`hybrid_law`). By diffie-hellman-group14-sha256 they do if no share is refused (`group14_law`). What is signed by a private key that the suite holds verifies (`signature_law`). So two configs that `judge` accepts are compatible if by each method that the client lists both sides agree (`fit_law`).

**What you have to believe:** that the noise below is that of FIPS 203. `deployed` is what the deployed algorithms compute, and `expanded` what they draw of the random bytes; [PROVED](../PROVED.md#layers-and-algorithms) says what of them is proved to be the standards'. FIPS 203 says that the noise is too great once in 2^164.8 exchanges. That takes SHAKE's output as random, so it is no theorem.
""", [
        ('sshsuite/src/laws.rt', 'curve25519_law', ['agrees']),
        ('sshsuite/src/laws.rt', 'signature_law', ['signs']),
        ('sshsuite/src/laws.rt', 'hybrid_law', ['agrees', 'exact']),
        ('sshsuite/src/laws.rt', 'group14_law', ['read', 'agreed']),
        ('sshpromises/src/deployed.rt', 'fit_law', ['-']),
    ], [('What the noise is', ['hybrid_noise', 'KeepsMessage', 'are_small'])],
        ('deployed', 'expanded', 'Decrypts', 'IsFit', 'AreCompatible', 'deployed_inventory', 'sha3_256', 'sha3_512', 'shake256_128', 'shake128_start', 'shake128_next', 'shake128_block')),
    'world': Page('Two endpoints and the bytes between them', """
**To whom:** those who run a client and a server of this project against each other over a faithful wire, and those who want to know whether two configs fit.

**What:** take a client and a server with accepted configs, one suite of algorithms and the same decisions. Deliver what each sends to the other, in order, in any pieces. Then each side that has ended has the end that one function of configs, suite and decisions gives (`outcome`); where nothing waits for either, both have ended, and one is authenticated exactly if the other is, with the same that was agreed. So many rounds as the client's plan needs bring two sides there.

**Premises:** neither side ran out of memory (`HadMemory`), and the two configs understand each other (`AreCompatible`): the chosen method comes to one shared secret, and the server's host key and each key of the client's plan are held by the suite and sign. Over a suite of which all ends agree any two do (`follows_law`), and `schedule_ends` asks for no more than such a suite and for memory. The suite keeps the laws of one end (`IsLawful`), and decisions are a function of what they are asked. No premise is on `reading`: each side may read the other's version line strictly or as deployed peers write it, both alike or not.
""", [
        ('sshpromises/src/worlds.rt', 'same_ends', ['client', 'server', 'together', 'ended']),
        ('sshpromises/src/worlds.rt', 'schedule_ends', ['client_config', 'server_config', 'suite', 'decisions', 'ran', 'memory', 'compatible', 'ends']),
        ('sshworld/src/world.rt', 'World::ends', ['client', 'server', 'holds']),
        ('sshworld/src/world.rt', 'World::complete', ['complete']),
        ('sshworld/src/world.rt', 'World::settle', ['holds', 'bound']),
        ('sshworld/src/world.rt', 'World::new', ['client_config', 'server_config', 'suite', 'decisions', 'start', 'holds']),
        ('sshworld/src/world.rt', 'World::deliver', ['count', 'delivered', 'ended', 'setup', 'holds']),
        ('sshworld/src/following.rt', 'follows_law', ['compatible']),
    ], [('What the two configs come to', ['outcome'], 'The outcome as a function of both configs, the suite and the decisions.'), ('What the two configs have to have in common', ['AreCompatible', 'IsAgreeing']),
        ('What configs are accepted', ['IsClient', 'IsServer']), ('That the world is only a wire', ['Delivered', 'IsSameSetup']), RECEIVED]),
    'endpoint': Page('The endpoint\'s theorem', """
**To whom:** those who feed an endpoint of this project with what any peer sends, in whatever pieces it comes.

**What:** at each moment there are two lists of bytes, those that the endpoint has used and those that it has sent, and the one decides the other: the bytes received read as a version line and payloads in one way alone, the bytes sent spell what the definitions answer to these, and the endpoint stands as they say (`EndpointAfter`). It holds at the making (`made`), and each `feed` takes it on by the bytes that it used and appended (`fed`). So the pieces change nothing: two endpoints that are given one input use the same bytes, send the same and stand alike (`joined`). If an endpoint ended authenticated, the user was accepted by what it has received (`authenticated`), and the session that it hands over fits what it has received (`session`).

**Version lines:** the config chose by `reading` which lines of the peer are a version line (`form_of`), and all of this holds by either form. By `Strict` they are those of RFC 4253 section 4.2. By `Deployed` what you rely on is `IsDeployedText`, of which `is_deployed_text` below is the test (`reading_by_law`, clause `text`): minus signs may stand in the softwareversion and, at a client, `SSH-1.99-` in front; LF alone may end the line (`before_cr`).

**Premises:** the suite keeps the laws of one end (`IsLawful`), decisions are a function of what they are asked, and the config was accepted when it was made. Nothing is asked of the peer. Where memory ran out, `feed` says so, and of such an endpoint the clause `memory` is all that is promised. The end of an input is a case of its own (`cuts`), and so is a DISCONNECT that the endpoint's owner asks for (`leaves`).
""", [
        ('sshcore/src/endpoint.rt', 'Endpoint::client_with', ['made', 'memory']),
        ('sshcore/src/endpoint.rt', 'Endpoint::server_with', ['made', 'memory']),
        ('sshcore/src/endpoint.rt', 'Endpoint::feed', ['fed', 'used', 'memory', 'kept', 'ended']),
        ('sshcore/src/endpoint.rt', 'Endpoint::end_of_input', ['cuts', 'shows', 'ended']),
        ('sshcore/src/endpoint.rt', 'Endpoint::disconnect', ['leaves', 'shows', 'memory', 'ended']),
        ('sshcore/src/endpoint_laws.rt', 'endpoint_law', ['joined', 'joined_received', 'received', 'cut', 'left', 'authenticated']),
        ('sshcore/src/endpoint.rt', 'Endpoint::into_session', ['session', 'none']),
    ], [('What the bytes that are received read as', ['Received', 'parsers']), ('What the bytes that are sent spell', ['Sent', 'spells', 'AllFit', 'IsReady', 'switched_out']),
        ('What is answered', ['Replies', 'making']), ('What authentication means, and what is handed over', ['IsAuthenticated', 'BeginsStrictly', 'strict_at', 'IsSession'])]),
    'asking': Page('An endpoint that asks and waits', """
**To whom:** those who run an endpoint of this project whose answers aren't a function of what it asks: a file, a clock, a directory far away, a person, or an agent that signs.

**What:** `feed` asks nobody. It stops after a packet that asks (`asks`), and what is promised of it holds whatever is decided (`fed`). `answer` goes on, and at a question for a signature `answer_signature`, and what is promised of these holds under all decisions that answer the question so (`answered`). An answer of the other kind than the question's counts as a refusal (`taken`). So what holds after any calls holds under the decisions that give all the answers that were given: there are such, since each question is asked once (`once`, `some`), and under all of them the endpoint has used and sent these bytes (`all`). Where it waits for no answer, that is what [the endpoint's theorem](endpoint.md) says of an endpoint that asks at once (`as_at_once`): under these decisions both use the same bytes of one input, send the same and stand alike (`joined`). While a packet waits a history tells of what came before it, and the packet was read and nothing more (`AskingAfter`). All of this holds by either form of version lines, which [the endpoint's theorem](endpoint.md) explains.

**Premises:** the suite keeps the laws of one end (`IsLawful`), and the config was accepted when it was made. Nothing is asked of the peer, of the answers, or of when they are given. Nor is anything asked of a signature: it may be random, or wrong. Where memory ran out, `feed`, `answer` or `answer_signature` says so, and of such an endpoint the clause `memory` is all that is promised.
""", [
        ('sshcore/src/asking_endpoint.rt', 'AskingEndpoint::client', ['made', 'memory']),
        ('sshcore/src/asking_endpoint.rt', 'AskingEndpoint::server', ['made', 'memory']),
        ('sshcore/src/asking_endpoint.rt', 'AskingEndpoint::feed', ['fed', 'used', 'asks', 'nothing', 'memory', 'kept', 'waits', 'ended']),
        ('sshcore/src/asking_answer.rt', 'AskingEndpoint::question', ['asks', 'packet', 'as_at_once']),
        ('sshcore/src/asking_answer.rt', 'AskingEndpoint::answer', ['answered', 'memory', 'kept', 'none']),
        ('sshcore/src/asking_answer.rt', 'AskingEndpoint::answer_signature', ['answered', 'memory', 'kept', 'none']),
        ('sshcore/src/asking_end.rt', 'AskingEndpoint::end_of_input', ['cuts', 'shows', 'ended']),
        ('sshcore/src/asking_end.rt', 'AskingEndpoint::disconnect', ['leaves', 'shows', 'memory', 'ended']),
        ('sshcore/src/asking_laws.rt', 'dialogue_law', ['once', 'some', 'all']),
        ('sshcore/src/asking_laws.rt', 'beside_law', ['joined']),
        ('sshcore/src/asking_end.rt', 'AskingEndpoint::into_session', ['session', 'none']),
    ], [('What was given, asked and answered', ['Dialogue', 'IsAskedOnce', 'GiveAll']), ('What a packet asks', ['question_at']),
        ('What an asking endpoint has received and sent', ['AskingStands', 'EndpointStands']), ('What the bytes that are received read as', ['Received', 'parsers']),
        ('What the bytes that are sent spell', ['Sent', 'spells', 'AllFit', 'IsReady', 'switched_out']), ('What is answered', ['Replies', 'making']),
        ('What is handed over', ['IsSession'])]),
    'strict': Page('Strict key exchange', """
**To whom:** those who run an endpoint of this project against any peer, with anyone on the wire between them.

**What:** an endpoint is strict from the peer's KEXINIT on, if it is willing and that has the peer's marker (`strict_at`; OpenSSH PROTOCOL section 1.10). One that is strict and past NEWKEYS was given, first of all, KEXINIT, the packet of a wrong guess exactly where one was announced, the peer's share, NEWKEYS, and nothing between (`IsStrictSequence`). And a payload that deviates from that, with those before it, ended the endpoint and was the last that it received (`deviation`). So nothing can be put in before the keys are there, as the Terrapin attack did. That one which is strict and ended authenticated began so too is the clause `authenticated` of [the endpoint's theorem](endpoint.md).

**Version lines:** being strict has nothing to do with the strict form of version lines. All of this holds by either form (`reading`, `form_of`).

**Premises:** none of the peer or of the wire. The suite keeps the laws of one end (`IsLawful`), and decisions are a function of what they are asked.
""", [
        ('sshcore/src/endpoint_laws.rt', 'endpoint_law', ['strict']),
    ], [RECEIVED]),
    'unfinished': Page('Unfinished bytes', """
**To whom:** those who have to know how much of what a peer sends an endpoint can be made to hold.

**What:** what an endpoint holds of bytes that aren't a whole line or packet yet is never more than 35000 bytes (`bound`; `PACKET_LIMIT` in digits: `packet`), whatever was sent to it. It is the unfinished line before the version line has come, the unfinished packet after it, and nothing once the endpoint has ended (`unfinished`). Of a line that is at most 254 bytes, by either form of version lines (`bound` of `PeerLineReader::buffered`; `LineReader` is of the strict form).

**Premises:** none for the bounds, of a suite that keeps the laws of one end (`IsLawful`). What the bytes are is claimed of each history of the endpoint (`EndpointAfter`), and so of every endpoint that didn't run out of memory.
""", [
        ('sshcore/src/endpoint.rt', 'Endpoint::buffered', ['held', 'bound', 'unfinished']),
        ('sshpacket/src/limits_laws.rt', 'limits_law', ['packet']),
        ('sshpacket/src/reader.rt', 'PacketReader::buffered', ['held', 'bound', 'faulted']),
        ('sshwire/src/peer_line_reader.rt', 'PeerLineReader::buffered', ['held', 'bound']),
        ('sshwire/src/line_reader.rt', 'LineReader::buffered', ['held', 'bound']),
    ], [RECEIVED]),
    'crosswise': Page('Sessions that match crosswise', """
**To whom:** those who go on with the session that an endpoint hands over, where the other end is one of this project too.

**What:** two endpoints that both ended authenticated have each received all that the other sent, and agreed on the same (`received`). What they hand over matches crosswise (`AreCrosswise`): the keys and the number with which either goes on to send are those with which the other goes on to receive; both have one host key, and the version line of either is what the other has of its peer. Of a world both sessions are handed over (`sessions`). The links that are made of them are linked (`into_links`): what either seals, the other opens (`link_law`).

**Premises:** what either has received is a prefix of what the other has sent, whatever carried it (`AreJoined`), and the two configs understand each other (`AreCompatible`). The suite keeps the laws of one end (`IsLawful`), and both have the same decisions. No premise is on `reading`: either may read the other's version line by either form.
""", [
        ('sshpromises/src/sessions.rt', 'hand_over', ['-']),
        ('sshpromises/src/sessions.rt', 'handed_by_world', ['-']),
        ('sshpromises/src/sessions.rt', 'into_links', ['-']),
        ('sshworld/src/session_laws.rt', 'session_law', ['received', 'crosswise', 'worlds']),
        ('sshworld/src/world.rt', 'World::into_sessions', ['sessions', 'none']),
        ('sshcore/src/endpoint.rt', 'Endpoint::into_session', ['session', 'none']),
    ], [('What a session is', ['IsSession']), ('What the two configs have to have in common', ['AreCompatible', 'IsAgreeing']),
        ('What configs are accepted', ['IsClient', 'IsServer']), RECEIVED]),
}


KEPT = ['headline', 'suite', 'endpoint']
NAMES = 'docs/claims/names.txt'
HEAD = '# The names of the definitions on which each claim rests. Written by scripts/pages --write claims.\n'


class Closure:
    """The statements of a page, part by part, none twice."""

    def __init__(self, book, opaque=()):
        self.book, self.parts, self.users, self.opaque = book, [], {}, opaque

    def open(self, heading, words, roots, put_off):
        """Opens what these name, but for what is put off; a root is (the statement, who names it)."""
        order, waiting = [], list(roots)
        while waiting:
            it, user = waiting.pop(0)
            if it in self.users or it.name in put_off or it.name in self.opaque:
                continue
            self.users[it] = user
            order.append(it)
            waiting += [(other, it.name) for other in it.names(self.book)]
        if order:
            order.sort(key=lambda x: list(LAYERS).index(x.file.path.split('/')[0]))
            self.parts.append((heading, words, order))

    def named(self, names):
        """What of these names is named by what stands on the page."""
        return [(it, user.name) for user in list(self.users) for it in user.names(self.book) if it.name in names and it not in self.users and it.name not in self.opaque]


def closure_of(book, page, functions):
    """All parts of a page after its clauses, and who names each statement."""
    closure = Closure(book, page.opaque)
    later = [part[1] for part in page.later]
    roots = [(it, function.name) for function, wanted in functions for it in function.names(wanted, book)]
    calls = [(it, function.name) for function, _ in functions for it in function.types(book)]
    closure.open('What the clauses say', '', roots, sum(later, []))
    for at, (heading, names, *words) in enumerate(page.later):
        begun = [x for x in roots + closure.named(names) if x[0].name in names]
        closure.open(heading, ' '.join(words), begun, sum(later[at + 1:], []))
    closure.open(*CALLS, calls, [])
    return closure.parts, closure.users


def opened_later(named, known, whole):
    """Of what a part names, the names that a later one defines."""
    return ', '.join(dict.fromkeys(f'`{x.name}`' for x in named if x not in known and x in whole))


def unopened(functions, whole, book):
    """The names of the clauses and of all definitions that the page doesn't define."""
    named = [it for function, wanted in functions for it in function.names(wanted, book)] + [x for it in whole for x in it.names(book)]
    return ', '.join(sorted({f'`{x.name}`' for x in named if x not in whole}, key=str.lower))


def shown(path):
    return f'[{path}](../../crates/{path})'


def clauses_of(functions, whole):
    """The clauses, function by function; with their bodies, where they stand whole."""
    out = []
    for function, wanted in functions:
        if whole:
            out += [f'`{function.name}`, {shown(function.source.path)}:', '', '```rust', *function.whole(), '```', '']
            continue
        _, others = function.chosen(wanted)
        within = ''.join(f', in `{x.rstrip(" {")}`' for x in function.bounds())
        out += [f'`{function.name}`, {shown(function.source.path)}{within}:', '', '```rust', *function.text(wanted), '```', '']
        told = ', '.join(f'`{x}`' for x in others if x != '-')
        out += [f'Its other clauses, which aren\'t on this page: {told}.', ''] if told else []
    return out


def definition(number, it, user):
    """One definition with its place."""
    text = [*it.comment, *it.lines]
    text = [it.head, *(f'  {x}' if x else x for x in text)] if it.head else text
    return [f'#### {number}. `{it.name}`', '', f'{shown(it.file.path)}, named by `{user}`', '',
            '```rust' if it.is_code else '```antt', *text, '```', '']


def lines_of(order):
    return sum(len(it.lines) + len(it.comment) for it in order)


def anchor(heading):
    """The heading's own link within its page."""
    return '#' + ''.join(x for x in heading.lower() if x.isalnum() or x in ' -_').replace(' ', '-')


class Opened:
    """A page with what its clauses name."""

    def __init__(self, book, page):
        self.page, book.library = page, set()
        self.functions = [(book.function(path, name), wanted) for path, name, wanted in page.clauses]
        self.parts, self.users = closure_of(book, page, self.functions)
        self.whole, self.library = [it for *_, order in self.parts for it in order], book.library

    def names(self):
        """The names of its definitions, a line for each file."""
        named = {}
        for it in self.whole:
            named.setdefault(it.file.path, set()).add(it.name)
        return [f'  {path}: {" ".join(sorted(names))}' for path, names in sorted(named.items())]


def written(book, opened):
    """The text of a page."""
    page, functions, parts, users, whole = opened.page, opened.functions, opened.parts, opened.users, opened.whole
    paths, outside = {it.file.path for it in whole}, unopened(functions, whole, book)
    lacking = f'These names aren\'t opened on this page: {outside}.' if outside else 'Nothing else has to be read to know what is promised.'
    out = [f'# {page.title}', '', page.words, '',
           f'Below stand {"the clauses of one function" if len(functions) == 1 else f"clauses of {len(functions)} functions"} and the {len(whole)} definitions on which they rest, {lines_of(whole)} lines of {len(paths)} files, '
           f'word for word. {lacking} [NOTATION.md](../NOTATION.md) explains the notation. Each part goes through the crates from the top one down; '
           'in a crate, what the clauses name comes first, then what that names, and so on. '
           'The page is written by `scripts/pages`; [AUDIT.md](../AUDIT.md) tells what would be possible if a statement were wrong.', '']
    out += ['| Part | Definitions | Lines |', '|---|---|---|']
    out += [f'| [{heading}]({anchor(heading)}) | {len(order)} | {lines_of(order)} |' for heading, _, order in parts]
    out += ['', '## The clauses', '', *clauses_of(functions, page.whole)]
    places, named = {}, [it for function, wanted in functions for it in function.names(wanted, book)]
    for heading, words, order in parts:
        later = opened_later(named + [x for it in order for x in it.names(book)], {*places, *order}, whole)
        named = []
        told = [words] * bool(words) + [f'Named here and defined in a later part: {later}.'] * bool(later)
        out += [f'## {heading}', '', *([' '.join(told), ''] if told else [])]
        layer = None
        for it in order:
            if layer != (layer := it.file.path.split('/')[0]):
                out += [f'### `{layer}`: {LAYERS[layer]}', '']
            places[it] = len(places) + 1
            out += definition(places[it], it, users[it])
    index = ', '.join(f'`{it.name}` {places[it]}' for it in sorted(places, key=lambda x: (x.name.lower(), places[x])))
    library = ', '.join(f'`{x}`' for x in sorted(opened.library))
    out += ['## Index', '', f'Each definition by its number: {index}.', '', '## Words of the library', '',
            f'Taken as the kit\'s library `std` defines them; [NOTATION.md](../NOTATION.md) has the common ones in plain words: {library}.']
    return '\n'.join(out) + '\n'


def printed(book, name):
    """The text of a page, whether it is kept or not."""
    return written(book, Opened(book, PAGES[name])).rstrip('\n')


def current(path, text, write):
    """What is wrong with a file that is written, once it is where it has to be."""
    if write:
        os.makedirs(f'{ROOT}/docs/claims', exist_ok=True)
        write_to(path, text)
    old = read(path) if os.path.exists(f'{ROOT}/{path}') else None
    return [f'{path} isn\'t current: scripts/pages --write claims'] if old != text else []


def unexplained(name, opened):
    """The words of the library that a page names and no table of docs/NOTATION.md has."""
    rows = re.findall(r'(?m)^\| ((?:\\\||[^|\n])*) \|', read('docs/NOTATION.md'))
    known = ' '.join(re.findall(r'`([^`]+)`', ' '.join(rows))).replace('\\|', '|')
    lacks = [x for x in sorted(opened.library) if not re.search(rf'(?<!\w){re.escape(x.strip("◌") or x)}(?!\w)', known)]
    return [f'docs/NOTATION.md has no row for `{x}`, which the claim page {name} names' for x in lacks]


def faults_of(book, name, opened, write):
    """What is wrong with a page."""
    audit = read('docs/AUDIT.md')
    if name in KEPT:
        lacks = [f'docs/AUDIT.md has no link to claims/{name}.md'] if f'(claims/{name}.md)' not in audit else []
        return current(f'docs/claims/{name}.md', written(book, opened), write) + lacks
    return [f'docs/AUDIT.md has no `scripts/pages --print claims {name}`'] if f'`scripts/pages --print claims {name}`' not in audit else []


def names_of(name, opened):
    """What docs/claims/names.txt has of a page."""
    return '\n'.join([f'{name}: {len(opened.whole)} definitions', *opened.names()]) + '\n'


def judged(book, write):
    faults, passed, names = [], 0, {}
    for name, page in PAGES.items():
        try:
            opened = Opened(book, page)
            wrong, names[name] = faults_of(book, name, opened, write) + unexplained(name, opened), names_of(name, opened)
        except Wrong as why:
            wrong = [f'the claim page {name} can\'t be written: {why}']
        faults += wrong
        passed += not wrong
    wrong = current(NAMES, '\n'.join([HEAD, *(text for _, text in sorted(names.items()))]), write) if len(names) == len(PAGES) else []
    allowed = {NAMES, *(f'docs/claims/{name}.md' for name in KEPT)}
    wrong += [f'docs/claims has a file that nothing writes: {x}' for x in files() if x.startswith('docs/claims/') and x not in allowed]
    return [f'FAULT {it}' for it in faults + wrong], passed + (not wrong), len(faults + wrong)

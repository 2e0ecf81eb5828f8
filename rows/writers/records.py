"""Records of paused endpoints: their bytes along whole sessions, within a line and a packet, and while one asks; what each byte changed
makes of them, and each cut; and bytes that other endpoints wrote, or nobody."""
import copy

from lab import *
import paused
from asking import answer, host_key, of_key, of_password, of_signed_key, user
from ctr_sessions import ALL, ALGORITHM, ETM, GCM, METHOD, PLAIN, CipherTalk
from deployed_sessions import CIPHER, KEY, DeployedTalk
from paused import Deployed, Elsewhere, Lab, Config, Record, reads, spoilt
from requests import FAILURE, LET_IN, half, wrong_signature
from signatures import by_signature, to_sign

TEXT = LINE[:-2]
NONE, PASSWORD, QUERY = ("al", "ssh-connection", None), ("al", "ssh-connection", b"\x00"), ("al", "ssh-connection", ("h", b"\x00", True))
TRIES = {NONE: "none", PASSWORD: "password 00", QUERY: "query h 00"}
MASKS = (0x01, 0x80)


def record(r):
    return "record " + r.text().hex()


def tries(plan):
    return ["client try %s %s %s" % (name, service_name, TRIES[name, service_name, proof]) for name, service_name, proof in plan]


def judged(r, config):
    """The record, and what it makes where it is spoilt."""
    text = r.text()
    assert reads(text, config) == "m"
    return ["record " + text.hex(), ["spoilt %02x %s" % (mask, spoilt(text, mask, config)) for mask in MASKS], "cuts"]


def names(t):
    """The names of a choice."""
    return [name.encode() for name in (t.method, t.host_key[0], *t.chosen, "none", "none")]


def client(t, plan=(NONE,)):
    """A client's session up to its first request: what is received, what is answered, what is sent, and the record after that. Of one
    that guesses right the share is sent at once."""
    r, s = Record(CLIENT, len(plan), number=2 if t.guess else 1), half(t.s)
    c = half(t.c)
    yield "at its making", [], None, [t.c_first], r
    r.put(lines=None, packets=(None, 0, b""), version=TEXT)
    yield "behind the version line", [LINE], None, [], r
    clear = 1 + t.guess + bool(t.c_init)
    r.put(phase=1, first=False, strict=t.strict, kexinit=t.si, algorithms=names(t), number=clear, packets=(None, 1, b""))
    yield "behind KEXINIT", [t.s_first[len(LINE):]], None, [t.c_init], r
    r.put(packets=(None, 2, b""), waiting=reply(t.hash))
    yield "at the host key question", [t.s_reply], host_key(), [], r
    r.put(phase=2, waiting=None, session=t.hash, pending=t.sc, own_version=TEXT, host_key=BLOB, keys=t.cs, number=1 if t.strict else clear + 2)
    yield "behind the answer", answer(True), None, [t.c_newkeys, t.c_service], r
    r.put(phase=3, pending=None, packets=(t.sc, 0 if t.strict else 3, b""))
    yield "behind NEWKEYS", [t.s_newkeys], None, [], r
    request_ = c.send(by_query() if plan[0] is QUERY else by_password(b"\x00") if plan[0] is PASSWORD else by_none())
    r.put(phase=4, confirmed=plan[0] is not QUERY, number=c.seq, packets=(t.sc, s.seq, b""))
    yield "in authentication", [t.s_accept], None, [request_], r


def server(t):
    """The same of a server, up to the accepted service."""
    r = Record(SERVER)
    yield "at its making", [], None, [t.s_first], r
    r.put(lines=None, packets=(None, 0, b""), version=TEXT)
    yield "behind the version line", [LINE], None, [], r
    first = t.c_first[len(LINE):len(t.c_first) - len(t.guessed)]
    wrong = t.guess and t.crossed
    r.put(phase=1, guess=wrong, first=False, strict=t.strict, kexinit=t.ci, algorithms=names(t), packets=(None, 1, b""))
    yield "behind KEXINIT", [first], None, [], r
    received = 2
    if wrong:
        received = 3
        r.put(guess=False, packets=(None, 2, b""))
        yield "behind a wrong guess", [t.guessed], None, [], r
    r.put(phase=2, session=t.hash, pending=t.cs, own_version=TEXT, host_key=BLOB, keys=t.sc, number=0 if t.strict else 3, packets=(None, received, b""))
    yield "behind the share", [t.guessed if t.guess and not wrong else t.c_init], None, [t.s_reply, t.s_newkeys], r
    r.put(phase=3, pending=None, packets=(t.cs, 0 if t.strict else received + 1, b""))
    yield "behind NEWKEYS", [t.c_newkeys], None, [], r
    r.put(phase=4, number=t.s.seq, packets=(t.cs, t.c.seq, b""))
    yield "in authentication", [t.c_service], None, [t.s_accept], r


def steps_of(course, last=None):
    """The lines of a session with its records, up to a place; and the record there."""
    lines = []
    for place, received, question, sent, r in course:
        lines += [received if isinstance(received, str) else feed(*received) if received else [], question or [], says(*sent), record(r)]
        if place == last:
            break
    return lines, copy.deepcopy(r)


TALKS = {"strict": {}, "loose": {"strict": False}, "guessing": {"guess": True}, "guessed": {"guess": True, "crossed": True},
         "loosely guessing": {"strict": False, "guess": True, "crossed": True}}


def rows(file):
    for name, how in TALKS.items():
        t = Talk(**how)
        for role, course, act in ((CLIENT, client(t), "waiting client"), (SERVER, server(t), "waiting server")):
            lines, r = steps_of(course)
            if role == CLIENT:
                end = [feed(half(t.s).send(SUCCESS)), "says -", "end " + LET_IN, "record none"]
            else:
                request_ = half(t.c).send(by_none())
                end = [feed(request_), user(1, "none"), record(r.put(packets=(t.cs, t.c.seq + 1, b""), waiting=by_none())), answer(True),
                       says(half(t.s).send(SUCCESS)), "end " + LET_IN, "record none"]
            file.row("a %s, %s" % (role, name), t.lines(), tries([NONE]), act, lines, end)
    at_rest(file)
    within(file)
    asking(file)
    in_authentication(file)
    signing(file)
    over_deployed(file)
    over_ctr(file)
    others(file)
    ended(file)


def at_rest(file):
    """An endpoint that has received nothing, and one between two packets."""
    for role, course in ((CLIENT, client), (SERVER, server)):
        for place in ("at its making", "behind NEWKEYS"):
            t = Talk(strict=place != "behind NEWKEYS" or role == CLIENT)
            config = Config(role, plan=[NONE] if role == CLIENT else ())
            lines, r = steps_of(course(t), place)
            file.row("a %s is spoilt %s" % (role, place), t.lines(), tries([NONE]), "waiting " + role, lines, judged(r, config), "end open")
    t = Talk(guess=True, crossed=True)
    lines, r = steps_of(server(t), "behind KEXINIT")
    file.row("a server is spoilt before a wrong guess", t.lines(), "waiting server", lines, judged(r, Config(SERVER)), feed(t.guessed), "says -", "end open")


def within(file):
    """An endpoint within a line, and within a packet, in clear and sealed."""
    t = Talk()
    r = Record(CLIENT, 1, lines=(19, b"SSH-2.0-l"))
    file.row("a client is spoilt within a line", tries([NONE]), "waiting client", says(t.c_first), feed(b"hello\r\nSSH-2.0-l"), judged(r, Config(CLIENT, plan=[NONE])),
             feed(b"ab_1\r\n"), "says -", record(Record(CLIENT, 1, lines=None, packets=(None, 0, b""), version=TEXT)), "end open")
    packet_ = t.c_first[len(LINE):]
    for n in (3, 20):
        r = Record(SERVER, lines=None, packets=(None, 0, packet_[:n]), version=TEXT)
        file.row("a server is spoilt within a packet, behind %d bytes" % n, "waiting server", says(t.s_first), feed(LINE, packet_[:n]), judged(r, Config(SERVER)),
                 feed(packet_[n:]), "says -", feed(t.c_init), says(t.s_reply, t.s_newkeys), "end open")
    lines, r = steps_of(client(t), "behind NEWKEYS")
    r.put(packets=(t.sc, 0, t.s_accept[:21]))
    file.row("a client is spoilt within a sealed packet", tries([NONE]), "waiting client", lines, feed(t.s_accept[:21]), judged(r, Config(CLIENT, plan=[NONE])),
             feed(t.s_accept[21:]), says(half(t.c).send(by_none())), "end open")


def asking(file):
    """A client at a host key question, and a server at questions on requests."""
    t = Talk()
    lines, r = steps_of(client(t), "at the host key question")
    file.row("a client is spoilt at the host key question", tries([NONE]), "waiting client", lines, judged(r, Config(CLIENT, plan=[NONE])), host_key(), answer(True),
             says(t.c_newkeys, t.c_service), "verified 1", "end open")
    payloads = {"nothing": (by_none(), "none"), "a password": (by_password(b"\x00"), of_password(b"\x00")),
                "a key": (by_key(t.hash), of_signed_key()), "a query": (by_query(), of_key())}
    for name, (payload, asks) in payloads.items():
        c, s = half(t.c), half(t.s)
        lines, r = steps_of(server(t))
        lines += [feed(c.send(by_password(b"\x01"))), user(1, of_password(b"\x01")), answer(False), says(s.send(FAILURE)), feed(c.send(payload)), user(2, asks)]
        r.put(request=2, number=s.seq, packets=(t.cs, c.seq, b""), waiting=payload)
        file.row("a server is spoilt at a question on %s" % name, "waiting server", lines, "verified %d" % (name == "a key"), judged(r, Config(SERVER)),
                 user(2, asks), answer(True), says(s.send(pk_ok() if name == "a query" else SUCCESS)), "verified 0",
                 "end " + ("open" if name == "a query" else LET_IN))


def in_authentication(file):
    """A server after a partial success, and a client whose query waits for its answer while attempts are left."""
    t = Talk()
    both = ["server required password,publickey"]
    for name, first, second, asks in (("a password", by_password(b"\x00"), by_key(t.hash), (of_password(b"\x00"), of_signed_key())),
                                      ("a key", by_key(t.hash), by_password(b"\x00"), (of_signed_key(), of_password(b"\x00")))):
        c, s = half(t.c), half(t.s)
        lines, r = steps_of(server(t))
        lines += [feed(c.send(first)), user(1, asks[0]), answer(True), says(s.send(failure(partial=1)))]
        r.put(request=2, number=s.seq, packets=(t.cs, c.seq, b""), user=b"al", service=b"ssh-connection")
        r.put(**({"password": True} if name == "a password" else {"publickey": True, "user_key": (b"h", BLOB)}))
        forgets(file, name, both, lines, copy.deepcopy(r), half(c), half(s))
        lines += [judged(r, Config(SERVER)), feed(c.send(wrong_signature())), "question nothing", says(s.send(FAILURE))]
        lines.append(record(r.put(request=3, number=s.seq, packets=(t.cs, c.seq, b""))))
        file.row("a server is spoilt behind %s, one of two methods" % name, both, "waiting server", lines, feed(c.send(second)), user(3, asks[1]), answer(True),
                 says(s.send(SUCCESS)), "end " + LET_IN)
    plan = [PASSWORD, QUERY, NONE]
    c, s = half(t.c), half(t.s)
    lines, r = steps_of(client(t, plan))
    c.send(by_password(b"\x00"))
    lines += [feed(s.send(FAILURE)), says(c.send(by_query()))]
    r.put(confirmed=False, left=2, number=c.seq, packets=(t.sc, s.seq, b""))
    config = Config(CLIENT, plan=plan)
    lines += [judged(r, config), feed(s.send(pk_ok())), says(c.send(by_key(t.hash)))]
    file.row("a client is spoilt while its query waits", tries(plan), "waiting client", lines,
             judged(r.put(confirmed=True, number=c.seq, packets=(t.sc, s.seq, b"")), config), "end open")


def forgets(file, name, both, lines, r, c, s):
    """A server that has one of two methods: a request of another user empties that, also where its signature is wrong."""
    keys = r.packets[0]
    wrong = [feed(c.send(wrong_signature("bo"))), "question nothing", says(s.send(FAILURE))]
    r.put(request=3, number=s.seq, packets=(keys, c.seq, b""), password=False, publickey=False)
    file.row("a server forgets %s at another user's wrong signature" % name, both, "waiting server", lines, wrong, record(r), "end open")


def signing(file):
    """Both sides at a question for a signature."""
    t = Talk()
    # a client's, of the third attempt of four
    plan = [PASSWORD, NONE, ("al", "ssh-connection", ("h", BLOB, False)), NONE]
    setting = tries(plan[:2]) + ["client try al ssh-connection publickey h " + hexa(BLOB)] + tries(plan[3:])
    data = input_of(t.hash)
    signature = sign("h", b"\x00", data)
    question = to_sign(1, data, signature)
    c, s = half(t.c), half(t.s)
    lines, r = steps_of(client(t, plan))
    c.send(by_password(b"\x00"))
    refused = s.send(failure(("publickey",)))
    r.put(packets=(t.sc, s.seq, b""), waiting=failure(("publickey",)))
    file.row("a client is spoilt at a question for a signature", setting, "waiting client elsewhere", lines, feed(refused), question.words,
             judged(r, Config(CLIENT, Elsewhere, plan)), question.words, question.reply, says(c.send(by_signature(signature))), "signed 0", "end open")
    # a server's
    config = Config(SERVER, Elsewhere, private=BLOB)
    lines, r = steps_of(server(t), "behind KEXINIT")
    question = to_sign(0, t.hash, sign("h", b"\x00", t.hash))
    r.put(packets=(None, 2, b""), waiting=INIT)
    file.row("a server is spoilt at a question for a signature", "server hostkey h " + hexa(BLOB), "waiting server elsewhere", lines, feed(t.c_init), question.words,
             "responded 1", "digested 1", judged(r, config), "responded 0", "digested 0", question.words, question.reply, says(t.s_reply, t.s_newkeys), "end open")


def over_deployed(file):
    """A server over the suite of deployed algorithms, within a sealed packet."""
    t = DeployedTalk()
    chosen = [x.encode() for x in ("curve25519-sha256", "ssh-ed25519", CIPHER, CIPHER, "m", "m", "none", "none")]
    keys = {role: Keys(CIPHER, "m", b"", half_.keys, b"") for role, half_ in ((CLIENT, t.c), (SERVER, t.s))}
    c, s = t.c, t.s
    request_ = c.send(by_none())
    r = Record(SERVER, phase=4, form=paused.OCTETS, strict=True, first=False, version=TEXT, kexinit=t.ci, session=t.hash, algorithms=chosen, own_version=TEXT,
               host_key=KEY, keys=keys[SERVER], number=s.seq, lines=None, packets=(keys[CLIENT], c.seq - 1, request_[:21]), suite=Deployed)
    setting = ["server %s %s" % x for x in (("kex", "curve25519-sha256"), ("hostkey", "ssh-ed25519 " + bytes(range(32)).hex()), ("cipher_cs", CIPHER), ("cipher_sc", CIPHER))]
    file.row("a server over deployed algorithms is spoilt within a sealed packet", setting, "waiting server deployed", feed(t.c_first, t.c_init, t.c_newkeys, t.c_service),
             says(t.s_first, t.s_reply, t.s_newkeys, t.s_accept), feed(request_[:21]), judged(r, Config(SERVER, Deployed)), feed(request_[21:]), user(1, "none"),
             answer(True), says(s.send(SUCCESS)), "end " + LET_IN)


def over_ctr(file):
    """Both sides over ciphers whose keys go on: the record has the vector of the next packet each way, and what is made of it goes on with that."""
    for way in ALL:
        for strict in (True, False):
            if strict or way in (ALL[0], PLAIN, ETM, GCM):
                of_ctr(file, way, strict, strict and way in (PLAIN, ETM))


def of_ctr(file, way, strict, is_spoilt):
    """A server that denies a password and accepts the next, and the client of it: their records after each packet, and within one."""
    t = CipherTalk(way, strict)
    c, s = t.c, t.s
    denied, accepted = by_password(b"\x01"), by_password(b"\x00")
    name = "%s, %s" % (way.short(), "strict" if strict else "loose")
    chosen = [x.encode() for x in (METHOD, ALGORITHM, *way.names, "none", "none")]
    number = 0 if strict else 3
    # as both stand after their NEWKEYS
    own = Record(SERVER, phase=2, form=paused.OCTETS, strict=strict, first=False, version=TEXT, kexinit=t.ci, session=t.hash, algorithms=chosen, own_version=TEXT,
                 host_key=KEY, pending=t.cs, keys=t.sc, number=number, lines=None, packets=(None, 2, b""), suite=Deployed)
    of_client = Record(CLIENT, 2, phase=2, form=paused.OCTETS, strict=strict, first=False, version=TEXT, kexinit=t.si, session=t.hash, algorithms=chosen, own_version=TEXT,
                       host_key=KEY, pending=t.sc, lines=None, packets=(None, 2, b""), suite=Deployed)
    lines = ["waiting server deployed", says(t.s_first), feed(t.c_first, t.c_init), says(t.s_reply, t.s_newkeys), record(own), feed(t.c_newkeys),
             record(own.put(phase=3, pending=None, packets=(t.cs, number, b""))), feed(t.c_service), says(t.s_accept),
             record(own.put(phase=4, keys=s.keys, number=s.seq, packets=(c.keys, c.seq, b"")))]
    client = [["client try al ssh-connection password %02x" % b for b in (1, 0)], "waiting client deployed", says(t.c_first), feed(t.s_first), says(t.c_init), feed(t.s_reply),
              host_key(KEY, ALGORITHM), answer(True), says(t.c_newkeys, t.c_service)]
    service_ = CipherTalk(way, strict).c
    client += [record(of_client.put(keys=service_.keys, number=service_.seq)), feed(t.s_newkeys), record(of_client.put(phase=3, pending=None, packets=(t.sc, number, b"")))]
    heard = t.s_accept
    for n, (payload, answers) in enumerate(((denied, failure()), (accepted, SUCCESS)), 1):
        # a request, cut after its length and a byte
        before, seq = c.keys, c.seq
        request_ = c.send(payload)
        lines += [feed(request_[:5]), record(own.put(packets=(before, seq, request_[:5])))]
        if n == 2 and is_spoilt:
            lines += judged(own, Config(SERVER, Deployed))
        lines += [feed(request_[5:]), user(n, of_password(payload[-1:])), record(own.put(packets=(c.keys, c.seq, b""), waiting=payload))]
        client += [feed(heard), says(request_), record(of_client.put(phase=4, left=3 - n, keys=c.keys, number=c.seq, packets=(s.keys, s.seq, b"")))]
        before, seq = s.keys, s.seq
        heard = s.send(answers)
        lines += [answer(n == 2), says(heard)]
        if n == 1:
            lines.append(record(own.put(waiting=None, request=2, keys=s.keys, number=s.seq)))
            client += [feed(heard[:7]), record(of_client.put(packets=(before, seq, heard[:7])))]
            heard = heard[7:]
    file.row("a server over %s" % name, t.lines(SERVER), lines, "end " + LET_IN, "record none")
    file.row("a client over %s" % name, t.lines(CLIENT), client, feed(heard), "says -", "end " + LET_IN, "record none")


def others(file):
    """Records of other endpoints, versions and configs, and bytes that no endpoint has written."""
    t = Talk()
    for role, course in ((CLIENT, client(t, [PASSWORD, QUERY])), (SERVER, server(t))):
        config, lines = Config(role, plan=[PASSWORD, QUERY] if role == CLIENT else ()), []

        def takes(*records):
            return ["takes %s %s" % (reads(text, config), hexa(text)) for text in records]

        seen = [(place, copy.deepcopy(r)) for place, _, _, _, r in course]
        for _, r in seen:
            lines += takes(r.text())
        last = seen[-1][1]
        with_ = lambda **parts: copy.deepcopy(last).put(**parts).text()
        before, after, rest = u32(paused.VERSION - 1), u32(paused.VERSION + 1), last.text()[4:]
        lines += takes(b"", u32(0), u32(1), before, u32(paused.VERSION), after, b"\x00\x00\x00", before + rest, after + rest, u32(0) + rest, bytes(200))
        # of the other role, and of another config
        lines += takes(*(r.text() for _, _, _, _, r in (server(t) if role == CLIENT else client(t))))
        other_ = Talk(strict=False, guess=True, crossed=True)
        lines += takes(*(r.text() for _, _, _, _, r in (client(other_) if role == CLIENT else server(other_))))
        lines += takes(*(with_(request=n) for n in (0, 20, 21)), *(with_(left=n) for n in (0, 1, 2, 3, 2 ** 32 - 1)), with_(confirmed=False),
                       *(with_(allowance=n) for n in (0, 2 ** 32 - 1)), *(with_(form=n) for n in (1, 2)), with_(user=b"\xff"), with_(service=b"\xc3\xa4"),
                       *(with_(session=bytes(n)) for n in (0, 64, 65)), *(with_(version=bytes(n)) for n in (0, 255, 256)), with_(guess=True), with_(first=True),
                       *(with_(user_key=(name, b"")) for name in (b"", b"\x80")), with_(keys=None), with_(algorithms=None), with_(phase=0), with_(phase=1),
                       with_(phase=1, keys=None), with_(pending=t.cs), with_(lines=(3, b"x" * 254)), with_(lines=(3, b"x" * 255)), with_(lines=(0, b"\n")),
                       with_(lines=(0, b"SSH-2.0-x\r")), with_(lines=(0, b"x\x00")))
        name = lambda text: [text] + names(t)[1:]
        lines += takes(*(with_(algorithms=name(text)) for text in (b"", b"x" * 64, b"x" * 65, b"a b", b"a,b", b"~!")),
                       *(with_(keys=Keys(text, "m", b"", b"", b"")) for text in ("", "c", "c c")), with_(keys=Keys("c", "", b"", b"", b"")))
        clear = lambda held: with_(packets=(None, 0, held))
        lines += takes(*(clear(held) for held in (b"", u32(12), u32(12) + bytes(11), u32(12) + b"\x04\x02" + bytes(10), u32(11), u32(4), u32(34996), u32(34988),
                                                  u32(35004), b"\xff" * 3, b"\xff" * 4)))
        # how many bytes are missing
        lines += takes(*(with_(packets=(None, 0, held), missing=n) for held, n in ((b"", 4), (b"", 0), (b"", 5), (b"\x00", 3), (b"\x00", 4), (u32(12), 12), (u32(12), 11),
                                                                                  (u32(12), 4), (u32(12) + bytes(11), 1), (u32(12) + bytes(11), 2 ** 32 - 1))),
                       with_(lines=(3, b"x"), missing=0), with_(lines=(3, b"x"), missing=1), with_(waiting=by_none(), missing=4))
        waits = lambda payload, **parts: with_(waiting=payload, **parts)
        lines += takes(*(waits(payload) for payload in (b"", by_none(), by_query(), failure(), SUCCESS, pk_ok(), reply(t.hash), INIT, b"\x32", b"\x02" + string(b""))),
                       waits(by_key(t.hash)), waits(by_key(t.hash), session=bytes(32)), waits(wrong_signature()), waits(wrong_signature(), session=bytes(32)),
                       waits(by_none(), guess=True), waits(by_none() + b"\x00"), waits(by_none(service_name="odd")),
                       waits(by_none(), packets=(t.cs, 4, b"\x01")), waits(by_none(), lines=(0, b"")), waits(by_query(), request=5), waits(by_query(), request=6),
                       waits(by_none(), phase=3), waits(reply(t.hash), phase=1, keys=None), waits(INIT, phase=1, keys=None))
        file.row("a %s is made of other bytes" % role, tries([PASSWORD, QUERY]) if role == CLIENT else [], "waiting " + role, says(t.c_first if role == CLIENT else t.s_first),
                 lines, "end open")


def ended(file):
    """An endpoint that has ended has no record."""
    for role, t in ((CLIENT, Talk()), (SERVER, Talk())):
        first = t.c_first if role == CLIENT else t.s_first
        file.row("a %s whose input has ended has no record" % role, tries([NONE]), "waiting " + role, says(first), "cut", "end failed F16", "record none")
        file.row("a %s that was told to disconnect has no record" % role, tries([NONE]), "waiting " + role, says(first), "disconnect 11 -",
                 says(packet(disconnect(11), 1, SEED[role])), "end disconnected 11", "record none")
        file.row("a %s that has failed has no record" % role, tries([NONE]), "waiting " + role, says(first), part(1, b"\x00"), "end failed F1", "record none")

"""Each limit of the profile through an endpoint, up to its end: what a config may have, where the other side is written here,
and what a peer may send, at the limit and past it. Which configs are refused stands in configs.py."""
from lab import *
from answers import AL, Client, lists
from auth import ASK, ALLOW_KEY, KEY, LET_IN, PW, Course, both, key, q
from packets import ignore, raw
from requests import FAILURE, Server, half

# the longest payload of a sealed packet of the lab suite, and of one in clear
SEALED, CLEAR = 34959, 34991
BIG = b"\xff" * 8192


def letters(n, first=0):
    """So many letters, none beside its like."""
    return "".join(chr(97 + (first + i) % 26) for i in range(n))


def long_names(letter):
    """Names of 64 bytes and one of 25, which with commas have 1000."""
    return ["%s%02d" % (letter * 62, n) for n in range(15)] + ["z" * 25]


def rows(file):
    configs(file)
    plans(file)
    requests_by_hand(file)
    answers_by_hand(file)
    services(file)
    offers(file)
    replies(file)
    packets(file)
    pieces(file)


def course(file, name, plan, allowed, lines, made, answers, user="al", service_name="ssh-connection", **how):
    end = "authenticated %s %s" % (user, service_name)
    own = Course((plan, allowed, lines, made, answers, end, end), how)
    both(file, name, own, len(own.t.c.sent) + len(own.t.s.sent))


def configs(file):
    """Configs at their limits: a client, a server, what is predicted and a world."""
    proofs = {"none": None, "a password": b"\x00", "a key": key("h", b"\x00"), "a query": key("h", b"\x00", True)}
    made = {"none": ([0], "s"), "a password": ([0], "s"), "a key": ([0], "s"), "a query": (q(0), "ks")}
    user, name = letters(255), letters(64)
    for word, proof in proofs.items():
        proves = key("h", b"\x00") if word == "a query" else proof
        course(file, "a user of 255 bytes, by " + word, [(user, "ssh-connection", proof)], [(user, proves)], [], *made[word], user=user)
        course(file, "a service of 64 bytes, by " + word, [("al", name, proof)], [("al", proves)], ["server services " + name],
               *made[word], service_name=name)
    course(file, "services of 1000 bytes", [("al", "z" * 25, None)], [("al", None)], ["server services " + ",".join(long_names("s"))],
           [0], "s", service_name="z" * 25)
    methods = ",".join(["password"] * 9 + ["publickey"] * 92)
    assert len(methods) == 1000
    course(file, "methods of 1000 bytes", [PW, KEY], ALLOW_KEY, ["server methods " + methods], [0, 1], "fs")
    simple = [("al", "ssh-connection", None)], [("al", None)]
    course(file, "a banner of 8192 bytes", *simple, ["server banner " + BIG.hex()], [0], "s")
    for count, size in ((20, 253), (20, 0), (1, 253)):
        course(file, "%d notice lines of %d bytes" % (count, size), *simple, [], [0], "s", notices=[letters(size, n).encode() for n in range(count)])
    course(file, "version lines of 255 bytes", *simple, [], [0], "s", versions=(letters(245), letters(245, 1)))
    course(file, "a host key of 8192 bytes", *simple, [], [0], "s", host_keys=([("h", BIG)], ("h",), ("h", BIG)))
    course(file, "500 host keys", *simple, [], [0], "s", host_keys=([("g", b"\x00")] * 499 + [("h", b"\x01")], ("h",), ("h", b"\x01")))
    for word, ask in (("a key", False), ("a query", True)):
        own = ("al", "ssh-connection", key("h", BIG, ask))
        course(file, word + " of 8192 bytes", [own], [("al", key("h", BIG))], [], *made[word])
        own = ("al", "ssh-connection", key(name, b"\x00", ask))
        course(file, word + " with a name of 64 bytes", [own], [("al", key(name, b"\x00"))], [], *made[word])
    named(file, simple)


def named(file, simple):
    """Names of 64 bytes in each list, and lists of 1000 bytes of which the last name alone is common."""
    kex, host, cipher, other_cipher, mac, other_mac = [letters(64, n) for n in (0, 1, 2, 3, 4, 5)]
    cipher = cipher[:62] + "16"
    own = {"cs": cipher, "sc": other_cipher, "mcs": mac, "msc": other_mac}
    course(file, "names of 64 bytes", *simple, [], [0], "s", kex=((kex,), (kex,), kex), lists=(own, own),
           chosen=(cipher, other_cipher, mac, other_mac), host_keys=([(host, b"\x00")], (host,), (host, b"\x00")))
    last = "z" * 25
    ours, theirs = ({field: ",".join(long_names(letter)) for field in ("cs", "sc", "mcs", "msc")} for letter in "cs")
    keys = [(name, b"\x01") for name in long_names("s")]
    course(file, "lists of 1000 bytes", *simple, [], [0], "s", kex=(long_names("c"), long_names("s"), last), lists=(ours, theirs),
           chosen=(last,) * 4, host_keys=(keys, long_names("c"), (last, b"\x01")))


def plans(file):
    """Plans of 64 attempts: by two ends, where all between are skipped, and by a client whose every attempt is refused."""
    nothing = ("al", "ssh-connection", None)
    for name, last, made, answers in (("a key", KEY, [0, 63], "fs"), ("a query", ASK, [0] + q(63), "fks")):
        course(file, "of 64 attempts the last is " + name, [nothing] + [PW] * 62 + [last], ALLOW_KEY, ["server methods publickey"], made, answers)
    c = Client(file, "client-")
    h = c.t.hash
    password, asks = "client try al ssh-connection password 00", "client try al ssh-connection query h 00"
    refused, confirmed = (failure(), [by_password(b"\x00")]), (pk_ok(), [by_key(h)])
    for count in (8, 9, 63, 64):
        c.row("%d attempts are refused" % count, [password] * count, by_password(b"\x00"),
              [refused] * (count - 1) + [(failure(), [disconnect(14)])], "failed F14")
        c.row("%d attempts, and the last lets in" % count, [password] * count, by_password(b"\x00"), [refused] * (count - 1) + [(SUCCESS, [])],
              LET_IN)
        c.row("%d keys that would do are refused" % count, [asks] * count, by_query(),
              [confirmed, (failure(), [by_query()])] * (count - 1) + [confirmed, (failure(), [disconnect(14)])], "failed F14")


def by_signed_key(h, algorithm, blob_, signature=None):
    """A request by a key of these bytes: in the lab suite whoever knows a key signs by it."""
    head = string("al") + string("ssh-connection") + string("publickey") + b"\x01" + string(algorithm) + string(blob_)
    signed_ = sha(string(blob_), string(string(h) + b"\x32" + head))
    return b"\x32" + head + string(signed_ if signature is None else signature)


def requests_by_hand(file):
    """What a server's peer may send: nothing but the packet bounds a user, a password, a key, a method or a signature."""
    s = Server(file, "server-")
    h, name = s.t.hash, letters(64)
    for size in (0, 64, 65, 255, 256, 1024, SEALED - len(by_none(""))):
        user = letters(size)
        s.row("a request of a user of %d bytes" % size, [], [(by_none(user), [SUCCESS])], "authenticated %s ssh-connection" % user, generous=True)
    for size in (255, 256):
        user = letters(size)
        s.row("a password of a user of %d bytes" % size, ["allow %s password 00" % user],
              [(by_password(b"\x00", user[1:]), [FAILURE]), (by_password(b"\x00", user), [SUCCESS])], "authenticated %s ssh-connection" % user)
        s.row("a key of a user of %d bytes" % size, ["allow %s publickey h 00" % user], [(by_key(h, user=user), [SUCCESS])],
              "authenticated %s ssh-connection" % user)
        s.row("a query of a user of %d bytes" % size, ["allow %s publickey h 00" % user],
              [(by_query(user=user), [pk_ok()]), (by_key(h, user=user), [SUCCESS])], "authenticated %s ssh-connection" % user)
    for size in (0, 1024, 1025, SEALED - len(by_password(b""))):
        s.row("a password of %d bytes" % size, [], [(by_password(b"\x55" * size), [SUCCESS])], LET_IN, generous=True)
    for size in (0, 8192, 8193, SEALED - len(by_signed_key(h, "h", b""))):
        s.row("a signature by a key of %d bytes" % size, [], [(by_signed_key(h, "h", b"\x55" * size), [SUCCESS])], LET_IN, generous=True)
    s.row("a signature by an algorithm of 64 bytes", [], [(by_signed_key(h, name, BLOB), [SUCCESS])], LET_IN, generous=True)
    s.row("a signature by an algorithm of 65 bytes", [], [(by_signed_key(h, name + "m", BLOB), [FAILURE]), (by_none(), [SUCCESS])], LET_IN,
          generous=True)
    for size in (31, 33, 8192, 8193, SEALED - len(by_signed_key(h, "h", BLOB, b""))):
        signature = (signed(h, "h") + bytes(size))[:size]
        s.row("a signature of %d bytes" % size, [], [(by_signed_key(h, "h", BLOB, signature), [FAILURE]), (by_none(), [SUCCESS])], LET_IN, generous=True)
    for size in (64, 65, 1000):
        s.row("a method of %d bytes" % size, [], [(request("al", "ssh-connection", letters(size)), [FAILURE]), (by_none(), [SUCCESS])], LET_IN,
              generous=True)
    s.row("the fields of an unknown method", [], [(request("al", "ssh-connection", "m", bytes(SEALED - len(request("al", "ssh-connection", "m")))),
          [FAILURE]), (by_none(), [SUCCESS])], LET_IN, generous=True)
    for service_name in (name[1:], name + "m", letters(1000)):
        s.row("another service of %d bytes" % len(service_name), ["server services " + name], [(by_none("al", service_name), [disconnect(7)])],
              "failed F12", generous=True)
    s.row("a service of 64 bytes", ["server services " + name], [(by_none("al", name), [SUCCESS])], "authenticated al " + name, generous=True)
    for tries in (1, 2, 19, 20):
        s.row("%d tries" % tries, ["server tries %d" % tries], [(request("al", "ssh-connection", "m"), [FAILURE])] * (tries - 1)
              + [(request("al", "ssh-connection", "m"), [disconnect(14)])], "failed F13", generous=True)
        s.row("the last of %d tries" % tries, ["server tries %d" % tries], [(request("al", "ssh-connection", "m"), [FAILURE])] * (tries - 1)
              + [(by_none(), [SUCCESS])], LET_IN, generous=True)
        s.row("a query at the last of %d tries" % tries, ["server tries %d" % tries], [(by_query(), [pk_ok()])] * (tries - 1)
              + [(by_query(), [disconnect(14)])], "failed F13", generous=True)


def answers_by_hand(file):
    """What a client's peer may send: nothing but the packet bounds a banner, a list or a text; names have at most 64 bytes."""
    c, name = Client(file, "client-"), letters(64)
    for size in (0, 100, 101, 8192, 8193, SEALED - len(banner(""))):
        c.row("a banner of %d bytes" % size, AL, by_none(), [(banner(b"\x5b" * size), []), (SUCCESS, [])], LET_IN)
    c.row("a banner's language", AL, by_none(), [(b"\x35" + string("") + string(bytes(8193)), []), (SUCCESS, [])], LET_IN)
    plan = [AL, "client try al ssh-connection password 00"]
    fill = SEALED - len(lists("password"))
    for text in (name + ",password", "password," + name, ",".join(["x" * 64] * 15 + ["x" * 17, "password"]),
                 ",".join(["x" * 64] * 15 + ["x" * 16, "password"]), "x," * (fill // 2) + "password"):
        c.row("a list of %d bytes, %s" % (len(text), text[:4]), plan, by_none(), [(lists(text), [by_password(b"\x00")]), (SUCCESS, [])], LET_IN)
    for text in (name + "m,password", "password," + name + "m"):
        c.row("a name of 65 bytes in a list, " + text[:4], plan, by_none(), [(lists(text), [disconnect(2)])], "failed F5 51")
    asks = "client try al ssh-connection query h 00"
    for message in (pk_ok("h", b"\x55" * 8192), pk_ok("h", b"\x55" * 8193), pk_ok(name), pk_ok(name + "m")):
        c.row("PK_OK of %d bytes" % len(message), asks, by_query(), [(message, [disconnect(2)])], "failed F6 60")
    told = b"\x01" + u32(11) + string(b"\xff" * 1024) + string(b"\xff" * 64)
    c.row("a DISCONNECT that tells much", AL, by_none(), [(told, [])], "closed 11")
    for number, payload in ((2, b"\x02" + string(bytes(SEALED - 5))), (4, b"\x04\x01" + string(bytes(1025)) + string(bytes(65))),
                            (7, b"\x07" + u32(130) + (string("x" * 65) + string(bytes(100))) * 130)):
        c.row("%d of %d bytes" % (number, len(payload)), AL, by_none(), [(payload, []), (SUCCESS, [])], LET_IN)
    c.row("40 of %d bytes" % SEALED, AL, by_none(), [(b"\x28" * SEALED, [unimplemented(c.t.s.seq)]), (SUCCESS, [])], LET_IN)


def services(file):
    """The name in SERVICE_REQUEST and SERVICE_ACCEPT: each but one is refused, however long it is."""
    t = Talk()
    server = ["begin server", feed(t.c_first, t.c_init, t.c_newkeys), says(t.s_first, t.s_reply, t.s_newkeys)]
    client = ["begin client", feed(t.s_first, t.s_reply, t.s_newkeys), says(t.c_first, t.c_init, t.c_newkeys, t.c_service), asked("host_key")]
    for size in (11, 13, 64, 65, 1000):
        name = ("ssh-userauth" + letters(size))[:size]
        file.row("SERVICE_REQUEST of %d bytes" % size, server, feed(packet(service(5, name), 0, SEED[CLIENT], t.cs)),
                 says(packet(disconnect(7), 0, SEED[SERVER], t.sc)), "end failed F12")
        file.row("SERVICE_ACCEPT of %d bytes" % size, client, feed(packet(service(6, name), 0, SEED[SERVER], t.sc)),
                 says(packet(disconnect(2), 1, SEED[CLIENT], t.cs)), "end failed F6 6")


def offer(role, texts):
    """A KEXINIT whose lists are those of the lab, but for these, by their places."""
    own = ["a," + MARK[role], "h", "c", "c", "m", "m", "none", "none", "", ""]
    return b"\x14" + COOKIE[role] + b"".join(string(texts.get(n, text)) for n, text in enumerate(own)) + b"\x00" + u32(0)


FIELDS = ["kex", "hostkey", "cipher_cs", "cipher_sc", "mac_cs", "mac_sc", "compression_cs", "compression_sc", "language_cs", "language_sc"]
FIRST = ["a", "h", "c", "c", "m", "m", "none", "none", "", ""]


def offers(file):
    """A peer's KEXINIT with names of 64 and of 65 bytes, and with lists longer than a config may have."""
    for role in (CLIENT, SERVER):
        peer = other(role)
        for place, (field, first) in enumerate(zip(FIELDS, FIRST)):
            marks = [MARK[peer]] if place == 0 else []
            for name, names in (("a name of 64 bytes first", ["n" * 64, first]), ("a name of 64 bytes last", [first, "n" * 64]),
                                ("1001 bytes", ["n" * 64] * 15 + ["n" * (25 - len(first)), first])):
                text = ",".join(x for x in names + marks if x)
                accepted(file, "%s hears %s in %s" % (role, name, field), role, offer(peer, {place: text}))
            fill = CLEAR - len(offer(peer, {place: ",".join([first] + marks)}))
            text = ",".join(x for x in [first] + marks if x) + ",n" * (fill // 2)
            text = text if first else text[1:]
            if place in (0, 1, 3, 8):
                accepted(file, "%s hears %d bytes in %s" % (role, len(text), field), role, offer(peer, {place: text}))
            t = Talk()
            text = ",".join(x for x in [first] + marks + ["n" * 65] if x)
            start, own = (t.c_first, CLIENT) if role == CLIENT else (t.s_first, SERVER)
            file.row("%s hears a name of 65 bytes in %s" % (role, field), "begin " + role,
                     feed(LINE, packet(offer(peer, {place: text}), 0, SEED[peer])), says(start, packet(disconnect(2), 1, SEED[own])),
                     "end failed F5 20")


def accepted(file, name, role, theirs):
    """The endpoint receives this KEXINIT, and all that follows."""
    t = Talk(offers=(None, theirs) if role == CLIENT else (theirs, None))
    c, s = half(t.c), half(t.s)
    request_, success = c.send(by_none()), s.send(SUCCESS)
    if role == CLIENT:
        received, sent = [t.s_first, t.s_reply, t.s_newkeys, t.s_accept, success], [t.c_first, t.c_init, t.c_newkeys, t.c_service, request_]
    else:
        received, sent = [t.c_first, t.c_init, t.c_newkeys, t.c_service, request_], [t.s_first, t.s_reply, t.s_newkeys, t.s_accept, success]
    file.row(name, AL, "allow al none", "begin " + role, feed(*squeezed(received[0])), feed(*received[1:]), says(*sent),
             asked("host_key" if role == CLIENT else 1), "end " + LET_IN, "agreed a h c c m m none none yes " + t.hash.hex())


def squeezed(data):
    """Terms for the bytes; what is repeated more than 500 times stands there once."""
    for size in (1, 2):
        for unit in (b"\x00", b"\x55", b"\xa5") if size == 1 else (b",n",):
            at = data.find(unit * 500)
            if at >= 0:
                n = 500
                while data[at + n * size:at + (n + 1) * size] == unit:
                    n += 1
                return [data[:at], "%d*%s" % (n, unit.hex()), data[at + n * size:]]
    return [data]


def replies(file):
    """The host key and the signature in a KEXDH_REPLY."""
    for size in (0, 8192, 8193, CLEAR - len(reply(bytes(32))) + len(BLOB)):
        t = Talk()
        blob_ = b"\x55" * size
        h = hash_of(t.ci, t.si, blob_)
        payload = b"\x1f" + string(blob_) + string(share(RANDOM[SERVER])) + string(sha(string(blob_), string(h)))
        c, s = Half(CLIENT), Half(SERVER)
        c.seq, s.seq = 2, 1
        k = shared(RANDOM[CLIENT], share(RANDOM[SERVER]))
        received = s.send(payload)
        newkeys = s.switch(keys_of(SERVER, k, h), True)
        sent = c.switch(keys_of(CLIENT, k, h), True) + c.send(service(5, "ssh-userauth"))
        file.row("a host key of %d bytes in a reply" % size, AL, "begin client", feed(t.s_first), says(t.c_first, t.c_init),
                 feed(*squeezed(received)), says(sent), asked("host_key"), feed(newkeys, s.send(service(6, "ssh-userauth"))), says(c.send(by_none())),
                 feed(s.send(SUCCESS)), "end " + LET_IN)
    t = Talk()
    for size in (33, 4096, 4097, 4627, CLEAR - len(reply(bytes(32), b""))):
        payload = reply(t.hash, (sign("h", b"\x00", t.hash) + b"\x55" * size)[:size])
        file.row("a signature of %d bytes in a reply" % size, "begin client", feed(t.s_first), says(t.c_first, t.c_init),
                 feed(*squeezed(packet(payload, 1, SEED[SERVER]))), says(packet(disconnect(3), 2, SEED[CLIENT])), asked("host_key"), "end failed F11")
    for size in (34, 4096, 4097, CLEAR - 5):
        payload = b"\x1e" + string(b"\x01" + b"\x55" * (size - 1))
        file.row("a share of %d bytes" % size, "begin server", feed(t.c_first), says(t.s_first), feed(*squeezed(packet(payload, 1, SEED[CLIENT]))),
                 says(packet(disconnect(3), 1, SEED[SERVER])), "end failed F9")


def packets(file):
    """Packets of 35000 bytes to a client, and to both sides with blocks of 16 bytes; packets.py has those to a server."""
    loose = Talk(strict=False)
    start = ["begin client", feed(loose.s_first), says(loose.c_first, loose.c_init)]
    for n in (12, 34996):
        file.row("a client hears %d in clear" % n, loose.lines(), start, feed(*squeezed(raw(n, 5, ignore(n, 5)))), "says -", "held 0", "end open")
    for n in (11, 13, 34997, 35004, 4294967295):
        file.row("a client refuses %d in clear" % n, loose.lines(), start, feed(u32(n)[:3]), "held 3", part(1, u32(n)[3:], bytes(64)),
                 says(packet(disconnect(2), 2, SEED[CLIENT])), "end failed F2")
    eight, sixteen = Talk(), Talk(lists=({"cs": "c16", "sc": "c16"}, {"cs": "c16", "sc": "c16"}), chosen=("c16", "c16", "m", "m"))
    for t, right, wrong, block in ((eight, (12, 34964), (11, 4, 34965, 34972), 8), (sixteen, (12, 28, 34956), (20, 34964, 34972), 16)):
        for role in (CLIENT, SERVER):
            keys, own = (t.sc, t.cs) if role == CLIENT else (t.cs, t.sc)
            received = [t.s_first, t.s_reply, t.s_newkeys] if role == CLIENT else [t.c_first, t.c_init, t.c_newkeys]
            sent = [t.c_first, t.c_init, t.c_newkeys, t.c_service] if role == CLIENT else [t.s_first, t.s_reply, t.s_newkeys]
            begun = [t.lines(), "begin " + role, feed(*received), says(*sent), asked("host_key") if role == CLIENT else []]
            name = "%s with blocks of %d" % (role, block)
            for n in right:
                file.row("%s, a packet of %d" % (name, n), begun, feed(raw(n, 5, ignore(n, 5), keys)), "says -", "held 0", "end open")
            for n in wrong:
                first = xor(u32(n), blocks(keys.enc + keys.iv, 0, 4))
                refused = packet(disconnect(2), 1 if role == CLIENT else 0, SEED[role], own)
                file.row("%s, refused length %d" % (name, n), begun, feed(first[:3]), "held 3", part(1, first[3:], bytes(64)), says(refused),
                         "end failed F2")


def pieces(file):
    """A whole session in one piece of more than a mebibyte; as much after the end, of which nothing is used; a thousand answers
    to one piece; and other lines at their limits."""
    t = Talk(strict=False)
    big = raw(34996, 4, ignore(34996, 4))
    assert len(big) == 35000 and 30 * len(big) > 1048576
    file.shared.append("bytes big " + " ".join(x if isinstance(x, str) else x.hex() for x in squeezed(big) if x))
    many = ["$big"] * 30
    for role in (CLIENT, SERVER):
        received, sent, end = session(t, role, 30)
        file.row("a %s hears a piece of a mebibyte" % role, t.lines(), AL, "allow al none", "begin " + role,
                 feed(received[0], *many, *received[1:]), says(*sent), asked("host_key" if role == CLIENT else 1), "held 0", "end " + end,
                 part(0, *many), "end " + end)
        file.row("a %s hears a mebibyte behind its end" % role, t.lines(), AL, "allow al none", "begin " + role,
                 part(sum(map(len, session(t, role, 0)[0])), *session(t, role, 0)[0], *many), says(*session(t, role, 0)[1]),
                 asked("host_key" if role == CLIENT else 1), "held 0", "end " + end)
    answers(file, t)
    strict = Talk()
    lines = b"".join(letters(254, n).encode() + b"\n" for n in range(20))
    received, sent, end = session(strict, CLIENT, 0)
    file.row("a client hears 20 lines of 255 bytes", AL, "begin client", feed(lines, *received), says(*sent), asked("host_key"), "end " + end)
    for line in (b"x" * 254 + b"\n", b"\n"):
        file.row("a client refuses a line more, of %d bytes" % len(line), AL, "begin client", says(strict.c_first), feed(lines, line[:-1]), "end open",
                 part(1, line[-1:], LINE), "end failed F1")


def session(t, role, more):
    """All that a side receives and sends up to its end, where so many packets stand after the KEXINIT that it receives."""
    c, s = Half(CLIENT), Half(SERVER)
    c.seq = s.seq = 1
    peer = s if role == CLIENT else c
    peer.seq += more
    init = c.send(INIT)
    answer = s.send(reply(t.hash)) + s.switch(t.sc, t.strict)
    newkeys = c.switch(t.cs, t.strict) + c.send(service(5, "ssh-userauth"))
    accept = s.send(service(6, "ssh-userauth"))
    request_ = c.send(by_none())
    success = s.send(SUCCESS)
    client, server = [t.c_first, init, newkeys, request_], [t.s_first, answer, accept, success]
    return (server, client, LET_IN) if role == CLIENT else (client, server, LET_IN)


def answers(file, t):
    """Numbers without meaning in clear, all in one piece: each is told of."""
    for role in (CLIENT, SERVER):
        own, first = Half(role), t.c_first if role == CLIENT else t.s_first
        received = [t.s_first] if role == CLIENT else [t.c_first]
        own.seq, own.sent = 1, b""
        if role == CLIENT:
            own.send(INIT)
        for n in range(1000):
            own.send(unimplemented(1 + n))
        piece = packet(b"\x28", 1, SEED[other(role)])
        file.row("a %s tells of a thousand packets" % role, t.lines(), "begin " + role, feed(*received, "1000*" + piece.hex()), says(first, own.sent),
                 "end open")

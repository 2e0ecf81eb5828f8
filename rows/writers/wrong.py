"""Rows with one wrong expectation each, which a judge has to refuse: what they differ in from a right row is told by their names."""
import aes_ctr
import aes_gcm
from lab import *
from requests import half, wrong_signature
from paused import VERSION, Config, Record, spoilt
from sealing import wrong_going
from signatures import KEY, by_signature, tries


def rows(file):
    t = Talk()
    start = ["begin client", says(t.c_first)]
    head = t.c_first[:-1] + bytes([t.c_first[-1] ^ 1])
    file.row("the last byte of the KEXINIT's padding", "begin client", says(head), "end open")
    file.row("a byte less is said", "begin client", says(t.c_first[:-1]), "end open")
    file.row("a byte more is said", "begin client", says(t.c_first, b"\x00"), "end open")
    file.row("a share is said before the KEXINIT came", start, feed(LINE), says(t.c_init), "end open")
    file.row("the version line isn't used whole", start, part(len(LINE) - 1, LINE), "end open")
    file.row("a line of SSH 2.1 is taken", start, feed(b"SSH-2.1-lab_1\r\n"), "end open")
    file.row("the fault has another number", start, part(15, b"SSH-2.1-lab_1\r\n"), "end failed F2")
    file.row("a KEXINIT is held whole", start, feed(t.s_first), "held %d" % (len(t.s_first) - len(LINE)), says(t.c_init), "end open")
    file.row("a config with 21 tries is taken", "server tries 21", "predict", "client failed F14")
    file.row("a config with 20 tries is refused", "server tries 20", "refused server config C9")
    file.row("a client without attempts is let in", "predict", "client authenticated al ssh-connection")
    file.row("a world stands still", "world", "rounds 9", "client open", "server open")
    questions(file, t)
    waiting(file, t)
    signatures(file, t)
    records(file, t)
    notices(file, t)
    disconnecting(file, t)
    linked(file, t)
    below(file, t)
    peer_lines(file, t)
    wrong_going(file)
    aes_gcm.wrong_going(file)
    aes_ctr.wrong_going(file)
    deployed_names(file)
    checks(file)
    unjudged(file, t)


def questions(file, t):
    """What decisions are asked: too few questions, too many, others, or none that is judged."""
    client = ["begin client", feed(t.s_first, t.s_reply), says(t.c_first, t.c_init, t.c_newkeys, t.c_service)]
    server = ["begin server", feed(t.c_first, t.c_init, t.c_newkeys, t.c_service, half(t.c).send(by_none())),
              says(t.s_first, t.s_reply, t.s_newkeys, t.s_accept, half(t.s).send(failure()))]
    for side, lines, wrong in ((CLIENT, client, ("nothing", "1", "host_key host_key")), (SERVER, server, ("nothing", "2", "host_key", "1 1"))):
        file.row("a %s's question isn't judged" % side, lines, "end open")
        for what in wrong:
            file.row("a %s is said to be asked %s" % (side, what), lines, "asked " + what, "end open")


def waiting(file, t):
    """One that asks and waits."""
    received = [t.c_first, t.c_init, t.c_newkeys, t.c_service]
    start = ["waiting server", feed(*received), says(t.s_first, t.s_reply, t.s_newkeys, t.s_accept)]
    by_key_ = feed(half(t.c).send(by_key(t.hash)))
    key = "key h " + hexa(BLOB)
    asks = "question user 1 al ssh-connection %s signed" % key
    sent, refused = says(half(t.s).send(SUCCESS)), says(half(t.s).send(failure()))
    let_in = "end authenticated al ssh-connection"
    file.row("one that waits asks nothing", start, by_key_, "question nothing", "end open")
    for what in ("user 2 al ssh-connection %s signed" % key, "user 1 bo ssh-connection %s signed" % key, "user 1 al odd %s signed" % key,
                 "user 1 al ssh-connection none", "user 1 al ssh-connection key g %s signed" % hexa(BLOB), "user 1 al ssh-connection key h 00 signed",
                 "user 1 al ssh-connection " + key, "host_key h 00"):
        file.row("one that waits is said to ask %s" % what, start, by_key_, "question " + what, "end open")
    for name, payload, proof in (("a query", by_query(), key), ("a password", by_password(b"\x00"), "password 00"), ("nothing", by_none(), "none")):
        file.row("one that waits is said to ask about %s that is signed" % name, start, feed(half(t.c).send(payload)),
                 "question user 1 al ssh-connection %s signed" % proof, "end open")
    by_wrong = half(t.c).send(wrong_signature())
    file.row("one that waits is asked by a wrong signature", start, feed(by_wrong), asks, says(half(t.s).send(failure())), "end open")
    file.row("one that decides is asked by a wrong signature", "begin" + start[0][7:], start[1:], feed(by_wrong), says(half(t.s).send(failure())), asked(1),
             "end open")
    file.row("one that waits has answered", start, by_key_, asks, sent, let_in)
    file.row("a no lets in", start, by_key_, asks, "answer no", sent, let_in)
    file.row("a yes is refused", start, by_key_, asks, "answer yes", refused, "end open")
    file.row("the second answer is taken", start, by_key_, asks, "answer no", "answer yes", refused, let_in)
    file.row("an answer that is no flag", start, by_key_, asks, "answer maybe", "end open")
    file.row("one that waits uses bytes", start, by_key_, asks, feed(b"\x00"), "end open")
    file.row("one that waits goes on behind the question", start, feed(half(t.c).send(by_key(t.hash)), b"\x00"), asks, "end open")
    for count in (0, 2):
        file.row("a signature is verified %d times" % count, start, by_key_, asks, "answer yes", sent, "verified %d" % count, let_in)
    file.row("a signature isn't verified before the answer", start, by_key_, asks, "verified 0", "answer yes", sent, let_in)
    file.row("a signature is verified after a yes", start, by_key_, asks, "verified 1", "answer yes", sent, "verified 1", let_in)
    file.row("a signature is verified after a no", start, by_key_, asks, "verified 1", "answer no", refused, "verified 1", "end open")
    for count in (0, 2):
        file.row("a wrong signature is verified %d times" % count, start, feed(by_wrong), "question nothing", says(half(t.s).send(failure())),
                 "verified %d" % count, "end open")
    file.row("no end behind an answer", start, by_key_, asks, "end open", "answer yes", sent)
    file.row("another count of one whose decisions answer", "begin" + start[0][7:], start[1:], "verified 1", "end open")
    file.row("no answer for one whose decisions answer", "begin" + start[0][7:], start[1:], "answer no", "end open")


def signatures(file, t):
    """Signatures that are asked for."""
    trusted = [tries(KEY), "waiting client elsewhere", feed(t.s_first, t.s_reply), says(t.c_first, t.c_init), "answer yes", says(t.c_newkeys, t.c_service), feed(t.s_newkeys, t.s_accept)]
    key, data = hexa(BLOB), hexa(input_of(t.hash))
    signature = sign("h", b"\x00", input_of(t.hash))
    asks, made, other_ = "signature 0 h %s %s" % (key, data), "signature 0 " + hexa(signature), "signature 1 " + hexa(signature)
    signed, unsigned = says(half(t.c).send(by_signature(signature))), says(half(t.c).send(by_none()))
    answer = "answer signature " + hexa(signature)
    for name, what in (("nothing", "nothing"), ("another number", "signature 1 h %s %s" % (key, data)), ("another algorithm", "signature 0 g %s %s" % (key, data)),
                       ("another key", "signature 0 h 00 " + data), ("another input", "signature 0 h %s 00" % key), ("no input", "signature 0 h %s -" % key),
                       ("a host key", "host_key h " + key)):
        file.row("one that waits for a signature is said to ask %s" % name, trusted, "question " + what, "end open")
        file.row("one that decides on a signature is said to be asked %s" % name, tries(KEY), "begin client elsewhere", made, feed(t.s_first, t.s_reply),
                 says(t.c_first, t.c_init, t.c_newkeys, t.c_service), asked("host_key"), feed(t.s_newkeys, t.s_accept), signed, "asked " + what, "end open")
    file.row("one that waits for a signature has sent it", trusted, signed, "end open")
    file.row("a signature is sent as refused", trusted, answer, unsigned, "end open")
    file.row("a refused signature is sent", trusted, "answer unsigned", signed, "end open")
    file.row("a yes is a signature", trusted, "answer yes", signed, "end open")
    file.row("a signature of a byte less is sent", trusted, answer[:-2], signed, "end open")
    file.row("a signature of 8193 bytes is sent", trusted, "answer signature 8193*5a", says(half(t.c).send(by_signature(b"\x5a" * 8193))), "end open")
    file.row("a signature of 8192 bytes is refused", trusted, "answer signature 8192*5a", unsigned, "end open")
    for what in ("signed", "unsigned 00", "signature x"):
        file.row("an answer that is none: %s" % what, trusted, "answer " + what, unsigned, "end open")
    file.row("no end behind a signature", trusted, "end open", answer, signed)
    file.row("the suite signs for a key that is elsewhere", trusted, answer, signed, "signed 1", "end open")
    file.row("one that waits uses bytes behind the question for a signature", trusted, feed(half(t.s).send(SUCCESS)), "end authenticated al ssh-connection")
    heard = feed(t.s_first, t.s_reply, t.s_newkeys, t.s_accept)
    signs = says(t.c_first, t.c_init, t.c_newkeys, t.c_service, half(t.c).send(by_signature(signature)))
    questions_ = asked("host_key", asks)
    file.row("a question for a signature isn't judged", tries(KEY), "begin client elsewhere", made, heard, signs, asked("host_key"), "end open")
    for name, lines in (("no signature", []), ("a signature of another number", [other_]), ("a signature behind a line", ["held 0", made]),
                        ("three signatures", [other_, other_, made]), ("a signature of no number", ["signature x " + hexa(signature)])):
        file.row("decisions sign by " + name, tries(KEY), "begin client elsewhere", lines, heard, signs, questions_, "end open")
    held = [tries("publickey h 00"), "begin client"]
    by_suite = says(t.c_first, t.c_init, t.c_newkeys, t.c_service, half(t.c).send(by_key(t.hash)))
    file.row("a signature for a key that the suite holds", held, made, heard, by_suite, asked("host_key"), "end open")
    file.row("one whose suite holds the key asks", held, heard, by_suite, questions_, "end open")
    for count in (0, 2):
        file.row("a suite signs %d times" % count, held, heard, by_suite, asked("host_key"), "signed %d" % count, "end open")
    file.row("an endpoint over no suite", tries(KEY), "begin client nowhere", says(t.c_first), "end open")
    server = [["server hostkey h " + key], "waiting server elsewhere", feed(t.c_first, t.c_init), says(t.s_first)]
    file.row("a server's question for a signature has another number", server, "question signature 1 h %s %s" % (key, t.hash.hex()), "end open")
    file.row("a server goes on without a signature", server, "answer unsigned", says(t.s_reply, t.s_newkeys), "end open")
    file.row("a server without a signature fails as by another fault", server, "answer unsigned", says(packet(disconnect(3), 1, SEED[SERVER])), "end failed F11")
    file.row("the suite of keys elsewhere holds one", "suite elsewhere", "holds h 00 yes")
    file.row("the lab suite doesn't hold a key", "suite lab", "holds h 00 no")
    file.row("the deployed suite holds a key of 31 bytes", "suite deployed", "holds ssh-ed25519 31*00 yes")
    for name, lines, verdict in (("a key that is elsewhere is refused", [], "C14: private key 0 is none of ssh-ed25519 by which the suite signs"),
                                 ("a cipher that nobody has fits", ["cipher_cs 'none"], "fits")):
        file.row(name, "config server", "kex 'curve25519-sha256", "hostkeys 'ssh-ed25519", "cipher_cs 'aes256-gcm@openssh.com", "cipher_sc 'aes256-gcm@openssh.com",
                 "mac_cs 'hmac-sha2-256", "mac_sc 'hmac-sha2-256", lines, "named " + verdict)
    for name, verdict in (("a MAC that a suite doesn't have fits", "fits"),
                          ("a MAC stands in the other list", "C13: the suite has no none, which stands in mac_algorithms_client_to_server"),
                          ("a MAC is told as a cipher", "C13: the suite has no none, which stands in encryption_algorithms_server_to_client")):
        file.row(name, "config client", "mac_sc 'none", "judged lab " + verdict)
    file.row("a MAC that a suite has doesn't fit", "config client", "mac_sc 'm", "judged lab C13: the suite has no m, which stands in mac_algorithms_server_to_client")
    file.row("a public key that is elsewhere is another", "suite elsewhere", "blob h 00 01")


def records(file, t):
    """Records of an endpoint that has received nothing."""
    start, config, end = ["waiting server", says(t.s_first)], Config(SERVER), "end open"
    text = Record(SERVER).text()
    right, other_ = "record " + text.hex(), text[:-1] + b"\x01"
    file.row("the record has a bit more", start, "record " + other_.hex(), end)
    file.row("the record has a byte less", start, "record " + text[:-1].hex(), end)
    file.row("the record has a byte more", start, right + "00", end)
    file.row("an open endpoint has no record", start, "record none", end)
    file.row("an open endpoint has no record, and no line stands behind that", start, end, "record none")
    file.row("an endpoint that has ended has a record", start, "cut", "end failed F16", right)
    file.row("a line stands behind no record", start, "cut", "end failed F16", "record none", "end failed F16")
    file.row("nothing is handed over behind no record", start, "cut", "end failed F16", "record none", "session none")
    for mask in (0x01, 0x80):
        found = spoilt(text, mask, config)
        for name, wanted in (("all are refused", "%du" % len(text)), ("all are taken", "%dm" % len(text)), ("another version is no record", found.replace("v", "u", 1)),
                             ("one place less", found[:-2] + "7u"), ("one place more", found + "1u"), ("other records", found.replace("m", "o")), ("nothing", "")):
            if wanted != found:
                file.row("a record spoilt by %02x: %s" % (mask, name), start, ("spoilt %02x %s" % (mask, wanted)).rstrip(), end)
        file.row("a record spoilt by %02x is as by another mask" % mask, start, "spoilt %02x %s" % (mask ^ 0x81, found), end)
    for what in ("0101", "-", "x"):
        file.row("a mask that is no byte: %s" % what, start, "spoilt %s %s" % (what, spoilt(text, 1, config)), end)
    file.row("what has ended is spoilt", start, "cut", "end failed F16", "spoilt 01 " + spoilt(text, 1, config))
    file.row("what has ended is cut", start, "cut", "end failed F16", "cuts")
    file.row("a server takes a client's record", start, "takes m " + Record(CLIENT).text().hex(), end)
    file.row("a client refuses its own record", "waiting client", says(t.c_first), "takes u " + Record(CLIENT).text().hex(), end)
    file.row("a record is another one's", start, "takes o " + text.hex(), end)
    for version in (VERSION - 1, VERSION + 1):
        file.row("a record of version %d is unreadable" % version, start, "takes u " + (u32(version) + text[4:]).hex(), end)
        file.row("a record of version %d is taken" % version, start, "takes m " + (u32(version) + text[4:]).hex(), end)
    file.row("three bytes are of another version", start, "takes v 000000", end)
    for word in (right, "spoilt 01 " + spoilt(text, 1, config), "cuts", "takes m " + text.hex()):
        file.row("%s at one whose decisions answer" % word.split(" ")[0], "begin server", says(t.s_first), word, end)


def notices(file, t):
    """What an endpoint is told: too few notices, too many, others, or one that no line judges."""
    client = ["begin client", feed(t.s_first, t.s_reply, t.s_newkeys, t.s_accept)]
    sent = says(t.c_first, t.c_init, t.c_newkeys, t.c_service, half(t.c).send(disconnect(14)))
    in_auth = ["client try al ssh-connection none", client, says(t.c_first, t.c_init, t.c_newkeys, t.c_service, half(t.c).send(by_none())), asked("host_key")]
    s = half(t.s)
    hi, there = s.send(banner("hi")), s.send(banner("there"))
    file.row("a notice of nothing", client, sent, asked("host_key"), "told banner 6869 -", "end failed F14")
    for what in ("nothing", "banner 6868 -", "banner 6869 6869", "debug 6869 -", "banner 6869 - banner 6869 -"):
        file.row("a banner is said to be told as %s" % what, in_auth, feed(hi), "told " + what, "end open")
    file.row("two banners are told in another order", in_auth, feed(hi, there), "told banner 7468657265 - banner 6869 -", "end open")
    file.row("a banner behind the last that is judged", in_auth, "told nothing", feed(hi), "end open")
    file.row("a DEBUG that isn't to be shown is told", in_auth, feed(half(t.s).send(b"\x04\x00" + string("hi") + string(""))), "told debug 6869 -", "end open")
    c = half(t.c)
    c.send(by_none())
    answered = [in_auth, feed(half(t.s).send(failure())), says(c.send(disconnect(14)))]
    for what in ("failure 'password,publickey yes", "failure 'publickey,password no", "failure 'password no"):
        file.row("a FAILURE is said to be told as %s" % what, answered, "told " + what, "end failed F14")
    for what in ("disconnect 11 - -", "disconnect 2 6279 -"):
        file.row("a DISCONNECT is said to be told as %s" % what, in_auth, feed(half(t.s).send(disconnect(2))), "told " + what, "end closed 2")


def disconnecting(file, t):
    """An endpoint that is told to disconnect."""
    start = ["begin client", says(t.c_first)]

    def sent(reason, text=b"", number=1):
        return says(packet(disconnect(reason, text), number, SEED[CLIENT]))

    file.row("one that disconnects stands open", start, "disconnect 11 -", sent(11), "end open")
    file.row("one that disconnects ends by another reason", start, "disconnect 11 -", sent(11), "end disconnected 12")
    file.row("one that disconnects is closed", start, "disconnect 11 -", sent(11), "end closed 11")
    file.row("a DISCONNECT of another reason is said", start, "disconnect 11 -", sent(12), "end disconnected 11")
    file.row("a DISCONNECT with the number before is said", start, "disconnect 11 -", sent(11, number=0), "end disconnected 11")
    file.row("a DISCONNECT isn't judged", start, "disconnect 11 -", "end disconnected 11")
    file.row("nothing is said by one that disconnects", start, "disconnect 11 -", "says -", "end disconnected 11")
    file.row("another description is said", start, "disconnect 11 62", sent(11, b"c"), "end disconnected 11")
    file.row("a description of 1024 bytes isn't said", start, "disconnect 11 1024*78", sent(11), "end disconnected 11")
    file.row("a description of 1025 bytes is said", start, "disconnect 11 1025*78", sent(11, b"x" * 1025), "end disconnected 11")
    file.row("the front of a longer description is said", start, "disconnect 11 1025*78", sent(11, b"x" * 1024), "end disconnected 11")
    file.row("one that has ended says a DISCONNECT", start, "cut", "disconnect 11 -", sent(11), "end failed F16")
    file.row("one that has ended disconnects", start, "cut", "disconnect 11 -", "end disconnected 11")
    file.row("one that disconnected uses bytes", start, "disconnect 11 -", sent(11), feed(LINE), "end disconnected 11")
    file.row("no end behind a DISCONNECT", start, "end open", "disconnect 11 -", sent(11))
    file.row("a description that is no text", start, "disconnect 11 ff", sent(11, b"\xff"), "end disconnected 11")
    file.row("a reason that is no number", start, "disconnect x -", sent(0), "end disconnected 0")


def linked(file, t):
    """A session that goes on as a link."""
    al = ["client try al ssh-connection none", "allow al none"]
    c, s = half(t.c), half(t.s)
    asks, success = c.send(by_none()), s.send(SUCCESS)
    session = [al, "begin client", feed(t.s_first, t.s_reply, t.s_newkeys, t.s_accept), says(t.c_first, t.c_init, t.c_newkeys, t.c_service, asks),
               asked("host_key"), feed(success), "end authenticated al ssh-connection"]
    link = session + ["link " + hexa(SEED[CLIENT])]
    seals = "seals 63 %s"
    file.row("a link of nothing", "begin client", says(t.c_first), "end open", "link " + hexa(SEED[CLIENT]), seals % hexa(packet(b"\x63", 0, SEED[CLIENT], t.cs)))
    file.row("a link alone", link)
    file.row("a link's seed has 31 bytes", session, "link 31*22", "sealed 0")
    file.row("a link seals with the number before", link, seals % hexa(packet(b"\x63", c.seq - 1, SEED[CLIENT], t.cs)))
    file.row("a link seals with the other direction's keys", link, seals % hexa(packet(b"\x63", c.seq, SEED[CLIENT], t.sc)))
    file.row("a link pads by another seed", link, seals % hexa(packet(b"\x63", c.seq, SEED[SERVER], t.cs)))
    file.row("a link seals no byte", link, "seals - " + hexa(packet(b"", c.seq, SEED[CLIENT], t.cs)))
    file.row("a link refuses a payload", link, "seals 63 payload")
    file.row("a link lends another payload", link, "opens 64 " + hexa(s.send(b"\x63")))
    file.row("a link lends no payload", link, "opens - " + hexa(half_again(t).send(b"\x63")))
    file.row("a link opens a wrong tag", link, "opens 63 " + hexa(half_again(t).send(b"\x63")[:-1] + b"\x00"))
    file.row("a link refuses a right packet", link, "refuses P4 " + hexa(half_again(t).send(b"\x63")))
    file.row("a link counts one more", link, seals % hexa(packet(b"\x63", c.seq, SEED[CLIENT], t.cs)), "sealed 2")
    file.row("a link has opened one", link, "opened 1")
    file.row("a link holds a byte", link, "held 1")


def half_again(t):
    """The server after SUCCESS."""
    s = half(t.s)
    s.send(SUCCESS)
    return s


def below(file, t):
    """The same of the acts below the endpoint."""
    file.row("a failure tells the other flag", "message mpint " + hexa(failure()), "tells 51 'password,publickey yes")
    file.row("a number of two bytes with the first 00 is read", "reads 00000002 007f", "mpint 007f")
    file.row("a put number has a byte less", "puts", "u32 7", "says 000007")
    file.row("a name has 65 bytes", "parses", "name yes 65*78")
    file.row("a line before the version line is taken", "lines 0", feed(b"n\r\n"), "end open")
    file.row("a payload came and isn't judged", "packets lab", feed(packet(NEWKEYS, 0, SEED[CLIENT])), "held 0", "end open")
    file.row("a packet is written with the number before", "packets lab",
             "clear 1 %s 15 %s" % (hexa(SEED[CLIENT]), hexa(packet(NEWKEYS, 0, SEED[CLIENT]))))
    file.row("a packet of the second suite counts its length", "packets second",
             "sealed c m %s %s %s 0 %s 15 %s" % (hexa(t.cs.iv), hexa(t.cs.enc), hexa(t.cs.mac_key), hexa(SEED[CLIENT]),
                                                 hexa(packet(NEWKEYS, 0, SEED[CLIENT], t.cs))))
    file.row("the client's first host key isn't chosen", "choose %s %s" % (hexa(t.ci), hexa(t.si)), "chosen 0 1 0 0 0 0 0 0")
    file.row("a client that isn't willing is strict", "choose %s %s" % (hexa(t.ci), hexa(t.si)), "strict client no yes")
    file.row("an exchange has nine parts' length", "derive", "part 41", "exchange 00000001 41" + " 00000000" * 8)


def peer_lines(file, t):
    """Version lines by each form, and endpoints of either reading."""
    old, minus, short = b"SSH-1.99-x", b"SSH-2.0-a-b", b"SSH-2.0-x"
    client, server = "lines 0 deployed client", "lines 0 deployed server"
    file.row("a form of nobody's", "lines 0 deployed nobody", "end open")
    for name, act, line, end in (("strictly LF alone ends a version line", "lines 0", short + b"\n", "version " + hexa(short)),
                                 ("strictly a minus sign is taken", "lines 0", minus + b"\r\n", "version " + hexa(minus)),
                                 ("a reader for a server takes 1.99", server, old + b"\r\n", "version " + hexa(old)),
                                 ("a reader for a client refuses 1.99", client, old + b"\r\n", "refused V4"),
                                 ("a reader for a client refuses LF alone", client, short + b"\n", "refused V4"),
                                 ("a text has its CR", client, short + b"\r\n", "version " + hexa(short + b"\r")),
                                 ("a text lacks its last byte", server, short + b"\n", "version " + hexa(short[:-1])),
                                 ("an empty softwareversion is taken", client, b"SSH-2.0-\n", "version " + hexa(b"SSH-2.0-")),
                                 ("CR CR LF ends a version line", client, short + b"\r\r\n", "version " + hexa(short + b"\r"))):
        file.row(name, act, feed(line), "end " + end)
    file.row("a version prints LF", client, feed(short + b"\n"), "prints " + hexa(short + b"\n"))
    file.row("a version is printed before it came", client, feed(short), "prints " + hexa(short))
    file.row("an unfinished line lacks its first byte", server, feed(short), "unfinished " + hexa(short[1:]))
    file.row("a line that was taken is unfinished", "lines 0", feed(short + b"\r\n"), "unfinished " + hexa(short + b"\r"))
    file.row("a byte behind the version line is used", client, feed(short + b"\nm"), "end version " + hexa(short))
    file.row("a refusal isn't given again", client, feed(b"\0"), feed(), "end open")
    file.row("a config of no reading", "config client", "reading loose", "attempts 0")
    for role, reading, line in ((CLIENT, "strict", minus + b"\r\n"), (SERVER, "strict", short + b"\n"), (SERVER, "deployed", old + b"\r\n"), (CLIENT, "deployed", b"SSH-1.5-x\n")):
        file.row("a %s that reads %s takes %s" % (role, reading, line.hex()), "config " + role, "reading " + reading, "generous",
                 says(t.c_first if role == CLIENT else t.s_first), feed(line), "end open")
    other = Talk(greetings=(None, minus + b"\r\n"))
    file.row("the exchange hash is that of another line", "config client", "reading deployed", "generous", feed(old + b"\n", other.s_first[len(minus) + 2:], other.s_reply),
             says(other.c_first, other.c_init, other.c_newkeys, other.c_service), asked("host_key"), "end open")


def deployed_names(file):
    """Which ciphers and MACs the suite of deployed algorithms has."""
    lacks = lambda name, field: "C13: the suite has no %s, which stands in %s" % (name, field)
    ctr, mac, etm = "aes256-ctr", "hmac-sha2-256", "hmac-sha2-512-etm@openssh.com"
    for name, ciphers, macs, verdict in (
            ("has hmac-sha1", (ctr, ctr), ("hmac-sha1", mac), "fits"), ("has another MAC beside a cipher without one", ("chacha20-poly1305@openssh.com",) * 2, (mac, "a"), "fits"),
            ("has aes192-ctr", (ctr, "aes192-ctr"), (mac, mac), "fits"), ("lacks a MAC -etm", (ctr, ctr), (etm, etm), lacks(etm, "mac_algorithms_client_to_server")),
            ("lacks aes128-ctr", ("aes128-ctr", ctr), (mac, mac), lacks("aes128-ctr", "encryption_algorithms_client_to_server")),
            ("lacks aes128-gcm", (ctr, "aes128-gcm@openssh.com"), (mac, mac), lacks("aes128-gcm@openssh.com", "encryption_algorithms_server_to_client"))):
        lines = ["%s '%s" % pair for pair in zip(("kex", "hostkeys", "cipher_cs", "cipher_sc", "mac_cs", "mac_sc"), ("curve25519-sha256", "ssh-ed25519", *ciphers, *macs))]
        file.row("the suite of deployed algorithms %s" % name, "config client", lines, "named " + verdict)


def checks(file):
    """Checks that an endpoint of the project doesn't keep, and those that nobody can play."""
    server, name = "conform server strict", "check strict/ignore-newkeys"
    head = ["about IGNORE between the share and NEWKEYS", "asked MUST OpenSSH PROTOCOL 1.10: terminate the connection"]
    acts = ["play version kexinit init reply", "put 02 +'x", "play newkeys service auth"]
    file.row("a check expects what isn't done", server, name, head, "expect goes_on", acts)
    file.row("a check has other words for our own", server, name, head, "expect ends", "ours strict goes_on", acts)
    file.row("a check without a verdict", server, name, head, acts)
    file.row("a check without an act", server, name, head, "expect ends")
    file.row("a check with an act that nobody knows", server, name, head, "expect ends", "sing 02", acts)
    file.row("a check with bytes that nobody named", server, name, head, "expect ends", "raw $nothing", acts)
    file.row("a check with a number that it doesn't send", server + " 2", name, head, "expect ends", acts)
    file.row("a check of the sweep without a number", server, "check sweep/kexinit", head, "expect table", "play version kexinit", "put $number")
    file.row("a check of the sweep with a number above 255", server + " 256", "check sweep/kexinit", head, "expect table", "play version kexinit", "put $number")
    file.row("a check at a place that the sweep hasn't", server + " 2", name, head, "expect table", acts)
    file.row("a check of nobody", "conform nobody strict", name, head, "expect ends", acts)
    file.row("a check by no reading", "conform server lax", name, head, "expect ends", acts)


def unjudged(file, t):
    """Rows that ask for nothing, that have lines nobody reads, and words that stand for nothing."""
    file.row("a world that is moved and not judged", "world", "client open", "rounds 9")
    file.row("a world moves rounds without a number", "world", "rounds x", "client open")
    file.row("a world moves turns without a number", "world", "turns x", "client open")
    file.row("a delivery without a number", "world", "move server x 0")
    file.row("a delivery to nobody", "world", "move nobody 0 0")
    file.row("a schedule without a number", "world", "run server x", "client open")
    file.row("a line behind a refusal", "server tries 0", "refused server config C9", "client open")
    file.row("a line behind an acceptance", "accepted", "client open")
    file.row("a line behind the attempts of a config", "config client", "attempts 0", "end open")
    file.row("a line behind a refused config", "config client", "kex", "refused C1", "end open")
    file.row("a message alone", "message mpint 15")
    file.row("a prediction alone", "predict")
    file.row("a refused setting is accepted", "server tries 0", "accepted")
    file.row("nobody is strict", "choose %s %s" % (hexa(t.ci), hexa(t.si)), "strict nobody yes yes")
    file.row("a put flag is neither yes nor no", "puts", "boolean x", "says 00")
    file.row("a put number is no number", "puts", "u32 x", "says 00000000")
    file.row("put bytes that aren't judged", "puts", "u32 7")
    file.row("a part of nothing", "derive", "part 41")
    file.row("keys for nothing", "packets lab", "keys yes c m 00 00 00")

"""Version lines as deployed peers write them: a reader of lines by each form, and endpoints of either reading. Which lines are taken
stands twice, in the lists below and as the grammar in `text_in` and `standing` (RFC 4253 section 4.2, and sshwire/specs/Lines.antt
for what deployed peers write); a row is written only where both agree."""
import re
from lab import *
from requests import half

LETTER, BY_CLIENT, BY_SERVER = "", "deployed client", "deployed server"
FORMS = {LETTER: "by the letter", BY_CLIENT: "by a client", BY_SERVER: "by a server"}
GRAMMARS = {LETTER: rb"(SSH-2\.0-[!-,.-~]+(?: [ -~]*)?)\r", BY_CLIENT: rb"(SSH-(?:2\.0|1\.99)-[!-~]+(?: [ -~]*)?)\r?",
            BY_SERVER: rb"(SSH-2\.0-[!-~]+(?: [ -~]*)?)\r?"}
ENDINGS = {"CR LF": b"\r\n", "LF": b"\n"}

# Texts that are taken by each form, but by the letter not where LF alone ends the line.
STRICT = [b"SSH-2.0-a", b"SSH-2.0-x", b"SSH-2.0-lab_1", b"SSH-2.0-lab_1 a-b", b"SSH-2.0-a ", b"SSH-2.0-a b", b"SSH-2.0-a b-c", b"SSH-2.0-a -", b"SSH-2.0-a  ", b"SSH-2.0-a -- - b",
          b"SSH-2.0-2.0", b"SSH-2.0-SSH", b"SSH-2.0-OpenSSH_9.2p1 Debian-2+deb12u3", b"SSH-2.0-a SSH-2.0-b", b"SSH-2.0-a SSH-1.99-b",
          b"SSH-2.0-a " + bytes(range(32, 127))]
# Texts that are taken as deployed peers write them.
DEPLOYED = [b"SSH-2.0-a-b", b"SSH-2.0-a-b-c--d", b"SSH-2.0--a", b"SSH-2.0---a", b"SSH-2.0-a-", b"SSH-2.0-a--", b"SSH-2.0--", b"SSH-2.0----",
            b"SSH-2.0-- ", b"SSH-2.0-- -", b"SSH-2.0-a-b c", b"SSH-2.0-a-b c-d - e", b"SSH-2.0-a- b", b"SSH-2.0-a- - b ", b"SSH-2.0-Cisco-1.25",
            b"SSH-2.0-babeld-34bf", b"SSH-2.0-APACHE-SSHD-2.9.2", b"SSH-2.0-SSH-2.0-a", b"SSH-2.0-SSH-1.99-a",
            b"SSH-2.0-" + bytes(range(33, 127))]
# Texts that a client takes so, and a server doesn't.
OLDER = [b"SSH-1.99-a", b"SSH-1.99-x", b"SSH-1.99-a-b", b"SSH-1.99--", b"SSH-1.99-a ", b"SSH-1.99-x-y z", b"SSH-1.99-a - b", b"SSH-1.99-Cisco-1.25",
         b"SSH-1.99-2.0-a", b"SSH-1.99-" + bytes(range(33, 127))]
# Texts that nobody takes, whatever ends them.
REFUSED = [b"SSH-", b"SSH- ", b"SSH--", b"SSH-a", b"SSH-2", b"SSH-2.0", b"SSH-2.0-", b"SSH-2.0- ", b"SSH-2.0- x", b"SSH-2.0-  -", b"SSH-2.0 -a",
           b"SSH-2.0a", b"SSH-2.0_a", b"SSH-2.0.a", b"SSH-2.00-a", b"SSH-02.0-a", b"SSH-2-a", b"SSH-2.-a", b"SSH-2.1-a", b"SSH-3.0-a", b"SSH-12.0-a",
           b"SSH-1.5-", b"SSH-1.5-a", b"SSH-1.5-a-b", b"SSH-1.98-", b"SSH-1.98-a", b"SSH-1.9-a", b"SSH-1.999-a", b"SSH-1.99a", b"SSH-1.99", b"SSH-1.99-", b"SSH-1.99- ",
           b"SSH-1.99- x", b"SSH-01.99-a", b"SSH-1-99-a", b"SSH-2,0-a", b"SSH--2.0-a", b"SSH-SSH-2.0-a", b"SSH- 2.0-a", b"SSH-2.0-\ra",
           b"SSH-2.0-a\rb", b"SSH-2.0-a-\r\r", b"SSH-2.0-a\r", b"SSH-2.0-a b\r", b"SSH-2.0-a \rb", b"SSH-2.0-\r", b"SSH-1.99-a\r", b"SSH-\r",
           b"SSH-2.0-\ta", b"SSH-2.0-a\tb", b"SSH-2.0-a b\tc", b"SSH-2.0-a\x7f", b"SSH-2.0-a\x80", b"SSH-2.0-a b\x7f", b"SSH-2.0-a b\x80",
           b"SSH-2.0-a-\x1f", b"SSH-2.0-a-\xff", b"SSH-2.0-\xc3\xa9", b"SSH-2.0-a \xc3\xa9", b"SSH-1.99-a\tb", b"SSH-1.99-a\x7f"]
# Lines that don't begin with SSH-, so they may stand before the version line where some may.
OTHERS = [b"", b"\r", b"-", b"SSH", b"SSH\r", b"ssh-2.0-a", b"Ssh-2.0-a-b\r", b"sSH-1.99-a", b" SSH-2.0-a", b"SSH 2.0-a", b"SS-H2.0-a", b"\rSSH-2.0-a\r", b"\t", b"\x7f\x80\xff", b"x" * 253 + b"\r",
          b"x" * 254, b"-" * 254]


def text_in(form, line):
    """The text of the version line that these bytes and an LF are, if they are one of this form."""
    found = re.fullmatch(GRAMMARS[form], line)
    return found[1] if found and len(found[1]) <= 253 else None


def standing(form, others, received):
    """How a reader stands that has received these bytes: its answer, how many bytes it has used, and the bytes of its unfinished line."""
    line = b""
    for place, byte in enumerate(received, 1):
        if byte == 0:
            return "refused V4", place, b""
        if byte != 10 and len(line) == 254:
            return "refused V5", place, b""
        if byte != 10:
            line += bytes([byte])
        elif line.startswith(b"SSH-"):
            text = text_in(form, line)
            return "refused V4" if text is None else "version " + hexa(text), place, b""
        elif others == 0:
            return "refused V6", place, b""
        else:
            others, line = others - 1, b""
    return "open", len(received), line


def is_taken(form, text, ending):
    """Whether the text is taken by this form where these bytes end its line, by the lists."""
    if text in STRICT:
        return form != LETTER or ending == b"\r\n"
    return text in DEPLOYED and form != LETTER or text in OLDER and form == BY_CLIENT


def every_line():
    """Each text of the lists with each ending, but CR LF that comes of a CR in the text and LF."""
    for text in STRICT + DEPLOYED + OLDER + REFUSED:
        for word, ending in ENDINGS.items():
            if not (text.endswith(b"\r") and ending == b"\n"):
                yield text, word, ending


def shown(line):
    return line.hex() if len(line) < 40 else "%s..%s of %d" % (line[:12].hex(), line[-4:].hex(), len(line))


def rows(file):
    for form in FORMS:
        lines(file, form)
        single_bytes(file, form)
        zeros(file, form)
        limits(file, form)
        others(file, form)
        cuts(file, form)
    for role in (CLIENT, SERVER):
        for reading in ("strict", "deployed"):
            greeted(file, role, reading)
            sessions(file, role, reading)
            limited(file, role, reading)
        pieces(file, role)


# Readers alone.

def act(form, count):
    return " ".join(["lines", str(count)] + ([form] if form else []))


def stands(form, count, received):
    """The lines that judge how a reader stands after these bytes."""
    end, _, unfinished = standing(form, count, received)
    return ["end " + end, "held %d" % len(unfinished), "unfinished " + hexa(unfinished), "prints " + (end[8:] if end.startswith("version") else "-")]


def closed(form, count, received, end):
    """The same where an answer has come, also after more bytes and after none: nothing more is used, and a refusal is given again."""
    assert standing(form, count, received)[0] == end, (form, received, end)
    return [stands(form, count, received), part(0, LINE), stands(form, count, received), feed(), stands(form, count, received)]


def lines(file, form):
    """Each line alone, up to its LF and with it."""
    for text, word, ending in every_line():
        line, taken = text + ending, is_taken(form, text, ending)
        end = "version " + hexa(text) if taken else "refused V4"
        name = "%s is %s %s, ended by %s" % (shown(text), "taken" if taken else "refused", FORMS[form], word)
        file.row(name, act(form, 0), stands(form, 0, b""), feed(), stands(form, 0, b""), feed(line[:-1]), stands(form, 0, line[:-1]), part(1, b"\nmore"), closed(form, 0, line, end))
        file.row(name + ", behind others", act(form, 2), feed(b"n\n-\r\n"), stands(form, 2, b"n\n-\r\n"), part(len(line), line, b"\n"),
                 closed(form, 2, b"n\n-\r\n" + line, end))


def single_bytes(file, form):
    """One byte at the front, in the middle and at the end of the softwareversion, and in comments."""
    for front, back in ((b"SSH-2.0-", b"c"), (b"SSH-2.0-a", b"c"), (b"SSH-2.0-a", b""), (b"SSH-2.0-a b", b"c"), (b"SSH-2.0-a b", b""), (b"SSH-1.99-a", b"c")):
        for byte in (1, 8, 9, 11, 12, 13, 27, 31, 32, 33, 44, 45, 46, 126, 127, 128, 160, 255):
            text = front + bytes([byte]) + back
            for word, ending in ENDINGS.items():
                if byte == 13 and not back and word == "LF":
                    continue
                taken = 33 <= byte <= 126 or byte == 32 and front[-1:] != b"-"
                taken = taken and (form == BY_CLIENT or front[4:5] == b"2") and (form != LETTER or word == "CR LF")
                taken = taken and (form != LETTER or byte != 45 or b" " in front)
                end = "version " + hexa(text) if taken else "refused V4"
                file.row("byte %d in %s.%s, %s, %s" % (byte, front.hex(), back.hex(), word, FORMS[form]), act(form, 0),
                         part(len(text + ending), text + ending, b"x"), closed(form, 0, text + ending, end))


def zeros(file, form):
    """A NUL at each place, also where the line would be none."""
    for line in (b"SSH-2.0-x-y z\r\n", b"SSH-1.99-x\n", b"n\r\n"):
        for place in range(len(line)):
            file.row("a NUL at %d of %s %s" % (place, line.hex(), FORMS[form]), act(form, 20), feed(line[:place]), stands(form, 20, line[:place]),
                     part(1, b"\0" + line[place:]), closed(form, 20, line[:place] + b"\0", "refused V4"))


def limits(file, form):
    """A text has at most 253 bytes, whatever ends it; a line at most 255 with its LF."""
    for front, byte in ((b"SSH-2.0-", b"x"), (b"SSH-2.0-", b"-"), (b"SSH-2.0-x ", b"y"), (b"SSH-1.99-", b"x"), (b"SSH-1.99-x-", b" ")):
        for size in (252, 253, 254, 255):
            text = front + byte * (size - len(front))
            for word, ending in ENDINGS.items():
                line = text + ending
                taken = size < 254 and (form == BY_CLIENT or b"2.0" in front) and (form != LETTER or word == "CR LF" and byte != b"-")
                end, used = "version " + hexa(text) if taken else "refused V4", min(len(line), 255)
                if size + len(ending) > 255:
                    end = "refused V5"
                file.row("a text of %d bytes, %s, of %s, %s" % (size, word, (front + byte).hex(), FORMS[form]), act(form, 20), feed(line[:used - 1]),
                         stands(form, 20, line[:used - 1]), part(1, line[used - 1:], b"more"), closed(form, 20, line[:used], end))
    for front in (b"SSH-2.0-" + b"-" * 246, b"SSH-2.0-" + b"x" * 245 + b"\r", b"SSH-1.99-" + b"x" * 244 + b"\r", b"n" * 254):
        for byte, end in ((b"x", "refused V5"), (b"-", "refused V5"), (b"\r", "refused V5"), (b" ", "refused V5"), (b"\x7f", "refused V5"),
                          (b"\xff", "refused V5"), (b"\0", "refused V4")):
            file.row("byte 255, %s then %s, %s" % (shown(front), byte.hex(), FORMS[form]), act(form, 20), feed(front), stands(form, 20, front),
                     part(1, byte + b"\n"), closed(form, 20, front + byte, end))


def others(file, form):
    """Other lines, whatever ends them: as many as may stand there, and one more."""
    version = b"SSH-2.0-x\r\n" if form == LETTER else b"SSH-2.0-x-y\n"
    for line in OTHERS:
        file.row("the other line %s %s" % (shown(line), FORMS[form]), act(form, 1), feed(line), stands(form, 1, line), feed(b"\n"),
                 stands(form, 1, line + b"\n"), part(len(version), version, b"\n"), closed(form, 1, line + b"\n" + version, "version " + hexa(version.rstrip())))
        file.row("the other line %s too many %s" % (shown(line), FORMS[form]), act(form, 0), feed(line), stands(form, 0, line), part(1, b"\n" + version),
                 closed(form, 0, line + b"\n", "refused V6"))
    for ending in (b"\n", b"\r\n"):
        for most, count in ((0, 0), (1, 1), (20, 19), (20, 20), (4294967295, 21)):
            front = (b"n" + ending) * count
            file.row("%d others of %d, ended by %s, %s" % (count, most, ending.hex(), FORMS[form]), act(form, most), [feed(b"n" + ending)] * count, stands(form, most, front),
                     part(len(version), version, b"\n"), closed(form, most, front + version, "version " + hexa(version.rstrip())))
        for most in (0, 1, 20):
            front = (b"n" + ending) * most
            file.row("one more than %d others, ended by %s, %s" % (most, ending.hex(), FORMS[form]), act(form, most), [feed(b"n" + ending)] * most,
                     feed(b"n" + ending[:-1]), stands(form, most, front + b"n" + ending[:-1]), part(1, b"\n" + version),
                     closed(form, most, front + b"n" + ending, "refused V6"))


def cuts(file, form):
    """Each cut of a stream into two pieces brings the same, and shows what is unfinished at the cut."""
    for count, stream in ((0, b"SSH-2.0-a-b\r\nmore"), (0, b"SSH-2.0-x\nmore"), (0, b"SSH-1.99-x-y z\nmore"), (0, b"SSH-2.0-a b\r\nmore"), (0, b"SSH-2.0-\r\r\n"),
                          (0, b"SSH-2.0-a-\r\rb\n"), (2, b"hi\n\r\nSSH-1.99--\r\nSSH-2.0-b\n"), (2, b"ssh-2.0-a\nSSH\nSSH-2.0-a-\n\n"),
                          (1, b"\n\nSSH-2.0-a-b\n"), (0, b"-\nSSH-2.0-a-b\n"), (20, b"n\nSSH-2.0-a-\0b\n"), (1, b"SSH-2.0 \nSSH-2.0-a\n")):
        end, used, _ = standing(form, count, stream)
        for at in range(len(stream) + 1):
            first = min(at, used)
            file.row("%s of %d, cut at %d, %s" % (stream.hex(), count, at, FORMS[form]), act(form, count), part(first, stream[:at]),
                     stands(form, count, stream[:at]), part(used - first, stream[at:]), closed(form, count, stream, end))


# Endpoints.

def form_of(role, reading):
    return LETTER if reading == "strict" else BY_CLIENT if role == CLIENT else BY_SERVER


def begun(role, reading, *lines_):
    """A config of this reading, and what its endpoint says first."""
    t = Talk()
    return ["config " + role, lines_, "reading " + reading, "generous", says(t.c_first if role == CLIENT else t.s_first)]


def greeted(file, role, reading):
    """Each line at an endpoint, up to its LF and with it."""
    form = form_of(role, reading)
    for text, word, ending in every_line():
        line, taken = text + ending, is_taken(form, text, ending)
        name = "%s at a %s that reads %s, ended by %s" % (shown(text), role, reading, word)
        start = [begun(role, reading), feed(line[:-1]), "held %d" % len(line[:-1]), "end open"]
        if taken:
            file.row(name, start, feed(b"\n"), "held 0", "feed 000000", "held 3", "says -", "end open")
        else:
            refused(file, name, start, b"\n" + LINE)
    for line in OTHERS:
        name = "the other line %s at a %s that reads %s" % (shown(line), role, reading)
        start = [begun(role, reading), feed(line), "held %d" % len(line), "end open"]
        if role == CLIENT:
            file.row(name, start, feed(b"\n"), "held 0", feed(LINE), "held 0", "feed 000000", "held 3", "says -", "end open")
        else:
            refused(file, name, start, b"\n" + LINE)
    for front in (b"", b"SSH-", b"SSH-2.0-a-b", b"SSH-2.0-a-\r", b"SSH-1.99-a", b"hel", b"-" * 254):
        refused(file, "a NUL behind %s at a %s that reads %s" % (shown(front), role, reading), [begun(role, reading), feed(front), "held %d" % len(front), "end open"], b"\0" + LINE)


def refused(file, name, start, rest):
    """The next byte is refused, and for good."""
    file.row(name, start, part(1, rest), "held 0", "end failed F1", part(0, LINE), "cut", "end failed F1", "says -", "session none")


def sessions(file, role, reading):
    """Whole sessions with a peer of this version line, which both sides hash as it came without what ended it; so the host key's
    signature, the keys and the user's signature show it. By a reading that doesn't take the line it ends there. With the lab's own line
    both readings bring the same bytes, so two endpoints end alike whichever each has."""
    form = form_of(role, reading)
    for text in (b"SSH-2.0-lab_1", b"SSH-2.0-lab_1 a-b", b"SSH-2.0-a-b", b"SSH-2.0-x", b"SSH-2.0--", b"SSH-2.0-a- - b ", b"SSH-1.99-x", b"SSH-1.99-x-y z",
                 b"SSH-1.5-x", b"SSH-2.0- x"):
        for word, ending in ENDINGS.items():
            name = "a %s that reads %s, by %s of its peer's, ended by %s" % (role, reading, text.hex(), word)
            session(file, name, role, reading, text + ending, is_taken(form, text, ending))


def session(file, name, role, reading, line, taken, front=b""):
    """A session with a peer that sends this version line, after these bytes of other lines."""
    text = text_in(form_of(role, reading), line[:-1])
    assert (text is not None) == taken, (name, line)
    if not taken:
        refused(file, name, [begun(role, reading), feed(front, line[:-1]), "held %d" % len(line[:-1]), "end open"], b"\n" + LINE)
        return
    t = Talk(greetings=(None, line) if role == CLIENT else (line, None))
    assert t.hash == hash_of(t.ci, t.si, lines=(LINE, text + b"\r\n") if role == CLIENT else (text + b"\r\n", LINE))
    c, s = half(t.c), half(t.s)
    request_, success = c.send(by_key(t.hash)), s.send(SUCCESS)
    if role == CLIENT:
        course = [feed(front, t.s_first), says(t.c_init), "end open", feed(t.s_reply), says(t.c_newkeys, t.c_service), asked("host_key"), "verified 1",
                  feed(t.s_newkeys, t.s_accept), says(request_), feed(success), "verified 0"]
        directions = (("in", s, t.sc), ("out", c, t.cs))
    else:
        course = [feed(front, t.c_first), "says -", "end open", feed(t.c_init), says(t.s_reply, t.s_newkeys), feed(t.c_newkeys, t.c_service),
                  says(t.s_accept), feed(request_), says(success), asked(1), "verified 1"]
        directions = (("in", c, t.cs), ("out", s, t.sc))
    plan = ["try 'al 'ssh-connection publickey 'h 00"] if role == CLIENT else []
    file.row(name, begun(role, reading, plan), course, "end authenticated al ssh-connection", "agreed a h c c m m none none yes " + t.hash.hex(),
             ["session %s %d c m %s %s %s" % (way, of.seq, keys.iv.hex(), keys.enc.hex(), keys.mac_key.hex()) for way, of, keys in directions])


def limited(file, role, reading):
    """Texts at their limit and past it, and other lines before them, up to the end of a session."""
    form = form_of(role, reading)
    for front in (b"SSH-2.0-x", b"SSH-2.0--", b"SSH-1.99-"):
        for size in (252, 253, 254):
            for word, ending in ENDINGS.items():
                line = front + b"y" * (size - len(front)) + ending
                name = "a text of %d bytes, %s, of %s, at a %s that reads %s" % (size, word, front.hex(), role, reading)
                taken = size < 254 and (form == BY_CLIENT or front[4:7] == b"2.0") and (form != LETTER or word == "CR LF" and front[-1:] != b"-")
                if len(line) == 256:
                    refused(file, name, [begun(role, reading), feed(line[:254]), "held 254", "end open"], line[254:])
                else:
                    session(file, name, role, reading, line, taken)
    for count in (1, 19, 20, 21):
        for ending in (b"\n", b"\r\n"):
            name = "%d other lines, ended by %s, at a %s that reads %s" % (count, ending.hex(), role, reading)
            most = 20 if role == CLIENT else 0
            if count > most:
                refused(file, name, [begun(role, reading), feed((b"n" + ending) * most, b"n" + ending[:-1]), "end open"], b"\n" + LINE)
            else:
                session(file, name, role, reading, LINE if form == LETTER else b"SSH-2.0-a-b\n", True, (b"n" + ending) * count)


def pieces(file, role):
    """Each cut of what an endpoint that reads as peers write is given, from its peer's first byte into the KEXINIT; and an input that
    ends before the first packet is whole."""
    for line in (b"SSH-2.0-a-b\r\n", b"SSH-2.0-x\n") + ((b"SSH-1.99-x-y z\n",) if role == CLIENT else ()):
        t = Talk(greetings=(None, line) if role == CLIENT else (line, None))
        if role == CLIENT:
            received, sent, question = t.s_first + t.s_reply + t.s_newkeys, t.c_first + t.c_init + t.c_newkeys + t.c_service, asked("host_key")
        else:
            received, sent, question = t.c_first + t.c_init + t.c_newkeys + t.c_service, t.s_first + t.s_reply + t.s_newkeys + t.s_accept, asked()
        stream, all_sent = (file.name("%s-%s-%s" % (role, word, line.hex()), data) for word, data in (("hears", received), ("says", sent)))
        for at in range(len(line) + 24):
            name = "%s at a %s, " % (line.hex(), role)
            held = at if at < len(line) else at - len(line)
            file.row(name + "cut at %d" % at, "config " + role, "reading deployed", "generous", "feed %s:0:%d" % (stream, at), "held %d" % held,
                     "feed %s:%d" % (stream, at), says(all_sent), question, "end open")
            file.row(name + "ends at %d" % at, begun(role, "deployed"), "feed %s:0:%d" % (stream, at), "cut", "says -", "end failed F16", "session none")

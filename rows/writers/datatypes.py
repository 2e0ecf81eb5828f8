"""Data types of RFC 4251 section 5: read, put, and bytes judged by themselves."""
from lab import *

MPINTS = [b"", bytes.fromhex("09a378f9b2e332a7"), b"\x00\x80", b"\xed\xcc", bytes.fromhex("ff21524111"), b"\xff", b"\x7f", b"\x01",
          b"\x00\xff", b"\x80", b"\xff\x7f"]
NO_MPINTS = [b"\x00\x7f", b"\x00", b"\xff\x80", b"\x00\x00", b"\x00\x01", b"\xff\xff", b"\x00\x00\x80"]
LISTS = ["", "zlib", "zlib,none", "a,b,a", "x" * 64, "!", "~", "a" + ",a" * 99, "a" + ",a" * 999]
NO_LISTS = [",a", "a,", "a,,b", ",", "a b", "a\x7f", " ", "\x00", "a,\x1f", "a,\xc3\xa9", "x" * 65, "a," + "x" * 65]


def rows(file):
    for byte in range(256):
        file.row("boolean %d" % byte, "reads %02x" % byte, "boolean " + ("yes" if byte else "no"), "refused V1 boolean", "rest -")
    for number in (0, 1, 255, 256, 699921578, 2147483648, 4294967295):
        file.row("u32 %d" % number, "reads " + hexa(u32(number) + b"m"), "u32 %d" % number, "rest 6d", "refused V1 u32", "rest 6d")
    for cut in range(4):
        file.row("u32 of %d bytes" % cut, "reads " + hexa(u32(7)[:cut]), "refused V1 u32", "rest " + hexa(u32(7)[:cut]))
    for text in (b"", b"testing", b"\x00", bytes(range(256))):
        file.row("string of %d" % len(text), "reads " + hexa(string(text) + b"more"), "string " + hexa(text), "rest 6d6f7265")
        for cut in {0, 3, 4, len(text), len(text) + 3} if text else {0, 3}:
            part = string(text)[:cut]
            if cut < len(string(text)):
                file.row("string of %d, cut at %d" % (len(text), cut), "reads " + hexa(part), "refused V1 string", "refused V1 mpint",
                         "refused V1 name_list", "refused V1 lent_list", "rest " + hexa(part))
    for body in MPINTS:
        file.row("mpint " + hexa(body), "reads " + hexa(string(body) + b"more"), "mpint " + hexa(body), "rest 6d6f7265")
    for body in NO_MPINTS:
        text = string(body) + b"\x01"
        file.row("no mpint " + hexa(body), "reads " + hexa(text), "refused V3 mpint", "rest " + hexa(text), "string " + hexa(body), "rest 01")
    for text in LISTS:
        data = string(text) + b"more"
        file.row("list %s" % name_of(text), "reads " + hexa(data), "name_list '" + text, "rest 6d6f7265")
        file.row("lent list %s" % name_of(text), "reads " + hexa(data), "lent_list " + hexa(text.encode()), "rest 6d6f7265")
    for text in NO_LISTS:
        data = string(text.encode("latin1")) + b"m"
        file.row("no list %s" % name_of(text), "reads " + hexa(data), "refused V2 name_list", "refused V2 lent_list", "rest " + hexa(data))
    file.row("values one behind the other", "reads 01 00 29b7f4aa 00000007 'testing 00000001 7f 00000003 'a,b", "boolean yes", "boolean no",
             "u32 699921578", "string 74657374696e67", "mpint 7f", "name_list 'a,b", "rest -", "refused V1 u32", "refused V1 boolean")
    put(file)
    alone(file)


def name_of(text):
    return text.encode("latin1").hex() if len(text) < 20 else "%s..%d" % (text[:4].encode("latin1").hex(), len(text))


def put(file):
    file.row("puts of each kind", "puts", "boolean yes", "boolean no", "u32 699921578", "string 'testing", "says 0100 29b7f4aa 00000007 'testing")
    for number in (0, 1, 255, 256, 65536, 4294967295):
        file.row("puts %d" % number, "puts", "u32 %d" % number, "says " + hexa(u32(number)))
    for body in MPINTS:
        file.row("puts mpint " + hexa(body), "puts", "u32 1", "mpint " + hexa(body), "says 00000001 " + hexa(string(body)))
    for text in LISTS:
        file.row("puts list " + name_of(text), "puts", "u32 1", "name_list " + hexa(text.encode()), "says 00000001 " + hexa(string(text)))
    for text in (b"", b"a", bytes(range(256)), b"\x00" * 1000):
        file.row("puts string of %d" % len(text), "puts", "boolean no", "string " + hexa(text), "says 00 " + hexa(string(text)))


def alone(file):
    lines = []
    for byte in range(256):
        good = 33 <= byte <= 126 and byte != 44
        for text in (bytes([byte]), b"a" + bytes([byte]) + b"b"):
            lines.append("name %s %s" % ("yes" if good else "no", hexa(text)))
    lines += ["name no -", "name yes 'ssh-ed25519", "name yes 64*78", "name no 65*78", "name no 'a,b"]
    file.row("names by themselves", "parses", lines)
    for text in LISTS:
        file.row("parses list " + name_of(text), "parses", ["%s yes %s" % (kind, hexa(text.encode())) for kind in ("name_list", "lent_list")])
    for text in NO_LISTS:
        file.row("parses no list " + name_of(text), "parses",
                 ["%s V2 %s" % (kind, hexa(text.encode("latin1"))) for kind in ("name_list", "lent_list")])
    file.row("mpints by themselves", "parses", ["mpint yes " + hexa(b) for b in MPINTS], ["mpint V3 " + hexa(b) for b in NO_MPINTS])
    good = ["SSH-2.0-lab_1 of today\r\n", "SSH-2.0-x\r\n", "SSH-2.0-x \r\n", "SSH-2.0-x y-z\r\n", "SSH-2.0-" + "x" * 245 + "\r\n"]
    bad = ["SSH-2.0-x\n", "SSH-2.0-x", "", "SSH-2.0-\r\n", "SSH-1.99-x\r\n", "SSH-2.0-a-b\r\n", "SSH-2.0-x\r\n\r\n", "ssh-2.0-x\r\n", "n\r\n"]
    lines = []
    for byte in range(256):
        for front, taken in ((b"SSH-2.0-a", 32 <= byte <= 126 and byte != 45), (b"SSH-2.0-a b", 32 <= byte <= 126)):
            lines.append("version %s %s" % ("yes" if taken else "V4", hexa(front + bytes([byte]) + b"c\r\n")))
    file.row("version lines with each byte", "parses", lines)
    file.row("version lines by themselves", "parses", ["version yes " + hexa(t.encode()) for t in good],
             ["version V4 " + hexa(t.encode()) for t in bad], "version V5 " + hexa(("SSH-2.0-" + "x" * 246 + "\r\n").encode()))

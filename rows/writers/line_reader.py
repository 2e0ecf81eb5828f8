"""Lines as a reader of them alone has them (RFC 4253 section 4.2): held, used, counted, and refused for good."""
from lab import *


def rows(file):
    for line in (b"SSH-2.0-x \r\n", b"SSH-2.0-x y-z\r\n", b"SSH-2.0-lab_1 of today\r\n", b"SSH-2.0-" + b"x" * 245 + b"\r\n"):
        text = line[:-2]
        file.row("lines take %s" % shown(line), "lines 0", "held 0", feed(line[:-1]), "end open", "held %d" % (len(line) - 1),
                 part(1, line[-1:], b"more"), "end version " + hexa(text), "held 0", "part 0 6d")
        file.row("lines take %s behind another" % shown(line), "lines 20", feed(b"n\r\n"), "held 0", part(len(line), line, b"more"),
                 "end version " + hexa(text))
    for line, used in ((b"SSH-2.0-x\n", 10), (b"SSH-1.99-x\r\n", 12), (b"SSH-2.0-\r\n", 10), (b"SSH-2.0-a-b\r\n", 13), (b"a\0b", 2),
                       (b"SSH-\r\n", 6), (b"SSH-2.0-x\r\r\n", 12), (b"SSH-2.0-\xe9\r\n", 11)):
        file.row("lines refuse %s" % line.hex(), "lines 20", part(used, line, b"more"), "end refused V4", "held 0", again("V4"))
    for front in (b"SSH-2.0-a", b"SSH-2.0-a b"):
        for byte in (1, 9, 31, 32, 45, 126, 127, 128, 255):
            text = front + bytes([byte]) + b"c"
            taken = 32 <= byte <= 126 and (byte != 45 or b" " in front)
            file.row("lines %s byte %d behind %s" % ("take" if taken else "refuse", byte, front.hex()), "lines 0", feed(text + b"\r"), "end open",
                     part(1, b"\nmore"), "end " + ("version " + hexa(text) if taken else "refused V4"), "held 0")
    for place in range(13):
        line = b"SSH-2.0-x y\r\n"
        file.row("lines refuse a NUL at %d" % place, "lines 20", feed(line[:place]), "held %d" % place, part(1, b"\0" + line[place:]),
                 "end refused V4", "held 0", again("V4"))
    for front in (b"SSH-2.0-" + b"x" * 246, b"n" * 254):
        file.row("lines refuse byte 255 of %s" % shown(front), "lines 20", feed(front), "held 254", "end open", part(1, b"\r\n"),
                 "end refused V5", "held 0", again("V5"))
    for others, count in ((20, 20), (1, 1), (0, 0), (4294967295, 40)):
        file.row("lines take %d others of %d" % (count, others), "lines %d" % others, [feed(b"n\r"), feed(b"\n")] * count,
                 part(15, b"SSH-2.0-lab_1\r\nrest"), "end version " + hexa(b"SSH-2.0-lab_1"))
    for others in (20, 1, 0):
        file.row("lines refuse another of %d" % others, "lines %d" % others, [feed(b"n\r\n")] * others, feed(b"n\r"), "end open", "held 2",
                 part(1, b"\nSSH-2.0-x\r\n"), "end refused V6", "held 0", again("V6"))


def again(code):
    return ["part 0 " + hexa(LINE), "end refused " + code, "held 0"]


def shown(line):
    return line.hex() if len(line) < 30 else "%s..%d" % (line[:9].hex(), len(line))

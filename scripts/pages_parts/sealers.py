"""Shows that whoever seals packets one after another goes on to the keys of the next one.

`write_sealed` (sshpacket) seals one packet and leaves the keys as they are: a second packet by the same keys may have the key stream of
the first. `write_next` makes the keys those of the next packet. So no source names `write_sealed` but those of ALLOWED, of which each
has to name it. Sources are counted.
"""
import re

from pages_parts import found, read

NAME = re.compile(r'\bwrite_sealed\b')
# a source's path, and why it may
ALLOWED = {
    'crates/sshpacket/src/lib.rt': 'it is exported',
    'crates/sshpacket/src/suite.rt': 'what a suite has to know of it',
    'crates/sshpacket/src/write.rt': 'its body, and that of write_next',
    'crates/sshrows_acts/src/below_written.rt': 'rows of single packets, by keys that each of them names',
}


def judged(*_):
    passed, faults = 0, []
    for path in found('crates/*/src/**/*.rt'):
        is_named = bool(NAME.search(read(path)))
        if is_named == (path in ALLOWED):
            passed += 1
        else:
            faults.append(f'FAULT {path} names write_sealed' + ('' if is_named else ' no longer'))
    return faults, passed, len(faults)

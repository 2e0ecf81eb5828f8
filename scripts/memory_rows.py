"""Rows that the rows program judges while each of its requests for memory is refused, and what may stand after a refusal.

A row is given to the program alone, after the lines of its file that stand before the first row. Where the program's own
request is refused, it says nothing and ends. Where a call that it judges is refused, it says how that stands, and tries the
next call: `row NAME: line N: STANDS; said BYTES`, or `row NAME: no value` where the call would have made a value."""
import os
import re

from kit import rows_written

TOP = os.path.dirname(os.path.dirname(os.path.realpath(__file__)))
UNJUDGED = (3, b'', b'out of memory\n')
VECTOR, NO_VALUE = 'the vector as it was', 'no value'
FEED = 'failed F15 for good'
ENDPOINT = {NO_VALUE, 'no endpoint', FEED}
WORLD = {NO_VALUE, 'one side failed F15 for good'}
MOVES = {NO_VALUE, 'the receiver failed F15 for good, the other as it was'}
# rows by their file, each with all that a refused call of it has to leave
ROWS = {
    'datatypes': [('list 7a6c69622c6e6f6e65', {'V7, the reader as it was'}), ('puts list 7a6c69622c6e6f6e65', {VECTOR}),
                  ('puts of each kind', {VECTOR})],
    'line_reader': [('lines take 20 others of 20', {'V7 for good'})],
    'peer_lines': [('68690a0d0a5353482d312e39392d2d0d0a5353482d322e302d620a of 2, cut at 13, by a client', {'V7 for good'}),
                   (f'a client that reads deployed, by {b"SSH-1.99-x-y z".hex()} of its peer\'s, ended by LF', ENDPOINT)],
    'sealing': [('packet lab in clear of 1, number 0', {'P5 for good', VECTOR}), ('packet lab c of 17, number 0', {'P5 for good', VECTOR}),
                ('packet second c of 17, number 0', {'P5 for good', VECTOR})],
    'messages': [('message mpint 330000001270617373776f72642c7075626c69636b657900', {NO_VALUE, VECTOR}),
                 ('message mpint 14636f6f6b6965206f6620313620627974000000016b0000..0e045f36', {NO_VALUE, VECTOR})],
    'choices': [('choice behind a marker', {NO_VALUE})],
    'derivations': [('signed request', {NO_VALUE}), ('keys of client, k m, 68617368 73657373', {NO_VALUE})],
    'configs': [('KEXINIT of a client, strict', {NO_VALUE, 'no endpoint'}), ('KEXINIT of a server', {NO_VALUE, 'no endpoint'})],
    'endpoint': [(f'{side} up to its end, {how}', ENDPOINT) for side in ('client', 'server') for how in ('strict', 'guessed')],
    'auth': [(f'{side}, {course}', ENDPOINT) for side in ('client', 'server')
             for course in ('simplest', 'an odd service', 'asked', 'both')]
            + [(f'predicted, {course}', {NO_VALUE}) for course in ('simplest', 'both')],
    'disconnecting': [(f'a {side} {place}', ENDPOINT) for side in ('client', 'server')
                      for place in ('at its making, strict', 'in authentication, packet by packet')],
    'notices': [(f'a {side} behind the version line, strict: {kind}', ENDPOINT) for side in ('client', 'server') for kind in ('DISCONNECT', 'DEBUG 1')],
    'handed': [('a wrong tag at the link of a client, strict', ENDPOINT | {VECTOR, 'P5 for good'})],
    'asking': [('a client goes on, strict', ENDPOINT), ('a server is asked by a key, and the answer is yes', ENDPOINT)],
    'signatures': [('a client is answered with the signature, strict, by its lines', ENDPOINT),
                   ('a server is answered with the signature, strict, by its decisions', ENDPOINT)],
    'worlds': [('course 8', WORLD), ('course 12', MOVES), ('course 15', WORLD), ('guessed, rounds 9', WORLD)],
}


class Row:
    """A row of a file: the text that the program is given, and what it may answer."""

    def __init__(self, file, name, stands):
        with open(f'{TOP}/rows/{file}.rows', encoding='ascii') as text:
            lines = text.read().split('\n')
        starts = [place for place, line in enumerate(lines) if line.startswith('row ')]
        begin = lines.index(f'row {name}')
        after = [place for place in starts if place > begin]
        self.name, self.stands = name, stands
        row = lines[begin:after[0] if after else len(lines)]
        # of the bytes that are named for all rows those that this one tells of
        shared = [line for line in lines[:starts[0]] if '$' + line.split(' ')[1] in ' '.join(row)]
        self.lines = shared + row
        self.named = {words[1]: words[2:] for words in (line.split(' ') for line in self.lines) if words[0] == 'bytes'}

    def text(self):
        return ('\n'.join(line for line in self.lines if line) + '\n').encode('ascii')

    def packets(self, line):
        """The packets of a line `says`, each a term; what is said at the making is one."""
        for term in line.split(' ')[1:]:
            for word in self.named[term[1:]] if term.startswith('$') else [term]:
                yield '' if word == '-' else word

    def may_be_said(self, number, said):
        """Whether these are whole packets of those that the row wants after this line, from the first on."""
        wanted = next((line for line in self.lines[number:] if line.startswith('says ')), 'says -')
        front = ''
        fronts = [front] + [front := front + packet for packet in self.packets(wanted)]
        return said in fronts

    def stand_after(self, answer):
        """What the answer tells that stands after a refused call: '' where nothing was judged, None where it may not be."""
        if answer == UNJUDGED:
            return ''
        status, out, err = answer
        told = re.fullmatch(rf'row {re.escape(self.name)}: (?:(no value)|line (\d+): (.*); said ([0-9a-f]*))\n', out.decode('ascii', 'replace'))
        if (status, err) != (3, UNJUDGED[2]) or not told:
            return None
        if told[1]:
            return NO_VALUE
        stands, said = told[3], told[4]
        right = self.may_be_said(int(told[2]), said) if stands == FEED else said == ''
        return stands if right and stands in self.stands else None


def rows():
    """All rows, each read from its file, which is written where it lacks."""
    rows_written(ROWS)
    for file, wanted in ROWS.items():
        for name, stands in wanted:
            yield Row(file, name, stands)

"""Looks for words where another word is right, by three tables: the word, what is right, and why.

PARTS: a part of a name in the sources (`heard` in `heard_bytes`), where definitions were renamed.
NAMES: a whole name, in the sources, and between backticks in a page or a comment.
TERMS: a phrase that means something else in SSH or here, in names and in prose: the comments of sources and scripts, the lines
`shows:` and `form:` of edits, the comments of cases and scenarios, and the pages.

Plain English passes in prose. What isn't judged: texts that a program has between quotes, what a page has in a block of code, and, but
for NAMES, what prose has between backticks. KEPT has what stays all the same, each with its reason. Files are counted.
"""
import io
import re
import tokenize

from pages_parts import files, read, without_code

RECEIVED = ('receive, received', 'an endpoint has received the bytes that it used; so all definitions of histories are named')
SENT = ('send, sent', 'an endpoint has sent the bytes that it appended to `out`; so all definitions of histories are named')
PARTS = {
    'hear': RECEIVED, 'hears': RECEIVED, 'heard': RECEIVED, 'hearing': RECEIVED,
    'say': SENT, 'says': SENT, 'said': SENT,
    'behind': ('after', 'what comes later in a stream or a list'),
    'good': ('successful, of a signature valid', 'RFC 4252 section 5.1'),
    'lets in': ('accepts', 'RFC 4252 section 5.1'),
}
TWIN = 'what contracts see of NAME is NAMEData'
CONFIG = 'what an endpoint sees of its config is a config'
TABLE = 'a line is a version line or a notice line; the phase table has dispositions'
COMPATIBLE = 'two configs are compatible'
COMPLETED = 'RFC 4252 section 5.1: methods are completed'
NAMES = {
    'LineState': ('LineReaderData, PeerLineReaderData', TWIN), 'ReaderState': ('PacketReaderData', TWIN), 'KeyData': ('KeysData', TWIN),
    'Meaning': ('SuiteData', TWIN), 'Offer': ('KexInitData', TWIN), 'Content': ('MessageData', TWIN),
    'KeySource': ('KeyMaterialData', TWIN), 'Proving': ('CredentialData', TWIN), 'Party': ('ConfigData', TWIN),
    'Policy': ('DecisionsData', TWIN), 'Ending': ('EndData', TWIN), 'Kept': ('StateData', TWIN),
    'ReachedMethods': ('ReachedData', TWIN), 'ShareData': ('SharesData', TWIN), 'Half': ('NodeData', TWIN),
    'LabRules': ('LabDecisionsData', TWIN), 'Allowance': ('AllowedData', TWIN), 'Saying': ('StatementData', TWIN),
    'SideValue': ('SideSettingData', TWIN), 'ClientValue': ('ClientSettingData', TWIN), 'ServerValue': ('ServerSettingData', TWIN),
    'Drafted': ('DraftData', TWIN),
    'party': ('config', CONFIG), 'parties': ('configs', CONFIG), 'LabParties': ('LabConfigs', CONFIG), 'SampleParties': ('SampleConfigs', CONFIG),
    'line_by': ('disposition_by', TABLE), 'line_reply': ('disposition_reply', TABLE), 'line_question': ('disposition_question', TABLE),
    'packet_lines': ('packet_dispositions', TABLE), 'ReachedData': ('CompletedMethodsData', COMPLETED), 'nothing_reached': ('none_completed', COMPLETED),
    'reached_after': ('completed_after', COMPLETED), 'has_reached': ('has_completed', COMPLETED), 'are_reached': ('are_completed', COMPLETED),
    'AreUnderstood': ('AreCompatible', COMPATIBLE), 'AreUnderstoodIn': ('AreCompatibleIn', COMPATIBLE),
    'tell_notice': ('give_notice', 'what a peer says to people is a notice'), 'sshsuites': ('sshlabsuites', 'it is insecure, so its name says what it is for'),
}
TERMS = {
    'shared number': ('shared secret, K', 'RFC 4253 section 8; in some methods it is bytes'),
}

# what stays: a file's path, the text that has the word, and why
KEPT = [
    (r'', r'for_good\b', 'it is for always'),
    (r'crates/sshwire/', r'\bMeaning\b', 'the file that says what readings claim'),
    (r'crates/', r'sshwire\.specs\.Meaning\b', 'the same'),
    (r'crates/sshwire/', r'\bEnding\b', 'how a line reader ended, which is private'),
    (r'docs/claims/', r'`Ending`', 'the same'),
    (r'crates/sshcore/proofs/seen/', r'\bWalked\.\{says\b', 'a name of the toolchain'),
]

# this file, which has the words themselves
OWN = 'scripts/pages_parts/words.py'
# what has comments as a shell's
SHELL = ('check', 'build', 'sshlab', 'crates.txt', 'scripts/crates_below')
NAME = re.compile(r'[A-Za-z_][A-Za-z0-9_]*')
WORDS_OF = re.compile(r'[A-Z]+(?![a-z])|[A-Z][a-z0-9]*|[a-z0-9]+')
PROSE = re.compile(r'\b(' + '|'.join(x.replace(' ', ' +') for x in TERMS) + r')\b', re.I)
QUOTED = re.compile(r'`(\w+)`')
# a line's end, with the lead of the next line
BREAK = re.compile(r'\n(?![ \t]*\n)[ \t]*(?:///|//!|//|--|#)?')


def told(word, table):
    """What is printed of a word: what is right in its place, and why."""
    right, why = table[word]
    return f'{word}: {right} is right ({why})'


def parts_of(path, text):
    """(kind, text) of a source: code, comment, or a text between quotes."""
    line, char = (r'//[^\n]*', r"|'(?:[^'\\\n]|\\.)'") if path.endswith(('.rt', '.rattle')) else (r'(?:(?<=\s)|^)--(?=\s|$)[^\n]*', '')
    pattern = rf'{line}(?:\n[ \t]*{line})*|"(?:[^"\\]|\\.)*"{char}'
    last = 0
    for m in re.finditer(pattern, text, re.M | re.S):
        yield 'code', text[last:m.start()]
        yield ('comment' if m[0][:2] in ('//', '--') else 'text'), m[0]
        last = m.end()
    yield 'code', text[last:]


def kept(path, text):
    """The text without what stays."""
    for where, what, _ in KEPT:
        if re.match(where, path):
            text = re.sub(what.replace(' ', ' +'), lambda m: ' ' * len(m[0]), text)
    return text


def in_code(path, text):
    """What is wrong with the names of some code."""
    for m in NAME.finditer(kept(path, re.sub(r'Rattle\.(?!ssh)[\w.]+(\.\{[^}]*\})?', '', text))):
        words = [x.lower() for x in WORDS_OF.findall(m[0])]
        whole = ' '.join(words)
        if m[0] in NAMES:
            yield m.start(), told(m[0], NAMES)
        for table in (PARTS, TERMS):
            yield from ((m.start(), f'{m[0]}: {told(x, table)}') for x in table if x in words or ' ' in x and x in whole)


def in_prose(path, text):
    """What is wrong with a prose text. A name between backticks is judged as a name alone."""
    text = kept(path, text)
    plain = BREAK.sub(lambda m: ' ' * len(m[0]), re.sub(r'`[^`\n]*`', lambda m: ' ' * len(m[0]), text))
    yield from ((m.start(), told(' '.join(m[0].lower().split()), TERMS)) for m in PROSE.finditer(plain))
    yield from ((m.start(), told(m[1], NAMES)) for m in QUOTED.finditer(text) if m[1] in NAMES)


def python_prose(text):
    """The comments and docstrings of a Python program, each with its place."""
    starts = [0]
    for line in text.splitlines(keepends=True):
        starts.append(starts[-1] + len(line))
    before = tokenize.NEWLINE
    for token in tokenize.generate_tokens(io.StringIO(text).readline):
        doc = token.type == tokenize.STRING and before in (tokenize.NEWLINE, tokenize.INDENT, tokenize.DEDENT)
        if token.type == tokenize.COMMENT or doc:
            yield starts[token.start[0] - 1] + token.start[1], token.string
        if token.type not in (tokenize.COMMENT, tokenize.NL):
            before = token.type


def judged_parts(path, text):
    """The parts of a file that are judged: the place of each, `in_code` or `in_prose`, and its text; None if the file isn't judged."""
    is_script = path.startswith(('scripts/', 'tools/'))
    if re.match(r'crates/.*\.(rt|antt)$|tools/.*\.rattle$', path):
        out, at = [], 0
        for kind, part in parts_of(path, text):
            out += [(at, in_code if kind == 'code' else in_prose, part)] if kind != 'text' else []
            at += len(part)
        return out
    if path.endswith('.edit'):
        lines = re.finditer(r'^(file|only|old|new|shows|form): ?(.*)$', text, re.M)
        blank = lambda x: re.sub(r'"(?:[^"\\]|\\.)*"|//.*', lambda m: ' ' * len(m[0]), x)
        return [(m.start(2), in_prose, m[2]) if m[1] in ('shows', 'form') else (m.start(2), in_code, blank(m[2])) for m in lines]
    if path.endswith('.md'):
        return [(0, in_prose, without_code(text))]
    if re.match(r'scenarios/.*\.txt$|cases/.*\.cases$', path) or path in SHELL or path.endswith('.sh'):
        return [(m.start(), in_prose, m[0]) for m in re.finditer(r'(?:^[ \t]*#.*\n?)+', text, re.M)]
    if path.endswith('.c'):
        return [(m.start(), in_prose, m[0]) for m in re.finditer(r'/\*.*?\*/', text, re.S)]
    if path.endswith('.py') or is_script and 'python' in text.split('\n')[0]:
        return [(at, in_prose, part) for at, part in python_prose(text)]
    return None


def wrong_in(path):
    """What is wrong with a file, as lines and words; None if it isn't judged."""
    text = '' if path == OWN else read(path)
    parts = judged_parts(path, text)
    if parts is None:
        return None
    return [(text.count('\n', 0, at + place) + 1, word) for at, judge, part in parts for place, word in judge(path, part)]


def judged(*_):
    lines, passed, failed = [], 0, 0
    for path in files():
        found = wrong_in(path)
        lines += [f'{path}:{line}: {word}' for line, word in found or ()]
        passed, failed = passed + (found == []), failed + bool(found)
    return lines, passed, failed

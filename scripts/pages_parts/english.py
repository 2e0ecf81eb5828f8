"""Judges that pages are short: a reader who opens one with a question finds the answer within a minute.

1. A page has at most as many lines as PAGES gives it.
2. A cell of a table has at most 200 characters, as a reader sees it: of a link its text, without marks.
3. A sentence has at most 40 words. Some code between backticks is one word.

Blocks of code are judged by 1 alone. Sentences and cells are counted.
"""
import re

from pages_parts import read, without_code

PAGES = {
    'README.md': 64, 'docs/USING.md': 200, 'docs/LAYERS.md': 120, 'docs/BINDINGS.md': 150, 'docs/ERRORS.md': 90,
    'docs/PROVED.md': 186, 'docs/AUDIT.md': 91, 'docs/VOCABULARY.md': 70, 'docs/NOTATION.md': 75, 'docs/PHASES.md': 60,
    'docs/ROWS.md': 340, 'docs/SSHAUTH.md': 310, 'docs/SSHLAB.md': 260, 'docs/HOSTILE.md': 115, 'docs/CASES.md': 70, 'docs/COURSE.md': 91,
    'docs/GATE.md': 137, 'docs/BENCH.md': 60, 'docs/MAINTAINING.md': 150, 'docs/DECISIONS.md': 200,
}
CELL, SENTENCE = 200, 40
MARK = re.compile(r'\*\*|(?<![\w*])\*(?=\S)|(?<=\S)\*(?![\w*])')
LEAD = re.compile(r'^\s*(?:#{1,6} |[-*] |\d+\. |> )')
END = re.compile(r'(?<=[.!?])[)"\'*]*\s+(?=[^a-z])')
CELLS = re.compile(r'(?<!\\)\|')


def seen(text):
    """A text as a reader sees it: of a link its text, without marks of bold and code."""
    return MARK.sub('', re.sub(r'\[([^\]]*)\]\([^)]*\)', r'\1', text)).replace('`', '').strip()


def sentences(text):
    """The sentences of a text, where some code is one word."""
    plain = MARK.sub('', re.sub(r'`[^`\n]*`', 'CODE', re.sub(r'\[([^\]]*)\]\([^)]*\)', r'\1', text)))
    return [x for x in END.split(plain) if x.strip()]


def cells_of(line):
    """The cells of a table's line, none of the line below its head."""
    blank = re.sub(r'`[^`\n]*`', lambda m: m[0].replace('|', ' '), line.strip())
    cells = [x.strip() for x in CELLS.split(blank)[1:-1]]
    return [] if all(re.fullmatch(r':?-+:?', x) for x in cells) else cells


def blocks(lines):
    """(first line's number, text) of each paragraph, item and heading."""
    block, begun = [], 0
    for number, line in enumerate([*lines, ''], 1):
        is_new = not line.strip() or line.startswith('|') or LEAD.match(line)
        if is_new and block:
            yield begun, ' '.join(block)
            block = []
        if line.strip() and not line.startswith('|'):
            begun = begun if block else number
            block.append(LEAD.sub('', line, count=1).strip())


def judged_page(page, limit):
    """How many sentences and cells of a page are short enough, and what is wrong with it."""
    text, passed, faults = read(page), 0, []
    lines = without_code(text).split('\n')
    if text.count('\n') > limit:
        faults.append(f'{page} has {text.count(chr(10))} lines, more than {limit}')
    cells = [(number, cell) for number, line in enumerate(lines, 1) if line.startswith('|') for cell in cells_of(line)]
    for number, cell in cells:
        passed += len(seen(cell)) <= CELL
        if len(seen(cell)) > CELL:
            faults.append(f'{page}:{number}: a cell of {len(seen(cell))} characters: {seen(cell)[:60]}')
    for number, block in [*blocks(lines), *cells]:
        for sentence in sentences(block):
            words = [x for x in sentence.split() if re.search(r'\w', x)]
            passed += len(words) <= SENTENCE
            if len(words) > SENTENCE:
                faults.append(f'{page}:{number}: a sentence of {len(words)} words: {" ".join(words)[:80]}')
    return passed, faults


def judged(*_):
    told, all_passed, all_faults = [], 0, []
    for page, limit in PAGES.items():
        passed, faults = judged_page(page, limit)
        all_passed, all_faults = all_passed + passed, all_faults + faults
    told.append(f'{len(PAGES)} pages')
    return told + [f'FAULT {it}' for it in all_faults], all_passed, len(all_faults)

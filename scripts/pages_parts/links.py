"""Judges what the pages link, and the files that pages, comments and scripts name.

1. Each link of README.md and docs/ leads to a file or a folder that is there. What follows a `#`, or stands in double quotes after the
   link, is a heading of that page.
2. A reader who begins at README.md reaches each page of docs/ by links.
3. A file between backticks in a page (`sshcore/src/end.rt`, `specs/Table.antt`, `sshcore/Table.antt`, `end.rt`) is one of crates/.
4. Each `docs/NAME.md`, `scripts/NAME` and `tools/NAME` in a tracked file is there.

Blocks of code aren't judged by 1 and 3, nor are the claim pages by 3, which are written from the sources. Links and named files are counted.
"""
import os
import re

from pages_parts import ROOT, files, found, read, without_code

LINK = re.compile(r'\[[^\]]*\]\(([^)\s]+)\)')
# a heading that is named after a link to its page
HEADING_AFTER = re.compile(r'\]\(([^)\s#]*\.md)\),? (?:under )?"([^"]+)"')
SPAN = re.compile(r'`([^`\n]+)`')
OF_CRATES = re.compile(r'[\w/]+\.(?:rt|antt)')
NAMED = re.compile(r'(?<![\w/.-])(?:(?:scripts|tools)/(?:[a-z_]\w*/)*[a-z_]\w*(?:\.[a-z]+\b)?|docs/[A-Z]+\.md\b)')


def pages():
    """All pages that git has, or would take."""
    return [path for path in files() if re.fullmatch(r'README\.md|docs/.*\.md', path)]


def anchor_of(words):
    return re.sub(r'[^\w\- ]', '', words.strip().lower()).replace(' ', '-')


def anchors(text):
    """The anchors of a page's headings, as they are made from their words."""
    made, counts = set(), {}
    for heading in re.findall(r'^#{1,6} (.*)$', re.sub(r'^```.*?^```$', '', text, flags=re.M | re.S), re.M):
        anchor = anchor_of(re.sub(r'\[([^\]]*)\]\([^)]*\)', r'\1', heading))
        counts[anchor] = counts.get(anchor, -1) + 1
        made.add(f'{anchor}-{counts[anchor]}' if counts[anchor] else anchor)
    return made


class Links:
    """The links of all pages: how many lead somewhere, what is wrong, and which page leads to which."""

    def __init__(self):
        self.texts = {page: read(page) for page in pages()}
        self.anchors = {page: anchors(text) for page, text in self.texts.items()}
        self.passed, self.faults, self.leads = 0, [], {page: set() for page in self.texts}
        for page, text in self.texts.items():
            plain = without_code(text)
            for m in LINK.finditer(plain):
                self.judge(page, plain.count('\n', 0, m.start()) + 1, m[1])
            for m in HEADING_AFTER.finditer(plain):
                self.judge(page, plain.count('\n', 0, m.start()) + 1, f'{m[1]}#{anchor_of(m[2])}')

    def judge(self, page, line, link):
        """Counts a link of a page."""
        if re.match(r'https?://', link):
            return
        path, _, anchor = link.partition('#')
        to = os.path.normpath(os.path.join(os.path.dirname(page), path)) if path else page
        if not os.path.exists(f'{ROOT}/{to}'):
            self.faults.append(f'{page}:{line}: {link} leads to no file')
        elif anchor and anchor not in self.anchors.get(to, ()):
            self.faults.append(f'{page}:{line}: {to} has no heading {anchor}')
        else:
            self.passed += 1
            self.leads[page].add(to)

    def lonely(self):
        """The pages to which no links lead from README.md. A link to a folder leads to its pages."""
        reached, waiting = set(), ['README.md']
        while waiting:
            page = waiting.pop()
            if page not in reached:
                reached.add(page)
                waiting += [other for other in self.texts for to in self.leads[page] if other == to or os.path.dirname(other) == to]
        return sorted(set(self.texts) - reached)


def sources_named(texts, faults):
    """How many files of crates/ the pages name that are there; a fault for each other."""
    there = found('crates/*/src/**/*.rt') + found('crates/*/specs/**/*.antt') + found('crates/*/proofs/**/*.antt')
    ends = {'/'.join(x.split('/')[-n:]) for x in there for n in range(1, x.count('/') + 2)}
    ends |= {x.removeprefix('crates/').replace('/specs/', '/') for x in there}
    passed = 0
    for page, text in texts.items():
        plain = without_code(text) if not page.startswith('docs/claims/') else ''
        for m in SPAN.finditer(plain):
            if not OF_CRATES.fullmatch(m[1]) or re.search(r'(?:^|/)[A-Z]+\b', m[1]):
                continue
            passed += m[1] in ends
            if m[1] not in ends:
                faults.append(f'{page}:{plain.count(chr(10), 0, m.start()) + 1}: no crate has a file {m[1]}')
    return passed


def others_named(faults):
    """How many pages, scripts and tools the tracked files name that are there; a fault for each other."""
    passed = 0
    for path in files():
        if path.startswith('docs/claims/'):
            continue
        with open(f'{ROOT}/{path}', encoding='utf-8', errors='replace') as file:
            text = file.read()
        for m in NAMED.finditer(text):
            is_there = os.path.exists(f'{ROOT}/{m[0]}') or m[0] == 'docs/NAME.md'
            passed += is_there
            if not is_there:
                faults.append(f'{path}:{text.count(chr(10), 0, m.start()) + 1}: there is no {m[0]}')
    return passed


def judged(*_):
    links, faults = Links(), []
    faults += links.faults + [f'no link leads from README.md to {page}' for page in links.lonely()]
    sources, others = sources_named(links.texts, faults), others_named(faults)
    told = f'{links.passed} links of {len(links.texts)} pages, {sources} files of crates and {others} pages and scripts that are named'
    return [told] + [f'FAULT {it}' for it in faults], links.passed + sources + others, len(faults)

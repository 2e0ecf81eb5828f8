"""The parts of scripts/pages, each a module with `judged(book, write)`: it returns the lines that it has to print, how much passed and
how much failed. `book` has the sources as statements.py reads them."""
import glob
import os
import re
import subprocess

ROOT = os.path.dirname(os.path.dirname(os.path.dirname(os.path.realpath(__file__))))
CODE_OF_PAGE = re.compile(r'^```.*?^```$|^ {4}[^\n]*$', re.M | re.S)


def read(path):
    with open(f'{ROOT}/{path}', encoding='utf-8') as file:
        return file.read()


def write_to(path, text):
    with open(f'{ROOT}/{path}', 'w', encoding='utf-8') as file:
        file.write(text)


def found(pattern):
    """The paths below the top that fit a pattern."""
    return sorted(os.path.relpath(x, ROOT) for x in glob.glob(f'{ROOT}/{pattern}', recursive=True))


def files():
    """The paths of all files that git has, or would take, and that are there."""
    words = ['git', 'ls-files', '-z', '--cached', '--others', '--exclude-standard']
    listed = subprocess.run(words, cwd=ROOT, stdout=subprocess.PIPE, check=True, text=True).stdout.split('\0')[:-1]
    return [path for path in listed if os.path.isfile(f'{ROOT}/{path}')]


def without_code(text):
    """A page's text with its blocks of code blank, line by line."""
    return CODE_OF_PAGE.sub(lambda m: re.sub(r'[^\n]', ' ', m[0]), text)

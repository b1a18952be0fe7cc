#!/usr/bin/env python3
"""Reads the examples of the documents: a document of the language, and what the program answers.

    ```isar
    the document
    ```

and after it, with nothing but text between, the report for the words `check`:

    ```report
    the report
    ```

Other words stand after `report`, and so does the exit status where it is other than 1 after a line that begins with
`refused ` and 0 else: ```report count, ```report check 1. A document may have several reports, and has one at least; what isn't to
be run is no block of this kind. Each file of examples/ is a document here, letter by letter.

    transcripts.py               lists the examples
    transcripts.py cases FOLDER  writes them as cases of `rt try --cases FOLDER`, in the crate of the program
"""
import os
import re
import sys

ROOT = os.path.dirname(os.path.dirname(os.path.abspath(__file__)))


class Example:
    """Where it stands, the words, the document, the report and the exit status."""

    def __init__(self, place, words, document, report, status):
        self.place, self.words, self.document, self.report, self.status = place, words, document, report, status


def pages():
    """The documents, README.md first."""
    return ['README.md'] + sorted('docs/' + it for it in os.listdir(os.path.join(ROOT, 'docs')) if it.endswith('.md'))


def text_of(file):
    with open(os.path.join(ROOT, file), encoding='utf-8') as it:
        return it.read()


def blocks(page):
    """The fenced blocks of a page: the line of the first fence, what stands after it, and the lines inside."""
    at, fence, lines = 0, None, []
    for number, line in enumerate(text_of(page).split('\n'), 1):
        if fence is None and line.startswith('```'):
            at, fence, lines = number, line[3:], []
        elif line == '```':
            yield at, fence.split(), ''.join(it + '\n' for it in lines)
            fence = None
        elif fence is not None:
            lines.append(line)
        elif re.match(r' +\$ .*isarvm (check|count)', line):
            raise ValueError('%s:%d: an example that is no block' % (page, number))
    if fence is not None:
        raise ValueError('%s:%d: a block that is not closed' % (page, at))


def examples():
    """All of them, in order. What isn't as it should be is a ValueError."""
    documents = []
    for page in pages():
        # the document, and its line where no report has come yet
        document, open_at = None, None
        for line, fence, text in blocks(page):
            if fence[:1] == ['isar']:
                if open_at is not None:
                    break
                document, open_at = text, line
                documents.append(text)
            elif fence[:1] == ['report']:
                if document is None:
                    raise ValueError('%s:%d: no document comes before this report' % (page, line))
                words, open_at = fence[1:2] or ['check'], None
                status = int(fence[2]) if fence[2:] else int(bool(re.search('^refused ', text, re.M)))
                yield Example('%s:%d' % (page, line), words, document, text, status)
        if open_at is not None:
            raise ValueError('%s:%d: no report comes after this document' % (page, open_at))
    for name in sorted(os.listdir(os.path.join(ROOT, 'examples'))):
        if text_of('examples/' + name) not in documents:
            raise ValueError('examples/%s: no document of the pages is this file' % name)


def write_cases(folder):
    for number, it in enumerate(examples(), 1):
        name = '%s/%02d-%s' % (folder, number, re.sub('[^a-zA-Z0-9]+', '-', it.place))
        for ending, text in (('', it.document), ('.args', ''.join(word + '\n' for word in it.words)), ('.stdout', it.report)):
            with open(name + ending, 'w', encoding='utf-8') as file:
                file.write(text)


if __name__ == '__main__':
    try:
        if sys.argv[1:2] == ['cases']:
            write_cases(sys.argv[2])
        else:
            for it in examples():
                print(it.place, *it.words, '->', it.status)
    except ValueError as error:
        sys.exit(str(error))

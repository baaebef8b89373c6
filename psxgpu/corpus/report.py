"""The report of a check: as text, as JUnit XML and as one page with the pictures."""
import base64
import html
import re
from typing import Sequence
from urllib.parse import quote
from xml.sax.saxutils import escape, quoteattr

from psxgpu.corpus.findings import Finding, Shown

PAGE = '''<!DOCTYPE html>
<html lang="en"><head><meta charset="utf-8"><meta name="viewport" content="width=device-width"><title>Corpus</title><style>
:root { color-scheme: light dark }
body { font: 15px/1.5 system-ui, sans-serif; margin: 0 auto; max-width: 70em; padding: 1em; overflow-wrap: anywhere }
section { border-top: 1px solid light-dark(#ccc, #444); padding: 1em 0 } h2 { font-size: 1em; margin: 0 }
pre { margin: 0.5em 0; white-space: pre-wrap } .kind { color: light-dark(#a00, #ff8a80) }
figure { display: inline-block; margin: 0 1em .5em 0; max-width: 100%%; vertical-align: top }
img { display: block; max-width: 100%%; image-rendering: pixelated; background: #000 }
figcaption { font-size: 12px; color: light-dark(#5d6675, #939cab) }
</style></head><body><h1>Corpus</h1>
<p>%s</p>
<p>Recorded by %s, played by %s.</p>
%s</body></html>
'''
FIGURE = '<figure><img alt="%s" width="%d" src="data:image/png;base64,%s"><figcaption>%s</figcaption></figure>\n'
MOST_SCALE, SHOWN_WIDTH = 8, 320    # of a picture: pixels of a cell, pixels of a row
SECTION = '<section><h2><span class="kind">%s</span> %s</h2>\n<pre>%s</pre>\n%s</section>\n'
NOT_IN_XML = re.compile('[^\t\n\r\x20-\ud7ff\ue000-\ufffd\U00010000-\U0010ffff]')


def counted(n: int) -> str:
    """Returns a number of captures as text."""
    return '%d capture%s' % (n, '' if n == 1 else 's')


def summary(findings: Sequence[Finding]) -> str:
    """Returns one line: how many captures there are, and how many of each kind."""
    kinds = [finding.kind for finding in findings]
    order = ['same'] + sorted(set(kinds) - {'same'})
    return '%s: %s' % (counted(len(kinds)), ', '.join('%d %s' % (kinds.count(kind), kind) for kind in order))


def text(findings: Sequence[Finding]) -> str:
    """Returns what differs, and the summary. It has no times: the same findings are the same text."""
    lines = []
    for finding in findings:
        if finding.kind != 'same':
            lines.append('%s %s' % (finding.kind, finding.name))
            lines += ['    ' + line for line in finding.lines]
    return '\n'.join(lines + [summary(findings), ''])


def plain(words: str) -> str:
    """Returns a text without what XML may not contain."""
    return NOT_IN_XML.sub('?', words)


def case(finding: Finding) -> str:
    """Returns a test case of JUnit XML."""
    folder, _, name = finding.name.rpartition('/')
    head = '  <testcase classname=%s name=%s time="%.3f"' % (quoteattr(plain(folder or '.')), quoteattr(plain(name)),
                                                             finding.seconds)
    if finding.kind == 'same':
        return head + '/>\n'
    element = 'error' if finding.kind in ('hangs', 'crashes', 'fails') else 'failure'
    message = quoteattr(plain(finding.lines[0] if finding.lines else finding.kind))
    return '%s>\n    <%s type=%s message=%s>%s</%s>\n  </testcase>\n' % (
        head, element, quoteattr(finding.kind), message, escape(plain('\n'.join(finding.lines))), element)


def junit(findings: Sequence[Finding]) -> str:
    """Returns the report as JUnit XML."""
    errors = sum(finding.kind in ('hangs', 'crashes', 'fails') for finding in findings)
    failures = sum(finding.kind != 'same' for finding in findings) - errors
    head = '<testsuite name="corpus" tests="%d" failures="%d" errors="%d" time="%.3f">\n' % (
        len(findings), failures, errors, sum(finding.seconds for finding in findings))
    return '<?xml version="1.0" encoding="UTF-8"?>\n%s%s</testsuite>\n' % (head, ''.join(map(case, findings)))


def figure(shown: Shown) -> str:
    """Returns a picture as HTML. A small one is enlarged."""
    width = int.from_bytes(shown.data[16:20], 'big')    # where a PNG has it
    scale = max(1, min(MOST_SCALE, SHOWN_WIDTH // width))
    title = html.escape(shown.title)
    return FIGURE % (title, scale * width, base64.b64encode(shown.data).decode('ascii'), title)


def links(finding: Finding) -> str:
    """Returns the files that a finding leads to, as HTML."""
    made = ['<a href="%s">%s</a>' % (quote(path), html.escape(path)) for path in finding.links]
    page = '<p><a href="%s">Open it in the viewer</a></p>\n' % quote(finding.page) if finding.page else ''
    return ('<p>The reduced capture: %s</p>\n' % ', '.join(made) if made else '') + page


def section(finding: Finding) -> str:
    """Returns what the page has of a finding."""
    return SECTION % (finding.kind, html.escape(plain(finding.name)), html.escape(plain('\n'.join(finding.lines))),
                      ''.join(map(figure, finding.pictures)) + links(finding))


def page(findings: Sequence[Finding], recorded: str, played: str) -> str:
    """Returns the report as a page. `recorded`, `played`: the players."""
    parts = [section(finding) for finding in findings if finding.kind != 'same']
    return PAGE % (summary(findings), html.escape(plain(recorded)), html.escape(plain(played)), ''.join(parts))

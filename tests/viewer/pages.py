"""Pages with recordings inside, made by `psxgpu page` of the viewer that is built."""
import os
import re

from tests import support
from tests.viewer.page import HERE, PAGE


def made(folder, *words):
    """The path of a page that the tool writes, within a folder."""
    path = os.path.join(folder, 'page.html')
    done = support.run_tool('page', *words, '-o', path, '--viewer', PAGE)
    assert done.returncode == 0, done.stderr
    return path


def loosened(path, folder):
    """The path of a copy of a page that runs also the scripts of a test. In Firefox, a test has no other way."""
    with open(path, encoding='utf-8') as file:
        text, count = re.subn(r"script-src ('sha256-[^']*' )+", "script-src 'unsafe-inline' ", file.read(), count=1)
    assert count == 1, 'the policy of %s names no script' % path
    copy = os.path.join(folder, 'loosened.html')
    with open(copy, 'w', encoding='utf-8') as file:
        file.write(text)
    return copy


def show(browser, path):
    """Opens a page, and waits until all is played."""
    browser.open(path)
    with open(os.path.join(HERE, 'probe.js'), encoding='utf-8') as file:
        browser.define(file.read())
    browser.evaluate('probe.begin()')
    browser.evaluate('probe.opened()')


# What is seen, as a list.
SEEN = '''[probe.app.recording.name, module_address.addressOf(probe.app.recording, probe.app.at),
    probe.viewer.views.name, probe.app.cell && [probe.app.cell.x, probe.app.cell.y], document.getElementById('note').textContent,
    document.getElementById('said').textContent]'''

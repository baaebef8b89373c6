"""The viewer in Chromium without a window, and the program beside it."""
import base64
import json
import os
import subprocess
import time
import unittest

from tests.web.browser import Browser

HERE = os.path.dirname(os.path.abspath(__file__))
ROOT = os.path.dirname(os.path.dirname(HERE))
PAGE = os.environ.get('VIEWER', os.path.join(ROOT, 'web', 'viewer.html'))
PLAYER = os.environ.get('PLAYER', os.path.join(ROOT, 'crates', 'psxgpu_tool', 'out', 'psxgpu_tool'))
EXAMPLES = os.path.join(ROOT, 'examples')


def program(*words, data):
    """What the program writes of a capture, and its first line on standard error."""
    done = subprocess.run([PLAYER, *words], input=data, capture_output=True, check=False)
    return done.stdout, done.stderr.decode().split('\n')[0]


def examples():
    for name in sorted(os.listdir(EXAMPLES)):
        if name.endswith('.capture'):
            with open(os.path.join(EXAMPLES, name), 'rb') as file:
                yield name, file.read()


class Page(Browser):
    """The viewer, open in a window of this size."""

    def __init__(self):
        if not os.path.exists(PAGE):
            raise unittest.SkipTest('no %s: make viewer' % os.path.basename(PAGE))
        super().__init__()

    def __enter__(self):
        super().__enter__()
        self.size(1400, 860)
        self.open(PAGE)
        with open(os.path.join(HERE, 'probe.js'), encoding='utf-8') as file:
            self.evaluate(file.read())
        self.evaluate('probe.begin()')
        return self

    def size(self, width, height):
        """Makes the window this large. Returns after the page has laid itself out anew."""
        self.call('Emulation.setDeviceMetricsOverride', width=width, height=height, deviceScaleFactor=1, mobile=False)
        self.until('innerWidth === %d && innerHeight === %d' % (width, height))
        # Observers of sizes are called between a frame's callbacks and those of the next frame.
        self.evaluate('new Promise(done => requestAnimationFrame(() => requestAnimationFrame(done)))')

    def ask(self, name, *values):
        """What a function of probe.js answers."""
        return self.evaluate('probe.%s(%s)' % (name, ', '.join(map(json.dumps, values))))

    def load(self, data, name='a.capture'):
        """Opens a capture: True, or the line that says why not."""
        return self.ask('open', name, base64.b64encode(data).decode())

    def choose(self, selector, path):
        """Chooses a file as the reader does."""
        document = self.call('DOM.getDocument')['root']['nodeId']
        node = self.call('DOM.querySelector', nodeId=document, selector=selector)['nodeId']
        self.call('DOM.setFileInputFiles', nodeId=node, files=[os.path.abspath(path)])

    def press(self, key, text=None, shift=False):
        """Presses and releases a key."""
        for kind in ('keyDown', 'keyUp'):
            more = {'text': text} if text and kind == 'keyDown' else {}
            self.call('Input.dispatchKeyEvent', type=kind, key=key, modifiers=8 * shift, **more)

    def write(self, text):
        """Writes a text, key by key."""
        for letter in text:
            self.press(letter, letter)

    def text(self, selector):
        """What an element says."""
        return self.evaluate('document.querySelector(%s).textContent' % json.dumps(selector))

    def click(self, selector):
        """Clicks an element as a script does."""
        self.evaluate('document.querySelector(%s).click()' % json.dumps(selector))

    def set(self, selector, value):
        """Gives a field a value, as if it was written and left."""
        self.evaluate('(() => { const field = document.querySelector(%s); field.value = %s; '
                      'field.dispatchEvent(new Event("input")); field.dispatchEvent(new Event("change")); })()'
                      % (json.dumps(selector), json.dumps(value)))

    def until(self, expression, seconds=60):
        """Waits until something holds."""
        end = time.time() + seconds
        while not self.evaluate(expression):
            if time.time() > end:
                raise AssertionError('not within %d s: %s' % (seconds, expression))
            time.sleep(0.02)

    def screenshot(self, path):
        with open(path, 'wb') as file:
            file.write(base64.b64decode(self.call('Page.captureScreenshot', format='png')['data']))

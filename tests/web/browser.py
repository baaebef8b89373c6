#!/usr/bin/env python3
"""Chromium without a window, driven through the pipe that it offers. Standard library alone.

    with Browser() as browser:
        browser.open('web/out/index.html')
        print(browser.evaluate('1 + 1'))

As a program it says whether there is a Chromium that starts: with status 0, or with 77 and a line.
"""
import json
import os
import pathlib
import shutil
import subprocess
import sys
import tempfile
import time
import unittest

NAMES = ('chromium', 'chromium-browser', 'google-chrome', 'google-chrome-stable')
FLAGS = ['--headless=new', '--disable-gpu', '--no-first-run', '--disable-extensions', '--disable-dev-shm-usage',
         '--remote-debugging-pipe']
# Chromium refuses its sandbox to the superuser.
FLAGS += ['--no-sandbox'] * (os.geteuid() == 0)
# Chromium reads commands from descriptor 3 and writes answers to descriptor 4.
AS_SERVANT = 'exec "$0" "$@" 3<&0 4>&1 < /dev/null > /dev/null'


def chromium():
    """The path of Chromium, or None. The environment's CHROMIUM goes first."""
    named = os.environ.get('CHROMIUM')
    return next(filter(None, map(shutil.which, [named] if named else NAMES)), None)


class Failed(Exception):
    """What the browser or the page says went wrong."""


class Browser:
    """One page. `evaluate` gives the value of an expression there; a promise is waited for."""

    def __init__(self):
        if not chromium():
            raise unittest.SkipTest('no Chromium')
        self.folder = tempfile.TemporaryDirectory(ignore_cleanup_errors=True)
        words = ['sh', '-c', AS_SERVANT, chromium(), *FLAGS, '--user-data-dir=' + self.folder.name, 'about:blank']
        self.process = subprocess.Popen(words, stdin=subprocess.PIPE, stdout=subprocess.PIPE,
                                        stderr=subprocess.DEVNULL)
        self.number, self.session, self.rest = 0, None, b''
        self.session = self.call('Target.attachToTarget', targetId=self.page(), flatten=True)['sessionId']

    def close(self):
        self.process.stdin.close()
        try:
            self.process.wait(10)
        except subprocess.TimeoutExpired:
            self.process.kill()
            self.process.wait()
        self.process.stdout.close()
        self.folder.cleanup()

    def __enter__(self):
        return self

    def __exit__(self, *_):
        self.close()

    def page(self):
        for _ in range(100):
            for target in self.call('Target.getTargets')['targetInfos']:
                if target['type'] == 'page':
                    return target['targetId']
            time.sleep(0.1)
        raise Failed('no page')

    def message(self):
        """The next message of the browser. Each ends with a zero byte."""
        while b'\0' not in self.rest:
            more = self.process.stdout.read1(1 << 20)
            if not more:
                raise Failed('the browser ended')
            self.rest += more
        one, _, self.rest = self.rest.partition(b'\0')
        return json.loads(one)

    def call(self, method, **params):
        self.number += 1
        words = {'id': self.number, 'method': method, 'params': params}
        if self.session and not method.startswith(('Target.', 'SystemInfo.')):
            words['sessionId'] = self.session
        try:
            self.process.stdin.write(json.dumps(words).encode() + b'\0')
            self.process.stdin.flush()
        except BrokenPipeError:
            raise Failed('the browser ended') from None
        while True:
            answer = self.message()
            if answer.get('id') == self.number:
                if 'error' in answer:
                    raise Failed(answer['error']['message'])
                return answer['result']

    def open(self, path):
        """Opens a file, and waits until it is there."""
        self.call('Page.navigate', url=pathlib.Path(path).resolve().as_uri())
        while self.evaluate('document.readyState') != 'complete':
            time.sleep(0.05)

    def define(self, text):
        """Runs a script as one of the page's own: what it declares stays."""
        self.evaluate(text)

    def evaluate(self, expression, repl=False):
        """`repl` takes lines as a console does: `await` and `const` at the top of each."""
        answer = self.call('Runtime.evaluate', expression=expression, awaitPromise=True, returnByValue=True,
                           replMode=repl)
        if 'exceptionDetails' in answer:
            told = answer['exceptionDetails']
            raise Failed(told.get('exception', {}).get('description') or told['text'])
        return answer['result'].get('value')


def main():
    if not chromium():
        print('skipped: no Chromium')
        return 77
    try:
        with Browser() as browser:
            browser.evaluate('1 + 1')
        return 0
    except Failed as bad:
        print('skipped: %s does not start: %s' % (chromium(), bad))
    return 77


if __name__ == '__main__':
    sys.exit(main())

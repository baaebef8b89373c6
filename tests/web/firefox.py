#!/usr/bin/env python3
"""Firefox without a window, driven by its own protocol (Marionette). Standard library alone.

    with Firefox() as browser:
        browser.open('web/out/index.html')
        print(browser.evaluate('1 + 1'))

As a program it says whether there is a Firefox that starts: with status 0, or with 77 and a line.
"""
import json
import os
import pathlib
import shutil
import socket
import subprocess
import sys
import tempfile
import time
from types import TracebackType
from typing import Any, Optional, Type

NAMES = ('firefox-esr', 'firefox')
SECONDS = 300           # until Firefox takes commands
LONGEST_SCRIPT = 600    # seconds
# Of the profile: the port is a free one, which a file of the profile has; no page of the maker is asked for.
SETTINGS = {
    'marionette.port': 0, 'app.update.disabledForTesting': True, 'datareporting.policy.dataSubmissionEnabled': False,
    'browser.startup.homepage_override.mstone': 'ignore', 'network.captive-portal-service.enabled': False,
    'network.connectivity-service.enabled': False, 'services.settings.server': '', 'toolkit.telemetry.enabled': False,
}
# A script of the page sees what its other scripts declare. It needs no eval, which a page may forbid.
DEFINE = "document.head.append(Object.assign(document.createElement('script'), { text: arguments[0] }));"
EVALUATE = 'window.answer = (async () => (%s))().then(value => [true, value], bad => [false, String(bad)]);'
ANSWER = "if (window.answer) window.answer.then(arguments[0]); else arguments[0]([false, 'not an expression']);"


def firefox() -> Optional[str]:
    """Returns the path of Firefox, or None. The environment's FIREFOX is taken first."""
    named = os.environ.get('FIREFOX')
    return next(filter(None, map(shutil.which, [named] if named else NAMES)), None)


class Failed(Exception):
    """An error of the browser or of the page."""


class Firefox:
    """One page. `evaluate` returns the value of an expression there; a promise is waited for."""

    def __init__(self) -> None:
        self.folder = tempfile.TemporaryDirectory(ignore_cleanup_errors=True)
        with open(os.path.join(self.folder.name, 'user.js'), 'w', encoding='utf-8') as file:
            file.writelines('user_pref("%s", %s);\n' % (name, json.dumps(value)) for name, value in SETTINGS.items())
        words = [firefox() or NAMES[0], '--headless', '--no-remote', '--marionette', '--profile', self.folder.name,
                 'about:blank']
        self.process = subprocess.Popen(words, stdin=subprocess.DEVNULL, stdout=subprocess.DEVNULL,
                                        stderr=subprocess.DEVNULL)
        self.number = 0
        try:
            self.socket = socket.create_connection(('127.0.0.1', self.port()), LONGEST_SCRIPT)
            self.stream = self.socket.makefile('rb')
            self.message()
            self.call('WebDriver:NewSession')
            self.call('WebDriver:SetTimeouts', script=1000 * LONGEST_SCRIPT)
        except (OSError, Failed):
            self.end()
            raise

    def __enter__(self) -> 'Firefox':
        return self

    def __exit__(self, kind: Optional[Type[BaseException]], why: Optional[BaseException],
                 where: Optional[TracebackType]) -> None:
        self.close()

    def close(self) -> None:
        """Ends Firefox."""
        try:
            self.call('Marionette:Quit', flags=['eForceQuit'])
        except (OSError, Failed):
            pass
        self.stream.close()
        self.socket.close()
        self.end()

    def end(self) -> None:
        """Waits for the end of the process, and removes its profile."""
        try:
            self.process.wait(10)
        except subprocess.TimeoutExpired:
            self.process.kill()
            self.process.wait()
        self.folder.cleanup()

    def port(self) -> int:
        """Returns the port that Firefox chose, when it has."""
        path, last = os.path.join(self.folder.name, 'MarionetteActivePort'), time.time() + SECONDS
        while time.time() < last and self.process.poll() is None:
            if os.path.exists(path):
                with open(path, encoding='ascii') as file:
                    text = file.read()
                if text:
                    return int(text)
            time.sleep(0.05)
        self.process.kill()
        raise Failed('Firefox takes no commands')

    def message(self) -> Any:
        """Returns the next message: its length in decimal digits, a colon, and JSON."""
        length = b''
        while not length.endswith(b':'):
            byte = self.stream.read(1)
            if not byte:
                raise Failed('Firefox ended')
            length += byte
        return json.loads(self.stream.read(int(length[:-1])))

    def call(self, command: str, **params: Any) -> Any:
        """Sends a command and returns its result."""
        self.number += 1
        data = json.dumps([0, self.number, command, params]).encode()
        self.socket.sendall(b'%d:%s' % (len(data), data))
        _, _, error, result = self.message()
        if error:
            raise Failed(error['message'])
        return result

    def open(self, path: str) -> None:
        """Opens a file and waits until it is loaded."""
        self.call('WebDriver:Navigate', url=pathlib.Path(path).resolve().as_uri())

    def define(self, text: str) -> None:
        """Runs a script as one of the page's own: what it declares stays."""
        self.call('WebDriver:ExecuteScript', script=DEFINE, args=[text], sandbox=None)

    def evaluate(self, text: str) -> Any:
        """Returns the value of an expression in the page."""
        self.define('window.answer = null;')
        self.define(EVALUATE % text)
        is_done, value = self.call('WebDriver:ExecuteAsyncScript', script=ANSWER, args=[], sandbox=None)['value']
        if not is_done:
            raise Failed(value)
        return value


def main() -> int:
    """Says whether Firefox starts."""
    if not firefox():
        print('skipped: no Firefox')
        return 77
    try:
        with Firefox() as browser:
            browser.evaluate('1 + 1')
        return 0
    except (OSError, Failed) as bad:
        print('skipped: %s does not start: %s' % (firefox(), bad))
    return 77


if __name__ == '__main__':
    sys.exit(main())

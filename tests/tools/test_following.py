"""The server of `psxgpu view --follow`: what it gives to its page, and what it refuses."""
import http.client
import os
import time
import unittest
from unittest import mock

from tests import support
from tests.tools.test_page import SMALL
from psxgpu.viewing import following
from psxgpu.viewing.place import Place

DATA = b'PSXGPUC2' + bytes(range(100))


class Following(support.InFolder):
    def setUp(self):
        super().setUp()
        self.file = self.write('game.capture', DATA)
        viewer = SMALL if isinstance(SMALL, str) else SMALL.decode()
        text = viewer.replace('<!doctype html>\n', "<!doctype html>\n<meta content=\"default-src 'none'; img-src data:\">", 1)
        self.server = following.server_of(self.file, text, Place(), '')
        self.enterContext(self.server.running_in_thread())

    def ask(self, path, headers=None, method='GET'):
        """The status, the stamp and the bytes of an answer. `headers` replace those of a browser."""
        connection = http.client.HTTPConnection(*self.server.server_address, timeout=20)
        self.addCleanup(connection.close)
        connection.putrequest(method, path, skip_host=True)
        for name, value in {'Host': self.server.host, **(headers or {})}.items():
            if value is not None:
                connection.putheader(name, value)
        connection.endheaders()
        answer = connection.getresponse()
        return answer.status, answer.getheader('ETag'), answer.read()

    def bytes_from(self, begin, seen=''):
        return self.ask('%sbytes?from=%d&seen=%s' % (self.server.path, begin, seen))

    def test_the_page(self):
        status, _, data = self.ask(self.server.path, {'Sec-Fetch-Site': 'none'})
        self.assertEqual((status, data.count(b"default-src 'none'; connect-src 'self'; img-src")), (200, 1))

    def test_the_bytes(self):
        status, seen, data = self.bytes_from(3)
        self.assertEqual((status, data), (200, DATA[3:]))
        with mock.patch.object(following, 'WAIT', 0.05):
            self.assertEqual(self.bytes_from(108, seen)[0], 204)
        with open(self.file, 'ab') as file:
            file.write(b'more')
        self.assertEqual(self.bytes_from(108, seen)[2], b'more')
        os.remove(self.file)
        self.assertEqual(self.bytes_from(108, seen)[1:], ('0', b''))

    def test_long_answers_are_parted(self):
        with mock.patch.object(following, 'MOST', 10):
            self.assertEqual(self.bytes_from(0), (200, None, DATA[:10]))

    def test_what_is_refused(self):
        """Other hosts and origins, pages of other sites, other paths, other methods."""
        page, port = self.server.path, self.server.server_address[1]
        for headers in ({'Host': 'evil.example:%d' % port}, {'Host': 'localhost:%d' % port}, {'Host': '127.0.0.1'},
                        {'Host': None}, {'Origin': 'http://evil.example'}, {'Origin': 'null'},
                        {'Origin': 'http://127.0.0.1:1'}, {'Sec-Fetch-Site': 'cross-site'}, {'Sec-Fetch-Site': 'same-site'}):
            for path in (page, page + 'bytes?from=0&seen='):
                with self.subTest(headers=headers, path=path[-5:]):
                    self.assertEqual(self.ask(path, headers)[::2], (403, b'Forbidden\n'))
        for path in ('/', '/bytes?from=0&seen=', page[:-1], page + 'x', page + '../', '/' + 'A' * 32 + '/', page + 'bytes/',
                     page + '?a', page + '%2e%2e/etc/passwd', '//etc/passwd', page + self.file):
            self.assertEqual(self.ask(path)[::2], (404, b'Not Found\n'), path)
        for query in ('', 'from=-1&seen=', 'from=1', 'from=0&seen=&a=1', 'from=0&seen=/', 'from=' + '9' * 16 + '&seen='):
            self.assertEqual(self.ask(page + 'bytes?' + query)[::2], (400, b'Bad Request\n'), query)
        for method in ('POST', 'PUT', 'HEAD', 'OPTIONS', 'DELETE'):
            self.assertEqual(self.ask(page, method=method)[0], 501)

    def test_it_ends_when_the_page_is_gone(self):
        self.assertFalse(self.server.is_left())
        self.bytes_from(0)
        with mock.patch.object(following, 'GONE', 0.2):
            time.sleep(0.3)
            self.assertTrue(self.server.is_left())
            self.server.wait()


class Refused(support.InFolder):
    """What cannot be followed."""

    def test_each(self):
        packed = self.write('a.capture.gz', b'\x1f\x8b\x08' + bytes(20))
        plain, viewer = self.write('a.capture', DATA), self.write('viewer.html', SMALL)
        for words, line in (([packed], '%s: packed: unpack it to follow it' % packed),
                            ([os.devnull], '/dev/null: not a regular file: only such a file can be followed'),
                            (['-'], 'standard input cannot be followed: name a file'),
                            ([self.path('no')], '%s: No such file or directory' % self.path('no')),
                            ([plain, plain], '--follow takes one file'),
                            ([plain, '--at', '3'], '--follow shows the last frame: leave out --at and --frame')):
            done = support.run_tool('view', '--follow', *words, '--viewer', viewer)
            self.assertEqual((done.returncode, done.stderr), (2, 'psxgpu view: %s\n' % line))


if __name__ == '__main__':
    unittest.main()

"""The library and the browser's module as players of the benchmark."""
import base64
import os
import struct
import subprocess
import sys

ROOT = os.path.dirname(os.path.dirname(os.path.abspath(__file__)))

# The words are in the module's memory; `begin` plays those of the start, `work` the others.
IN_PAGE = '''
let at = null, count, start, machine = null;
function prepare(text, words) {
    if (machine) { machine.close(); library.give(at); }
    const bytes = Uint8Array.from(atob(text), letter => letter.charCodeAt(0));
    at = library.take(bytes.length);
    library.bytes(at, bytes.length).set(bytes);
    [count, start, machine] = [BigInt(bytes.length / 4), BigInt(words), library.machine()];
}
function begin() { machine.clear(); machine.do('gp0_words', at, start); }
function work() { machine.do('gp0_words', at + 4n * start, count - start); }
'''


def library_players(folder):
    """The library in blocks, word by word and with notes, as players."""
    subprocess.run(['make', '-s', 'lib'], cwd=ROOT, check=True)
    path = os.path.join(folder, 'library')
    subprocess.run([os.environ.get('CC', 'cc'), '-std=c99', '-O2', '-I', os.path.join(ROOT, 'c'),
                    os.path.join(ROOT, 'bench', 'library.c'), os.path.join(ROOT, 'out', 'libpsxgpu.a'), '-o', path],
                   check=True)
    return [('library', path), ('word by word', path + ' words'), ('with notes', path + ' notes')]


def thread_seconds(browser):
    """The processor time of the threads that run pages, as Linux tells it."""
    pages = [it['id'] for it in browser.call('SystemInfo.getProcessInfo')['processInfo'] if it['type'] == 'renderer']
    times = []
    for page in pages:
        with open('/proc/%d/task/%d/schedstat' % (page, page)) as file:
            times.append(int(file.read().split()[0]))
    return sum(times) / 1e9


def best_of(browser, rotations):
    best = float('inf')
    for _ in range(rotations):
        browser.evaluate('begin()')
        before = thread_seconds(browser)
        browser.evaluate('work()')
        best = min(best, thread_seconds(browser) - before)
    return best


def browser_seconds(workloads, scale, rotations):
    """Of each workload the processor time that the module takes in Chromium, the best of the rotations."""
    from tests.web.browser import Browser, chromium
    if not chromium():
        sys.exit('bench: no Chromium')
    subprocess.run(['make', '-s', 'web'], cwd=ROOT, check=True)
    found = []
    with Browser() as browser:
        browser.open(os.path.join(ROOT, 'web', 'out', 'index.html'))
        browser.evaluate('ready.then(() => true)')
        browser.evaluate(IN_PAGE)
        for workload in workloads:
            words = workload.words(max(1, int(workload.count * scale)))
            text = base64.b64encode(struct.pack('<%dI' % len(words), *words)).decode()
            browser.evaluate("prepare('%s', %d)" % (text, len(workload.start)))
            found.append(best_of(browser, rotations))
    return found

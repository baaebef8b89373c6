"""What must come of a run in which a call fails. Each function judges `now`, such a run, by `was`, the same run without
a fault, and returns what is wrong: an empty text if nothing is."""


def is_part(part, whole):
    return len(part) < len(whole) and whole.startswith(part)


def as_it_was(was, now):
    same = (now.status, now.out, now.err) == (was.status, was.out, was.err)
    return '' if same else 'status %d, err %r' % (now.status, now.err[:60])


def without_memory(was, now):
    if now.calls['memory'] > was.calls['memory'] and not as_it_was(was, now):
        return ''
    if now.status != 5 or now.err != b'psxgpu: memory\n':
        return 'status %d, err %r' % (now.status, now.err[:60])
    return 'it read or wrote' if now.out or now.calls['read'] else ''


def without_read(was, now):
    if now.status != 3 or not now.err.startswith(b'psxgpu: read-fault at event '):
        return 'status %d, err %r' % (now.status, now.err[:60])
    return '' if was.out.startswith(now.out) else 'out is not a part of what is written else'


def without_write(was, now):
    if now.status != 4 or not now.err.startswith(b'psxgpu: write-fault at event '):
        return 'status %d, err %r' % (now.status, now.err[:60])
    return '' if is_part(now.out, was.out) else 'out is no proper part of what is written else'


def without_error(was, now):
    return '' if (now.status, now.out) == (was.status, was.out) else 'status %d' % now.status


def full_disk(was, now, room, event):
    """Judges a run on a full disk; event is None where it is not known."""
    line = b'psxgpu: write-fault at event '
    if now.status != 4 or not now.err.startswith(line):
        return 'status %d, err %r' % (now.status, now.err[:60])
    if now.out != was.out[:room]:
        return 'out has not exactly the bytes for which there was room'
    said = int(now.err[len(line):].split(b'\n')[0])
    return '' if event in (None, said) else 'event %d, and the byte is due at %d' % (said, event)


JUDGES = {'memory': without_memory, 'read': without_read, 'write': without_write, 'error': without_error}

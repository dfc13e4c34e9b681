"""Builds that are killed, or that find files beside OUT: OUT is whole, files of a user stay, and what builds left goes."""
import fcntl
import os
import resource
import signal
import subprocess
import time

from .cases import FEW, PATIENCE, RUN, SEALED_FEW, held_in, here, holds, left_in, lines_of, on_full_disk, put, run, said, start
from .formats import sealed


def test_files_beside():
    """Files of a user whose names are such as the program gives, or gave before: they stay, however a build ends."""
    target, user = here('target'), {}
    for name in ['target.0.tmp', 'target.3.tmp', 'target.42.tmp', 'target.99.tmp', '.target', '.target.tmp', '.target.zerotrie-1-1',
                 f'.target.zerotrie-{os.getpid()}-0']:
        user[name] = sealed(0, b'a\x81') if name.endswith('3.tmp') else f'{name} is of the user'.encode()
        put(name, user[name])

    def stay():
        return {name: held_in(here(name)) for name in os.listdir(RUN.room) if name != 'target'} == user

    for name, words, status, told, given in [
            ('OUT is new', ['-'], 0, b'', FEW), ('OUT is there', ['-'], 0, b'', FEW),
            ('a refused build', ['-'], 1, b'lines 1 and 2', b'a\t1\na\t2\n'), ('a missing input', [here('missing')], 3, b'missing', b'')]:
        holds(f'files beside it, {name}', ['build', *words, '-o', target], b'', status, told, given)
        said(f'files beside it, {name}: {os.listdir(RUN.room)}', stay())
    holds('files beside it, a union', ['union', target, target, '-o', here('target.3.tmp')], b'', 0)
    put('target.3.tmp', user['target.3.tmp'])
    ran = on_full_disk(target)
    said(f'files beside it, a disk that is full: {ran.returncode}, {ran.stderr!r}, {os.listdir(RUN.room)}', ran.returncode == 3 and stay())
    # (-q, as one may take a file whose lock is not there yet for one that a killed build left, and say that it removed it)
    builds = [start(['build', '-', '-o', target, '-q']) for _ in range(8)]
    for build in builds:
        build.stdin.write(FEW)
        build.stdin.close()
    said('eight builds at once', [build.wait() for build in builds] == [0] * 8)
    said(f'eight builds at once: {os.listdir(RUN.room)}', stay() and held_in(target) == SEALED_FEW)


def killed(path, big, sent):
    """Sends a signal to a build when its new file appears, or after it has ended, and returns whether it was seen."""
    child = start(['build', '-', '-o', path], stderr=subprocess.DEVNULL)
    try:
        child.stdin.write(big)
        child.stdin.close()
    except BrokenPipeError:
        pass
    before, end = left_in(RUN.room), time.time() + PATIENCE
    while child.poll() is None and left_in(RUN.room) == before and time.time() < end:
        time.sleep(0.0005)
    seen = left_in(RUN.room) != before
    child.send_signal(sent)
    try:
        child.wait(PATIENCE)
    except subprocess.TimeoutExpired:
        said(f'a build that was interrupted by {sent} hangs: {held_in(f"/proc/{child.pid}/status")!r}', False)
        child.kill()
        child.wait()
    return seen


def test_interrupted():
    """Interrupts builds when the new file appears: OUT is whole, files of a user stay, and the next build removes what is left."""
    big = lines_of((b'%x/key' % n, n) for n in range(200000))
    target, user = here('target'), put('target.0.tmp', b'of the user')
    whole = [run(['build', '-', '-o', '-'], content).stdout for content in [FEW, big]]
    holds('a build before the interrupts', ['build', '-', '-o', target], b'', 0, given=FEW)
    seen = most = 0
    for sent in [signal.SIGINT, signal.SIGTERM, signal.SIGHUP, signal.SIGKILL, signal.SIGQUIT, signal.SIGXFSZ]:
        for words, told in [([], True), (['-q'], False)]:
            seen += killed(target, big, sent)
            said(f'a build that was interrupted by {sent}: OUT is another', held_in(target) in whole)
            left = left_in(RUN.room)
            most = max(most, len(left))
            said(f'a build that was interrupted by {sent}: {left}',
                 len(left) <= 1 and sorted(os.listdir(RUN.room)) == sorted(['target', 'target.0.tmp', *left]))
            line = target.encode() + b': removed 1 file that killed builds left\n' if left and told else b''
            holds(f'a build after {sent}, {words}', ['build', '-', '-o', target, *words], b'', 0, line, FEW)
            said(f'a build after {sent}: OUT is another', held_in(target) == whole[0])
            said(f'a build after {sent}: {os.listdir(RUN.room)}', not left_in(RUN.room))
    said(f'builds that were interrupted as they wrote: {seen} of 12, {most} left', seen > 0 and most > 0)
    for length in [0, 4, 10, 4096]:
        ran = run(['build', '-', '-o', target], big, stderr=subprocess.DEVNULL,
                  preexec_fn=lambda: resource.setrlimit(resource.RLIMIT_FSIZE, (length, length)))
        said(f'a build of a file that may have {length} bytes: {ran.returncode}', ran.returncode != 0 and len(left_in(RUN.room)) <= 1)
        run(['union', target, target, '-o', target, '-q'])
        said(f'a union after a file that may have {length} bytes: {os.listdir(RUN.room)}', not left_in(RUN.room))
    said('a build after interrupts: a file of the user is another', held_in(user) == b'of the user')


def test_left_files():
    """Files that killed builds left, and such as look alike: the first go, the others stay."""
    front = sealed(0, b'ad\x81')[:8]
    goes = {'.t.zerotrie-9892-1387828229': front + bytes(999), '.t.zerotrie-1-1': b'', '.t.zerotrie-1-2': front[:5]}
    stays = {'.t.zerotrie-1-3': b'precious', '.t.zerotrie-1-4': b'\xc2ab\x01\x81\x82', '.t.zerotrie-1-12': front[:7] + b'x',
             **dict.fromkeys(['.t.zerotrie-1-6', '.t.zerotrie-1-8', '.t.zerotrie-x-1', '.t.zerotrie-1', '.t.zerotrie', 't.zerotrie-1-1',
                              '.t.zerotrie-1-5~', '.other.zerotrie-1-1', '..t.zerotrie-1-1'], front)}
    for name, held in {**goes, **stays, 't': FEW}.items():
        put(name, held)
    out, link = here('t'), here('link')
    os.symlink('t', link)
    os.symlink('t', here('.t.zerotrie-1-7'))
    os.mkfifo(here('.t.zerotrie-1-9'))
    os.mkdir(here('.t.zerotrie-1-10'))
    os.link(here('.t.zerotrie-1-8'), here('second'))
    with open(here('.t.zerotrie-1-6'), 'rb') as busy:
        fcntl.flock(busy, fcntl.LOCK_EX)
        before = set(os.listdir(RUN.room))
        holds('left files beside the file of a link', ['build', '-', '-o', link], b'', 0,
              link.encode() + b': removed 3 files that killed builds left\n', FEW)
        after = set(os.listdir(RUN.room))
        said(f'left files: {before - after}', before - after == set(goes) and after <= before)
        for name, held in stays.items():
            said(f'left files: {name} is another', held_in(here(name)) == held)
    holds('a left file whose lock is free again', ['build', '-', '-o', out], b'', 0,
          out.encode() + b': removed 1 file that killed builds left\n', FEW)
    said('a left file whose lock is free again is there', not os.path.exists(here('.t.zerotrie-1-6')))
    holds('no left file', ['build', '-', '-o', out], b'', 0, given=FEW)

"""What the checks of soxchain-job share: files of all kinds laid out in a folder, what stands there, and a job that was stopped."""
import os
import resource
import shutil
import signal
import stat
import subprocess
import sys

import sounds

sys.path.insert(0, os.path.join(sounds.TOP, 'examples', 'archive'))
from xxh64 import Xxh64

JOB = sounds.built('soxchain-job')
# What the names of the files of a job have after OUT. A record may have another name.
ENDINGS = ('', '.part', '.job', '.job.new', '.job.lock', '.job.json', '.job.json.new')
OWN = tuple(f'out.wav{ending}' for ending in ENDINGS)
# Those that a job which has ended does not leave.
TEMPORARY = tuple(name for name in OWN if name not in ('out.wav', 'out.wav.job.json'))
MAKE = {
    'file': lambda path, data: sounds.keep(path, data),
    'link': lambda path, target: os.symlink(target, path),
    'hard': lambda path, name: os.link(os.path.join(os.path.dirname(path), name), path),
    'folder': lambda path: os.mkdir(path),
    'fifo': lambda path: os.mkfifo(path),
    # (that of /dev/null)
    'device': lambda path: os.mknod(path, stat.S_IFCHR | 0o600, os.makedev(1, 3)),
}


def lay(folder, pieces):
    """Makes each piece: ('file', NAME, BYTES), ('link', NAME, TARGET), ('hard', NAME, FILE), ('folder', NAME), ('fifo', NAME) or ('device', NAME)."""
    for kind, name, *rest in pieces:
        path = os.path.join(folder, name)
        if os.path.lexists(path):
            os.remove(path)
        MAKE[kind](path, *rest)


def standing(path):
    """What stands at a path, without following a link: its kind, its numbers, its times, and what it holds; None where nothing does."""
    if not os.path.lexists(path):
        return None
    found = os.lstat(path)
    held = None
    if stat.S_ISREG(found.st_mode):
        held = sounds.content(path)
    elif stat.S_ISLNK(found.st_mode):
        held = os.readlink(path)
    return found.st_mode, found.st_uid, found.st_ino, found.st_nlink, found.st_mtime_ns, found.st_ctime_ns, held


def states(folder):
    """What stands in a folder, and in those in it, by its name."""
    found = {}
    for place, folders, files in os.walk(folder):
        for name in folders + files:
            path = os.path.join(place, name)
            found[os.path.relpath(path, folder)] = standing(path)
            # A folder's times tell of a lock that was there for a moment.
            if name in folders and not os.path.islink(path):
                found[os.path.relpath(path, folder)] = found[os.path.relpath(path, folder)][:3]
    return found


def changed(before, after):
    """The names whose state differs."""
    return sorted(name for name in before.keys() | after.keys() if before.get(name) != after.get(name))


def refuse_more_than(size):
    """Makes each write beyond so many bytes of a file fail, as on a full disk."""
    def limit():
        signal.signal(signal.SIGXFSZ, signal.SIG_IGN)
        resource.setrlimit(resource.RLIMIT_FSIZE, (size, resource.RLIM_INFINITY))
    return limit


def left_in(folder):
    """Names that a job which has ended does not leave."""
    return [name for name in TEMPORARY if os.path.lexists(os.path.join(folder, name))]


def has_ptrace():
    """Whether strace can be had and may trace. Where it is not installed, and apt-get can install it, it does."""
    if not shutil.which('strace') and shutil.which('apt-get') and os.getuid() == 0:
        for words in (['update'], ['install', '-y', '--no-install-recommends', 'strace']):
            subprocess.run(['apt-get', *words], stdin=subprocess.DEVNULL, capture_output=True, check=False)
    if not shutil.which('strace'):
        return False
    return subprocess.run(['strace', '-o', os.devnull, 'true'], capture_output=True, check=False).returncode == 0


def xxh64(data):
    """The XXH64 of these bytes, as a record has it."""
    digest = Xxh64()
    digest.update(data)
    return digest.hexdigest()

"""What the checks share: sounds as bytes, heads as they are read, running a program, and counting expectations."""
import os
import shlex
import struct
import subprocess

TOP = os.path.dirname(os.path.dirname(os.path.abspath(__file__)))
AU_BITS = {2: 8, 3: 16, 4: 24, 5: 32}


def built(name):
    """The program of this name that the gate has built and proved."""
    return os.path.join(TOP, 'build', name)


def wave(data, bits, channels, rate=8000):
    """A WAVE file of these bytes of sound."""
    align = channels * bits // 8
    chunk = struct.pack('<HHIIHH', 1, channels, rate, rate * align, align, bits)
    body = b'WAVEfmt ' + struct.pack('<I', 16) + chunk + b'data' + struct.pack('<I', len(data)) + data + bytes(len(data) % 2)
    return b'RIFF' + struct.pack('<I', len(body)) + body


def au(data, bits, channels, rate=8000, announced=None):
    """An AU file of these bytes of sound, which its head says are this many."""
    size = len(data) if announced is None else announced
    return b'.snd' + struct.pack('>5I', 24, size, bits // 8 + 1, rate, channels) + data


def streamed_au(data, bits, channels, rate=8000):
    """What the program writes as AU where it cannot go back to the head."""
    return b'.snd' + struct.pack('>6I', 28, 0xFFFFFFFF, bits // 8 + 1, rate, channels, 0) + data


def words_of(samples):
    """Samples of 32 bits as the bytes of an AU file."""
    return struct.pack(f'>{len(samples)}i', *samples)


def chunk_place(data, name):
    """Where the body of a chunk of a WAVE begins."""
    place = 12
    while data[place:place + 4] != name:
        size = struct.unpack_from('<I', data, place + 4)[0]
        place += 8 + size + size % 2
    return place + 8


def head_of(data):
    """Kind, rate, channels and bits of a WAVE or AU file."""
    if data[:4] == b'RIFF':
        _, channels, rate, _, _, bits = struct.unpack_from('<HHIIHH', data, chunk_place(data, b'fmt '))
        return 'wav', rate, channels, bits
    encoding, rate, channels = struct.unpack_from('>III', data, 12)
    return 'au', rate, channels, AU_BITS[encoding]


def size_of_head(data):
    """Where the sound of a WAVE or AU file begins."""
    return chunk_place(data, b'data') if data[:4] == b'RIFF' else struct.unpack_from('>I', data, 4)[0]


def make_refusing(crate, target):
    """Writes a command that runs the proved program of a crate with a malloc that refuses the request that REFUSE names."""
    library = os.path.abspath(target) + '.so'
    source = os.path.join(TOP, 'scripts', 'growth', 'refuse.c')
    subprocess.run([os.environ.get('CC', 'cc'), '-shared', '-fPIC', '-DPRELOADED', '-o', library, source], check=True)
    program = os.path.join(TOP, 'crates', crate, 'out', crate)
    with open(target, 'w') as command:
        command.write(f'#!/bin/sh\nLD_PRELOAD={shlex.quote(library)} exec {shlex.quote(program)} "$@"\n')
    os.chmod(target, 0o755)


def content(name):
    """The bytes of a file; none where there is no such file, so that what expects some fails by its name."""
    if not os.path.exists(name):
        return b''
    with open(name, 'rb') as file:
        return file.read()


def keep(name, data):
    with open(name, 'wb') as file:
        file.write(data)


def run(words, given=b'', program=None, seconds=60, **how):
    """Status, standard output and messages of a run, by default of soxchain. One that does not end in so many seconds has no status."""
    try:
        done = subprocess.run([program or built('soxchain')] + list(words), input=given, capture_output=True, timeout=seconds, **how)
    except subprocess.TimeoutExpired:
        return None, b'', f'it did not end within {seconds} seconds'
    return done.returncode, done.stdout, done.stderr.decode(errors='replace')


class Expectations:
    """What a check expects, and what of it does not hold."""

    def __init__(self, check):
        self.check = check
        self.made = self.failed = 0

    def expect(self, name, got, want):
        """Whether it is so."""
        self.made += 1
        if got != want:
            self.failed += 1
            print(f'{self.check}: {name}: got {shown(got)}, want {shown(want)}')
        return got == want

    def ended(self):
        """Prints the count, and answers the exit status."""
        print(f'{self.check}: {self.failed} of {self.made} expectations failed')
        return 1 if self.failed else 0


def shown(answer):
    return [str(part)[:160] for part in answer] if isinstance(answer, (tuple, list)) else str(answer)[:160]

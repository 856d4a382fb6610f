"""soxchain for Python, by ctypes: exact sound effects, a whole sound in one call or a stream of blocks.

    import soxchain
    half = soxchain.process(['vol', '0.5'], samples, rate=8000)     # a NumPy array of int32, with a row for each frame

    with soxchain.Stream(['echo', '1', '1', '250', '0.5'], rate=8000, channels=2) as stream:
        for block in stream.through(blocks):                        # the end too
            play(block)

    file = soxchain.convert(['-', '-t', 'wav', '-', 'vol', '0.5'], open('in.wav', 'rb').read()).output

Words are a list, one text for each word. Frames are NumPy arrays of int32, or bytes, bytearray, memoryview, mmap or array of
32-bit samples as this machine has them; what is given is an array where an array came, and else bytes. SOXCHAIN_LIBRARY is the
path of the library. Without it the library is the one beside the module, as in a wheel, or the one that was installed with it.
"""
import ctypes
import itertools
import operator
import os
import sys
import weakref
from typing import Any, Iterable, Iterator, NamedTuple, Optional, Sequence, Tuple, Union

numpy: Any
try:
    import numpy
except ImportError:
    numpy = None

__all__ = ['Converted', 'Error', 'Report', 'Stream', 'convert', 'process']
__version__ = '0.1.0'

Word = Union[str, bytes, 'os.PathLike[str]']

# Installing the module writes the path of the library here, where the loader does not find it by this name.
_INSTALLED = 'libsoxchain.so.0'

_size, _u8, _i32 = ctypes.c_size_t, ctypes.c_uint8, ctypes.c_int32
_OK, _WAITS_FOR_FRAMES, _WAITS_FOR_ROOM = 0, 0, 1
_NO_STREAM, _BAD_RATE, _BAD_CHANNELS, _PART_OF_FRAME, _NOT_WAITING = 5, 6, 7, 8, 10
_MAX_RATE, _MAX_CHANNELS = 2**32 - 1, 16
_BLOCK = 4096
_WANTED = 'samples of 32 bits are wanted: an array of int32, or bytes, bytearray, memoryview, mmap or array of them'


class Error(Exception):
    """What the library refused: its status, and its messages."""

    def __init__(self, status: int, messages: str = ''):
        super().__init__(messages.rstrip('\n') or _library().soxchain_strerror(status).decode())
        self.status = status
        self.messages = messages


class Report(ctypes.Structure):
    """What a conversion did, in frames, bytes and samples; clips[i] are those of effect i + 1."""

    _fields_ = [('output_length', _size), ('messages_length', _size)] + [
        (name, ctypes.c_uint64) for name in ('frames_in', 'frames_out', 'bytes_out', 'moves')] + [
        ('clips', ctypes.c_uint64 * 32)] + [(name, ctypes.c_uint64) for name in ('out_clips', 'missing', 'stray')]


class Converted(NamedTuple):
    """The status of the program (0: all went well), its output, its messages, and what was done."""

    status: int
    output: bytes
    messages: str
    report: Report


class _Handle(ctypes.Structure):
    _fields_ = [('at', ctypes.c_void_p)]


class _Passed(ctypes.Structure):
    _fields_ = [('taken', _size), ('given', _size), ('waits', ctypes.c_uint32)]


class _View(ctypes.Structure):
    """CPython's Py_buffer."""

    _fields_ = [('buf', ctypes.c_void_p), ('obj', ctypes.py_object), ('len', ctypes.c_ssize_t), ('itemsize', ctypes.c_ssize_t),
                ('readonly', ctypes.c_int), ('ndim', ctypes.c_int), ('format', ctypes.c_char_p), ('shape', ctypes.c_void_p),
                ('strides', ctypes.c_void_p), ('suboffsets', ctypes.c_void_p), ('internal', ctypes.c_void_p)]


class _Bytes:
    """The bytes of an object where they lie, without a copy, while they are used."""

    def __init__(self, data: Any):
        self._view = _View()
        ctypes.pythonapi.PyObject_GetBuffer(ctypes.py_object(data), ctypes.byref(self._view), 0)
        self.length: int = self._view.len
        # (the library wants an address where there are no bytes too)
        self.address: int = self._view.buf or ctypes.addressof(self._view)

    def __enter__(self) -> '_Bytes':
        return self

    def __exit__(self, *_: Any) -> None:
        ctypes.pythonapi.PyBuffer_Release(ctypes.byref(self._view))


_loaded: Optional[ctypes.CDLL] = None


def _path() -> str:
    """The path of the library, or its name for the loader."""
    beside = os.path.join(os.path.dirname(os.path.abspath(__file__)), os.path.basename(_INSTALLED))
    return os.environ.get('SOXCHAIN_LIBRARY') or (beside if os.path.exists(beside) else _INSTALLED)


def _library() -> ctypes.CDLL:
    """The library, with the types of its calls."""
    global _loaded
    if _loaded is None:
        library = ctypes.CDLL(_path())
        for name in ('held', 'hold', 'clips'):
            getattr(library, 'soxchain_' + name).restype = ctypes.c_uint64
        library.soxchain_rate.restype = ctypes.c_uint32
        library.soxchain_channels.restype = _size
        library.soxchain_free.restype = None
        library.soxchain_strerror.restype = ctypes.c_char_p
        _loaded = library
    return _loaded


def _pieces(parts: Sequence[bytes]) -> Tuple[Any, ...]:
    """Bytes one after the other and the end of each, as the library takes them."""
    ends = list(itertools.accumulate(len(part) for part in parts))
    data = b''.join(parts)
    return ctypes.create_string_buffer(data, len(data) + 1), _size(len(data)), (_size * (len(ends) + 1))(*ends), _size(len(ends))


def _asked(words: Sequence[Word], files: Sequence[bytes]) -> Tuple[Any, ...]:
    """Words and the bytes of the files that they name, as the library takes them."""
    if isinstance(words, (str, bytes)):
        raise TypeError("the words are a list, as ['vol', '0.5']; shlex.split makes one of a text")
    if isinstance(files, (str, bytes)):
        raise TypeError('the files are a list of bytes, one for each file that the words name')
    return _pieces([os.fsencode(word) for word in words]) + _pieces([bytes(memoryview(file)) for file in files])


def _told(messages: Any, length: int) -> str:
    return str(messages.raw[:length].decode(errors='replace')) if length <= len(messages) else ''


def convert(words: Sequence[Word], sound: Any, files: Sequence[bytes] = ()) -> Converted:
    """What the program makes of a sound.

    The words are those of its command line, the sound the bytes of a file, and the files the bytes of the coefficient files
    that the words name, in order. A refused sound is no exception: see the status."""
    library, report, asked = _library(), Report(), _asked(words, files)
    with _Bytes(_bytes_of(sound)) as data:
        output, messages = ctypes.create_string_buffer(data.length + 4096), ctypes.create_string_buffer(4096)
        while True:
            status = library.soxchain_convert(*asked, ctypes.c_void_p(data.address), _size(data.length), output, _size(len(output)),
                                              messages, _size(len(messages)), ctypes.byref(report))
            if report.output_length <= len(output) and report.messages_length <= len(messages):
                break
            output = ctypes.create_string_buffer(max(report.output_length, 1))
            messages = ctypes.create_string_buffer(max(report.messages_length, 1))
    if status > 2:
        raise Error(status)
    return Converted(status, ctypes.string_at(output, report.output_length), _told(messages, report.messages_length), report)


def process(words: Sequence[Word], frames: Any, rate: int, channels: Optional[int] = None, files: Sequence[bytes] = (), scale: int = 1) -> Any:
    """What effects make of a whole sound: an array for an array, and else bytes.

    An array says how many channels it has: one where it has one dimension. For bytes `channels` says so. For `scale` see
    `Stream.feed`."""
    if channels is None:
        if not _is_array(frames):
            raise TypeError('give channels=, as channels=2: only a NumPy array says how many channels it has')
        channels = frames.shape[1] if frames.ndim == 2 else 1
    with Stream(words, rate, channels, files) as stream:
        given = list(stream.through([frames], scale))
        return numpy.concatenate(given) if _is_array(frames) else b''.join(given)


def _is_array(frames: Any) -> bool:
    return numpy is not None and isinstance(frames, numpy.ndarray)


def _bytes_of(data: Any) -> memoryview:
    """The bytes of an object that has them, where they lie."""
    try:
        view = memoryview(data)
    except TypeError:
        raise TypeError(f'{_WANTED}; this is of type {type(data).__name__}') from None
    return (view if view.c_contiguous else memoryview(view.tobytes())).cast('B')


def _samples_of(data: Any) -> memoryview:
    """The bytes of an object that has 32-bit samples, or bytes of them, where they lie."""
    view = _bytes_of(data)
    items = memoryview(data)
    own = '<' if sys.byteorder == 'little' else '>'
    code = items.format.lstrip('@=' + own)
    if not (code in ('B', 'b', 'c') or code in ('i', 'l') and items.itemsize == 4):
        raise TypeError(f'{_WANTED}; these are items of the format {items.format}')
    return view


def _is_scale(limits: Any, scale: int) -> bool:
    """Is each number within these limits an int32 when it is multiplied by the scale?"""
    return all(-2**31 <= number * scale < 2**31 for number in (limits.min, limits.max))


def _number(name: str, value: Any, most: int, status: int) -> int:
    """The number, which is at most so much."""
    number = operator.index(value)
    if not 0 <= number <= most:
        raise Error(status, f'{name} is out of range: {number}')
    return number


class Stream:
    """Effects that are fed a block at a time. The words are those after OUT on the program's command line.

    A stream stays with one thread. It is freed by `close`, at the end of `with`, or once nothing refers to it."""

    def __init__(self, words: Sequence[Word], rate: int, channels: int, files: Sequence[bytes] = ()):
        self._handle, length = _Handle(), _size()
        self._inputs = _number('channels', channels, _MAX_CHANNELS, _BAD_CHANNELS)
        self._gives_arrays = self._gives_rows = self._has_ended = False
        messages = ctypes.create_string_buffer(4096)
        library = _library()
        status = library.soxchain_new(*_asked(words, files), ctypes.c_uint32(_number('rate', rate, _MAX_RATE, _BAD_RATE)),
                                      _size(self._inputs), messages, _size(len(messages)), ctypes.byref(length), ctypes.byref(self._handle))
        self._check(status, _told(messages, length.value))
        self._free = weakref.finalize(self, library.soxchain_free, ctypes.byref(self._handle))
        self._outputs = self.channels

    def _check(self, status: int, messages: str = '') -> None:
        if status != _OK:
            raise Error(status, 'the stream is closed' if status == _NO_STREAM else messages)

    def _feed(self, data: Any) -> bytes:
        """What is given for the bytes of whole frames."""
        width, passed, given = self._outputs or 1, _Passed(), []
        room = (_i32 * (_BLOCK * width))()
        with _Bytes(data) as samples:
            if samples.address % 4:
                return self._feed(bytes(data))
            at, left = samples.address, samples.length // 4
            while True:
                self._check(_library().soxchain_feed(ctypes.byref(self._handle), ctypes.c_void_p(at), _size(left), room,
                                                     _size(len(room)), ctypes.byref(passed)))
                given.append(ctypes.string_at(room, 4 * passed.given * width))
                taken = passed.taken * self._inputs
                at, left = at + 4 * taken, left - taken
                if passed.waits != _WAITS_FOR_ROOM and not (left and passed.waits == _WAITS_FOR_FRAMES):
                    return b''.join(given)

    def _array(self, given: bytes) -> Any:
        """Bytes of samples as an array of a row for each frame; of one dimension where the input was so, and one channel is left."""
        samples = numpy.frombuffer(given, dtype=numpy.int32)
        return samples.reshape(-1, self._outputs) if self._gives_rows or self._outputs != 1 else samples

    def _of_array(self, frames: Any, scale: int) -> Any:
        """The bytes of an array of frames, each sample times the scale."""
        if not (frames.ndim == 2 and frames.shape[1] == self._inputs or frames.ndim == 1 and self._inputs == 1):
            raise ValueError(f'an array of shape (frames, {self._inputs}) is wanted; this one is of shape {frames.shape}')
        if scale == 1 and frames.dtype != numpy.int32:
            raise TypeError(f'an array of int32 is wanted, or scale beside one of smaller integers (65536 for int16); this one is of {frames.dtype}')
        if scale != 1:
            if not numpy.can_cast(frames.dtype, numpy.int32, 'safe') or not _is_scale(numpy.iinfo(frames.dtype), operator.index(scale)):
                raise TypeError(f'{frames.dtype} times {scale} is not always an int32')
            frames = frames.astype(numpy.int32) * numpy.int32(scale)
        self._gives_rows = frames.ndim == 2
        return numpy.ascontiguousarray(frames).reshape(-1).view(numpy.uint8)

    def feed(self, frames: Any, scale: int = 1) -> Any:
        """What is given for frames: an array for an array, and else bytes.

        An array is of int32, with a row for each frame, or of one dimension where there is one channel. One of smaller integers
        comes with a scale, by which each sample is multiplied: 65536 for int16."""
        if self._has_ended and self._handle.at:
            raise Error(_NOT_WAITING, 'the stream has ended: no frame comes after the end')
        self._gives_arrays = _is_array(frames)
        if self._gives_arrays:
            return self._array(self._feed(self._of_array(frames, scale)))
        if scale != 1:
            raise TypeError('scale= is for NumPy arrays alone: bytes are samples of 32 bits')
        data = _samples_of(frames)
        if len(data) % 4:
            raise Error(_PART_OF_FRAME, f'whole samples of 4 bytes are wanted; these are {len(data)} bytes')
        return self._feed(data)

    def end(self) -> Any:
        """What is left, when no frame will come: an array where the last frames were one, and else bytes."""
        self._check(_library().soxchain_end(ctypes.byref(self._handle)))
        self._has_ended = True
        given = self._feed(b'')
        return self._array(given) if self._gives_arrays else given

    def through(self, blocks: Iterable[Any], scale: int = 1) -> Iterator[Any]:
        """What is given for each of the blocks, and what is left at the end."""
        for block in blocks:
            yield self.feed(block, scale)
        yield self.end()

    def freeze(self) -> bytes:
        """The stream as bytes; it stays as it is."""
        room, length = ctypes.create_string_buffer(1), _size()
        self._check(_library().soxchain_freeze(ctypes.byref(self._handle), room, _size(0), ctypes.byref(length)))
        room = ctypes.create_string_buffer(length.value + 1)
        self._check(_library().soxchain_freeze(ctypes.byref(self._handle), room, length, ctypes.byref(length)))
        return room.raw[:length.value]

    def thaw(self, frozen: Any) -> None:
        """Goes on from a stream of the same words, files, rate and channels that was frozen to these bytes."""
        view = _bytes_of(frozen)
        with _Bytes(view) as data:
            self._check(_library().soxchain_thaw(ctypes.byref(self._handle), ctypes.c_void_p(data.address), _size(data.length)))
        # (the sixth number of the form says whether the end had come)
        self._has_ended = view[40] == 1

    @property
    def held(self) -> int:
        """The frames that it holds."""
        return int(_library().soxchain_held(ctypes.byref(self._handle)))

    @property
    def hold(self) -> int:
        """The most frames that it may hold."""
        return int(_library().soxchain_hold(ctypes.byref(self._handle)))

    @property
    def rate(self) -> int:
        """Frames in a second that it gives."""
        return int(_library().soxchain_rate(ctypes.byref(self._handle)))

    @property
    def channels(self) -> int:
        """Samples in a frame that it gives."""
        return int(_library().soxchain_channels(ctypes.byref(self._handle)))

    def clips(self, effect: int) -> int:
        """The samples that an effect, counted from 1, clipped."""
        return int(_library().soxchain_clips(ctypes.byref(self._handle), _size(effect)))

    def close(self) -> None:
        """Frees it. Each later call raises an Error that says so."""
        self._free()

    def __enter__(self) -> 'Stream':
        return self

    def __exit__(self, *_: Any) -> None:
        self.close()

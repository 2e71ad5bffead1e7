"""Judges threshold-implementation sharings of S-boxes.

The proved library of Jestrunas, called by ctypes. An operation that refuses raises `Refusal`, which has the published reason:

>>> import jestrunas
>>> jestrunas.judge_box([0, 1, 2, 3, 4, 5, 7, 6], 3)
Accepted(stages=1, trials=1024)
>>> jestrunas.judge_box([0, 1, 2, 4, 3, 6, 7, 5], 3)
Traceback (most recent call last):
jestrunas.Refusal: 14 1 0: stage 1 is not uniform

Bytes, tables, placements and shares are given as bytes or as anything that yields whole numbers. Shares, components and stages are counted
from 1, bits and bytes from 0. A call keeps nothing for the next, and other threads of Python go on while the library works.
"""

import ctypes
import enum
import operator
import os
import pathlib
import typing

__all__ = [
    "Accepted",
    "Forecast",
    "Reason",
    "Refusal",
    "forecast",
    "join",
    "judge",
    "judge_box",
    "produce",
    "published_placement",
    "read",
    "run",
    "transform",
]

# That of jestrunas.h.
__version__ = "0.1.0"


class Reason(enum.IntEnum):
    """Why an operation refuses: the published numbers. 11 is retired, and not given again."""

    CUT_SHORT = 1
    WRONG_KIND = 2
    WRONG_LENGTH = 3
    LIMIT_BROKEN = 4
    ENTRY_TOO_LARGE = 5
    BAD_TERM = 6
    BYTES_FOLLOW = 7
    BOX_REPEATS = 8
    WORKSPACE_TOO_SMALL = 9
    CHAIN_IS_NOT_BOX = 10
    NOT_CORRECT = 12
    NOT_NON_COMPLETE = 13
    NOT_UNIFORM = 14
    BAD_SHARE = 15
    DEGREE_TOO_HIGH = 16
    OUTPUT_TOO_SHORT = 17
    INPUT_TOO_LONG = 18
    SHARES_DIFFER = 19
    TOO_MANY_STAGES = 20
    BAD_PLACEMENT = 21


# What a reason says where the operation tells a place, if that is more than it says without one.
_PLACED = {
    Reason.CUT_SHORT: "the record at byte {place} is cut short",
    Reason.WRONG_KIND: "the kind of the record at byte {place} is not the one due",
    Reason.WRONG_LENGTH: "the length of the record at byte {place} is not the one due",
    Reason.LIMIT_BROKEN: "a number of the head breaks a limit",
    Reason.ENTRY_TOO_LARGE: "the table at byte {place} has an entry that is 2^m or more",
    Reason.BAD_TERM: "the list at byte {place} has a term beyond m * s or one that does not rise",
    Reason.BYTES_FOLLOW: "bytes follow the end, from byte {place}",
    Reason.NOT_CORRECT: "stage {place} is not correct",
    Reason.NOT_NON_COMPLETE: "component {component} of stage {place} depends on every share",
    Reason.NOT_UNIFORM: "stage {place} is not uniform",
}

_WORDS = {
    Reason.CUT_SHORT: "a record is cut short",
    Reason.WRONG_KIND: "a record's kind is not the one due",
    Reason.WRONG_LENGTH: "a length is not the one due",
    Reason.LIMIT_BROKEN: "a number breaks a limit",
    Reason.ENTRY_TOO_LARGE: "an entry is 2^m or more",
    Reason.BAD_TERM: "a term names a variable beyond m * s or does not rise",
    Reason.BYTES_FOLLOW: "bytes follow the end",
    Reason.BOX_REPEATS: "the box repeats an entry",
    Reason.WORKSPACE_TOO_SMALL: "the workspace is too small",
    Reason.CHAIN_IS_NOT_BOX: "the chain of tables is not S",
    Reason.NOT_CORRECT: "a stage is not correct",
    Reason.NOT_NON_COMPLETE: "a stage is not non-complete: a component depends on every share",
    Reason.NOT_UNIFORM: "a stage is not uniform",
    Reason.BAD_SHARE: "a share is 2^m or more",
    Reason.DEGREE_TOO_HIGH: "the degree is the number of shares or more",
    Reason.OUTPUT_TOO_SHORT: "the result does not fit the output",
    Reason.INPUT_TOO_LONG: "the input exceeds 32,768 bytes",
    Reason.SHARES_DIFFER: "the widths or the share counts of the two designs differ",
    Reason.TOO_MANY_STAGES: "the two designs have more than four stages together",
    Reason.BAD_PLACEMENT: "the placement does not load: its length is not 2^s - 2, or a byte is not a component outside its set",
}


class Refusal(Exception):
    """An operation refused.

    reason: the `Reason`, a whole number with a name.
    place: of `read` and `judge`, for reasons 1 to 7 a byte of the file, for 12 to 14 the stage, otherwise 0. None of other operations.
    component: of `read` and `judge`, for reason 13 the lowest component that depends on every share, otherwise 0. None of others.
    trials: of `judge`, the trials up to the fault, 0 for reasons 1 to 11. None of other operations.
    """

    def __init__(self, reason, place=None, component=None, trials=None):
        super().__init__(reason, place, component, trials)
        self.reason = Reason(reason)
        self.place = place
        self.component = component
        self.trials = trials

    def __str__(self):
        if self.place is None:
            return f"{self.reason:d}: {_WORDS[self.reason]}"
        words = _PLACED.get(self.reason, _WORDS[self.reason]).format(place=self.place, component=self.component)
        return f"{self.reason:d} {self.place} {self.component}: {words}"


class Accepted(typing.NamedTuple):
    """A design that the verdict accepts: its stages, each correct, non-complete and uniform, and the trials that the verdict took."""

    stages: int
    trials: int


class Forecast(typing.NamedTuple):
    """What a verdict takes: the bytes of workspace that it needs, 2^(m * s) / 8, and the most trials, 2 * k * 2^(m * s)."""

    workspace: int
    trials: int


# The structs of jestrunas.h.


class _Verdict(ctypes.Structure):
    _fields_ = [("reason", ctypes.c_size_t), ("place", ctypes.c_size_t), ("component", ctypes.c_size_t)]


class _Judged(ctypes.Structure):
    _fields_ = [*_Verdict._fields_, ("trials", ctypes.c_size_t)]


class _Forecast(ctypes.Structure):
    _fields_ = [("reason", ctypes.c_size_t), ("workspace", ctypes.c_size_t), ("trials", ctypes.c_size_t)]


class _Shares(ctypes.Structure):
    _fields_ = [("share", ctypes.c_uint8 * 5)]


class _Run(ctypes.Structure):
    _fields_ = [("reason", ctypes.c_size_t), ("shares", _Shares)]


class _Produced(ctypes.Structure):
    _fields_ = [("reason", ctypes.c_size_t), ("length", ctypes.c_size_t)]


_BUFFER = [ctypes.c_void_p, ctypes.c_size_t]

# Each function: its answer, and its arguments.
_FUNCTIONS = {
    "read": (_Verdict, _BUFFER),
    "forecast": (_Forecast, _BUFFER),
    "judge": (_Judged, _BUFFER * 2),
    "run": (_Run, [*_BUFFER, _Shares]),
    "produce": (_Produced, [ctypes.c_size_t] * 2 + _BUFFER * 3),
    "join": (_Produced, _BUFFER * 3),
    "transform": (ctypes.c_size_t, [ctypes.c_size_t] + _BUFFER * 2),
}


def _load():
    """The shared library: from the folder JESTRUNAS_LIB_DIR where that is set, else beside the package, in the repository, of the system."""
    name = "libjestrunas.so." + ".".join(__version__.split(".")[:2])
    package = pathlib.Path(__file__).resolve().parent
    folder = os.environ.get("JESTRUNAS_LIB_DIR")
    if folder:
        path = os.path.join(folder, name)
    else:
        beside = [package / name, package.parent.parent / "target" / "sharedlib" / name]
        path = next((str(file) for file in beside if file.exists()), name)
    try:
        library = ctypes.CDLL(path)
    except OSError as error:
        raise ImportError(
            f"the library of Jestrunas cannot be loaded ({error}): set JESTRUNAS_LIB_DIR to the folder of {name}, which is PREFIX/lib after "
            "`tools/install PREFIX`, or run `tools/build library` where the package stands in the repository"
        ) from None
    for function, (answer, arguments) in _FUNCTIONS.items():
        getattr(library, f"jestrunas_{function}").restype = answer
        getattr(library, f"jestrunas_{function}").argtypes = arguments
    return library


_library = _load()

# No file that is produced is longer: JESTRUNAS_PRODUCED_MAX.
_PRODUCED_MAX = 20_867

_PLACEMENTS = {
    3: bytes([3, 1, 3, 2, 2, 1]),
    4: bytes([4, 1, 4, 2, 2, 1, 4, 3, 3, 1, 3, 2, 2, 1]),
    5: bytes([5, 1, 5, 2, 2, 1, 5, 3, 3, 1, 3, 2, 2, 1, 5, 4, 4, 1, 4, 2, 2, 1, 4, 3, 3, 1, 3, 2, 2, 1]),
}


def _bytes(data):
    """The bytes of a file, a table, a placement or shares. The length of what is given is not asked for: that of an SBox of SageMath is m."""
    if isinstance(data, str):
        raise TypeError("bytes are due, or whole numbers, and not a str: a file is given by its content")
    return data if isinstance(data, bytes) else bytes(map(operator.index, data))


def _number(number):
    """A number that a word of the library holds."""
    number = operator.index(number)
    if not 0 <= number < 1 << 8 * ctypes.sizeof(ctypes.c_size_t):
        raise ValueError(f"{number} is no number that the library takes")
    return number


def read(file):
    """Reads a design file, and raises `Refusal` with the first fault in file order, reasons 1 to 7. Says nothing of its verdict."""
    file = _bytes(file)
    answer = _library.jestrunas_read(file, len(file))
    if answer.reason:
        raise Refusal(answer.reason, answer.place, answer.component)


def forecast(file):
    """What a verdict on a design file takes, a `Forecast`, without judging.

    The head record, the first seven bytes, decides it, whatever follows; its refusals are those of reading, reasons 1 to 4.
    """
    file = _bytes(file)
    answer = _library.jestrunas_forecast(file, len(file))
    if answer.reason:
        raise Refusal(answer.reason)
    return Forecast(answer.workspace, answer.trials)


def judge(file, workspace=None):
    """The verdict on a design file: `Accepted`, or a `Refusal` with reason, place, component and trials, reasons 1 to 14.

    A workspace is a bytearray, or another buffer that can be written to; with reasons 1 to 9 it is untouched, otherwise its first
    2^(m * s) / 8 bytes are zero afterwards, and the rest is untouched. Without one the verdict has what the forecast says.
    """
    file = _bytes(file)
    if workspace is None:
        lent = bytearray(_library.jestrunas_forecast(file, len(file)).workspace)
    else:
        lent = workspace
    size = memoryview(lent).nbytes
    buffer = (ctypes.c_char * size).from_buffer(lent)
    answer = _library.jestrunas_judge(file, len(file), buffer, size)
    if answer.reason:
        raise Refusal(answer.reason, answer.place, answer.component, answer.trials)
    return Accepted(answer.place, answer.trials)


def judge_box(box, s, placement=None):
    """The verdict on the direct sharing of an S-box in s shares, as of `judge`; the refusals are those of `produce` and of `judge`.

    The box is a table of 2^m whole numbers, m from 1 to 6: a list, or an SBox of SageMath.
    """
    box = _bytes(box)
    return judge(produce(max(len(box).bit_length() - 1, 0), s, box, placement))


def run(file, shares):
    """Runs the chain of a design file on a sharing of s shares, share 1 first: the list of the s output shares of the last stage.

    The refusals are those of reading, reasons 1 to 7, and 15 where a share is 2^m or more. No verdict is taken.
    """
    file, shares = _bytes(file), _bytes(shares)
    answer = _library.jestrunas_run(file, len(file), _Shares(tuple(shares[:5])))
    if answer.reason in range(1, 8):
        raise Refusal(answer.reason)
    s = file[5]
    if len(shares) != s:
        raise ValueError(f"the design has {s} shares, and {len(shares)} are given")
    if answer.reason:
        raise Refusal(answer.reason)
    return list(answer.shares.share[:s])


def produce(m, s, table, placement=None):
    """The direct sharing of a table of 2^m entries in s shares, as a design file. The limits: m is 1 to 6, s is 3 to 5, m * s at most 20.

    A placement has 2^s - 2 bytes: for each set of shares, as the number J with bit j - 1 for share j, the byte at index J - 1 is the
    component, from 1 to s, of the products whose chosen shares are that set, and its share is not in the set. The constant goes to
    component 1. Without a placement it is the published one. The refusals: 4, 3, 5, 8, 21 and 16, tested in this order.
    """
    m, s, table = _number(m), _number(s), _bytes(table)
    placement = published_placement(s) if placement is None else _bytes(placement)
    output = ctypes.create_string_buffer(_PRODUCED_MAX)
    answer = _library.jestrunas_produce(m, s, table, len(table), placement, len(placement), output, len(output))
    if answer.reason:
        raise Refusal(answer.reason)
    return output.raw[: answer.length]


def published_placement(s):
    """The published placement for 3, 4 or 5 shares, as bytes; empty for other numbers, for which producing refuses with 4.

    A product goes to the lowest component c outside its set of shares for which c + 1 (after s comes 1) is in the set.
    """
    return _PLACEMENTS.get(s, b"")


def join(first, second):
    """Two design files joined into one: S of the second after S of the first; the stages of the first, then those of the second.

    The refusals: those of reading of the first, then of the second, 19 and 20, tested in this order.
    """
    first, second = _bytes(first), _bytes(second)
    output = ctypes.create_string_buffer(len(first) + len(second))
    answer = _library.jestrunas_join(first, len(first), second, len(second), output, len(output))
    if answer.reason:
        raise Refusal(answer.reason)
    return output.raw[: answer.length]


def transform(m, words):
    """The coefficient words of the algebraic normal form of a table of 2^m entries, as a list; of coefficient words, the table.

    The word at set u is the sum (XOR) of the entries at all subsets of u. The refusals: 4, 3 and 5, tested in this order.
    """
    m, words = _number(m), _bytes(words)
    output = ctypes.create_string_buffer(len(words))
    reason = _library.jestrunas_transform(m, words, len(words), output, len(output))
    if reason:
        raise Refusal(reason)
    return list(output.raw)

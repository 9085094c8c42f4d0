#!/usr/bin/env python3
"""isolate.py CHIP READINGS TYPE: prints what the station prints for a chip data file, a readings file and an attention
type (a number from 0 to 255). Exit status: 0 an answer, 1 a refusal, 2 bad usage.

isolate.py CHIP READINGS CHIP READINGS .. TYPE: the same for a board of 2 to 16 slots, by the library's limits, with the
slot in each line of a listed bit and of a refusal.

A file that cannot be read counts as empty, as it does for the station.

It is also a module with all seven calls of the proved library: check, address, isolate, board, write, read and report, over
the shared library liblutemarble.so, which examples/build makes. It is looked for where the variable LUTEMARBLE_LIBRARY says, then
beside this file, then in target/examples of the repository. Standard library only.
"""
import collections
import ctypes
import os
import pathlib
import sys

SLOTS = 16                 # of the largest board
FILE_BYTES = 1048576       # of the longest chip data file of all calls but report
REPORT_FILE_BYTES = 65536  # of the longest chip data file of report, which has the station's limits
READINGS_BYTES = 131072    # of the longest readings file
REPORT_READINGS_BYTES = 16384
RECORD_BYTES = 16
LIST_BYTES = 1048576       # of a list that has room for every answer of isolate, and for one slot of a board
TEXT_BYTES = 152000        # of a text that has room for every answer

Summary = collections.namedtuple('Summary', 'model registers register_instances nodes node_instances roots')
Record = collections.namedtuple('Record', 'model type bit node instance slot')


class Refused(Exception):
    """Why there is no answer: a number of the refusal table, and a place; of a board also a slot."""

    def __init__(self, number, place, slot=None):
        super().__init__('refused %d place %d' % (number, place) + ('' if slot is None else ' slot %d' % slot))
        self.number, self.place, self.slot = number, place, slot


def _library():
    here = pathlib.Path(__file__).resolve().parent
    places = [here / 'liblutemarble.so', here.parent / 'target/examples/liblutemarble.so']
    if 'LUTEMARBLE_LIBRARY' in os.environ:
        places = [pathlib.Path(os.environ['LUTEMARBLE_LIBRARY'])]
    for place in places:
        if place.exists():
            library = ctypes.CDLL(str(place))
            break
    else:
        raise OSError('no %s: run examples/build' % ' and no '.join(map(str, places)))
    size, word, byte = ctypes.c_size_t, ctypes.c_uint64, ctypes.c_uint8
    lent, words = ctypes.c_char_p, ctypes.POINTER(word)
    library.lutemarble_check.argtypes = [lent, size, words, size]
    library.lutemarble_check.restype = word
    library.lutemarble_address.argtypes = [lent, size, word, byte, words, size]
    library.lutemarble_address.restype = word
    library.lutemarble_isolate.argtypes = [lent, size, byte, words, size, lent, size, lent, size, words, size]
    library.lutemarble_isolate.restype = word
    library.lutemarble_board.argtypes = [lent, size, words, size, byte, words, size, words, size, lent, size, words, size,
                                         lent, size, words, size]
    library.lutemarble_board.restype = word
    library.lutemarble_write.argtypes = [ctypes.c_uint32, lent, size, lent, size, words, size]
    library.lutemarble_write.restype = word
    library.lutemarble_read.argtypes = [lent, size, lent, size, words, size]
    library.lutemarble_read.restype = word
    library.lutemarble_report.argtypes = [lent, size, byte, lent, size, lent, size]
    library.lutemarble_report.restype = size
    return library


_calls = _library()


def _answered(out):
    if out[0]:
        raise Refused(out[0], out[1])
    return out[2:]


def check(file):
    """The checker: a Summary, or Refused."""
    file, out = bytes(file), (ctypes.c_uint64 * 8)()
    _calls.lutemarble_check(file, len(file), out, 8)
    return Summary(*_answered(out))


def address(file, register, instance):
    """The 4 or 8 bytes of the file that are the address of a register instance, or Refused."""
    file, out = bytes(file), (ctypes.c_uint64 * 4)()
    _calls.lutemarble_address(file, len(file), register, instance, out, 4)
    offset, size = _answered(out)
    return file[offset:offset + size]


def isolate(file, attention_type, readings):
    """Isolation: a list of Records and the step count, or Refused. The readings are those of the register instances in
    file order, None for an unread one."""
    file = bytes(file)
    words = (ctypes.c_uint64 * len(readings))(*(r or 0 for r in readings))
    read = bytes(r is not None for r in readings)
    room, out = ctypes.create_string_buffer(LIST_BYTES), (ctypes.c_uint64 * 4)()
    _calls.lutemarble_isolate(file, len(file), attention_type, words, len(words), read, len(read), room, LIST_BYTES, out, 4)
    records, steps = _answered(out)
    return _records(room, records), steps


def _records(room, count):
    listed = (room[RECORD_BYTES * i:RECORD_BYTES * (i + 1)] for i in range(count))
    return [Record(int.from_bytes(r[:4], 'big'), r[4], r[5], r[6] << 8 | r[7], r[8], r[9]) for r in listed]


def board(slots, attention_type):
    """Isolation of a board: a list of Records and the step count, or Refused with its slot. Each slot is a pair of a chip
    data file and readings as isolate takes them."""
    files = b''.join(bytes(file) for file, _ in slots)
    values = [r for _, readings in slots for r in readings]
    words = (ctypes.c_uint64 * len(values))(*(r or 0 for r in values))
    read = bytes(r is not None for r in values)
    count = len(slots)
    file_lengths = (ctypes.c_uint64 * count)(*(len(file) for file, _ in slots))
    reading_lengths = (ctypes.c_uint64 * count)(*(len(readings) for _, readings in slots))
    room, out = ctypes.create_string_buffer(LIST_BYTES * count), (ctypes.c_uint64 * 5)()
    _calls.lutemarble_board(files, len(files), file_lengths, count, attention_type, words, len(words), reading_lengths, count,
                            read, len(read), reading_lengths, count, room, len(room), out, 5)
    number, place, records, steps, slot = out
    if number:
        raise Refused(number, place, slot)
    return _records(room, records), steps


def write(model, records):
    """The chip data file of a model/level and of records as docs/RECORDS.md has them, as bytes, or Refused."""
    records, out = bytes(records), (ctypes.c_uint64 * 3)()
    # A longer file is refused by 1.
    room = ctypes.create_string_buffer(FILE_BYTES)
    _calls.lutemarble_write(model, records, len(records), room, FILE_BYTES, out, 3)
    return room.raw[:_answered(out)[0]]


def read(file):
    """The records of a chip data file, as bytes, or Refused."""
    file, out = bytes(file), (ctypes.c_uint64 * 3)()
    # Each record stands for a byte of the file or more.
    room = ctypes.create_string_buffer(RECORD_BYTES * len(file))
    _calls.lutemarble_read(file, len(file), room, len(room), out, 3)
    return room.raw[:_answered(out)[0]]


def decode(file, readings):
    """The readings of a readings file, as isolate and board take them. None at all where it does not fit the chip data
    file, which these calls then refuse by 17, or where that is refused itself."""
    try:
        summary = check(file)
    except Refused:
        return []
    if len(readings) != 16 * summary.register_instances:
        return []
    # In an accepted file the registers begin at byte 20: ID (3), type, flags, number of instances; and each instance is
    # its number and an address of 4 bytes, or 8 for type 2.
    at, names = 20, []
    for _ in range(summary.registers):
        register, size = file[at:at + 3], 9 if file[at + 3] == 2 else 5
        first, at = at + 6, at + 6 + size * file[at + 5]
        names += [register + file[i:i + 1] for i in range(first, at, size)]
    values = []
    for i, name in enumerate(names):
        reading = readings[16 * i:16 * i + 16]
        value = int.from_bytes(reading[8:], 'big')
        if reading[:4] != name or reading[4] > 1 or any(reading[5:8]) or (reading[4] == 0 and value):
            return []
        values.append(value if reading[4] else None)
    return values


def report(file, attention_type, readings):
    """The station's text, as bytes, by the station's limits. The readings are the bytes of a readings file."""
    file, readings = bytes(file), bytes(readings)
    room = ctypes.create_string_buffer(TEXT_BYTES)
    length = _calls.lutemarble_report(file, len(file), attention_type, readings, len(readings), room, TEXT_BYTES)
    return room.raw[:length]


def load(path, most):
    """The first bytes of a file, one more than it may have, so that a longer file is seen to be longer; none where it
    cannot be read."""
    try:
        with open(path, 'rb') as f:
            return f.read(most + 1)
    except OSError as error:
        print('isolate: %s: %s: counts as empty' % (path, error.strerror), file=sys.stderr)
        return b''


def board_text(slots, attention_type):
    """The lines of a board, and whether it is refused. Each slot is a pair of a chip data file and a readings file."""
    try:
        records, steps = board([(file, decode(file, readings)) for file, readings in slots], attention_type)
    except Refused as refusal:
        return '%s\n' % refusal, True
    lines = ['slot %d type %d node %d inst %d bit %d\n' % (r.slot, r.type, r.node, r.instance, r.bit) for r in records]
    return ''.join(lines) + 'steps %d\n' % steps, False


def main(arguments):
    *paths, kind = arguments or ['']
    if len(paths) % 2 or not 1 <= len(paths) // 2 <= SLOTS:
        print('usage: isolate.py CHIP READINGS [CHIP READINGS ..] TYPE', file=sys.stderr)
        return 2
    if not (kind.isascii() and kind.isdigit() and int(kind) <= 255):
        print("isolate: the type is a number from 0 to 255, not '%s'" % kind, file=sys.stderr)
        return 2
    if len(paths) > 2:
        slots = [(load(chip, FILE_BYTES), load(readings, READINGS_BYTES)) for chip, readings in zip(paths[::2], paths[1::2])]
        text, refused = board_text(slots, int(kind))
        sys.stdout.write(text)
        return 1 if refused else 0
    chip, readings = paths
    text = report(load(chip, REPORT_FILE_BYTES), int(kind), load(readings, REPORT_READINGS_BYTES))
    sys.stdout.buffer.write(text)
    return 1 if text.startswith(b'refused ') else 0


if __name__ == '__main__':
    sys.exit(main(sys.argv[1:]))

"""Prints the transcript of the record in the file that the command line names.

To build the shared library and run this on examples/girder.bin, or on the file that is named:
examples/python/run [FILE]
"""

import ctypes
import pathlib
import sys

ROOT = pathlib.Path(__file__).resolve().parents[2]

# what include/mosvitar.h declares; None goes as a null pointer
call = ctypes.CDLL(str(ROOT / "target/examples/libmosvitar.so")).mosvitar_transcript
call.argtypes = [ctypes.c_char_p, ctypes.c_size_t, ctypes.c_char_p, ctypes.c_size_t]
call.restype = ctypes.c_size_t


def transcript(record: bytes) -> bytes:
    """The lines of a record: first their length, then the lines."""
    n = call(record, len(record), None, 0)
    lines = ctypes.create_string_buffer(n)
    call(record, len(record), lines, n)
    return lines.raw


if __name__ == "__main__":
    if len(sys.argv) != 2:
        sys.exit(f"usage: {sys.argv[0]} FILE")
    sys.stdout.buffer.write(transcript(pathlib.Path(sys.argv[1]).read_bytes()))

"""The form in which cases go to a program: for each case 4 bytes of length, little-endian, and the bytes; the program answers one line a case."""
import struct
import subprocess
import tempfile
import time


def frame(case):
    return struct.pack('<I', len(case)) + case


def cases_of(data):
    """The cases of a recorded stdin file."""
    at = 0
    while at < len(data):
        (length,) = struct.unpack_from('<I', data, at)
        yield data[at + 4:at + 4 + length]
        at += 4 + length


def ask(command, cases):
    """Runs the command once on all cases, and yields the lines of its answer, without their LF."""
    with tempfile.TemporaryFile() as asked, tempfile.TemporaryFile() as answered:
        for case in cases:
            asked.write(frame(case))
        asked.seek(0)
        status = subprocess.run(command, stdin=asked, stdout=answered).returncode
        answered.seek(0)
        for line in answered:
            yield line.rstrip(b'\n').decode()
    if status != 0:
        yield f'exit status {status}'


def compare(command, cases, answer):
    """Feeds the cases to the command and compares each line with `answer(case)`. Prints the first differences and the counts; gives how many differ."""
    began = time.time()
    cases = list(cases)
    lines = ask(command, cases)
    differ = 0
    for case in cases:
        got, want = next(lines, 'no line'), answer(case)
        if got != want:
            differ += 1
            if differ <= 10:
                print(f'case {case[:200]!r} ({len(case)} bytes): want {want[:200]!r}, got {got[:200]!r}')
    more = list(lines)
    if more:
        differ += len(more)
        print(f'{len(more)} lines too many, the first: {more[0][:200]!r}')
    print(f'{len(cases)} cases, {differ} differ, {time.time() - began:.0f} s')
    return differ

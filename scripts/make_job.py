#!/usr/bin/env python3
"""Makes a job for pick out of a pattern and a log.

    python3 scripts/make_job.py PATTERN.hex LINES.txt > JOB
    python3 scripts/make_job.py --records PATTERN.hex > RECORDS     the pattern's records alone

PATTERN.hex holds the pattern's records as hexadecimal digits; blanks and line ends in it are ignored. Each line of LINES.txt, without its line end,
becomes a line of the job. A pattern or a line over 4,096 bytes is refused, since pick would call such a job broken.

Status: 0 it is written; 1 the pattern or a line is too long for a job; 2 wrong usage, or something cannot be read or written. Where it is not 0 a line
on standard error says why, and nothing is written unless it is writing that failed.
"""
import os
import re
import signal
import sys

BODY = 4096
PATTERN, LINE = 64, 65


class Fault(Exception):
    """A status, and why."""


def tell(why):
    try:
        os.write(2, ('make_job.py: %s\n' % why).encode(errors='backslashreplace'))
    except OSError:
        pass


def read(name):
    try:
        with open(name, 'rb') as file:
            return file.read()
    except OSError as error:
        raise Fault(2, '%s: %s' % (name, error.strerror))


def write(data):
    rest = memoryview(data)
    try:
        while rest:
            rest = rest[os.write(1, rest):]
    except OSError as error:
        raise Fault(2, 'standard output cannot be written: %s' % error.strerror)


def records(name):
    text = read(name)
    wrong = re.search(rb'[^0-9A-Fa-f\s]', text)
    if wrong:
        line = text.count(b'\n', 0, wrong.start()) + 1
        raise Fault(2, '%s: %s in line %d is no hexadecimal digit' % (name, ascii(chr(wrong[0][0])), line))
    digits = b''.join(text.split())
    if not digits:
        raise Fault(2, '%s has no hexadecimal digits' % name)
    if len(digits) % 2:
        raise Fault(2, '%s has an odd number of hexadecimal digits, %d' % (name, len(digits)))
    return bytes.fromhex(digits.decode())


def record(kind, body, what):
    if len(body) > BODY:
        raise Fault(1, '%s has %d bytes, and a job takes %d' % (what, len(body), BODY))
    return len(body).to_bytes(2, 'little') + kind.to_bytes(2, 'little') + body


def lines_of(name):
    lines = read(name).split(b'\n')
    if not lines[-1]:
        lines.pop()
    if not lines:
        tell('%s has no lines, so that the job is the pattern alone' % name)
    return [line[:-1] if line.endswith(b'\r') else line for line in lines]


def main(words):
    if len(words) != 2:
        raise Fault(2, 'usage: make_job.py PATTERN.hex LINES.txt > JOB')
    if words[0] == '--records':
        return write(records(words[1]))
    job = [record(PATTERN, records(words[0]), 'the pattern in ' + words[0])]
    for number, line in enumerate(lines_of(words[1]), 1):
        job.append(record(LINE, line, 'line %d of %s' % (number, words[1])))
    write(b''.join(job))


signal.signal(signal.SIGINT, signal.SIG_DFL)
try:
    main(sys.argv[1:])
except Fault as fault:
    status, why = fault.args
    tell(why)
    sys.exit(status)
except MemoryError:
    tell('there is not enough memory')
    sys.exit(2)

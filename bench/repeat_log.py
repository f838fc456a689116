#!/usr/bin/env python3
"""Makes a long audit log of a short one, by repeating it.

    repeat_log.py LOG SIZE > LONG_LOG

The log is written again and again until at least SIZE bytes are written. Each repetition raises the serial numbers and
times of its events above those of the one before, so that the keys of events go on rising.
"""

import re
import sys

# The time of an event in seconds and thousandths, and its serial number.
STAMP = re.compile(rb"audit\((\d+)\.(\d{3}):(\d+)\)")

# Serial numbers are of 32 bits, and begin again after the last of them.
SERIALS = 1 << 32


def moments(log):
    """The times of the log in thousandths of a second, and its serial numbers."""
    stamps = STAMP.findall(log)
    if not stamps:
        sys.exit("repeat_log.py: the log has no events")
    times = [int(seconds) * 1000 + int(thousandths) for seconds, thousandths, _ in stamps]
    serials = [int(serial) for _, _, serial in stamps]
    return times, serials


def raised(log, time, serial):
    """The log with its times and serial numbers raised by this much."""

    def raised_stamp(stamp):
        moment = int(stamp[1]) * 1000 + int(stamp[2]) + time
        number = (int(stamp[3]) + serial) % SERIALS
        return b"audit(%d.%03d:%d)" % (moment // 1000, moment % 1000, number)

    return STAMP.sub(raised_stamp, log)


def main():
    if len(sys.argv) != 3:
        sys.exit("usage: repeat_log.py LOG SIZE > LONG_LOG")
    with open(sys.argv[1], "rb") as file:
        log = file.read()
    if not log.endswith(b"\n"):
        log += b"\n"
    size = int(sys.argv[2])
    times, serials = moments(log)
    # One second and one number between the last event of a repetition and the first of the next.
    time_step = max(times) - min(times) + 1000
    serial_step = max(serials) - min(serials) + 1
    written = 0
    repetition = 0
    while written < size:
        piece = raised(log, repetition * time_step, repetition * serial_step)
        sys.stdout.buffer.write(piece)
        written += len(piece)
        repetition += 1


if __name__ == "__main__":
    main()

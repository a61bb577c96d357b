"""Runs programs one into the next and takes their times: wall time from the start of the first to the end of all, and the CPU time of each."""
import os
import tempfile
import time
import typing


class Ran(typing.NamedTuple):
    """Seconds of all, CPU seconds of each, the last one's exit code, and what was written."""
    wall: float
    cpu: list
    code: int
    output: str


def run(commands, source):
    """The first program reads the file `source`; a program's name is its whole path. Complaints stand with the output."""
    with tempfile.TemporaryFile() as output:
        start = time.perf_counter()
        ends = [os.wait4(child, 0) for child in started(commands, source, output.fileno())]
        wall = time.perf_counter() - start
        output.seek(0)
        written = output.read().decode()
    cpu = [usage.ru_utime + usage.ru_stime for _, _, usage in ends]
    return Ran(wall, cpu, os.waitstatus_to_exitcode(ends[-1][1]), written)


def started(commands, source, output):
    children, given = [], os.open(source, os.O_RDONLY)
    for command in commands:
        after, written = (None, os.dup(output)) if command is commands[-1] else os.pipe()
        streams = [(os.POSIX_SPAWN_DUP2, given, 0), (os.POSIX_SPAWN_DUP2, written, 1), (os.POSIX_SPAWN_DUP2, output, 2)]
        children.append(os.posix_spawn(command[0], command, os.environ, file_actions=streams))
        os.close(given)
        os.close(written)
        given = after
    return children

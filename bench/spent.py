"""Mofrindi: runs a command on standard input several times: spent.py COMMAND [ARGUMENT..].

Prints the seconds of the fastest run, as the processor counts them, and the most memory that a run used, in KB.
"""

import fcntl
import os
import select
import sys

RUNS = 15
SET_PIPE_SIZE = 1031    # of fcntl; Python has a name for it from 3.10 on
LEAST_PIPE = 4096


def start(words, out):
    """The process; standard input is read from its start."""
    os.lseek(0, 0, os.SEEK_SET)
    child = os.fork()
    if child == 0:
        try:
            os.dup2(out, 1)
            os.execv(words[0], words)
        finally:
            os._exit(127)
    return child


def end(words, status):
    if status:
        sys.exit('spent.py: %s failed' % words[0])


def seconds(words, out):
    _, status, used = os.wait4(start(words, out), 0)
    end(words, status)
    return used.ru_utime + used.ru_stime


def memory_so_far(child):
    """The most memory that the process has used: of its own, not of what was there before the command was loaded."""
    with open('/proc/%d/status' % child) as status:
        return next((int(line.split()[1]) for line in status if line.startswith('VmHWM:')), 0)


def memory(words):
    """Looked at when the command prints more than its pipe takes and so waits, with its input read."""
    reader, writer = os.pipe()
    fcntl.fcntl(writer, SET_PIPE_SIZE, LEAST_PIPE)
    child = start(words, writer)
    os.close(writer)
    select.select([reader], [], [])
    used = memory_so_far(child)
    while os.read(reader, 65536):
        pass
    os.close(reader)
    end(words, os.waitpid(child, 0)[1])
    if used == 0:
        sys.exit('spent.py: %s prints too little for a look at its memory' % words[0])
    return used


def main():
    if len(sys.argv) < 2:
        sys.exit('spent.py: takes a command')
    words = sys.argv[1:]
    try:
        nowhere = os.open(os.devnull, os.O_WRONLY)
        print('%.6f\t%d' % (min(seconds(words, nowhere) for _ in range(RUNS)), memory(words)))
    except OSError as error:
        sys.exit('spent.py: %s' % error.strerror)


if __name__ == '__main__':
    main()

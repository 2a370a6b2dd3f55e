#!/usr/bin/env python3
"""carry [RING [PACKET [MOODS]]]: carries its input (descriptor 9, from scripts/carry) to standard output through one proved connection.

Starts the program and makes an exit status of its account: 0 all was taken, 1 the stream or the input failed, 2 usage. It waits for a
stream that would block, where the program asks it to. A signal ends the input where the program waits for it, so that it still gives its
account; where it has not ended within a second, it is handed on. A reader that goes away is an answer of the stream and not the end of
the process."""
import fcntl, os, re, select, signal, stat, subprocess, sys, threading

HOME = os.path.dirname(os.path.dirname(os.path.realpath(__file__)))
USAGE = """usage: carry [RING [PACKET [MOODS]]]

Carries standard input to standard output through one proved connection; the account goes to standard error.
  RING    the ring's size, a power of two from 16 to 65536 (default 65536)
  PACKET  the most bytes of a packet, 1 to 65536 (default 4096)
  MOODS   a script of the stream, for trying things out: a character for each write that is due, over and over;
          . as it comes, p blocks, 1 to 9 at most so many bytes
  --help, --version
Exit status: 0 all was taken, 1 the stream or the input failed, 2 usage."""
ASK, ANSWER, INPUT = 3, 4, 9


def keep_the_streams():
    """A stream that is closed stays unusable, and no other descriptor takes its number."""
    for number, mode in ((1, os.O_RDONLY), (2, os.O_WRONLY)):
        try:
            os.fstat(number)
        except OSError:
            os.open(os.devnull, mode)


def above(low):
    """The same descriptor by a number that leaves free those by which the program knows its own."""
    high = fcntl.fcntl(low, fcntl.F_DUPFD_CLOEXEC, INPUT + 1)
    os.close(low)
    return high


def pipe_above():
    return [above(end) for end in os.pipe()]


def own_input():
    """The input. A pipe or a terminal is opened anew, so that it says that it would block to this program and to no other."""
    kind = os.fstat(INPUT).st_mode
    if stat.S_ISFIFO(kind) or stat.S_ISCHR(kind) and os.isatty(INPUT):
        try:
            return above(os.open(f"/proc/self/fd/{INPUT}", os.O_RDONLY | os.O_NONBLOCK))
        except OSError:
            pass
    return INPUT


def wait_for_streams(asked, answer, given, ending):
    """Each letter that is asked is given back when its stream is ready; for the input, `e` where all is to end."""
    while letter := os.read(asked, 1):
        ready = select.poll()
        if letter == b"r":
            ready.register(given, select.POLLIN)
            ready.register(ending, select.POLLIN)
        else:
            ready.register(1, select.POLLOUT)
        os.write(answer, b"e" if ending in dict(ready.poll()) else letter)


def status(lines):
    """What the account comes to."""
    account = [re.match(r"packets \d+, bytes in (\d+), bytes taken (\d+), .*held now (\d+),", line) for line in lines]
    account = [found for found in account if found]
    if any(line.startswith("usage: ") for line in lines):
        return 2
    if any(line.startswith("carry: ") and not line.startswith("carry: bytes taken ") for line in lines):
        return 1
    return 0 if account and account[-1][1] == account[-1][2] and account[-1][3] == "0" else 1


def main(arguments):
    if arguments[:1] in (["--help"], ["-h"]):
        print(USAGE)
        return 0
    if arguments[:1] == ["--version"]:
        print("carry", open(os.path.join(HOME, "VERSION")).read().strip())
        return 0
    if not os.path.exists(os.path.join(HOME, "crates", "carry", "out", "carry")):
        print("carry: it is not built yet: run `make run` first", file=sys.stderr)
        return 2
    keep_the_streams()
    asked, ask = pipe_above()
    answered, answer = pipe_above()
    ending, end = pipe_above()
    given = own_input()
    os.dup2(ask, ASK)
    os.dup2(answered, ANSWER)
    signals = []
    program = subprocess.Popen(
        [os.path.join(HOME, "scripts", "program"), "carry", *arguments],
        stdin=given, stderr=subprocess.PIPE, pass_fds=(ASK, ANSWER), restore_signals=False, start_new_session=True)
    os.close(ask)
    os.close(ASK)

    def told(number, _):
        """The first signal asks the program to end; one that comes again, or a second without an end, ends it."""
        signals.append(number)
        os.write(end, b"e")
        if len(signals) > 1:
            program.send_signal(number)
        else:
            late = threading.Timer(1, program.send_signal, [number])
            late.daemon = True
            late.start()

    for number in (signal.SIGINT, signal.SIGTERM, signal.SIGHUP):
        signal.signal(number, told)
    threading.Thread(target=wait_for_streams, args=(asked, answer, given, ending), daemon=True).start()
    lines = []
    for line in program.stderr:
        os.write(2, line)
        lines.append(line.decode(errors="replace"))
    program.wait()
    if signals:
        print(f"carry: ended by {signal.Signals(signals[0]).name}", file=sys.stderr)
        return 128 + signals[0]
    return status(lines)


sys.exit(main(sys.argv[1:]))

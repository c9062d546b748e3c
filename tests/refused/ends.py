"""What may stand under a name in place of a regular file, and the other end of it."""

import fcntl
import os
import pty
import socket
import termios
import time
import tty

PAUSE, WAIT = 0.5, 0.01  # seconds: how long somebody stays away, and how long is waited between two looks
FULL = 4096  # bytes that a pipe holds


class Place:
    """The word by which a place is called, what the program gets of it, and how its other end is opened."""

    def __init__(self, word, given=None, open_end=None, kept=(), is_stdin=False):
        self.word, self.given, self.open_end, self.kept, self.is_stdin = word, given, open_end, kept, is_stdin


def shrink(end):
    """Lets a pipe hold little, if it does not hold more already."""
    try:
        fcntl.fcntl(end, fcntl.F_SETPIPE_SZ, FULL)
    except OSError:
        pass
    return end


# ---- places: a path in the folder of the call, and whether it is read

def descriptor(_, is_read):
    """A pipe, as a shell's <(..) and >(..) hand it over."""
    read, write = os.pipe()
    shrink(read)
    given, mine = (read, write) if is_read else (write, read)
    return Place(f"/dev/fd/{given}", given, lambda _: mine)


def standard_input(path, is_read):
    pipe = descriptor(path, is_read)
    return Place("/dev/stdin", pipe.given, pipe.open_end, is_stdin=True)


def fifo(path, is_read):
    """A named pipe, whose other end is opened once somebody is there."""
    os.mkfifo(path)
    flags = os.O_WRONLY if is_read else os.O_RDONLY

    def open_end(process):
        while True:
            try:
                return shrink(os.open(path, flags | os.O_NONBLOCK))
            except OSError:
                if process.poll() is not None:
                    return None
                time.sleep(WAIT)

    return Place(os.path.basename(path), open_end=open_end)


def terminal(_, is_read):
    master, slave = pty.openpty()
    tty.setraw(slave)
    return Place(os.ttyname(slave), open_end=lambda _: master, kept=[os.fdopen(slave)])


def folder(path, _):
    os.mkdir(path)
    return Place(os.path.basename(path))


def listening(path, _):
    """A socket with a name, where somebody listens."""
    made = socket.socket(socket.AF_UNIX)
    made.bind(path)
    made.listen()
    return Place(os.path.basename(path), kept=[made])


def connection(_, __):
    """One of two sockets that are connected."""
    pair = socket.socketpair()
    return Place(f"/dev/fd/{pair[0].fileno()}", pair[0].fileno(), kept=pair)


def device(name):
    return lambda _, __: Place(name)


def open_early(place):
    """Opens the other end of a pipe that is written, before the program is called."""
    end = place.open_end(None)
    place.open_end = lambda _: end
    return end


# ---- the other end of a place that is read

def typed(end, text):
    """Has a terminal take a text as a person types it, or bytes with a pause for their end. Gives what is to be typed."""
    state = termios.tcgetattr(end)
    if text.replace(b"\n", b"").decode("latin-1").isprintable() and text.isascii():
        state[3] |= termios.ICANON
        text += b"\x04"
    else:
        state[6][termios.VMIN], state[6][termios.VTIME] = 0, 10
    termios.tcsetattr(end, termios.TCSANOW, state)
    return text


def feed(place, how, text, process):
    """Gives bytes to the program in some way. Gives whether it ended before there were any."""
    time.sleep(PAUSE if how == "late" else 0)
    is_early = how == "late" and process.poll() is not None
    end = place.open_end(process)
    if end is None:
        return is_early
    os.set_blocking(end, True)
    parts = {"not": [], "half": [text[:len(text) // 2]], "in two parts": [text[:1], text[1:]]}.get(how, [text])
    try:
        for at, part in enumerate(parts):
            time.sleep(PAUSE if at else 0)
            write_all(end, typed(end, part) if os.isatty(end) else part)
    except OSError:  # nobody reads any more
        pass
    if os.isatty(end):
        process.wait()
    os.close(end)
    return is_early


def write_all(end, text):
    while text:
        text = text[os.write(end, text):]


# ---- the other end of a place that is written

def take(place, how, process):
    """Reads what the program writes, until it has ended. Gives that, and whether it ended before it was read."""
    time.sleep(PAUSE if how == "late" else 0)
    is_early = how == "late" and place.given is None and process.poll() is not None
    end = place.open_end(process)
    if end is None:
        return b"", is_early
    os.set_blocking(end, False)
    got, is_last, most = b"", False, 1 if how == "a byte" else 1 << 16
    while not is_last and not (how == "a byte" and got):
        has_ended = process.poll() is not None
        try:
            part = os.read(end, most)
        except BlockingIOError:
            part = b""
        got += part
        is_last = has_ended and not part
        time.sleep(0 if part else WAIT)
    os.close(end)
    return got, is_early

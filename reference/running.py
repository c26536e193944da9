"""Running the router on texts in files, with its streams, rights and limits chosen by the caller."""
import os
import resource
import signal
import subprocess
import threading

TIMEOUT = 120
ENDLESS = "no end"


class Folder:
    """A folder of texts, each under a name of its own."""

    def __init__(self, path):
        self.path, self.count = path, 0

    def name(self):
        self.count += 1
        return os.path.join(self.path, f"text{self.count}")

    def put(self, text):
        """The path of a file with this text."""
        path = self.name()
        with open(path, "wb") as file:
            file.write(text)
        return path

    def feed(self, text, piece):
        """The path of a pipe that gives this text in pieces of so many bytes, and then ends."""
        path = self.name()
        os.mkfifo(path)
        threading.Thread(target=feed_pipe, args=(path, text, piece), daemon=True).start()
        return path


def feed_pipe(path, text, piece):
    with open(path, "wb", buffering=0) as pipe:
        try:
            for at in range(0, len(text), piece):
                pipe.write(text[at : at + piece])
        except BrokenPipeError:
            pass


def set_limit(kind, limit):
    """For a process to be started: no more than this, and no signal where more is asked for."""
    signal.signal(signal.SIGXFSZ, signal.SIG_IGN)
    resource.setrlimit(kind, (limit, limit))


def run(program, words, out=subprocess.PIPE, err=subprocess.PIPE, limit=None, user=None):
    """Status, standard output and standard error of a program. `limit` is a kind and a number, `user` a number."""
    try:
        done = subprocess.run(
            [program, *words], stdin=subprocess.DEVNULL, stdout=out, stderr=err, timeout=TIMEOUT, check=False,
            preexec_fn=(lambda: set_limit(*limit)) if limit else None, user=user, group=user,
            extra_groups=[] if user is not None else None)
    except subprocess.TimeoutExpired:
        return ENDLESS, b"", b""
    return done.returncode, done.stdout, done.stderr


def lines(text):
    """` / ` divides lines; each ends with LF."""
    return "".join(line + "\n" for line in text.split(" / ")).encode() if text else b""

"""What a script imports first: it finds a python that has what is wanted. Older pythons can read this file."""
import os
import signal
import sys

OLDEST = (3, 10)
OTHER = "/usr/bin/python3"      # Debian's, which finds Debian's numpy and matplotlib
AGAIN = "GROUTE_AGAIN"          # stands in the environment of a script that runs a second time
CONTAINERS = 1 << 24            # that come before Python looks for cycles: texts make many, and hardly a cycle
PACKAGES = {"numpy": "python3-numpy", "matplotlib": "python3-matplotlib"}
is_again = os.environ.pop(AGAIN, None) is not None


def run(name: str) -> None:
    """Runs the command of this name by the words of this process, and ends with its status."""
    if signal.getsignal(signal.SIGINT) is signal.default_int_handler:
        signal.signal(signal.SIGINT, signal.SIG_DFL)    # so that an interrupt is silent while modules are read
    open_streams()
    if sys.version_info < OLDEST:
        again()
        own, oldest = (".".join(map(str, version[:2])) for version in (sys.version_info, OLDEST))
        says = "%s: %s is too old: it is %s, and %s or later is wanted\n"
        sys.stderr.write(says % (name, sys.executable, own, oldest))
        sys.exit(3)
    import gc
    from groute import frame
    gc.set_threshold(CONTAINERS)
    sys.exit(frame.done(name, sys.argv[1:]))


def open_streams() -> None:
    """Opens those of the three streams that are closed, so that no file gets their numbers: nothing can be read there,
    standard error is written for nobody, and a write on standard output fails."""
    for number, (name, mode) in enumerate((("stdin", "r"), ("stdout", "w"), ("stderr", "w"))):
        try:
            os.fstat(number)
        except OSError:
            os.set_inheritable(os.open(os.devnull, os.O_WRONLY if name == "stderr" else os.O_RDONLY), True)
        if getattr(sys, name) is None:
            setattr(sys, name, open(number, mode, closefd=False))


def again(*modules: str) -> None:
    """Runs this script once more by Debian's python, if that can run it and has these modules; else comes back."""
    in_venv = sys.prefix != sys.base_prefix or "VIRTUAL_ENV" in os.environ
    if is_again or in_venv or not os.path.isfile(sys.argv[0]) or not os.access(OTHER, os.X_OK):
        return
    if os.path.realpath(sys.executable) == os.path.realpath(OTHER):
        return
    asks = "import sys; sys.exit(sys.version_info < %r)" % (OLDEST,)
    asks = "; ".join(["import " + module for module in modules] + [asks])
    import subprocess
    with open(os.devnull, "w") as null:
        if subprocess.call([OTHER, "-c", asks], stdout=null, stderr=null) != 0:
            return
    sys.stdout.flush()
    os.environ[AGAIN] = "1"
    os.execv(OTHER, [OTHER] + sys.argv)


def lacks(*modules: str) -> str:
    """That this python lacks modules, and how to get them, in words."""
    packages = " ".join(PACKAGES.get(module, "python3-" + module) for module in modules)
    return "%s has no %s: apt-get install %s, or pip install %s" % (
        sys.executable, " and no ".join(modules), packages, " ".join(modules))

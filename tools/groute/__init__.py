"""groute from Python: `help(groute.calls)` says what each call does and raises. Older pythons can read this file."""
TYPE_CHECKING = False       # as checkers of types have it
if TYPE_CHECKING:
    from groute.calls import (Bounds, Buffer, DesignFault, Failed, Judged, LibraryFault, Net, NoMemory, Prices,
                              ReadFailed, Report, Round, Routed, SolutionFault, Usage, Wall, WriteFailed, bound, buffer,
                              evaluate, route)
__all__ = ["Bounds", "Buffer", "DesignFault", "Failed", "Judged", "LibraryFault", "Net", "NoMemory", "Prices",
           "ReadFailed", "Report", "Round", "Routed", "SolutionFault", "Usage", "Wall", "WriteFailed", "bound",
           "buffer", "evaluate", "route"]


def __getattr__(name):      # type: ignore[no-untyped-def]
    """The calls are read where one is wanted: the tools, which are of this package, begin without them."""
    if name not in __all__:
        raise AttributeError("module 'groute' has no attribute %r" % name)
    from groute import calls
    return getattr(calls, name)

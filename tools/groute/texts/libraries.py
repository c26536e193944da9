"""Libraries, as the tools read them."""
from operator import contains

from groute.texts.tokens import Tokens

MOST_TIME = 1 << 50
NUMBER, AMOUNT, DELAY, TIME = range(1 << 60), range(10 ** 6 + 1), range(MOST_TIME + 1), range(-MOST_TIME, MOST_TIME + 1)
KINDS = (b"kind", b"inverter")      # items with a name before their numbers
# The numbers of an item, each by what it may be.
ITEMS = {b"wire": (NUMBER, AMOUNT, AMOUNT), b"via": (AMOUNT, AMOUNT), b"driver": (AMOUNT,), b"sink": (AMOUNT, TIME),
         b"block": (NUMBER, NUMBER), b"drive": (NUMBER, AMOUNT), b"pin": (NUMBER, NUMBER, AMOUNT, TIME),
         b"flip": (NUMBER, NUMBER), **dict.fromkeys(KINDS, (AMOUNT, AMOUNT, DELAY))}
SEVERAL = (b"block", b"drive", b"pin", b"flip")     # of which the last counts


class Library:
    """What is known of a library: resistance and capacitance of a step by layer, of vias as layer 0; drivers, loads and
    the times at which sinks want their signals; its kinds of buffers. One for so many layers has all that groute wants.

    `driver`, `load` and `time` are those of all; `drivers` has by net's id, `loads` by id and pin, `times` by id those
    by pin. Times are in femtoseconds.
    """

    def __init__(self, path: str, layers: int = 0) -> None:
        self.steps: dict[int, tuple[int, int]] = {}
        self.kinds: list[str] = []
        self.driver = self.load = self.time = 0
        self.drivers: dict[int, int] = {}
        self.loads: dict[tuple[int, int], int] = {}
        self.times: dict[int, dict[int, int]] = {}
        lacking = [f"wire {layer}" for layer in range(1, layers + 1)] + (["via", "driver", "sink"] if layers else [])
        tokens, seen = Tokens(path), set()
        with tokens.file:
            tokens.words(b"library")
            self.version = tokens.number()
            while (word := tokens.take(1)[0]) != b"end":
                if word not in ITEMS:
                    raise tokens.fault("an item of a library is due")
                told = self.item(word, tokens)
                if told in seen and word not in SEVERAL:
                    raise tokens.fault(f"a second {told} ends here")
                seen.add(told)
            if wanted := [told for told in lacking if told not in seen]:
                raise tokens.fault(f"before it {wanted[0]} is due")

    def item(self, word: bytes, tokens: Tokens) -> str:
        """An item, from behind its word on; the answer is what it is called."""
        name = tokens.take(1)[0].decode(errors="surrogateescape") if word in KINDS else ""
        numbers = tokens.numbers(len(ITEMS[word]))
        if not all(map(contains, ITEMS[word], numbers)):
            at, known = next((at, known) for at, known in enumerate(ITEMS[word]) if numbers[at] not in known)
            tokens.at -= len(numbers) - 1 - at
            raise tokens.fault(f"a number from {known.start} to {known.stop - 1} is due")
        self.keep(word.decode(), name, numbers)
        return f"kind {name}" if name else f"wire {numbers[0]}" if word == b"wire" else word.decode()

    def keep(self, word: str, name: str, numbers: list[int]) -> None:
        """What an item says."""
        if name:
            self.kinds.append(name)
        elif word == "pin":
            self.loads[numbers[0], numbers[1]] = numbers[2]
            self.times.setdefault(numbers[0], {})[numbers[1]] = numbers[3]
        elif word == "drive":
            self.drivers[numbers[0]] = numbers[1]
        elif word in ("wire", "via"):
            self.steps[numbers[0] if word == "wire" else 0] = numbers[-2], numbers[-1]
        elif word == "driver":
            self.driver = numbers[0]
        elif word == "sink":
            self.load, self.time = numbers

    def shared_time(self, id_: int, sinks: int) -> int | None:
        """The time that all sinks of a net share, or None."""
        own = self.times.get(id_, {})
        times = set(own.values()) | ({self.time} if len(own) < sinks else set())
        return times.pop() if len(times) == 1 else None

    def has_times(self) -> bool:
        """Whether a time isn't 0."""
        return self.time != 0 or any(time for own in self.times.values() for time in own.values())

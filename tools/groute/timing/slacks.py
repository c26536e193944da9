"""What OpenSTA says of the pins of a design's nets, and which ports are clocks."""
from dataclasses import dataclass
from typing import Callable, Iterator, Mapping, Sequence

from groute.placed.liberty import Liberty
from groute.texts.figures import Figures
from groute.texts.files import Fault
from groute.texts.pins import Pin
from groute.texts.slacks import Slacks
from groute.timing import sta
from groute.timing.naming import Name, doubled, own, plain
from groute.timing.spef import Names

NEVER = 1e29            # seconds; what sta calls infinite is more
SECOND, NANOSECOND = 10 ** 15, 10 ** 6      # femtoseconds
ROUNDED = 1 + 1e-6      # within which a load is at its limit
CLOCK = "groute_clock"
PINS = """set all [::sta::vertex_iterator]
while {[$all has_next]} {
  set one [$all next]
  set pin [$one pin]
  set slacks "[lindex [$one slacks rise] 1] [lindex [$one slacks fall] 1]"
  puts "groute: pin [get_full_name $pin] $slacks [::sta::pin_is_clock $pin]"
}
$all finish"""
WORST = 10              # paths that are told
# After errors sta goes on, so that a command that it lacks is told.
CHIP = f"""set corner [::sta::find_corner default]
foreach one [get_nets *] {{ puts "groute: net [get_full_name $one] [::sta::Net_capacitance $one rise $corner max]" }}
foreach one [::sta::pin_slew_limit_violations $corner max] {{ puts "groute: slew [get_full_name $one]" }}
foreach one [find_timing_paths -path_delay max -group_count {WORST}] {{
  set names {{}}
  foreach pin [::sta::PathRef_pins [::sta::PathEnd_path $one]] {{ set names "[get_full_name $pin] $names" }}
  puts "groute: path [::sta::PathEnd_slack $one] $names"
}}
puts "groute: chip [worst_slack] [total_negative_slack] [worst_slack -min]"
"""


@dataclass
class Timed:
    """What is said of a pin: its slack in femtoseconds, or None where no path through it is constrained, and whether it
    is a clock's."""
    slack: int | None
    is_clock: bool


def clocks_before(clocks: set[int], nets: Mapping[int, Sequence[Pin]], liberty: Liberty,
                  kind: Callable[[str], str]) -> set[int]:
    """Nets of clocks, and those that drive them through buffers and inverters; `kind` has a component's cell."""
    inputs: dict[str, int] = {}
    for id_, pins in nets.items():
        inputs.update((pin.component, id_) for pin in pins[1:] if not pin.is_port())
    found, left = set(clocks), list(clocks)
    while left:
        driver = nets[left.pop()][0]
        cell = None if driver.is_port() else liberty.cells.get(kind(driver.component))
        before = inputs.get(driver.component) if cell is not None and cell.sense() is not None else None
        if before is not None and before not in found:
            found.add(before)
            left.append(before)
    return found


def by_period(period: str, ports: Sequence[Name]) -> Iterator[str]:
    """The lines that constrain by a clock, in nanoseconds, which begins at some ports or at none: all other ports have
    delays of 0."""
    yield "set_cmd_units -time ns"
    paths = " ".join(f"[get_ports {sta.word(port.path())}]" for port in ports)
    yield f"create_clock -name {CLOCK} -period {period} {f'[list {paths}]' if paths else ''}"
    names = " ".join(sta.word(port.timer()) for port in ports)
    yield f"foreach one [all_inputs] {{ if {{[lsearch -exact [list {names}] [get_full_name $one]] < 0}} " \
          f"{{ set_input_delay 0 -clock {CLOCK} $one }} }}"
    yield f"set_output_delay 0 -clock {CLOCK} [all_outputs]"


def clock_port(names: Names, word: str) -> Name:
    """The port of a clock, by the name that the DEF has or the netlist."""
    for port, name in names.ports.items():
        if word in (port, name.timer(), name.verilog().strip()):
            return name
    raise Fault(f"there is no port {word}")


def figures(lines: Sequence[str], pins: Mapping[int, Sequence[Pin]], names: Names, limits: Mapping[int, float]
            ) -> Figures:
    """What an answer to CHIP says; limits has max_capacitance by net's id, in femtofarads."""
    nets = {name.timer(): id_ for id_, name in names.nets.items()}
    net_of = {timer_pin(pin, names): id_ for id_, some in pins.items() for pin in some}
    over, slow = set(), set()
    paths: list[tuple[int, list[int]]] = []
    chip = [0.0, 0.0, 0.0]
    for line in lines:
        word, *words = line.split()
        if word == "net":
            id_ = nets.get(words[0])
            if id_ is not None and float(words[1]) * SECOND > limits.get(id_, float("inf")) * ROUNDED:
                over.add(id_)
        elif word == "slew" and words[0] in net_of:
            slow.add(net_of[words[0]])
        elif word == "path":
            ids = [net_of[name] for name in words[1:] if name in net_of]
            paths.append((round(float(words[0]) * SECOND), list(dict.fromkeys(ids))))
        elif word == "chip":
            chip = [float(value) for value in words]
    worst, total, hold = (round(value * NANOSECOND) if abs(value) < NEVER else 0 for value in chip)
    return Figures(worst, total, hold, len(slow), len(over), paths=sorted(paths)[:WORST])


def limits_of(pins: Mapping[int, Sequence[Pin]], liberty: Liberty, kind: Callable[[str], str]) -> dict[int, float]:
    """max_capacitance by net's id, of nets whose driver has it."""
    found: dict[int, float] = {}
    for id_, (driver, *_) in pins.items():
        cell = None if driver.is_port() else liberty.cells.get(kind(driver.component))
        most = cell.of_pin(cell.limits, driver.name) if cell is not None else None
        if most is not None:
            found[id_] = most
    return found


def timer_pin(pin: Pin, names: Names) -> str:
    """A pin as sta prints it."""
    if pin.is_port():
        return names.ports[pin.name].timer()
    return f"{doubled(own(pin.component))}/{doubled(plain(pin.name))}"


def pins_of(lines: Sequence[str]) -> dict[str, Timed]:
    """The pins of an answer, by sta's names."""
    found: dict[str, Timed] = {}
    for line in lines:
        if not line.startswith("pin "):
            continue
        _, name, rise, fall, is_clock = line.split(" ")
        slack = min(float(rise), float(fall))
        timed = Timed(round(slack * SECOND) if slack < NEVER else None, is_clock == "1")
        other = found.get(name)
        if other is None or timed.slack is not None and (other.slack is None or timed.slack < other.slack):
            found[name] = timed
    return found


def sinks_of(pins: Mapping[int, Sequence[Pin]], names: Names, timed: Mapping[str, Timed]
             ) -> Iterator[tuple[int, list[Timed]]]:
    """Of each net what is said of its sinks; its driver comes first."""
    for id_, some in pins.items():
        yield id_, [timed.get(timer_pin(pin, names), Timed(None, False)) for pin in some]


def table(sinks: Mapping[int, Sequence[Timed]]) -> Slacks:
    """The table of nets."""
    times: dict[int, int] = {}
    free, clocks = [], []
    for id_, (driver, *others) in sinks.items():
        known = [one.slack for one in others if one.slack is not None]
        if known:
            times[id_] = min(known)
        else:
            free.append(id_)
        if driver.is_clock or any(one.is_clock for one in others):
            clocks.append(id_)
    return Slacks(times, free, clocks)

# shellcheck shell=sh
# What the launchers answer by themselves, as tools/dev/answers.py writes it.

# Sets `text` to the answer of the program `name` to these words; false where it is the program's to answer.
find_answer() {
    # shellcheck disable=SC2154
    case "$# $name $*" in
    '1 groute --help')
        text='The commands:
  groute route DESIGN LIBRARY ROUNDS [--workers N] [--via-cost V] [--batch B] [--rule first|steep|flat|near] [--stop still|N] [--from SOLUTION] [--trace]
      routes a design
  groute evaluate DESIGN SOLUTION [--via-cost V]
      judges the routes of any router
  groute buffer DESIGN LIBRARY SOLUTION
      places buffers on the routes of any router
  groute make SEED X Y L NETS
      makes a design
  groute trial SEED X Y L NETS ROUNDS [--workers N] [--rule first|steep|flat|near] [--trace]
      makes a design and routes it
  groute panels DESIGN SOLUTION
      gives straight runs the fewest tracks

groute COMMAND --help has a command'\''s words.
docs/FORMATS.md, or man groute, has all words, ranges, texts and faults.' ;;
    '1 groute --version')
        text='groute 0.1.0' ;;
    '1 grbound --help')
        text='grbound DESIGN [--steps K] [--workers N] [--via-cost V]

It says what overflow and wirelength no routes of a design can be below.

  DESIGN        a design in the form of the ISPD 2008 contest
  --steps K     how many steps of prices look for better bounds, 0 to 10000; else 0
  --workers N   how many threads there are at most, 1 to 16; else 1
  --via-cost V  as how many wire edges a via counts in wirelength, 0 to 1000; else 1

docs/FORMATS.md, or man grbound, has all words, ranges, texts and faults.' ;;
    '1 grbound --version')
        text='grbound 0.1.0' ;;
    '2 groute route --help')
        text='groute route DESIGN LIBRARY ROUNDS [--workers N] [--via-cost V] [--batch B] [--rule first|steep|flat|near] [--stop still|N] [--from SOLUTION] [--trace]

It routes a design.

  DESIGN                        a design in the form of the ISPD 2008 contest
  LIBRARY                       of the design'\''s wires and of buffers
  ROUNDS                        the most rounds of rip-up and reroute, 0 to 64
  --workers N                   how many threads there are at most, 1 to 16; else 1
  --via-cost V                  as how many wire edges a via counts in wirelength, 0 to 1000; else 1
  --batch B                     nets are planned B at a time, so that threads change no byte, 1 to 65536
  --rule first|steep|flat|near  how costs of edges rise with demand; else first
  --stop still|N                rounds end once one doesn'\''t lower the overflow (still), or once it is at most N, 0 to 2^64 - 1
  --from SOLUTION               routes to begin from: those that are trees are kept until a later round
  --trace                       what each round did is told behind the report' ;;
    '2 groute evaluate --help')
        text='groute evaluate DESIGN SOLUTION [--via-cost V]

It judges the routes of any router.

  DESIGN        a design in the form of the ISPD 2008 contest
  SOLUTION      the routes of a design
  --via-cost V  as how many wire edges a via counts in wirelength, 0 to 1000; else 1' ;;
    '2 groute buffer --help')
        text='groute buffer DESIGN LIBRARY SOLUTION

It places buffers on the routes of any router.

  DESIGN    a design in the form of the ISPD 2008 contest
  LIBRARY   of the design'\''s wires and of buffers
  SOLUTION  the routes of a design' ;;
    '2 groute make --help')
        text='groute make SEED X Y L NETS

It makes a design.

  SEED  where the draws of a made design begin, 0 to 2^64 - 1
  X     columns of tiles, 2 to 2048
  Y     rows of tiles, 2 to 2048
  L     layers, 2 to 16
  NETS  how many nets, 0 to 1000000' ;;
    '2 groute trial --help')
        text='groute trial SEED X Y L NETS ROUNDS [--workers N] [--rule first|steep|flat|near] [--trace]

It makes a design and routes it.

  SEED                          where the draws of a made design begin, 0 to 2^64 - 1
  X                             columns of tiles, 2 to 2048
  Y                             rows of tiles, 2 to 2048
  L                             layers, 2 to 16
  NETS                          how many nets, 0 to 1000000
  ROUNDS                        the most rounds of rip-up and reroute, 0 to 64
  --workers N                   how many threads there are at most, 1 to 16; else 1
  --rule first|steep|flat|near  how costs of edges rise with demand; else first
  --trace                       what each round did is told behind the report' ;;
    '2 groute panels --help')
        text='groute panels DESIGN SOLUTION

It gives straight runs the fewest tracks.

  DESIGN    a design in the form of the ISPD 2008 contest
  SOLUTION  the routes of a design' ;;
    *) return 1 ;;
    esac
}

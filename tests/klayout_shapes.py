"""Run by `klayout -b -r`: compares shapes of a placed DEF as KLayout reads it with those of a list.

Words, by `-rd NAME=VALUE`: placed and lefs (the texts, those of LEF with commas between), listed (lines
`KIND LAYER x1 y1 x2 y2`, in database units) and units (to the micrometre). Prints a line `differ KIND LAYER AREA` with
the area in which the two differ, and the shapes of cells' pins with their names.
"""
import pya

SUFFIXES = {"pins": "PIN", "lef_pins": "LEFPIN", "obstructions": "OBS", "special_routing": "SPECIAL",
            "blockages": "BLOCKAGE", "via_geometry": "VIA", "routing": "ROUTING"}


def layout_of(placed, lefs):
    """The texts as KLayout reads them, each kind of shape on layers of its own."""
    options = pya.LoadLayoutOptions()
    config = options.lefdef_config
    config.dbu = 1 / int(units)      # noqa: F821, a word of -rd
    config.read_lef_with_def = False
    config.lef_files = lefs
    config.pin_property_name = "PIN"
    config.macro_resolution_mode = 1    # cells by their LEF alone
    config.produce_labels = config.produce_lef_labels = config.produce_fills = False
    config.produce_cell_outlines = config.produce_placement_blockages = False
    for datatype, (kind, suffix) in enumerate(SUFFIXES.items()):
        setattr(config, f"produce_{kind}", True)
        setattr(config, f"{kind}_suffix", f".{suffix}")
        setattr(config, f"{kind}_datatype", datatype)   # kinds of one datatype would share a layer
    options.lefdef_config = config
    layout = pya.Layout()
    layout.read(placed, options)
    return layout


def regions(layout):
    """Shapes by kind and layer."""
    found = {}
    for index in layout.layer_indexes():
        name = layout.get_info(index).name
        region = pya.Region(layout.top_cell().begin_shapes_rec(index)).merged()
        layer, _, kind = name.partition(".")
        if not region.is_empty():
            found[kind, layer] = region
    return found


def print_pins(shapes, layer):
    """A line `pin NAME LAYER x1 y1 x2 y2` for each shape of a cell's pin."""
    while not shapes.at_end():
        box = shapes.shape().bbox().transformed(shapes.trans())
        print("pin", shapes.shape().property("PIN"), layer, box.left, box.bottom, box.right, box.top)
        shapes.next()


mine = {}
with open(listed, encoding="utf-8") as file:        # noqa: F821, a word of -rd
    for line in file:
        kind, layer, *corners = line.split()
        mine.setdefault((kind, layer), pya.Region()).insert(pya.Box(*map(int, corners)))
layout = layout_of(placed, lefs.split(","))     # noqa: F821, and it has to live as long as its regions
theirs = regions(layout)
for key in sorted({*mine, *theirs}):
    differ = mine.get(key, pya.Region()) ^ theirs.get(key, pya.Region())
    print("differ", *key, differ.area(), *[str(polygon) for polygon in list(differ.each())[:2]])
for index in layout.layer_indexes():
    layer, _, kind = layout.get_info(index).name.partition(".")
    if kind == "LEFPIN":
        print_pins(layout.top_cell().begin_shapes_rec(index), layer)

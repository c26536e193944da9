"""Run by `klayout -b -r`: prints how many cells KLayout finds in a placed DEF.

Words, by `-rd NAME=VALUE`: placed and lef (the texts).
"""
import pya

options = pya.LoadLayoutOptions()
options.lefdef_config.read_lef_with_def = False
options.lefdef_config.lef_files = [lef]      # noqa: F821, a word of -rd
layout = pya.Layout()
layout.read(placed, options)                 # noqa: F821
names = {inst.cell.name for inst in layout.top_cell().each_inst()}
print(sum(1 for inst in layout.top_cell().each_inst() if "$" not in inst.cell.name and "_" not in inst.cell.name))

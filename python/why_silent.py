#!/usr/bin/env python3
"""Writes a slot, damages it in several ways, and asks each time why the handset hears nothing.

    python/why_silent.py

The parts between the lines `# %%` are the cells of a notebook for editors that know them. It runs in a clone of the repository,
on the first example: one handset, alpha, with one watch of eight CCEs.
"""
# %% The cell: its settings and the two tables of the polar code.
import json
import os
import sys
from typing import Callable

TOP = os.path.dirname(os.path.dirname(os.path.abspath(__file__)))
sys.path.insert(0, os.path.join(TOP, "python"))

import nrpdcch


def read(name: str) -> str:
    with open(os.path.join(TOP, "examples", name), encoding="ascii") as file:
        return file.read()


settings, grants = read("one_grant/settings.json"), json.loads(read("one_grant/grants.json"))
tables = read("tables/reliability.txt"), read("tables/input_order.txt")
cell = nrpdcch.Cell(settings, *tables)
blocks = cell.carrier.blocks
print(f"mu {cell.carrier.mu}, {blocks} blocks")

# %% Where alpha looks in slot 0 of frame 0.
for watch in cell.plan("alpha", 0, 0):
    print(f"watch {watch.number}: {watch}, for {', '.join(watch.formats)}")

# %% Write the grant of the example on a blank grid. What alpha hears is what was written, and the text is the example's.
grid = nrpdcch.blank(blocks)
grant = grants["grants"][0]
cell.spell("alpha", 0, 0, 0, grant["format"], grant["fields"], grid)
print(cell.hear("alpha", 0, 0, 0, grid))
print("as in grid.txt:", nrpdcch.grid_text(nrpdcch.Head(1, 0, 0, blocks), grid) == read("one_grant/grid.txt"))


# %% Damage a copy of it, and ask why. A point is 1 and twice its first bit and its second one.
def why(what: str, damage: Callable[[bytearray], None]) -> None:
    damaged = bytearray(grid)
    damage(damaged)
    print(f"{what}: {cell.hear('alpha', 0, 0, 0, damaged)}")


def take_away(subcarrier: int) -> Callable[[bytearray], None]:
    def damage(damaged: bytearray) -> None:
        damaged[nrpdcch.place_of(0, subcarrier, blocks)] = 0
    return damage


def flip_first_bits(*subcarriers: int) -> Callable[[bytearray], None]:
    def damage(damaged: bytearray) -> None:
        for subcarrier in subcarriers:
            at = nrpdcch.place_of(0, subcarrier, blocks)
            damaged[at] = 1 + ((damaged[at] - 1) ^ 2)
    return damage


def move_up(damaged: bytearray) -> None:
    damaged[:] = bytes(12) + damaged[:-12]


why("the first point taken away", take_away(0))
why("all points one block higher", move_up)
why("another reference point", flip_first_bits(1))
why("another first bit at subcarrier 400", flip_first_bits(400))
why("other first bits at 0 and 342, which repeat each other", flip_first_bits(0, 342))

# %% The same grid, for a handset with another identity: all is in order but the parity.
with nrpdcch.Cell(settings.replace('"rnti":17', '"rnti":18'), *tables) as other:
    print("for rnti 18:", other.hear("alpha", 0, 0, 0, grid))

# %% What is refused says where and why.
try:
    cell.spell("alpha", 0, 0, 0, "1_0", {"mcs": 40}, grid)
except nrpdcch.NrpdcchError as error:
    print(f"refused at {error.place}: {error.reason}")
cell.close()

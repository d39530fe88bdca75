"""What the handbook's pictures are drawn with. It is the command's, which is installed without the tools: bindings/python/film_command/drawing.py."""

import pathlib
import sys

# before what may be installed of the command, and after the tools themselves
sys.path.insert(1, str(pathlib.Path(__file__).resolve().parents[1] / "bindings" / "python"))
from film_command.drawing import BLUE, GREEN, INK, ORANGE, PALE, PLACES, WHITE, arrow, dot, framed, on_ring, path, text

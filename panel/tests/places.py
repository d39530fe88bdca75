"""Where the tests find what they test: importing this puts the panel and the tools on the path."""

import pathlib
import sys

sys.dont_write_bytecode = True
ROOT = pathlib.Path(__file__).resolve().parents[2]
SAMPLES = ROOT / "samples"
sys.path += [str(ROOT / "panel"), str(ROOT / "tools")]

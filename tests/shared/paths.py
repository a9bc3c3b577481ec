"""Where things stand in the repository."""

from pathlib import Path

ROOT = Path(__file__).resolve().parents[2]
CRATES = ROOT / "crates"
PROGRAM = str(CRATES / "rvcfi" / "out" / "rvcfi")  # as `rt ci` or `rt run` leaves it

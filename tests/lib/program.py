"""Where the tests stand, and which program they try: the proved one, crates/ghcdb/out/ghcdb, or the one that the
environment names as GHCDB."""
import os
from pathlib import Path

TESTS = Path(__file__).resolve().parent.parent
ROOT = TESTS.parent
PROGRAM = os.path.abspath(os.environ.get("GHCDB") or ROOT / "crates" / "ghcdb" / "out" / "ghcdb")

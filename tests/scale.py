"""Which programs the tests run, and how much of a test: all of it, or what a slower program does in a like time. `./test --quick` says
by DNP_QUICK=1 that these are the checked ones, of which each access to memory is checked while they run."""
import os
from pathlib import Path

TOP = Path(__file__).resolve().parents[1]
QUICK = os.environ.get("DNP_QUICK") == "1"


def scaled(whole, quick):
    """What is asked of the proved program, or what of the checked one."""
    return quick if QUICK else whole


def kilobytes(most):
    """How far memory may grow. Of a checked program nothing is asked: it keeps what is freed for a while."""
    return scaled(most, 1 << 30)


# `dnp`, proved or checked, and dnp_store_files of tests/crates, which is built without proof
DNP = os.environ.get("DNP", str(TOP / scaled("crates/dnp/out", "out/checked") / "dnp"))
STORES = os.environ.get("STORES", str(TOP / scaled("out/tests", "out/checked") / "dnp_store_files"))

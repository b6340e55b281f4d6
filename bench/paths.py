"""The folders whose modules are used here; to be imported before them."""
import os
import sys

BENCH = os.path.dirname(os.path.abspath(__file__))
ROOT = os.path.dirname(BENCH)
# the oracle's `building` comes before that of tests/host
sys.path[1:1] = [os.path.join(ROOT, *folder) for folder in (("oracle",), ("tests", "cost"), ("tests", "host"), ("tests",))]

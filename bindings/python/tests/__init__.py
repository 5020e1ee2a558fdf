"""Tests of the package: `python3 -m unittest` in bindings/python, with KNIFESILVER_LIBRARY naming the shared
library."""

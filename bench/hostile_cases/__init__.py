"""The cases of hostile.py, in the order of its table: outputs, spill files, files, memory."""

from . import outputs, spilling, files, memory  # noqa: F401  isort: skip

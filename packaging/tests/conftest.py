"""The fixtures of these tests."""

from installed import in_place_of_root, prefix

__all__ = ["in_place_of_root", "prefix"]

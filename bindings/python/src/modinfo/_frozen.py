"""Dicts that can't be changed, as the members of frozen dataclasses."""

from typing import Any, NoReturn, TypeVar

Key = TypeVar("Key")
Item = TypeVar("Item")


class FrozenDict(dict[Key, Item]):
    """A dict that can't be changed, and has a hash. Unlike types.MappingProxyType, it is for json.dumps, pickle and
    dataclasses.asdict too."""

    __slots__ = ()

    def _refuse(self, *_: object, **__: object) -> NoReturn:
        raise TypeError("this dict can't be changed: make one by dict(..)")

    __setitem__ = __delitem__ = __ior__ = clear = _refuse  # type: ignore[assignment]
    pop = popitem = setdefault = update = _refuse  # type: ignore[assignment]

    def __hash__(self) -> int:  # type: ignore[override]
        return hash(frozenset(self.items()))

    def __reduce__(self) -> tuple[type, tuple[dict[Key, Item]]]:
        return type(self), (dict(self),)


def freeze(value: Any, name: str) -> None:
    """Replaces the mapping of a frozen dataclass by a copy that can't be changed."""
    object.__setattr__(value, name, FrozenDict(getattr(value, name)))

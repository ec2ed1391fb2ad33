"""From JSON to frozen dataclasses, and back."""

import re
from collections.abc import Callable, Mapping, Sequence
from dataclasses import MISSING, fields
from reprlib import Repr
from types import NoneType, UnionType
from typing import Any, Literal, NamedTuple, TypeVar, Union, cast, get_args, get_origin, get_type_hints

Read = Callable[[Any], Any]
Self = TypeVar("Self", bound="Value")

# What JSON calls the values of a type.
_NAMES = {str: "a string", int: "a whole number", bool: "true or false", NoneType: "null"}
_OBJECT, _ARRAY = "an object", "an array"
_SHORT = Repr()
_SHORT.maxstring = _SHORT.maxother = 60


class MemberError(ValueError):
    """A value isn't what its type has. `pointer` is the JSON Pointer to the value, inside what was read."""

    def __init__(self, expected: str, value: Any = MISSING, pointer: str = "") -> None:
        super().__init__(expected, value, pointer)
        self.expected, self.value, self.pointer = expected, value, pointer

    def __str__(self) -> str:
        where = f"at {self.pointer}" if self.pointer else "in the whole value"
        found = "" if self.value is MISSING else f", not {_shown(self.value)}"
        return f"{where}: expected {self.expected}{found}"

    def inside(self, name: object) -> "MemberError":
        """The error of the value that has this one as a member."""
        escaped = str(name).replace("~", "~0").replace("/", "~1")
        return MemberError(self.expected, self.value, f"/{escaped}{self.pointer}")


class Value:
    """A dataclass whose fields are the members of a JSON object."""

    __slots__ = ()

    @classmethod
    def from_dict(cls: type[Self], members: Mapping[str, object]) -> Self:
        """Returns the value of a JSON object. Ignores members that aren't known, and fills defaults.

        Raises ValueError where a member is missing or has another type. It names the member by a JSON Pointer.
        """
        if not _is_mapping(members):
            raise MemberError(_OBJECT, members)
        of = _members_of(cls)
        if of.tag is not None and members.get("type") != of.tag:
            raise MemberError(repr(of.tag), members.get("type")).inside("type")
        read = {}
        for name, member, default, reader in of.members:
            value = members.get(member)
            if value is not None:
                try:
                    read[name] = reader(value)
                except MemberError as error:
                    raise error.inside(member) from None
            elif default is MISSING:
                raise MemberError(f"a member {member!r}")
        return cls(**read)

    def to_dict(self) -> dict[str, Any]:
        """Returns the JSON object as `modinfo analyze` prints it: keys ascend, and defaults are left out."""
        of = _members_of(type(self))
        written = {} if of.tag is None else {"type": of.tag}
        for name, member, default, _ in of.members:
            if (value := getattr(self, name)) != default:
                written[member] = _written(value)
        return dict(sorted(written.items()))


class WithArgument:
    """What a call of one argument has besides its fields."""

    __slots__ = ()

    argument: Any

    @property
    def has_unknown_argument(self) -> bool:
        """Whether nothing of the argument is known: `argument` is None, as of `import(x)`, or has unknown parts alone,
        as of ``import(`${x}`)``."""
        return not isinstance(self.argument, str) and all(part.type == "expr" for part in self.argument or ())


class Pair:
    """A dataclass whose fields are the two parts of a JSON array."""

    __slots__ = ()


class _Members(NamedTuple):
    """The tag of a dataclass, and for each other field its name, the member of JSON, the default, and what reads the
    member."""

    tag: str | None
    members: list[tuple[str, str, Any, Read]]


_MEMBERS: dict[Any, _Members] = {}


def _members_of(of: Any) -> _Members:
    if of not in _MEMBERS:
        hints = get_type_hints(of)
        tag = next((str(each.default) for each in fields(of) if not each.init), None)
        members = [
            (
                each.name,
                _camel_case(each.name),
                each.default,
                _reader(hints[each.name], is_optional=each.default is None),
            )
            for each in fields(of)
            if each.init
        ]
        _MEMBERS[of] = _Members(tag, members)
    return _MEMBERS[of]


def _camel_case(name: str) -> str:
    return re.sub("_(.)", lambda found: found[1].upper(), name)


def _shown(value: Any) -> str:
    if _is_mapping(value):
        return _OBJECT
    return f"an array of {len(value)}" if _is_sequence(value) else _SHORT.repr(value)


def _reader(hint: Any, *, is_optional: bool = False) -> Read:
    """What reads a type. None, the default of an optional member, is never read."""
    origin, parts = get_origin(hint), get_args(hint)
    if origin in (Union, UnionType):
        parts = tuple(part for part in parts if not (is_optional and part is NoneType))
        return _one_of(parts) if len(parts) > 1 else _reader(parts[0])
    if origin is Literal:
        return _literal(parts)
    if origin is tuple:
        return _items(_reader(parts[0]))
    if origin is Mapping:
        return _values(_reader(parts[1]))
    if issubclass(hint, Value):
        return cast(Read, hint.from_dict)
    if issubclass(hint, Pair):
        return _pair(hint, *map(_reader, get_type_hints(hint).values()))
    return _plain(hint)


def _one_of(parts: Sequence[Any]) -> Read:
    """Reads by the tag or, where not all types have one, by the first type that fits."""
    tags = {_members_of(part).tag: _reader(part) for part in parts if _is_tagged(part)}
    if len(tags) == len(parts):
        return _tagged(tags)
    readers = [_reader(part) for part in parts]

    def read(value: Any) -> Any:
        errors = []
        for reader in readers:
            try:
                return reader(value)
            except MemberError as error:
                errors.append(error)
        # An error inside means that the value is nearly of this type.
        deepest = max(errors, key=lambda error: error.pointer.count("/"))
        if deepest.pointer:
            raise deepest
        raise MemberError(" or ".join(error.expected for error in errors), value)

    return read


def _is_tagged(part: Any) -> bool:
    return isinstance(part, type) and issubclass(part, Value) and _members_of(part).tag is not None


def _tagged(readers: dict[str | None, Read]) -> Read:
    def read(value: Any) -> Any:
        if not _is_mapping(value):
            raise MemberError(_OBJECT, value)
        tag = value.get("type")
        if not isinstance(tag, str) or tag not in readers:
            raise MemberError(" or ".join(map(repr, readers)), tag).inside("type")
        return readers[tag](value)

    return read


def _literal(values: Sequence[str]) -> Read:
    def read(value: Any) -> Any:
        if type(value) is str and value in values:
            return value
        raise MemberError(" or ".join(map(repr, values)), value)

    return read


def _plain(hint: type) -> Read:
    def read(value: Any) -> Any:
        if type(value) is hint:
            return value
        raise MemberError(_NAMES[hint], value)

    return read


def _items(item: Read) -> Read:
    def read(value: Any) -> Any:
        if not _is_sequence(value):
            raise MemberError(_ARRAY, value)
        try:
            return tuple(map(item, value))
        except MemberError:
            # Only an error is worth the search for its index.
            return tuple(_inside(index, item, part) for index, part in enumerate(value))

    return read


def _values(of_value: Read) -> Read:
    def read(value: Any) -> Any:
        if not _is_mapping(value):
            raise MemberError(_OBJECT, value)
        return {key: _inside(key, of_value, part) for key, part in value.items()}

    return read


def _inside(name: object, reader: Read, value: Any) -> Any:
    try:
        return reader(value)
    except MemberError as error:
        raise error.inside(name) from None


def _pair(hint: Any, first: Read, second: Read) -> Read:
    def read(value: Any) -> Any:
        if not _is_sequence(value) or len(value) != 2:
            raise MemberError("an array of 2", value)
        try:
            return hint(first(value[0]), second(value[1]))
        except MemberError:
            return hint(_inside(0, first, value[0]), _inside(1, second, value[1]))

    return read


# The classes that the standard library calls sequences and mappings are many times slower to ask than `type`.
def _is_sequence(value: Any) -> bool:
    return type(value) is list or isinstance(value, Sequence) and not isinstance(value, str)


def _is_mapping(value: Any) -> bool:
    return type(value) is dict or isinstance(value, Mapping)


def _written(value: Any) -> Any:
    if isinstance(value, Value):
        return value.to_dict()
    if isinstance(value, Pair):
        return [_written(getattr(value, each.name)) for each in fields(cast(Any, value))]
    if isinstance(value, tuple):
        return [_written(part) for part in value]
    return dict(value) if isinstance(value, Mapping) else value

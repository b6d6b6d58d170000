# SPDX-License-Identifier: MIT OR Apache-2.0
"""BCP 47 language tags, read and made canonical by a registry of language subtags.

    >>> import bcp47
    >>> with bcp47.Registry.from_file("registry.txt") as registry:
    ...     registry.canonical("zh-yue")
    'yue'
"""
from __future__ import annotations

import datetime
import functools
import importlib.resources
import itertools
import json
import os
import struct
from typing import (TYPE_CHECKING, Any, Dict, Generic, Iterable, Iterator, List, Literal, Mapping, NamedTuple, NoReturn, Optional, Tuple, Type,
                    TypeVar, Union, overload)

from . import _bcp47
from .numbers import PARTS, STEPS, Fault

__all__ = ["Available", "Explanation", "Fault", "Info", "Part", "Refused", "RefusedRegistry", "RefusedTag", "RefusedTrace", "RefusedUpgrade", "Registry",
           "Row", "Step", "Tag", "__version__"]

__version__: str = _bcp47.version

_CLASSES = {"PrivateUseSingleton": "privateuse", "Grandfathered": "grandfathered"}
_SCHEMES = {"basic": 1, "extended": 2, "lookup": 3}
# What a Tag keeps of its parts, and the kinds of these.
_ONE = (("language", "Language"), ("script", "Script"), ("region", "Region"))
_MANY = (("extlangs", "Extlang"), ("variants", "Variant"), ("attributes", "Attribute"), ("private", "PrivateUse"))
# The number of each part that is replaced, in the order of a tag.
_REPLACED = {"language": 1, "script": 3, "region": 4, "variants": 5, "extensions": 6, "private": 18}
_Subtags = Union[str, "Tag", Iterable[str]]
_Part = Union[_Subtags, Mapping[str, _Subtags], None]
Missing = TypeVar("Missing")
AnyTag = TypeVar("AnyTag", bound="Union[str, Tag]")
AnyRegistry = TypeVar("AnyRegistry", bound="Registry")
Mine = TypeVar("Mine", bound="Tag")


class Refused(ValueError):
    """What is refused: `status` and `fault` are names, `place` a number, `help` says what to do, and `str` is one line. These
    five are `args`, the line first."""

    @property
    def status(self) -> str:
        """How the call ended, as "Invalid"."""
        return str(self.args[1])

    @property
    def fault(self) -> Fault:
        """What is wrong, as "UnknownScript"."""
        return Fault[self.args[2]]

    @property
    def place(self) -> int:
        """Where it is wrong, counted from 1; else 0."""
        return int(self.args[3])

    @property
    def help(self) -> str:
        """What to do."""
        return str(self.args[4])

    def __str__(self) -> str:
        return "".join(self.args[:1])

    if not TYPE_CHECKING:
        @property
        def __notes__(self) -> List[str]:
            """What Python from 3.11 on prints below the line of an exception that nobody caught."""
            front = "".join(f"{tag[:80]!r}: " for tag in self.args[5:])
            return self.__dict__.setdefault("_notes", [front + help for help in self.args[4:5]])


class RefusedTag(Refused):
    """A text is no tag or no language range, a tag is not valid, its replacements can repeat a variant, which `variant` names, or its
    explanation has too many steps. `tag` is the text, and the last of `args`."""

    @property
    def variant(self) -> Optional[str]:
        """The variant that replacements can repeat, where that is why."""
        return str(self).partition(" ")[2] or None if self.status == "ReplacementRepeats" else None

    @property
    def tag(self) -> str:
        """The text that is refused."""
        return str(self.args[5])


class RefusedRegistry(Refused):
    """Bytes are no registry that passes the check. The place is a line, or the number of a record."""


class RefusedUpgrade(Refused):
    """A newer registry does not keep what an older one promised. The place is the number of a record."""


class RefusedTrace(Refused):
    """Steps do not lead from a tag to another: NoSuchStep, with the number of a step as the place, or WrongEnd."""


class Step(NamedTuple):
    """A step: its kind, the place of its subtag, the number of the record that it uses, and the tag to which it leads."""

    kind: str
    place: int
    number: int
    tag: str


class Explanation(NamedTuple):
    """The steps from a tag to its canonical form, and that form."""

    steps: Tuple[Step, ...]
    canonical: str


class Part(NamedTuple):
    """A part of a tag: its kind, as "Script", and its text, as "Hant". docs/LIBRARY.md has the kinds."""

    kind: str
    text: str


class Row(NamedTuple):
    """What a registry has for a part of a tag, or, where the kind is "Whole", for a tag that is registered as redundant."""

    place: int
    kind: str
    text: str
    listing: Literal["Record", "Unregistered", "Unlisted"]
    record: Optional[int]
    fields: Tuple[Tuple[str, str], ...]

    def bodies(self, name: str) -> Tuple[str, ...]:
        """What the record says in its fields of a name, such as "Description", in either case of its letters."""
        return tuple(body for other, body in self.fields if other.lower() == name.lower())


class Info(NamedTuple):
    """Which registry it is: its File-Date, if it has one, the number of its entries, and the SHA-256 of its bytes."""

    file_date: Optional[datetime.date]
    entries: int
    sha256: str


def _packed(step: Step) -> bytes:
    """A step as C has it. One that has no numbers, as no kind has its name, gets zeros, which lead nowhere."""
    try:
        return struct.pack("BII", STEPS.index(step.kind), step.place, step.number)
    except (ValueError, struct.error):
        return bytes(struct.calcsize("BII"))


def _joined(name: str, value: object) -> str:
    """The text of a part with a name."""
    if isinstance(value, Tag):
        return value.text
    if isinstance(value, str):
        return value
    if isinstance(value, Mapping):
        return "-".join(f"{singleton}-{_joined(name, subtags)}" for singleton, subtags in value.items())
    if isinstance(value, Iterable) and not isinstance(value, (bytes, bytearray)):
        return "-".join(_joined(name, subtag) for subtag in value)
    if value is None:
        return ""
    raise TypeError(f"{name}: expected str or an iterable of str, not {type(value).__name__}")


@functools.total_ordering
class Tag:
    """A tag in conventional case, by no registry. It does not change. Two are equal exactly if their texts are, and in the
    order of these: `Registry.equivalent` compares meanings. Raises RefusedTag."""

    __slots__ = {
        "kind": "What it is: langtag, privateuse or grandfathered.",
        "text": "Its text, which `str` gives too.",
        "parts": "The parts, one for each subtag, in their order: joined by hyphens they are the text. A grandfathered tag is one part.",
        "language": "The primary language (RFC 5646, 2.2.1); None for private use alone and for a grandfathered tag.",
        "extlangs": "The extended languages (RFC 5646, 2.2.2).",
        "script": "The script (RFC 5646, 2.2.3).",
        "region": "The region (RFC 5646, 2.2.4).",
        "variants": "The variants (RFC 5646, 2.2.5).",
        "attributes": "The attributes of the `u` extension (RFC 6067, 2.1).",
        "private": "The subtags of private use (RFC 5646, 2.2.7).",
        "_kinds": "The number of the kind of each part.",
        "__weakref__": "For weakref.",
    }
    __match_args__ = ("text",)
    kind: str
    text: str
    parts: Tuple[Part, ...]
    language: Optional[str]
    extlangs: Tuple[str, ...]
    script: Optional[str]
    region: Optional[str]
    variants: Tuple[str, ...]
    attributes: Tuple[str, ...]
    private: Tuple[str, ...]
    _kinds: bytes

    def __init__(self, text: Union[str, Tag]) -> None:
        shown, kinds = _bcp47.read(text)
        object.__setattr__(self, "text", shown)
        object.__setattr__(self, "_kinds", kinds)

    @classmethod
    def from_parts(cls: Type[Mine], language: _Subtags, **parts: _Part) -> Mine:
        """The tag of these parts, which `replace` names."""
        return cls(_joined("language", language)).replace(**parts)

    @classmethod
    def from_posix(cls: Type[Mine], name: str) -> Mine:
        """The tag that the name of a POSIX locale stands for: `sr-Latn-RS` for `sr_RS.UTF-8@latin`. Raises RefusedTag."""
        return cls(_bcp47.posix(name))

    def replace(self: Mine, **parts: _Part) -> Mine:
        """A tag with other parts: `language` (with its extlangs, as `zh-yue`), `script`, `region`, `variants`, `extensions` and
        `private`. Each is a text, subtags, or of `extensions` a mapping as the property gives it; None and what is empty take it
        away. No registry is asked, so that the tag need not be valid. Raises RefusedTag, also where the tag has no language."""
        for name in parts.keys() - _REPLACED.keys():
            raise TypeError(f"no part of a tag is named {name!r}: {', '.join(_REPLACED)}")
        text = self.text
        steps = [(number, _joined(name, parts[name])) for name, number in _REPLACED.items() if name in parts]
        if len(steps) > 1 and self.language:
            # the language comes last, so that no text on the way is a grandfathered tag, as art-lojban is
            last = steps.pop(0) if "language" in parts else (_REPLACED["language"], "-".join((self.language, *self.extlangs)))
            steps = [(_REPLACED["language"], "und"), *steps, last]
        for number, value in steps:
            text = _bcp47.replaced(text, number, "x-" + value if value and number == _REPLACED["private"] else value)
        return type(self)(text)

    @property
    def parent(self: Mine) -> Optional[Mine]:
        """The tag to which lookup falls back (RFC 4647, 3.4): without its last subtag, and the singletons before that. None if
        nothing is left."""
        text = _bcp47.parent(self.text)
        return type(self)(text) if text else None

    if not TYPE_CHECKING:
        def __getattr__(self, name: str) -> object:
            """The parts are read when the first of them is asked for, and kept."""
            if name in Tag.__slots__ and name not in ("text", "_kinds"):
                # a grandfathered tag is one part
                texts = [self.text] if len(self._kinds) == 1 else self.text.split("-")
                kept, keep = {}, object.__setattr__
                kinds = [PARTS[kind] for kind in self._kinds]
                for kind, text in zip(kinds, texts):
                    kept.setdefault(kind, []).append(text)
                keep(self, "parts", tuple(map(Part, kinds, texts)))
                keep(self, "kind", _CLASSES.get(kinds[0], "langtag"))
                for slot, kind in _ONE:
                    keep(self, slot, kept.get(kind, (None,))[0])
                for slot, kind in _MANY:
                    keep(self, slot, tuple(kept.get(kind, ())))
            return object.__getattribute__(self, name)

    def __setattr__(self, name: str, value: object) -> NoReturn:
        raise AttributeError("a Tag does not change")

    def __delattr__(self, name: str) -> NoReturn:
        raise AttributeError("a Tag does not change")

    def __reduce__(self: Mine) -> Tuple[Type[Mine], Tuple[str]]:
        return type(self), (self.text,)

    def _groups(self, begins: str) -> Dict[str, Tuple[str, ...]]:
        """The texts that follow each part of a kind within its extension. Of two that are alike the first counts."""
        groups: Dict[str, List[str]] = {}
        group: List[str] = []
        for kind, text in self.parts:
            if kind == begins:
                group = []
                groups.setdefault(text, group)
            elif kind in ("Singleton", "PrivateUseSingleton"):
                group = []
            else:
                group.append(text)
        return {name: tuple(texts) for name, texts in groups.items()}

    @property
    def extensions(self) -> Dict[str, Tuple[str, ...]]:
        """The subtags of each extension, by its singleton (RFC 5646, 2.2.6)."""
        return self._groups("Singleton")

    @property
    def keywords(self) -> Dict[str, Tuple[str, ...]]:
        """The types of each key of the `u` extension (RFC 6067, 2.1). Of a key that occurs twice the first counts."""
        return self._groups("Key")

    def __str__(self) -> str:
        return self.text

    def __format__(self, form: str) -> str:
        return format(self.text, form)

    def __repr__(self) -> str:
        return f"Tag({self.text!r})"

    def __eq__(self, other: object) -> bool:
        return isinstance(other, Tag) and self.text == other.text

    def __lt__(self, other: Tag) -> bool:
        if not isinstance(other, Tag):
            return NotImplemented
        return self.text < other.text

    def __hash__(self) -> int:
        return hash(self.text)


def _listed(tags: Iterable[Missing]) -> Iterable[Missing]:
    if isinstance(tags, (str, bytes, Tag)):
        raise TypeError("many tags are a list or a column, and not one text")
    return tags


def _not_copied(self: object, protocol: object) -> NoReturn:
    raise TypeError(f"{self!r} is not copied or pickled: open it in each process, for example by Registry.from_file")


class Registry(_bcp47.Registry):
    """A registry that passes the check. Any number of threads may ask it at once. Raises RefusedTag where a tag is refused."""

    __slots__ = ("__weakref__",)

    @classmethod
    def from_bytes(cls: Type[AnyRegistry], content: Union[bytes, bytearray, memoryview]) -> AnyRegistry:
        """The registry whose text the bytes are. Raises RefusedRegistry where they are none."""
        return cls._open(bytes(memoryview(content)))

    @classmethod
    def from_file(cls: Type[AnyRegistry], path: Union[str, os.PathLike[str]]) -> AnyRegistry:
        """The registry of a file. Raises OSError where it can't be read, and RefusedRegistry."""
        with open(path, "rb") as file:
            return cls.from_bytes(file.read())

    @classmethod
    def bundled(cls: Type[AnyRegistry]) -> AnyRegistry:
        """The registry of IANA's that the package bcp47-registry has. Raises ModuleNotFoundError where that is not installed."""
        return cls.from_bytes(importlib.resources.files("bcp47_registry").joinpath("registry.txt").read_bytes())

    def __enter__(self: AnyRegistry) -> AnyRegistry:
        if self.closed:
            raise ValueError("the registry is closed")
        return self

    def __exit__(self, *_: object) -> None:
        self.close()

    __reduce_ex__ = _not_copied

    def __repr__(self) -> str:
        if self.closed:
            return "<bcp47.Registry, closed>"
        return f"<bcp47.Registry of {self.info.file_date}, {self.info.entries} entries>"

    @property
    def info(self) -> Info:
        """Which registry answers."""
        date, entries, digest = self._facts()
        return Info(datetime.date.fromisoformat(date) if date else None, entries, digest.hex())

    @overload
    def canonical_many(self, tags: Iterable[Union[str, Tag, None, float]]) -> List[Union[str, RefusedTag, None]]: ...
    @overload
    def canonical_many(self, tags: Iterable[Union[str, Tag, None, float]],
                       missing: Missing) -> List[Union[str, RefusedTag, Missing]]: ...

    def canonical_many(self, tags: Iterable[Any], missing: Any = None) -> List[Any]:
        """The canonical text of each tag, or in its place why there is none. Where a value is missing, which is None, NaN, or
        NA of pandas, the list has `missing`."""
        answers: List[Any] = self._answer_many(_listed(tags), missing, False)
        return answers

    def canonical_columns(self, tags: Iterable[Union[str, Tag, None, float]],
                          missing: Optional[str] = None) -> Tuple[List[Optional[str]], List[Optional[str]]]:
        """Two lists for a table: the canonical texts, with `missing` where there is none, and why there is none, as
        "BadByte 1", with None where there is no fault."""
        columns: Tuple[List[Optional[str]], List[Optional[str]]] = self._answer_many(_listed(tags), missing, True)
        return columns

    def matches(self, range: Union[str, Tag], tag: Union[str, Tag],
                scheme: Literal["basic", "extended", "lookup"] = "extended") -> bool:
        """Whether a language range matches a tag (RFC 4647), in a spelling of each: by basic filtering (3.3.1), by extended
        filtering (3.3.2), or by lookup (3.4), where the range, cut from its end, is the tag. Of a range that is no valid tag, for
        example `yue-*`, the first subtag is taken in its extlang form. Raises RefusedTag for the range, or else for the tag."""
        if scheme not in _SCHEMES:
            raise ValueError(f"a scheme is basic, extended or lookup, not {scheme!r}")
        return self._match(_SCHEMES[scheme], range, tag)

    def available(self, tags: Iterable[AnyTag]) -> Available[AnyTag]:
        """The tags of which a service serves one, prepared for readers' Accept-Language headers. Raises RefusedTag where one is refused."""
        return Available(self, tags)

    def explain(self, tag: Union[str, Tag], most: int = 20_000) -> Explanation:
        """The steps from a tag to its canonical form. Raises RefusedTag, also where there are more than `most`."""
        steps, canonical = self._given(tag, max(most, 0))
        return Explanation(tuple(map(Step._make, steps)), canonical)

    def show(self, tag: Union[str, Tag]) -> List[Row]:
        """What the registry has for the parts of a tag, in order, with the fields of their records (RFC 5646, 3.1.2): Description,
        Deprecated, Preferred-Value, Prefix, Suppress-Script, Macrolanguage, Scope and Comments. A tag that is registered as redundant
        has a row for the whole of it first. The tag need not be valid. Raises RefusedTag where the text is no tag."""
        return [Row(row["place"], row["kind"], row["text"], row["listing"], row["record"],
                    tuple((field["name"], field["body"]) for field in row["fields"])) for row in json.loads(self._given(tag, -1))]

    def record(self, number: int) -> Tuple[Tuple[str, str], ...]:
        """The fields of a record of the file, each its name and its body, by its number from 1 on, with the header counted; no fields
        where it is not there. The numbers are those of a Step and a Row."""
        return tuple(self._record(number))

    def records(self) -> Iterator[Tuple[Tuple[str, str], ...]]:
        """Each record of the file in its order, the header among them, as `record` gives it."""
        return itertools.takewhile(bool, map(self.record, itertools.count(1)))

    def verify(self, tag: Union[str, Tag], steps: Iterable[Step], last: Union[str, Tag, None] = None) -> None:
        """Returns where steps lead from a valid tag, one after another, to the last: that of the last step, if none is given.

        The steps are judged by their kinds, places and numbers. Raises RefusedTrace where they don't lead there, and
        RefusedTag for the tag, or else for the last.
        """
        steps = tuple(steps)
        for step in steps:
            if not isinstance(step, Step):
                raise TypeError(f"a step is a Step, not {type(step).__name__}")
        end = last if last is not None else steps[-1].tag if steps else tag
        self._verify_steps(tag, b"".join(map(_packed, steps)), end)

    def upgrade_check(self, newer: Registry) -> None:
        """Returns where a newer registry keeps what this one promised. Raises RefusedUpgrade where it does not."""
        self._upgrade_to(newer)


class Available(Generic[AnyTag]):
    """The tags of which a service serves one, as they were handed in. Any number of threads may ask it, also when the registry is
    closed. A header that is None accepts each tag (RFC 9110, 12.5.4). Raises RefusedTag for a text that is no such header."""

    __slots__ = ("tags", "_held", "__weakref__")

    def __init__(self, registry: Registry, tags: Iterable[AnyTag]) -> None:
        self.tags: Tuple[AnyTag, ...] = tuple(_listed(tags))
        self._held = registry._available(self.tags)

    def __repr__(self) -> str:
        return f"<bcp47.Available of {', '.join(map(repr, self.tags))}>"

    __reduce_ex__ = _not_copied

    @overload
    def best(self, accept: Optional[str]) -> Optional[AnyTag]: ...
    @overload
    def best(self, accept: Optional[str], default: Missing) -> Union[AnyTag, Missing]: ...

    def best(self, accept: Optional[str], default: Any = None) -> Any:
        """The tag to serve to the reader of a header, for example `de-CH, de;q=0.8, en;q=0.5`: by lookup (RFC 4647, 3.4) of its ranges
        from the greatest weight to the least, else by what a range matches; the default where no range serves a tag."""
        found = _bcp47.served(self._held, "*" if accept is None else accept, 0)
        return self.tags[found[0] - 1] if found else default

    def filter(self, accept: Optional[str]) -> List[AnyTag]:
        """All tags that a header accepts, from the greatest weight to the least."""
        return [self.tags[number - 1] for number in _bcp47.served(self._held, "*" if accept is None else accept, len(self.tags))]


_bcp47.setup((RefusedTag, RefusedRegistry, RefusedUpgrade, RefusedTrace, Tag, _bcp47.Registry, {}))

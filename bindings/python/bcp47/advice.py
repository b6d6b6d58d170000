# SPDX-License-Identifier: MIT OR Apache-2.0
"""What a person may write in place of a text that is refused. It is proposed, and replaces nothing."""
from __future__ import annotations

import re
from typing import Dict, Iterator, Optional

from . import RefusedTag, Registry
from .codes import CODES

# Codes of ISO 639-2 that were withdrawn, with what stands for them.
_WITHDRAWN = {"mol": "ro", "scc": "sr", "scr": "hr"}


class Advice:
    """Proposals by a registry."""

    def __init__(self, registry: Registry) -> None:
        self._registry = registry
        self._names: Dict[str, str] = {}
        for record in registry.records():
            fields = [(name.lower(), body) for name, body in record]
            first = dict(reversed(fields))
            if first.get("type", "").lower() == "language" and "deprecated" not in first:
                for name, body in fields:
                    if name == "description":
                        self._names.setdefault(body.casefold(), first["subtag"])

    def of(self, text: str) -> Optional[str]:
        """The canonical tag to write for a refused text, or None where nothing can be proposed."""
        for candidate in self._candidates(text):
            try:
                return self._registry.canonical(candidate)
            except RefusedTag:
                continue
        return None

    def _candidates(self, text: str) -> Iterator[str]:
        """Texts that may be meant: the tag of a language with this name, or what is left when slips are mended."""
        bare = re.sub("[\\s\"'\\ufeff]+", " ", text).strip()
        if bare.casefold() in self._names:
            yield self._names[bare.casefold()]
        # what follows in the name of a locale, as in en_US.UTF-8, is no part of the tag
        tag = re.sub("[-_ ]+", "-", re.split("[.@]", bare)[0]).strip("-")
        first, _, _ = tag.partition("-")
        code = {**_WITHDRAWN, **CODES}.get(first.lower(), first)
        yield re.sub("-uk$", "-GB", code + tag[len(first):], flags=re.I)

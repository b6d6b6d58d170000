"""What mypy --strict says of uses of the package: each has to pass but those that are told to fail."""
from typing import Dict, List, Optional, Tuple, Union

import bcp47


class OwnRegistry(bcp47.Registry):
    pass


class OwnTag(bcp47.Tag):
    pass


def uses(path: str) -> None:
    registries: List[OwnRegistry] = [OwnRegistry.from_file(path), OwnRegistry.from_bytes(b""), OwnRegistry.bundled()]
    with registries[0] as registry:
        own: OwnRegistry = registry
    tags: List[OwnTag] = [OwnTag("de"), OwnTag.from_parts("de", region="AT"), OwnTag.from_posix("C"), OwnTag("de").replace(variants=["1996"])]
    parent: Optional[OwnTag] = tags[0].parent
    offered: List[Union[str, bcp47.Tag]] = ["en", bcp47.Tag("de")]
    best: Union[str, bcp47.Tag, None] = own.available(offered).best("de")
    columns: Tuple[List[Optional[str]], List[Optional[str]]] = own.canonical_columns(["en", None, float("nan")])
    many: List[Union[str, bcp47.RefusedTag, int]] = own.canonical_many(["en", None], missing=7)
    given: Dict[str, Tuple[str, ...]] = tags[0].replace(language=tags[1], extensions=tags[2].extensions).keywords
    text: str = own.canonical(tag="en") if own.equivalent(first="iw", second=bcp47.Tag("he")) else ""
    own.canonical(7)  # type: ignore[arg-type]
    own.canonical(text="en")  # type: ignore[call-arg]
    tags[0].replace(region=7)  # type: ignore[arg-type]
    print(parent, best, columns, many, given, text)

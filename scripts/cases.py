"""The cases of conformance/, and which of them are skipped: those that refuse an effect by its name, where the program has it by now."""
import base64
import functools
import json
import lzma
import os
import re
from collections.abc import Iterator
from typing import Any

import sounds
from effect_list import effects

PATH = os.path.join(sounds.TOP, 'conformance', 'cases.jsonl.xz')
REFUSED_BY_NAME = re.compile(r'soxchain: effect \d+ (?P<name>.*): (?:1 UnknownEffect|2 NotInProfile|3 NeedsWholeSound): (?P=name)\n')


@functools.cache
def never_refused() -> frozenset[str]:
    """The names that no message refuses: those of effects/list, but of readers that refuse the name itself for other words."""
    return frozenset(effect.name for effect in effects() if not effect.get('words.refuses_name'))


def is_skipped(case: dict[str, Any]) -> bool:
    """Whether a case expects that an effect is left out which the program has."""
    found = REFUSED_BY_NAME.fullmatch(base64.b64decode(case['stderr']).decode(errors='replace'))
    return found is not None and found['name'] in never_refused()


def read_cases(path: str = PATH) -> Iterator[dict[str, Any]]:
    """All cases of a file, those that are skipped too."""
    with lzma.open(path, 'rt', encoding='utf-8') as lines:
        yield from map(json.loads, lines)

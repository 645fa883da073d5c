"""What the calls of a cell give, by the words of the file formats."""
from __future__ import annotations

from typing import Dict, NamedTuple, Optional, Tuple


class Carrier(NamedTuple):
    """What is on a cell's carrier: a grid has 14 * 12 * blocks bytes, a frame 10 * 2^mu slots."""
    mu: int
    blocks: int
    handsets: int


class Watch(NamedTuple):
    """One place where a handset looks: a candidate of a search space set, at one size of the payload."""
    number: int
    set: int
    kind: str
    symbol: int
    level: int
    candidate: int
    size: int
    rnti: int
    formats: Tuple[str, ...]

    def __str__(self) -> str:
        """As in a report: `set 1 symbol 0 level 8 candidate 0 size 39`."""
        return f"set {self.set} symbol {self.symbol} level {self.level} candidate {self.candidate} size {self.size}"


class Heard(NamedTuple):
    """What is heard at a watch: the format, and the shown fields in order with their values."""
    watch: int
    format: str
    fields: Dict[str, int]

    def __str__(self) -> str:
        """As in a report: `1_0 fdra=101 tdra=2 ..`."""
        return " ".join([self.format, *(f"{name}={value}" for name, value in self.fields.items())])


class Silence(NamedTuple):
    """Why nothing is heard at a watch: the first stage that fails.

    `stage` is `empty` or `reference`, where `symbol` and `subcarrier` say which place has no point or not its reference point;
    `repeat`, where `bit` says which received bit differs from the one that it repeats; `code`; `crc`; or `format`.
    """
    watch: int
    stage: str
    symbol: Optional[int] = None
    subcarrier: Optional[int] = None
    bit: Optional[int] = None

    def __str__(self) -> str:
        """As `explain` says it: `empty at symbol 0 subcarrier 0`."""
        if self.bit is not None:
            return f"{self.stage} at bit {self.bit}"
        return self.stage if self.symbol is None else f"{self.stage} at symbol {self.symbol} subcarrier {self.subcarrier}"

    def __bool__(self) -> bool:
        """False, so that `if heard:` asks whether something is heard."""
        return False

"""The words of the file formats for the numbers of nrpdcch.h."""
from __future__ import annotations

from typing import Dict, Tuple

FORMATS: Tuple[str, ...] = ("0_0", "1_0", "order", "0_1", "1_1")
KINDS: Tuple[str, ...] = ("common", "fallback", "specific")
FIELDS: Tuple[str, ...] = (
    "identifier", "fdra", "tdra", "hopping", "vrb", "mcs", "ndi", "rv", "harq", "dai", "tpc", "pucch", "timing", "preamble",
    "supplementary", "ssb", "mask", "reserved", "bwp", "bundling", "rate_match", "zp_csi_rs", "mcs2", "ndi2", "rv2", "dai2",
    "sri", "precoding", "ports", "tci", "srs", "csi", "cbgti", "flush", "ptrs", "beta", "dmrs", "ulsch")
KEYS: Tuple[str, ...] = (
    "version", "cell", "mu", "blocks", "initial_downlink", "initial_uplink", "coreset0", "handsets", "name", "rnti", "downlink",
    "uplink", "codebook", "coresets", "sets", "uplink_fields", "downlink_fields", "start", "size", "number", "groups", "duration",
    "interleave", "dmrs_id", "bundle", "rows", "shift", "coreset", "kind", "period", "offset", "symbols", "candidates", "base",
    "bwps", "allocation", "rbg_config", "tdra", "hopping", "second_dai", "transform", "dmrs_type", "dmrs_length", "srs_resources",
    "csi_request", "cbg", "ptrs", "beta", "interleaved", "bundling", "rate_match", "zp_sets", "codewords", "timing", "tci",
    "flush")
SETTINGS_REASONS: Dict[int, str] = {1: "not json", 2: "missing", 3: "unknown", 4: "wrong kind", 5: "out of range", 6: "conflict"}
TABLES: Dict[int, str] = {1: "reliability", 2: "input order"}

# Words that no number of the library means: the field has none, so that the call judges it in its turn.
NO_FIELD = 0xFFFFFFFF
FORMAT_NUMBERS: Dict[str, int] = {word: number for number, word in enumerate(FORMATS)}
FIELD_NUMBERS: Dict[str, int] = {word: number for number, word in enumerate(FIELDS) if number}

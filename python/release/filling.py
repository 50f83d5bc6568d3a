"""Texts in which names between @ stand for values."""

from pathlib import Path

TEXTS = Path(__file__).with_name("texts")
"""Where they are."""


def text_of(name: str, **values: str) -> bytes:
    """A text with values for its names."""
    text = (TEXTS / name).read_text(encoding="utf-8")
    for key, value in values.items():
        text = text.replace(f"@{key}@", value)
    return text.encode()

"""The picture of a day as one SVG file."""

from picture.whole import picture  # noqa: F401

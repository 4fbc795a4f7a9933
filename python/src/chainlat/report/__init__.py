"""The report: one HTML page with nothing from outside, for people who don't run the tool."""

from .page import report

__all__ = ["report"]

"""Models as documents: read, built and changed with comments and layout kept."""

from .document import Model
from .entries import Chain, Core, Label, Requirement, Runnable, Stimulus, Task

__all__ = ["Chain", "Core", "Label", "Model", "Requirement", "Runnable", "Stimulus", "Task"]

"""chainlat in Python: end-to-end latencies by the proved program, as data.

Every number comes from the program `chainlat`; this package computes no analysis of its own. All times are in ticks.

    import chainlat
    print(chainlat.verify("two.toml"))
    print(chainlat.verify("two.toml").to_frame())
"""

from .answer import Answer
from .commands.analyse import Report, analyse
from .commands.apply import apply
from .commands.check import Check, check
from .commands.cut import Cuts, cut
from .commands.draw import draw
from .commands.edit import Edited, edit
from .commands.explain import Explanation, explain
from .commands.generate import generate
from .commands.headroom import Headroom, headroom
from .commands.margin import Margin, margin
from .commands.migrate import migrate
from .commands.observe import Observation, observe
from .commands.order import Order, order
from .commands.replay import Replay, replay
from .commands.simulate import simulate
from .commands.tighten import Tight, tighten
from .commands.verify import Verification, verify
from .commands.why import Reason, why
from .commands.witness import witness
from .errors import (
    ArgumentRefused,
    ChainlatError,
    EditsRefused,
    FileFault,
    FileTooLong,
    MemoryRanOut,
    ModelError,
    ModelRefused,
    NameUnknown,
    OutputFailed,
    ProgramFailed,
    ProgramMissing,
    Refused,
    RunRefused,
    SimulationRefused,
    TraceRefused,
    UnknownLine,
    WindowRefused,
    WordsRefused,
)
from .forms import Job
from .model import Model
from .picture import Picture
from .program import Program
from .sweep import sweep
from .trace import Trace

__version__ = "1.0.0"

__all__ = [
    "Answer", "ArgumentRefused", "ChainlatError", "Check", "Cuts", "Edited", "EditsRefused", "Explanation", "FileFault",
    "FileTooLong", "Headroom", "Job", "Margin", "MemoryRanOut", "Model", "ModelError", "ModelRefused", "NameUnknown",
    "Observation", "Order", "OutputFailed", "Picture", "Program", "ProgramFailed", "ProgramMissing", "Reason", "Refused",
    "Replay", "Report", "RunRefused", "SimulationRefused", "Tight", "Trace", "TraceRefused", "UnknownLine",
    "Verification", "WindowRefused", "WordsRefused", "analyse", "apply", "check", "cut", "draw", "edit", "explain",
    "generate", "headroom", "margin", "migrate", "observe", "order", "replay", "simulate", "sweep", "tighten", "verify",
    "why", "witness",
]

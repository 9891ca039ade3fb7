"""How long an answer may take."""

from __future__ import annotations

import time
from dataclasses import dataclass, field


@dataclass(frozen=True)
class Budget:
    """Seconds that an answer may take; what is begun is ended still."""

    seconds: float
    begun: float = field(default_factory=time.monotonic)

    def is_over(self) -> bool:
        """Whether they are spent."""
        return time.monotonic() - self.begun >= self.seconds

"""The processes of the program that a worker keeps from one group to the next one, on the map of a folder."""

from pathlib import Path

from olr.asking.files import MapFiles
from olr.asking.processes import Processes


class Kept:
    """Those on one map at most, which doesn't change while they are kept."""

    def __init__(self) -> None:
        self._processes: Processes | None = None

    def of(self, files: MapFiles, patience: float | None, confidence: Path | None) -> Processes:
        """Those that are there, or new ones."""
        if self._processes is None:
            self._processes = Processes(files, patience=patience, confidence=confidence)
        return self._processes

    def end(self) -> None:
        """Ends them."""
        if self._processes is not None:
            self._processes.close()
        self._processes = None

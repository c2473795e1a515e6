"""Pictures of the command line: imports matplotlib if it is installed, and saves figures."""
import os
from pathlib import Path
from types import ModuleType
from typing import Any

from .. import output_files
from ..errors import StudyError
from ..output_files import NotWritten

MISSING = "pictures need matplotlib: apt-get install python3-matplotlib, or pip install matplotlib"
if "NOBYALUK_COMMAND" in os.environ:  # called through ./nobyaluk, which can install it
    MISSING += "; as root on Debian, ./nobyaluk --install installs it"


def import_figures() -> ModuleType:
    """Return the module that draws, which needs matplotlib; ImportError if that is missing."""
    try:
        from .. import figures
    except ImportError:
        raise ImportError(MISSING) from None
    return figures


def save_figure(figure: Any, path: str | Path, of: str = "") -> Path:
    """Write a picture; NotWritten if it can't be written."""
    try:
        output_files.check_target(path)
        return import_figures().save(figure, path, of)
    except StudyError:
        raise
    except (OSError, ValueError) as e:
        raise NotWritten(f"{path} could not be written: {e}") from None

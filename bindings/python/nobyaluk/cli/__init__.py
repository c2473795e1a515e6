"""The command line: `nobyaluk COMMAND ...`.

Each command is declared once, with its arguments, help, examples and function together: studies in
`study_commands`, sweeps in `sweep_commands`, ramps in `ramp_commands`, files in `file_commands`,
pictures and reports in `picture_commands`, a course's in `teaching_commands`.
"""
from .entry import main

__all__ = ["main"]

"""What `scripts/check` tries of a built program, each in a module with `check`, which prints what it saw and tells whether all was right."""


class Skipped(Exception):
    """A check that cannot be made here, and why."""

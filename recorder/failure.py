"""What ends `record`: a line for the user, and a status."""


class Bad(Exception):
    """A failure. Status 1, or 77 if the machine lacks something."""

    def __init__(self, line: str, status: int = 1) -> None:
        super().__init__(line)
        self.status = status


class Ended(Exception):
    """`record` was told to end, by a signal of this number."""

    def __init__(self, number: int) -> None:
        super().__init__(number)
        self.number = number

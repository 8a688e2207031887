"""What ends a command before its work is done."""


class Interrupted(BaseException):
    """A signal that ends the command. What it started is ended on the way out."""

    def __init__(self, number: int) -> None:
        super().__init__(number)
        self.status = 128 + number


class Failure(Exception):
    """A message for the person, with what to do about it where something can be done, and the exit status."""

    def __init__(self, message: str, *, hint: str | None = None, status: int = 1) -> None:
        super().__init__(message)
        self.message = message
        self.hint = hint
        self.status = status

"""What the tools refuse, and how they say it."""


class Fault(Exception):
    """A refusal: the file's name, the place in it ('byte 296', 'line 3', or empty) and the cause."""

    def __init__(self, name, place, cause):
        self.name, self.place, self.cause = str(name), place, cause
        super().__init__(": ".join(part for part in (self.name, place, cause) if part))


def read_bytes(path):
    """The bytes of a file, or a Fault that tells why there are none."""
    try:
        with open(path, "rb") as file:
            return file.read()
    except FileNotFoundError:
        raise Fault(path, "", "there is no such file") from None
    except OSError as error:
        raise Fault(path, "", "it can't be read (%s)" % error.strerror) from None

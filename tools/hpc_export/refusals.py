"""What the command refuses, with its status, and how its files are read."""

INVALID, MALFORMED, DEVICE = 2, 3, 4


class Refused(Exception):
    def __init__(self, status, line):
        super().__init__(line)
        self.status = status


def read_file(name):
    try:
        with open(name, "rb") as file:
            return file.read()
    except OSError as error:
        raise Refused(DEVICE, f"{name}: {error.strerror}") from error

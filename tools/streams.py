"""The standard streams of a tool. Where one can't be read or written, one line says so, and the status is 125."""
import os
import sys

NOT_RUN = 125


def open_standard_files():
    """Opens what the caller closed of standard input, output and error, so that no other file gets their numbers. Input and
    output then fail where they are used."""
    for number, way in ((0, os.O_WRONLY), (1, os.O_RDONLY), (2, os.O_WRONLY)):
        try:
            os.fstat(number)
        except OSError:
            os.open(os.devnull, way)


class Streams:
    """`tool` begins each line on standard error."""

    def __init__(self, tool):
        self.tool = tool

    def say(self, text):
        self.put(2, f"{self.tool}: {text}\n".encode("utf-8", "replace"))

    def stop(self, text, status=NOT_RUN):
        self.say(text)
        sys.exit(status)

    @staticmethod
    def put(number, data):
        """Writes bytes; what standard error doesn't take is lost."""
        try:
            while data:
                data = data[os.write(number, data) :]
        except OSError:
            if number != 2:
                raise

    def read(self, what):
        """The bytes of standard input. At a terminal it is said what is waited for."""
        if os.isatty(0):
            self.say(f"{what} is read from this terminal, until Ctrl-D")
        try:
            with open(0, "rb", closefd=False) as data:
                return data.read()
        except OSError as error:
            self.stop(f"standard input can't be read: {error.strerror}")

    def write(self, text):
        try:
            self.put(1, text.encode("utf-8", "surrogateescape"))
        except OSError as error:
            self.stop(f"standard output can't be written: {error.strerror}")

    def run(self, main):
        """Ends the process with the status that `main` gives for the words."""
        open_standard_files()
        try:
            sys.exit(main(sys.argv[1:]))
        except KeyboardInterrupt:
            self.stop("interrupted")

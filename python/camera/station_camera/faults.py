"""What may be wrong with a camera, of whichever kind."""


class Gone(Exception):
    """The camera has gone, or doesn't answer: it is waited for."""


class Refused(Exception):
    """The camera doesn't take what the file asks for."""


class Failed(Exception):
    """A program that is needed doesn't run, or has ended."""


class Shorter(Exception):
    """A frame has fewer bytes than its format."""

"""Fields one behind the other. Numbers are unsigned, of a fixed width, with the highest byte first."""


class Malformed(ValueError):
    """Bytes that spell nothing: the one at this offset can't stand there, or is lacking."""

    def __init__(self, offset, what):
        super().__init__(f"{what} at byte {offset}")
        self.offset = offset


class Reader:
    """Takes fields from the front of some bytes."""

    def __init__(self, data):
        self.data, self.at = bytes(data), 0

    def refuse(self, what, at=None):
        raise Malformed(self.at if at is None else at, what)

    def take(self, count):
        end = self.at + count
        if end > len(self.data):
            self.refuse("bytes are lacking", len(self.data))
        taken, self.at = self.data[self.at : end], end
        return taken

    def number(self, width, most=None):
        """A number of so many bytes, which is at most `most`."""
        at, end = self.at, self.at + width
        if end > len(self.data):
            self.refuse("bytes are lacking", len(self.data))
        number, self.at = int.from_bytes(self.data[at:end], "big"), end
        if most is not None and number > most:
            self.refuse(f"the number {number}", at)
        return number

    def numbers(self, form):
        """Numbers one behind the other, of the widths of a struct."""
        at, self.at = self.at, self.at + form.size
        if self.at > len(self.data):
            self.refuse("bytes are lacking", len(self.data))
        return form.unpack_from(self.data, at)

    def counted(self, width):
        """Bytes behind their length."""
        return self.take(self.number(width))

    def end(self):
        if self.at != len(self.data):
            self.refuse("bytes follow")


def number(value, width):
    """The field of a number. One that has no room in it is refused by ValueError."""
    try:
        return value.to_bytes(width, "big")
    except (AttributeError, OverflowError) as fault:
        raise ValueError(f"{value!r} is no number of {width} bytes") from fault


def counted(data, width):
    """Bytes behind their length."""
    return number(len(data), width) + bytes(data)

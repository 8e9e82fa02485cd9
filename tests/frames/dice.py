"""Random numbers, with `randbytes` on Python 3.8 too."""
import random


class Random(random.Random):
    """The numbers of a seed are those of random.Random."""

    def randbytes(self, size):
        return self.getrandbits(8 * size).to_bytes(size, "little") if size else b""


# Numbers that differ from run to run.
ANY = Random()

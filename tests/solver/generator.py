"""Random numbers, by stated seeds."""


class Generator:
    """Random numbers from a seed: a linear congruential generator, the same on every machine."""

    def __init__(self, seed):
        self.state = seed

    def between(self, least, greatest):
        self.state = (6_364_136_223_846_793_005 * self.state + 1_442_695_040_888_963_407) % 2**64
        return least + (self.state >> 32) % (greatest - least + 1)

    def bytes(self, length):
        return bytes(self.between(0, 255) for _ in range(length))

    def one_of(self, things):
        return things[self.between(0, len(things) - 1)]

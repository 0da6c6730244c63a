"""Random numbers that are the same for the same number everywhere, and integrals over gamma densities."""
import bisect
import math
import zlib

WORD = (1 << 64) - 1


class Draws:
    """Numbers drawn for one purpose from a number, by splitmix64: what is drawn for another purpose changes none of them."""

    def __init__(self, seed, purpose):
        self.state = ((seed & WORD) ^ (zlib.crc32(purpose.encode()) << 32)) & WORD

    def word(self):
        """64 bits."""
        self.state = (self.state + 0x9E3779B97F4A7C15) & WORD
        mixed = ((self.state ^ (self.state >> 30)) * 0xBF58476D1CE4E5B9) & WORD
        mixed = ((mixed ^ (mixed >> 27)) * 0x94D049BB133111EB) & WORD
        return mixed ^ (mixed >> 31)

    def share(self):
        """A number between 0 and 1, and neither of them."""
        return ((self.word() >> 11) + 0.5) / (1 << 53)

    def between(self, low, high):
        """A number between two, evenly."""
        return low + (high - low) * self.share()

    def pick(self, items):
        """One of some items, evenly."""
        return items[int(self.share() * len(items))]

    def pick_by(self, sums):
        """The place of one of some items, whose shares added up stand in `sums`, the last of them 1."""
        return min(bisect.bisect_left(sums, self.share()), len(sums) - 1)

    def normal(self):
        """A normal number of mean 0 and deviation 1, by Marsaglia's polar method."""
        while True:
            first, second = self.between(-1, 1), self.between(-1, 1)
            square = first * first + second * second
            if 0 < square < 1:
                return first * math.sqrt(-2 * math.log(square) / square)

    def gamma(self, shape, scale):
        """A gamma number, of a shape that is 1 at least, by Marsaglia and Tsang."""
        depth = shape - 1 / 3
        while True:
            normal = self.normal()
            cube = (1 + normal / math.sqrt(9 * depth)) ** 3
            if cube > 0 and math.log(self.share()) < normal * normal / 2 + depth * (1 - cube + math.log(cube)):
                return depth * cube * scale


def density(shape, scale, at):
    """The density of a gamma number."""
    if at <= 0:
        return 0.0
    return math.exp((shape - 1) * math.log(at / scale) - at / scale - math.lgamma(shape)) / scale


def integral(low, high, steps, of):
    """The integral of a function by Simpson's rule."""
    width = (high - low) / (2 * steps)
    ends = of(low) + of(high)
    odd = sum(of(low + width * each) for each in range(1, 2 * steps, 2))
    even = sum(of(low + width * each) for each in range(2, 2 * steps, 2))
    return (ends + 4 * odd + 2 * even) * width / 3

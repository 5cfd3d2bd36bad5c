"""Seeds of runs: each series has a first seed and a stride of its own, both hashes of the series' seed.

The program's generator starts stream k of seed s where it starts stream 0 of seed s + 2 k.  Runs with neighbouring
seeds therefore share draws, and intervals from them are too narrow.  So the seeds of a series are far apart.

How far is a matter of several streams.  Stream k of run j begins at a fixed place plus j strides and 2 k.  One stride
for all series makes the same streams of the same runs near to each other in each series.  With 2^64 by the golden
ratio intervals of 95 % from 20 runs of 20 streams hold in 88 % of series.  Other strides are good for some numbers of
streams and runs, and make intervals too narrow or too wide for others.

A stride of each series' own has no such favourites.  First seed and stride are two hashes, and any two runs' seeds are
given by the two.  So any two runs are as two independent ones, whatever the model and its streams, and a mean has the
variance of independent runs.  `lab/measured/strides.csv` has how often intervals hold.
"""

from __future__ import annotations

from .errors import InputError

MOST_RUNS = 10**7
"""The most runs of a series."""

_WORDS = 2**64
_GAMMA = 0x9E3779B97F4A7C15  # by which SplitMix64 steps


def check(seed: int) -> int:
    """The seed, if it is a whole number from 0 to 2^64 - 1.

    Raises
    ------
    InputError
        If it is none.
    """
    if isinstance(seed, bool) or int(seed) != seed or not 0 <= seed < _WORDS:
        raise InputError(f"a seed is a whole number from 0 to 2^64 - 1: {seed}")
    return int(seed)


def mix(word: int) -> int:
    """A one-to-one hash of 64 bits: the finalizer of SplitMix64.

    References
    ----------
    Steele, Lea and Flood 2014, Fast splittable pseudorandom number generators, figure 16.
    """
    word = (word ^ (word >> 30)) * 0xBF58476D1CE4E5B9 % _WORDS
    word = (word ^ (word >> 27)) * 0x94D049BB133111EB % _WORDS
    return word ^ (word >> 31)


def stride(seed: int) -> int:
    """How far the seeds of neighbouring runs of a series are apart.

    Parameters
    ----------
    seed : int
        The seed of the series, 0 to 2^64 - 1.

    Returns
    -------
    int
        The second word of SplitMix64 begun at `seed`, made odd: so no two runs of a series have one seed.
    """
    return mix((check(seed) + 2 * _GAMMA) % _WORDS) | 1


def spawn(seed: int, run: int = 1) -> int:
    """The seed that the program gets for a run of a series.

    Parameters
    ----------
    seed : int
        The seed of the series, 0 to 2^64 - 1.
    run : int
        The number of the run, from 1 on.

    Returns
    -------
    int
        The first word of SplitMix64 begun at `seed`, and `run - 1` strides modulo 2^64.  The runs of a series are
        what `replicate --seed spawn(seed) --stride stride(seed)` makes.  Two series of 10^7 runs have a run in common
        with a chance of 10^-5.
    """
    return (mix((check(seed) + _GAMMA) % _WORDS) + (run - 1) * stride(seed)) % _WORDS

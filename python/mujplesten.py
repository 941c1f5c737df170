"""Energies of DNA sequences and of designs on a scaffold, by the C functions of include/mujplesten.h.

The library is target/staticlib/libmujplesten.so, which harness/archive makes, or the file that
MUJPLESTEN_LIBRARY names. docs/PYTHON.md has examples.

A call answers, or raises Refused. Free energies (dg, strengths, rt) are in kcal/mol, entropies (ds) in
kcal/mol/K, temperatures and excess temperatures in kelvin. A text is a str or bytes. A whole number
that its C type does not hold is passed on as the largest that it does, which every call refuses.
"""

from __future__ import annotations

import ctypes
import os
from ctypes import byref, c_double, c_int32, c_size_t, c_uint8, c_uint32, c_uint64
from pathlib import Path
from typing import Any, Collection, Iterable, List, Mapping, NamedTuple, Optional, Sequence, Tuple, Union

Text = Union[str, bytes]
Name = Optional[Text]
StrandNames = Tuple[Name, Name, Name]
Configuration = List[int]
Entry = Tuple[Text, Name, Union[Tuple[float, float], Text]]
Cells = Union[Mapping[Tuple[int, int], float], Sequence[float]]

# The numbers of the refusals, in the words of the header.
WORDS = {
    1: "size", 2: "base", 3: "short", 4: "unequal", 5: "loop", 6: "unknown", 7: "glues", 8: "twice",
    9: "range", 10: "null", 11: "stranger", 12: "many", 13: "rank", 14: "deck", 15: "dilute",
    16: "ambient", 17: "potential", 18: "bare", 19: "weight", 20: "ring", 21: "stars", 22: "job",
    23: "none",
}

# The kinds of loops, as they are numbered.
LOOPS = ("internal", "bulge", "hairpin")

# The rows and columns of a table of glues.
GLUES = 64


class Refused(Exception):
    """A refusal: its number, its word, and the place of the fault, None where the reply has no place."""

    def __init__(self, number: int, place: Optional[int] = None) -> None:
        self.number = number
        self.word = WORDS[number]
        self.place = place
        super().__init__(f"{number} ({self.word})" + ("" if place is None else f", at {place}"))


class Weight(NamedTuple):
    """digits * 2^power, the form of a sum over states; float(weight) rounds it once, to 0.0 of zero alone."""

    digits: int
    power: int

    def __float__(self) -> float:
        if not 0 <= self.digits < 2**32:
            raise OverflowError("digits of a weight lie below 2^32")
        return _double("mj_weight", c_uint32(self.digits), c_int32(max(-(2**31), min(self.power, 2**31 - 1))))


class DgDs(NamedTuple):
    """A free energy and an entropy."""

    dg: float
    ds: float


class Ambient(NamedTuple):
    """RT and both excess temperatures over 37 C."""

    rt: float
    strand_excess: float
    scaffold_excess: float


class Chain(NamedTuple):
    """A chain energy: the sum, a plain number, and RT times it."""

    sum: float
    energy: float


class Settled(NamedTuple):
    """A configuration, 0 for an empty place, and its energy."""

    configuration: Configuration
    energy: float


# ---- calls


_loaded: List[ctypes.CDLL] = []


def _library() -> ctypes.CDLL:
    if not _loaded:
        beside = Path(__file__).resolve().parent.parent / "target" / "staticlib" / "libmujplesten.so"
        _loaded.append(ctypes.CDLL(os.environ.get("MUJPLESTEN_LIBRARY", str(beside))))
    return _loaded[0]


def _number(kind: Any, n: int) -> Any:
    """A whole number as an unsigned C type, the largest for all that it does not hold."""
    fits = kind(n)
    return fits if fits.value == n else kind(-1)


def _array(kind: Any, values: Iterable[Any]) -> Any:
    numbers = [n if kind is c_double else _number(kind, n) for n in values]
    return (kind * len(numbers))(*numbers)


def _bytes(text: Text) -> Any:
    read = text.encode() if isinstance(text, str) else text
    return (c_uint8 * len(read)).from_buffer_copy(read)


def _slices(*arrays: Any) -> List[Any]:
    """Each array as C takes it: a pointer and a length."""
    return [part for array in arrays for part in (array, c_size_t(len(array)))]


def _call(name: str, *arguments: Any, place: Optional[c_uint64] = None) -> None:
    function = getattr(_library(), name)
    function.restype = c_uint32
    number = function(*arguments)
    if number:
        nowhere = place is None or place.value == 2**64 - 1
        raise Refused(number, None if nowhere else place.value)


def _double(name: str, *arguments: Any) -> float:
    """What a call answers that answers the bits of a double."""
    function = getattr(_library(), name)
    function.restype = c_uint64
    return c_double.from_buffer(c_uint64(function(*arguments))).value


def _doubles(name: str, count: int, *arguments: Any) -> List[float]:
    """What a call tells that tells so many doubles and nothing else."""
    told = [c_double() for _ in range(count)]
    _call(name, *arguments, *map(byref, told))
    return [double.value for double in told]


# ---- sequences, loops, temperatures


def sequence(text: Text) -> DgDs:
    """One strand with its perfect match, initiation included. Refused: 1, 2, 3."""
    return DgDs(*_doubles("mj_sequence", 2, *_slices(_bytes(text))))


def published(text: Text) -> DgDs:
    """The same as the paper has it, with its terms for ends and for self-complements. Refused: 1, 2, 3."""
    given = _slices(_bytes(text))
    _call("mj_published_reply", *given)
    return DgDs(_double("mj_published_dg", *given), _double("mj_published_ds", *given))


def pair(first: Text, second: Text) -> DgDs:
    """Two strands, the second read by index beside the first; no initiation. Refused: 1, 2, 4, 5."""
    return DgDs(*_doubles("mj_pair", 2, *_slices(_bytes(first), _bytes(second))))


def loop(length: int, kind: str) -> float:
    """The free energy of a loop of 3 to 254, kind one of LOOPS. Refused: 5."""
    number = LOOPS.index(kind) if kind in LOOPS else len(LOOPS)
    return _doubles("mj_loop_penalty", 1, _number(c_size_t, length), c_uint32(number))[0]


def sequence_strength(text: Text, excess: float) -> float:
    """The strength of one strand with its perfect match at an excess over 37 C. Refused: 1, 2, 3, 9."""
    return _doubles("mj_sequence_strength", 1, *_slices(_bytes(text)), c_double(excess))[0]


def pair_strength(first: Text, second: Text, excess: float) -> float:
    """The same of two strands. Refused: 1, 2, 4, 5, 9."""
    return _doubles("mj_pair_strength", 1, *_slices(_bytes(first), _bytes(second)), c_double(excess))[0]


def short_sequence(rank: int) -> str:
    """The sequence at a rank among all of 2 to 8 bases. Refused: 13."""
    letters, bases = (c_uint8 * 8)(), c_uint64()
    _call("mj_short_sequence", _number(c_uint64, rank), *_slices(letters), byref(bases))
    return bytes(letters[: bases.value]).decode()


def ambient(kelvin: float) -> Ambient:
    """RT and the excess temperatures at 200 to 500 kelvin. Refused: 9."""
    return Ambient(*_doubles("mj_ambient", 3, c_double(kelvin)))


def ln(x: float) -> float:
    """The natural logarithm of 2^-60 to 2^10, within 2^-40. Refused: 15."""
    return _doubles("mj_ln", 1, c_double(x))[0]


def exp(x: float) -> Weight:
    """The exponential of -80,000 to 80,000, within one part in 2^24. Refused: 9."""
    digits, power = c_uint32(), c_int32()
    _call("mj_exp", c_double(x), byref(digits), byref(power))
    return Weight(digits.value, power.value)


# ---- decks: a word for each strand, or with runs a word for each run of one strand


def deck_read(words: Sequence[int], runs: bool = False) -> Configuration:
    """The configuration of a deck. Refused: 1, 14 with the faulty word's index."""
    entries, place, count = (c_uint8 * 128)(), c_uint64(), c_uint64()
    given = _slices(_array(c_uint32, words), entries)
    _call("mj_deck_read", c_uint32(runs), *given, byref(place), byref(count), place=place)
    return entries[: count.value]


def deck_write(configuration: Sequence[int], runs: bool = False) -> List[int]:
    """The deck of a configuration. Refused: 1, 9."""
    words, count = (c_uint32 * 129)(), c_uint64()
    given = _slices(_array(c_uint8, configuration), words)
    _call("mj_deck_write", c_uint32(runs), *given, byref(count))
    return words[: count.value]


def deck_move(words: Sequence[int], runs: bool = False) -> List[int]:
    """A deck with runs or without them in the other form. Refused: 1, 14 with the faulty word's index."""
    moved, place, count = (c_uint32 * 129)(), c_uint64(), c_uint64()
    given = _slices(_array(c_uint32, words), moved)
    _call("mj_deck_move", c_uint32(runs), *given, byref(place), byref(count), place=place)
    return moved[: count.value]


# ---- designs


def _cells(cells: Cells) -> Any:
    """A table of glues from its cells that are not 0.0, or from all of them, row first."""
    if not isinstance(cells, Mapping):
        return _array(c_double, cells)
    table = (c_double * GLUES**2)()
    for (row, column), energy in cells.items():
        if not (0 <= row < GLUES and 0 <= column < GLUES):
            raise Refused(1)
        table[GLUES * row + column] = energy
    return table


def _lists(allowed: Sequence[Collection[int]]) -> List[Any]:
    """Lists of allowed occupants in one slice of numbers, with where each starts and how long it is."""
    lengths = [len(occupants) for occupants in allowed]
    starts = [sum(lengths[:i]) for i in range(len(lengths))]
    numbers = [occupant for occupants in allowed for occupant in occupants]
    return _slices(_array(c_uint8, numbers), _array(c_size_t, starts), _array(c_size_t, lengths))


class _Names:
    """Names and sequences in one text, each told as its start and length there."""

    def __init__(self) -> None:
        self.text = bytearray()

    def part(self, text: Text) -> List[int]:
        read = text.encode() if isinstance(text, str) else text
        self.text += read
        return [len(self.text) - len(read), len(read)]

    def name(self, text: Optional[Text]) -> List[int]:
        return [0, 0, 0] if text is None else [1, *self.part(text)]

    def names(self, texts: Iterable[Optional[Text]]) -> Any:
        return _array(c_size_t, [n for text in texts for n in self.name(text)])

    def entry(self, entry: Entry) -> List[int]:
        first, second, energy = entry
        named = [*self.part(first), *self.name(second)]
        return named + ([1, *self.part(energy)] if isinstance(energy, (str, bytes)) else [0, 0, 0])


def _params(strands: Sequence[StrandNames], scaffold: Sequence[Name], entries: Sequence[Entry]) -> List[Any]:
    """The text of a parameter set, and where all of it lies there."""
    names = _Names()
    users = names.names(name for west, bottom, east in strands for name in (west, bottom, east))
    sites = names.names(scaffold)
    rows = _array(c_size_t, [n for entry in entries for n in names.entry(entry)])
    told = [(0.0, 0.0) if isinstance(energy, (str, bytes)) else energy for _, _, energy in entries]
    energies = _array(c_double, [x for of_dg, of_ds in told for x in (of_dg, of_ds)])
    return [*_slices(_bytes(bytes(names.text))), c_size_t(len(strands)), *_slices(users, sites, rows, energies)]


class Design:
    """A scaffold, the strands that can sit on it, and how strongly their glues bind.

    scaffold       a glue for each position, 0 for none
    strands        west, bottom and east glue of each strand, from strand 1 on; 0 is the empty place
    dg, ds         the tables of glues: {(row, column): energy} for the cells that are not 0.0, or all 4,096
    potentials     the logarithm of each strand's concentration, from strand 1 on;
    concentrations     or these themselves, in mol/L: one of the two is given
    blocked        the positions that stay empty

    Each call checks all of it. Refused by every one: 1, 9, 10, 15, 16, 17; the place of 9 is a cell, of
    16 a number of the ambient, of 17 a strand.
    """

    def __init__(self, scaffold: Sequence[int], strands: Sequence[Tuple[int, int, int]], dg: Cells, ds: Cells,
                 ambient: Ambient, *, potentials: Optional[Sequence[float]] = None,
                 concentrations: Optional[Sequence[float]] = None, blocked: Collection[int] = ()) -> None:
        if (potentials is None) == (concentrations is None):
            raise TypeError("a design has potentials or concentrations, one of the two")
        amounts = potentials if concentrations is None else concentrations
        self.scaffold = list(scaffold)
        self.glues = [(0, 0, 0), *((west, bottom, east) for west, bottom, east in strands)]
        self.positions = len(scaffold)
        self.strands = len(amounts) + 1
        if not all(0 <= position < self.positions for position in blocked):
            raise Refused(1)
        marks = [int(position in blocked) for position in range(self.positions)]
        glues = [glue for strand in self.glues for glue in strand]
        rt, strand_excess, scaffold_excess = ambient
        self._lent = [
            *_slices(_array(c_uint8, scaffold), _array(c_uint8, marks), _array(c_uint8, glues), _cells(dg), _cells(ds)),
            *_slices(_array(c_double, [0.0, *amounts])), c_uint32(concentrations is not None),
            c_double(rt), c_double(strand_excess), c_double(scaffold_excess),
        ]

    @classmethod
    def from_params(cls, strands: Sequence[StrandNames], scaffold: Sequence[Name], entries: Sequence[Entry],
                    ambient: Ambient, *, penalty: Tuple[float, float] = (0.0, 0.0), quencher: int = 0,
                    reporter: int = 0, archive: bool = False, **rest: Any) -> Design:
        """The design of names and energies. An entry is a name, a second one or None, and its DgDs or sequence.

        The penalty, dG and dS, is added to every entry. Quencher and reporter are the numbers of the
        strands that are copied, 0 for none. In the design they are the strands behind all others,
        quencher first, and keep these numbers where there is none. The rest is as above; amounts are
        those of the strands, and of a quencher and a reporter that are there. The archive's build takes
        old names that end in two or more stars. Refused: 1, 2, 3, 6, 7, 8, 9, 21.
        """
        glues, glue_of = (c_uint8 * (3 * (len(strands) + 3)))(), (c_uint8 * len(scaffold))()
        dg, ds = (c_double * GLUES**2)(), (c_double * GLUES**2)()
        penalty_dg, penalty_ds = penalty
        _call("mj_params", c_uint32(archive), *_params(strands, scaffold, entries),
              c_double(penalty_dg), c_double(penalty_ds), _number(c_size_t, quencher), _number(c_size_t, reporter),
              *_slices(glues, glue_of, dg, ds))
        for kind in ("potentials", "concentrations"):
            if rest.get(kind) is None:
                continue
            amounts = list(rest[kind])
            if len(amounts) != len(strands) + (quencher != 0) + (reporter != 0):
                raise Refused(1)
            none = [] if quencher else [0.0]
            rest[kind] = amounts[: len(strands)] + none + amounts[len(strands) :] + ([] if reporter else [0.0])
        rows = [tuple(glues[i : i + 3]) for i in range(3, len(glues), 3)]
        return cls(glue_of[:], rows, dg[:], ds[:], ambient, **rest)

    def _ask(self, name: str, *given: Any, told: Sequence[Any] = ()) -> None:
        place = c_uint64()
        _call(name, *self._lent, *given, byref(place), *map(byref, told), place=place)

    def _energy(self, name: str, *given: Any) -> float:
        energy = c_double()
        self._ask(name, *given, told=[energy])
        return energy.value

    def _settled(self, name: str, *given: Any) -> Settled:
        entries = (c_uint8 * self.positions)()
        energy = self._energy(name, *given, *_slices(entries))
        return Settled(entries[:], energy)

    def _sum(self, name: str, *given: Any) -> Weight:
        digits, power = c_uint32(), c_int32()
        self._ask(name, *given, told=[digits, power])
        return Weight(digits.value, power.value)

    def strand_bond(self, x: int, y: int) -> float:
        """The bond between strand x and strand y to the east of it: an energy over RT."""
        return self._energy("mj_strand_bond", _number(c_uint8, x), _number(c_uint8, y))

    def scaffold_bond(self, position: int, strand: int) -> float:
        """The bond between the scaffold at a position and a strand."""
        return self._energy("mj_scaffold_bond", _number(c_size_t, position), _number(c_uint8, strand))

    def friends(self, position: int) -> List[int]:
        """The strands that can sit at a position, in rising order."""
        entries, count = (c_uint8 * 64)(), c_uint64()
        self._ask("mj_friends", _number(c_size_t, position), *_slices(entries), told=[count])
        return entries[: count.value]

    def states(self) -> int:
        """How many states there are. Refused: 12 too."""
        count = c_uint64()
        self._ask("mj_states", told=[count])
        return count.value

    def state(self, rank: int) -> Configuration:
        """The state at a rank. Refused: 12, 13 too."""
        entries = (c_uint8 * self.positions)()
        self._ask("mj_state", _number(c_uint64, rank), *_slices(entries))
        return entries[:]

    def state_energy(self, configuration: Sequence[int]) -> float:
        """The state energy of a configuration. Refused: 11 too."""
        return self._energy("mj_state_energy", *_slices(_array(c_uint8, configuration)))

    def chain_energy(self, configuration: Sequence[int]) -> Chain:
        """The chain energy of a configuration. Refused: 11 too."""
        total, energy = c_double(), c_double()
        self._ask("mj_chain_energy", *_slices(_array(c_uint8, configuration)), told=[total, energy])
        return Chain(total.value, energy.value)

    def search(self) -> Settled:
        """The configuration with the lowest RT times chain energy, and that energy."""
        return self._settled("mj_search")

    def first_state_under(self, ceiling: float) -> Settled:
        """The first state whose state energy is at most the ceiling. Refused: 12, 23 too."""
        return self._settled("mj_first_state_under", c_double(ceiling))

    def ring_energy(self, configuration: Sequence[int]) -> float:
        """The ring energy of a configuration: the last position stands beside the first. Refused: 11, 20 too."""
        return self._energy("mj_ring_energy", *_slices(_array(c_uint8, configuration)))

    def ring_search(self) -> Settled:
        """The configuration with the lowest ring energy, and that energy. Refused: 20 too."""
        return self._settled("mj_ring_search")

    def free_sum_of_energies(self) -> Weight:
        """The sum over all states, within one part in 2^14. Refused: 18 too."""
        return self._sum("mj_free_sum_of_energies")

    def constrained_sum_of_energies(self, allowed: Sequence[Collection[int]]) -> Weight:
        """The same over the states that have one of the allowed occupants at each position; none listed, any."""
        return self._sum("mj_constrained_sum_of_energies", *_lists(allowed))

    def probability(self, allowed: Sequence[Collection[int]]) -> Weight:
        """The probability of these states, within one part in 2^12. Refused: 18 too."""
        return self._sum("mj_probability", *_lists(allowed))

    def occupants(self) -> List[List[Weight]]:
        """The probability of each occupant at each position, first of the empty place. Refused: 18 too."""
        cells = self.positions * self.strands
        digits, powers = (c_uint32 * cells)(), (c_int32 * cells)()
        self._ask("mj_occupants", *_slices(digits, powers))
        weights = [Weight(*cell) for cell in zip(digits, powers)]
        return [weights[i : i + self.strands] for i in range(0, cells, self.strands)]

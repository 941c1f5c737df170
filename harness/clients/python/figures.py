"""Draws what ../c/figures.c draws, and prints the same lines by the Python module."""

import struct
from typing import Any, Callable, Dict, List, Optional, Tuple

import mujplesten as mj

drawn = 32


def draw(n: int) -> int:
    """A number below n."""
    global drawn
    drawn = (drawn * 6364136223846793005 + 1442695040888963407) % 2**64
    return (drawn >> 33) % n


def draw_energy() -> float:
    """A multiple of 1/64 from -8 up to 8."""
    return draw(1024) / 64.0 - 8.0


def draw_letters(alphabet: str, n: int) -> str:
    return "".join(alphabet[draw(len(alphabet))] for _ in range(n))


def shown(told: Any) -> str:
    """A figure, or each in turn: doubles as their bits."""
    if isinstance(told, mj.Weight):
        return f" {told.digits}*2^{told.power}" + shown(float(told))
    if isinstance(told, float):
        return f" {struct.unpack('<Q', struct.pack('<d', told))[0]:016x}"
    if isinstance(told, int):
        return f" {told}"
    if isinstance(told, mj.Design):
        return shown(told.glues) + shown(told.scaffold)
    if isinstance(told, mj.Settled):
        return shown(told.energy) + shown(told.configuration)
    return "".join(map(shown, told))


def line(name: str, call: Callable[..., Any], *arguments: Any) -> Any:
    """Prints what a call tells or how it refuses, and hands on what it told."""
    try:
        told = call(*arguments)
    except mj.Refused as refused:
        print(f"{name} {refused.number}" + ("" if refused.place is None else f" at {refused.place}"))
        return None
    print(f"{name} 0{shown(told)}")
    return told


def sequences() -> None:
    m = draw(12)
    n = draw(12) if draw(8) == 0 else m
    a = draw_letters("acgtn" if draw(16) == 0 else "acgtACGT", m)
    b = draw_letters("acgtACGT", n)
    excess = 1025.0 if draw(64) == 0 else 4.0 * draw_energy()
    line("two", mj.sequence, a)
    line("published", mj.published, a)
    line("two", mj.pair, a, b)
    line("sequence strength", mj.sequence_strength, a, excess)
    line("pair strength", mj.pair_strength, a, b, excess)
    length = draw(264)
    line("loop", mj.loop, length, [*mj.LOOPS, "other"][draw(4)])
    line("ambient", mj.ambient, 190.15 + draw(320))
    argument = draw_energy()
    line("ln", mj.ln, argument)
    line("exp", mj.exp, 16.0 * argument)


def decks() -> None:
    n, runs = draw(5), draw(2) == 1
    words = line("deck", mj.deck_write, [draw(3) for _ in range(n)], runs)
    if draw(4) == 0:
        words[draw(len(words))] += 1
    line("read", mj.deck_read, words, runs)
    line("moved", mj.deck_move, words, runs)


def draw_name(alphabet: str, absent: int) -> Optional[str]:
    if draw(absent) == 0:
        return None
    letter = draw_letters(alphabet, 1)
    return letter + "*" * (2 if draw(32) == 0 else draw(2))


def draw_entry() -> Tuple[Any, ...]:
    sequence = draw(2)
    bases = 2 + draw(8) if sequence else 0
    first, second = draw_name("ab", 2**64 - 1), draw_name("abc", 2)
    if sequence:
        return first, second, draw_letters("acgt", bases)
    dg = draw_energy()
    return first, second, mj.DgDs(dg, draw_energy() / 1024.0)


def draw_rest(positions: int, strands: int) -> Dict[str, Any]:
    blocked = [i for i in range(positions) if draw(8) == 0]
    given = draw(2)
    amounts = [(draw_energy() + 8.25) / 64.0 if given else draw_energy() for _ in range(strands)]
    if draw(8) == 0:
        amounts[0] = -2000.0
    ambient = mj.ambient(300.15 + draw(50))
    if draw(16) == 0:
        ambient = ambient._replace(strand_excess=1025.0)
    return {"blocked": blocked, "concentrations" if given else "potentials": amounts, "ambient": ambient}


def draw_design() -> Optional[mj.Design]:
    """None where the parameter set is refused."""
    users, count = 1 + draw(3), draw(7)
    penalty = draw_energy() / 8.0
    strands = [[draw_name("ab", 8) for _ in range(3)] for _ in range(users)]
    scaffold = [draw_name("ab", 8) for _ in range(draw(7))]
    entries = [draw_entry() for _ in range(count)]
    copied = {"quencher": draw(users + 1), "reporter": draw(users + 1), "archive": draw(2) == 1}
    rest = draw_rest(len(scaffold), users + (copied["quencher"] != 0) + (copied["reporter"] != 0))
    of_all = mj.DgDs(penalty, penalty / 1024.0)
    return line("params", lambda: mj.Design.from_params(strands, scaffold, entries, penalty=of_all, **copied, **rest))


def energies_of(design: mj.Design) -> None:
    settled = line("search", design.search)
    state = settled.configuration if settled else [0] * design.positions
    line("state energy", design.state_energy, state)
    line("two", design.chain_energy, state)
    line("states", design.states)
    # The last that a call wrote is asked for next.
    state = line("state", design.state, draw(6)) or state
    under = line("under", design.first_state_under, draw_energy())
    state = under.configuration if under else state
    line("ring energy", design.ring_energy, state)
    line("ring search", design.ring_search)


def bonds(design: mj.Design) -> None:
    x, y = draw(7), draw(7)
    position = draw(7)
    line("strand bond", design.strand_bond, x, y)
    line("scaffold bond", design.scaffold_bond, position, x)
    line("friends", design.friends, position)


def sums(design: mj.Design) -> None:
    allowed: List[List[int]] = [[draw(4) for _ in range(draw(3))] for _ in range(design.positions)]
    line("free", design.free_sum_of_energies)
    line("constrained", design.constrained_sum_of_energies, allowed)
    line("probability", design.probability, allowed)
    line("occupants", design.occupants)


def main() -> None:
    for _ in range(400):
        sequences()
        decks()
        design = draw_design()
        if design is not None:
            energies_of(design)
            bonds(design)
            sums(design)


main()

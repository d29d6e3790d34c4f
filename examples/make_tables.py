#!/usr/bin/env python3
"""Makes the tables of the three examples, always the same. The events are invented.

Momenta, energies and masses are whole numbers in MeV, pseudorapidities in thousandths.
"""
import os

HERE = os.path.dirname(os.path.abspath(__file__))


class Numbers:
    """Numbers of a linear congruential generator, so that the tables never change."""

    def __init__(self, seed):
        self.state = seed

    def below(self, bound):
        self.state = (self.state * 6364136223846793005 + 1442695040888963407) % 2 ** 64
        return (self.state >> 33) % bound

    def falling(self, least, scale):
        """A number from `least` on, greater ones ever rarer."""
        value = least
        while self.below(4) != 0:
            value += self.below(scale)
        return value

    def near(self, middle, width):
        """A number near the middle: the mean of four."""
        return middle - width + sum(self.below(2 * width + 1) for _ in range(4)) // 4


def joined(values):
    return ";".join(map(str, values))


def write(name, header, rows):
    with open(os.path.join(HERE, name), "w", encoding="ascii", newline="\n") as file:
        file.write(header + "\n")
        for row in rows:
            file.write(",".join(map(str, row)) + "\n")


def muon_pairs(numbers):
    for event in range(160):
        count = [0, 1, 2, 2, 2, 2, 2, 2, 3, 2][numbers.below(10)]
        pts = sorted((numbers.falling(9000, 16000) for _ in range(count)), reverse=True)
        etas = [numbers.below(5401) - 2700 for _ in pts]
        first = [-1, 1][numbers.below(2)]
        opposite = numbers.below(8) != 0
        charges = [first, -first if opposite else first, 1][:count]
        signal = numbers.below(4) != 0
        mass = numbers.near(91188, 7000) if signal else 20000 + numbers.below(110000)
        yield 1001 + event, joined(pts), joined(etas), joined(charges), mass if count > 1 else 0


def jet_energy(numbers):
    for event in range(120):
        pts = sorted((numbers.falling(15000, 22000) for _ in range(numbers.below(6))), reverse=True)
        missing = numbers.falling(3000, 18000)
        yield 2001 + event, joined(pts), missing, 800 + numbers.below(401)


def trigger_efficiency(numbers):
    ends = {0, 38, 79, 117, 152}
    for event in range(180):
        pt = 18000 + numbers.below(14000)
        reference = numbers.below(8) != 0
        turn_on = min(max(pt - 22000, 0) // 40, 94)         # in per cent, flat above 25.8 GeV
        fired = numbers.below(100) < turn_on
        yield 3001 + event, pt, int(reference), int(fired), int(event in ends)


if __name__ == "__main__":
    write("muon_pairs.csv", "event:int,mu_pt:vec,mu_eta:vec,mu_charge:vec,mass:int", muon_pairs(Numbers(20)))
    write("jet_energy.csv", "event:int,jet_pt:vec,met:int,weight:int", jet_energy(Numbers(7)))
    write("trigger_efficiency.csv", "event:int,mu_pt:int,reference:int,fired:int,lumi_block:cut",
          trigger_efficiency(Numbers(11)))

#!/usr/bin/env python3
"""Writes a larger table for one of the three examples, with the columns of its stored one.

    examples/make_events.py ANALYSIS EVENTS SEED >table.csv

ANALYSIS is muon_pairs, jet_energy or trigger_efficiency. The same words give the same table. The events are invented:
a peak over a falling background, spectra that fall by a power, a trigger that turns on. Momenta, energies and masses
are whole numbers in MeV, pseudorapidities and weights in thousandths.
"""
import math
import random
import sys


def joined(values):
    return ";".join(map(str, values))


def mass_of_pair(draw):
    """The mass of a Z boson, smeared, or one from a falling background."""
    if draw.random() < 0.7:
        true = 91188 + 1247 * math.tan(math.pi * (draw.random() - 0.5))
        return max(round(draw.gauss(true, 1300)), 5000)
    return round(20000 + draw.expovariate(1 / 40000))


def muon_pairs(draw, event):
    mass = mass_of_pair(draw)
    side = mass / 2 * math.sqrt(1 - draw.uniform(-1, 1) ** 2)
    boost = draw.expovariate(1 / 9000)
    pts = [round(side + boost), max(3000, round(side - boost * draw.random()))]
    pts += [round(3000 + draw.expovariate(1 / 5000)) for _ in range(draw.random() < 0.1)]
    pts = sorted(pts, reverse=True)[:draw.choices((0, 1, 3), (4, 14, 82))[0]]
    etas = [max(-2700, min(2700, round(draw.gauss(0, 1200)))) for _ in pts]
    first = draw.choice((-1, 1))
    charges = [first, -first if draw.random() < 0.95 else first, draw.choice((-1, 1))][:len(pts)]
    return event, joined(pts), joined(etas), joined(charges), mass if len(pts) > 1 else 0


def jet_energy(draw, event):
    count = min(12, sum(draw.random() < 0.3 for _ in range(9)))
    pts = sorted((round(15000 * draw.random() ** (-1 / 2.6)) for _ in range(count)), reverse=True)
    missing = round(math.hypot(draw.gauss(0, 18000), draw.gauss(0, 18000)))
    return event, joined(min(pt, 3000000) for pt in pts), missing, max(500, round(draw.gauss(1000, 90)))


def trigger_efficiency(draw, event):
    pt = round(18000 + draw.expovariate(1 / 9000))
    turn_on = 0.95 / 2 * (1 + math.erf((pt - 24000) / 2200))
    fired = draw.random() < turn_on
    return event, pt, int(draw.random() < 0.875), int(fired), int(event % 5000 == 0)


ANALYSES = {
    "muon_pairs": (muon_pairs, "event:int,mu_pt:vec,mu_eta:vec,mu_charge:vec,mass:int"),
    "jet_energy": (jet_energy, "event:int,jet_pt:vec,met:int,weight:int"),
    "trigger_efficiency": (trigger_efficiency, "event:int,mu_pt:int,reference:int,fired:int,lumi_block:cut"),
}


def main(words):
    if len(words) != 3 or words[0] not in ANALYSES or not (words[1] + words[2]).isdecimal():
        print(__doc__, file=sys.stderr)
        return 2
    make, header = ANALYSES[words[0]]
    draw = random.Random(int(words[2]))
    sys.stdout.write(header + "\n")
    for event in range(int(words[1])):
        sys.stdout.write(",".join(map(str, make(draw, event))) + "\n")
    return 0


if __name__ == "__main__":
    sys.exit(main(sys.argv[1:]))

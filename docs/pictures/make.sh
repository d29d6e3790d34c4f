#!/bin/sh
# Draws the pictures of this folder again: from examples/*.out, from what docs/TUTORIAL.md prints, and from larger tables
# that examples/make_events.py makes and the scripts here analyse. It needs matplotlib, Graphviz and the program, which is
# RDF_PROGRAM, or the repository's ./rdf. With a name behind it, it draws only the pictures whose names begin so.
set -eu

pictures=$(cd "$(dirname "$0")" && pwd -P)
top=$(cd "$pictures/../.." && pwd -P)
only=${1:-}
program=${RDF_PROGRAM:-$top/rdf}
part=$(mktemp -d)
trap 'rm -rf "$part"' EXIT

# The so-many-th result of this name and number of cells that the tutorial prints, with its variations.
printed() { awk -v first="$1" -v wanted="$2" '/^```/ { on = 0 } $0 == first { on = ++n == wanted } on' "$top/docs/TUTORIAL.md"; }

plot() { # NAME WORDS..: one picture
    name=$1
    shift
    case $name in "$only"*) "$top/tools/rdf_plot" --dpi 90 --out "$pictures/$name.png" "$@" ;; esac
}

graph() { # NAME WORDS..
    name=$1
    shift
    case $name in "$only"*) "$top/tools/rdf_graph" --dpi 75 --out "$pictures/$name.png" "$@" ;; esac
}

events() { # SCRIPT ANALYSIS EVENTS SEED: the output, in the file of its name
    "$top/examples/make_events.py" "$2" "$3" "$4" >"$part/table.csv"
    "$program" "$pictures/$1.txt" "$part/table.csv" >"$part/$1.$4.out"
}

# The examples, with their stored tables

muons=$top/examples/muon_pairs.out
jets=$top/examples/jet_energy.out
trigger=$top/examples/trigger_efficiency.out

plot muon_pairs_cutflow --only cutflow --label 'cutflow=Events' "$muons"
plot muon_pairs_mass --only mass --script "$top/examples/muon_pairs.txt" --scale mass=0.001 "$muons"
plot muon_pairs_plane --only plane --script "$top/examples/muon_pairs.txt" \
    --scale lead_pt=0.001 --scale trail_pt=0.001 "$muons"
plot muon_pairs_tracks --only tracks --script "$top/examples/muon_pairs.txt" --scale mu_eta=0.001 "$muons"
plot jet_energy_flow --only flow --label 'flow=Events' "$jets"
plot jet_energy_spectrum --only spectrum --script "$top/examples/jet_energy.txt" \
    --scale ht=0.001 --scale weight=0.001 "$jets"
plot trigger_efficiency_flow --only flow --label 'flow=Events' "$trigger"
plot trigger_efficiency_pass_pt_of_all_pt --efficiency pass_pt all_pt --only pass_pt_of_all_pt \
    --script "$top/examples/trigger_efficiency.txt" --scale mu_pt=0.001 "$trigger"
plot muons_take --only jets --take jets --label 'jets=Jets of an event' "$top/tools/tests/muons.txt"
graph muon_pairs_graph "$top/examples/muon_pairs.txt" "$top/examples/muon_pairs.csv"
graph jet_energy_graph "$top/examples/jet_energy.txt" "$top/examples/jet_energy.csv"

# The tutorial

printed 'mass = histo1d 8' 1 >"$part/mass.out"
printed 'ht = histo1d 5' 1 >"$part/ht.out"
printed 'mass = histo1d 8' 2 >"$part/data.out"
printed 'mass = histo1d 8' 3 >"$part/simulation.out"
plot tutorial_mass --flow --scale mass=0.001:GeV --label 'mass=Mass of the pair' --label2 mass=Pairs "$part/mass.out"
plot tutorial_ht --flow --scale ht=0.001:GeV --scale2 ht=0.001 --label 'ht=$H_T$' --label2 ht=Events "$part/ht.out"
plot tutorial_compare --points data --scale mass=0.001:GeV --scale2 mass=0.001 --label 'mass=Mass of the pair' \
    --label2 mass=Pairs "$part/simulation.out" "$part/data.out"

# Larger tables

events z_mass muon_pairs 60000 1
events z_mass muon_pairs 120000 2
events jets_spectrum jet_energy 60000 1
events turn_on trigger_efficiency 60000 1
events turn_on trigger_efficiency 60000 2
data=$part/z_mass.1.out
simulation=$part/z_mass.2.out
jets=$part/jets_spectrum.1.out

z="--script $pictures/z_mass.txt --scale mass=0.001 --scale lead_pt=0.001 --scale trail_pt=0.001"
plot z_mass $z --only mass "$data"
plot z_mass_per_bin $z --only mass --per-bin "$data"
plot z_mass_flow $z --only mass --flow --log "$data"
plot z_data $z --only mass --legend Simulation --legend Data --points Data --times Simulation=1/2 "$simulation" "$data"
plot z_cutflow $z --only flow --label 'flow=Events' "$data"
plot z_plane $z --only plane "$data"
plot z_plane_per_width $z --only plane --per-width --log "$data"

j="--script $pictures/jets_spectrum.txt --scale ht=0.001 --scale weight=0.001 --label2 spectrum=Events"
plot jets_spectrum $j --log "$jets"
plot jets_quadrature $j --log --band quadrature "$jets"
plot jets_singles $j --log --singles "$jets"

t="--script $pictures/turn_on.txt --scale mu_pt=0.001 --efficiency pass_pt all_pt --only pass_pt_of_all_pt"
plot turn_on $t "$part/turn_on.1.out"
plot turn_on_compare $t --legend 'first half' --legend 'second half' "$part/turn_on.1.out" "$part/turn_on.2.out"

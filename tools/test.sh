#!/bin/sh
# Runs the tests of rdf_plot, rdf_graph, rdf_describe and rdf_show and prints each. Those that draw are left out, with a
# line that says so, where neither python3 nor the system's own has matplotlib, and those of Graphviz where it isn't there.
set -u

cd "$(dirname "$0")" || exit 1
python=python3
for each in python3 /usr/bin/python3; do
    if "$each" -c 'import matplotlib' 2>/dev/null; then
        python=$each
        break
    fi
done
"$python" -c 'import matplotlib' 2>/dev/null ||
    echo "tools/test.sh: nothing is drawn: python3 has no matplotlib (Debian package python3-matplotlib)"
command -v dot >/dev/null || echo "tools/test.sh: no graph is drawn: there is no dot (Debian package graphviz)"
exec "$python" -B -m unittest discover -v -s tests -t .

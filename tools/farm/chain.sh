#!/bin/sh
# Runs the program RDF_CHAIN, or `rdf chain` of this repository, with the words; where its crate isn't there, the reference.
[ -z "${RDF_CHAIN:-}" ] || exec "$RDF_CHAIN" "$@"
top=$(dirname "$0")/../..
[ -d "$top/crates/rdf_chain" ] || exec "$top/tools/reference/rdf_chain_reference.py" "$@"
exec "$top/rdf" chain "$@"

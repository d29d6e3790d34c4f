"""What tools/names.py finds missing in a small repository."""

from __future__ import annotations

import os
import tempfile
import unittest

import names

FILES = {
    "crates.txt": "low:\nhigh: low\n",
    "crates/low/src/lib.rt": "pub mod rows;\n",
    "crates/low/specs/Counts.antt": "-- how many: all\nabbrev pub count : List ℕ → ℕ\ncount [] = 0\n\npub data End : Type 0 where\n  Whole Partial : End\n",
    "crates/low/specs/Lib.antt": "pub mod Counts\npub use Counts.{count, Whole}\n",
    "crates/high/src/lib.rt": "ghost use Rattle.low.specs.Counts.{count, Partial};\n",
    "crates/high/proofs/Choosing.antt": "use Rattle.std.proofs.Common.{ℕ, if◌then◌else◌}\nuse Rattle.low.specs.Counts.{count}\npick : ℕ\npick = if b then 1 else 2\n",
}


def found(changes: dict[str, str]) -> list[str]:
    """The faults of the small repository with these files changed."""
    with tempfile.TemporaryDirectory() as top:
        for name, text in {**FILES, **changes}.items():
            path = os.path.join(top, name)
            os.makedirs(os.path.dirname(path), exist_ok=True)
            with open(path, "w", encoding="utf-8") as file:
                file.write(text)
        known = names.crates(top)
        each = [it for crate in known for it in [*names.lost_names(top, crate, known), *names.lost_choices(top, crate), *names.shared_names(top, crate)]]
        return [*names.types_alike(top, known), *each]


class Names(unittest.TestCase):
    def test_what_is_there_is_found(self) -> None:
        self.assertEqual(found({}), [])

    def test_a_type_in_two_crates(self) -> None:
        row = "#[derive(Drop)]\npub struct Row {\n}\n"
        self.assertEqual(found({"crates/low/src/row.rt": row, "crates/high/src/row.rt": row}), ["Row is a type in high, low"])

    def test_a_type_of_each_program(self) -> None:
        answer = "pub(crate) enum Answer {\n}\n"
        self.assertEqual(found({"crates/low/src/answer.rt": answer, "crates/high/src/answer.rt": answer}), [])

    def test_a_name_that_went(self) -> None:
        self.assertEqual(
            found({"crates/high/src/lib.rt": "ghost use Rattle.low.specs.Counts.{counts};\n"}),
            ["crates/high/src/lib.rt: Counts of low has no counts"],
        )

    def test_a_module_that_went(self) -> None:
        self.assertEqual(
            found({"crates/high/src/lib.rt": "ghost use Rattle.low.specs.Sums.{sum};\n"}),
            ["crates/high/src/lib.rt: there is no module Sums in the specs of low"],
        )

    def test_what_the_root_passes_on(self) -> None:
        self.assertEqual(found({"crates/high/src/lib.rt": "ghost use Rattle.low.specs.{count, Whole};\n"}), [])

    def test_a_name_that_the_root_does_not_pass_on(self) -> None:
        self.assertEqual(
            found({"crates/high/src/lib.rt": "ghost use Rattle.low.specs.{count, Partial};\n"}),
            ["crates/high/src/lib.rt: the root of the specs of low passes on no Partial"],
        )

    def test_a_name_that_went_and_is_passed_on(self) -> None:
        self.assertEqual(
            found({"crates/low/specs/Lib.antt": "pub mod Counts\npub use Counts.{counts}\n"}),
            ["crates/low/specs/Lib.antt: Counts has no counts"],
        )

    def test_a_choice_that_is_not_brought_in(self) -> None:
        self.assertEqual(
            found({"crates/high/proofs/Choosing.antt": "use Rattle.std.proofs.Common.{ℕ}\npick : ℕ\npick = if b then 1 else 2\n"}),
            ["crates/high/proofs/Choosing.antt: if .. then .. isn't brought in"],
        )

    def test_a_lemma_file_named_as_a_module(self) -> None:
        self.assertEqual(
            found({"crates/low/src/rows.rt": "", "crates/low/proofs/Rows.antt": "one : ℕ\none = 1\n"}),
            ["crates/low/proofs/Rows.antt is named as a module of the crate"],
        )


if __name__ == "__main__":
    unittest.main()

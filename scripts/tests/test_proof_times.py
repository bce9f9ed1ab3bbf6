"""What a check has kept, as times by function: on names and times that are made here."""
import os
import sys
import tempfile
import unittest

TOP = os.path.dirname(os.path.dirname(os.path.dirname(os.path.realpath(__file__))))
sys.path.insert(0, f"{TOP}/scripts")

import proof_times  # noqa: E402


class Times(unittest.TestCase):
    def test_parts(self):
        for name, want in [
            ("Rattle-mi_one-proofs.a.f.Lts.oantt", ("a.f", "Lts")),
            ("Rattle-mi_one-proofs.a.+go.Lts-first.oantt", ("a.+go", "Lts")),
            ("Rattle-mi_one-proofs.a.f.Proof.decls.oantt", ("a.f", "Proof")),
            ("Rattle-mi_one-proofs.OneLemmas.oantt", ("FILE OneLemmas", "")),
            ("Rattle-mi_one-specs.contracts.a.oantt", ("specs", "")),
            ("stamp", ("other", "")),
        ]:
            self.assertEqual(proof_times.part_of(name), want)

    def test_a_folder(self):
        with tempfile.TemporaryDirectory() as folder:
            for when, name in [(9, "stamp"), (10, "Rattle-mi_one-specs.Shape.oantt"), (13, "Rattle-mi_one-proofs.a.f.Lts.oantt"), (14, "Rattle-mi_one-proofs.a.f.Tie.oantt"),
                               (16, "Rattle-mi_one-proofs.OneLemmas.oantt")]:
                with open(f"{folder}/{name}", "w", encoding="ascii"):
                    pass
                os.utime(f"{folder}/{name}", (when, when))
            found = proof_times.times(proof_times.kept_files(folder))
        self.assertEqual(proof_times.table(found, 1), "    6.0 in all\n    4.0 a.f  Lts 3.0 Tie 1.0")

    def test_nothing_is_kept(self):
        with tempfile.TemporaryDirectory() as folder:
            self.assertEqual(proof_times.main(["mi_one", "--folder", folder]), 1)


if __name__ == "__main__":
    unittest.main()

"""What house.py counts, of small texts."""
import pathlib
import subprocess
import sys
import tempfile
import unittest

HERE = pathlib.Path(__file__).resolve().parent
sys.path[:0] = [str(HERE)]
import house

CODE = """//! What a door is.
#![tactic(auto)]
ghost use Rattle.std.specs.Prelude.{ℕ};
use crate::bell::Bell;

/// A door.
pub struct Door {
    bell: Bell,
    pub ghost rings: { ℕ },
}

impl Door {
    // rings once
    #[tactic(auto, unfolding(rung))]
    pub fn ring(&mut self)
        requires { self.rings < 2 ^ 64 }
        ensures rung { (n : ℕ)
            → n ≡ self.rings
            → rung n self }
    {
        self.bell.ring(");");
    }
}
"""
SPECS = """-- How often a door rang.
use Rattle.std.specs.Prelude.{ℕ}
pub mod Inner
abbrev pub rung : ℕ → Door → Type 0
rung n door = n ≡ door.rings

abbrev hidden : ℕ
pub record IsOpen (door : Door) : Type 0 where
  pub field : ℕ
module _ {A : Type 0} where
  unfoldable pub over : A → A
"""


class Counts(unittest.TestCase):
    def test_clauses_and_ghosts_are_no_code(self):
        # The use; the struct, a field and its end; the impl; the head of the function, its body of three lines; the end of the impl.
        self.assertEqual(house.code_lines(CODE), (10, 8))

    def test_public_definitions_are_those_of_the_module_and_not_its_fields(self):
        self.assertEqual(house.public(SPECS), {"rung", "IsOpen", "over"})


class Trees(unittest.TestCase):
    def test_names_that_two_crates_define_are_listed_and_costs_stand_in_the_row(self):
        with tempfile.TemporaryDirectory() as folder:
            root = pathlib.Path(folder)
            texts = {
                "crates/door/src/lib.rt": CODE,
                "crates/door/specs/Door.antt": SPECS,
                "crates/bell/specs/Bell.antt": "abbrev pub rung : ℕ\nabbrev pub tone : ℕ\n",
                "crates/bell/proofs/Tones.antt": "pub tones : IsTone tone\ntones = yes\n",
                "crates/bell_tests/specs/Worked.antt": "abbrev pub tone : ℕ\n",
                "docs/DEVELOPING.md": "| crate | its proof | its tests | its edits |\n|---|---|---|---|\n| door | 7 |  | 4 |\n",
            }
            for name, text in texts.items():
                (root / name).parent.mkdir(parents=True, exist_ok=True)
                (root / name).write_text(text)
            for words in (["init", "-q"], ["add", "-A"]):
                subprocess.run(["git", "-C", folder, *words], check=True, timeout=60)
            ran = subprocess.run([sys.executable, HERE / "house.py", "--names", folder], capture_output=True, text=True, timeout=60)
        self.assertEqual((ran.returncode, ran.stderr), (0, ""))
        rows = {line.split(" | ")[0].strip("| "): line.strip("| ").split(" | ")[1:7] for line in ran.stdout.splitlines() if line.startswith("| ")}
        self.assertEqual(rows["door"], ["10", "8", "11", "0", "11", "1"])
        self.assertEqual(rows["bell"], ["0", "0", "2", "2", "", "1"])
        self.assertEqual(rows["all but those of tests and rows"], ["10", "8", "13", "2", "11", "1"])
        self.assertEqual(rows["in several crates"], ["4", "1"])
        self.assertIn("\n- rung: bell, door\n", ran.stdout)
        self.assertNotIn("- tone", ran.stdout)


if __name__ == "__main__":
    unittest.main()

"""Tests of tools/walk.py on crates that are made up: where a call leads to, and what is left out."""
import sys
import unittest
from pathlib import Path

TOP = Path(__file__).resolve().parent.parent.parent
sys.path.insert(0, str(TOP / "tools"))
import walk  # noqa: E402

CRATES = {
    "crates/cmsproof/src/main.rt": """use cli_cups::{self, Task, pour as poured};

fn main(rt: HostRuntime) -> ExitCode {
    cli_cups::run(task); // hidden(task)
    poured("none(x)")
}
""",
    "crates/cli_cups/src/lib.rt": "pub use doing::{Task, run};\npub use cups::pour;\n",
    "crates/cli_cups/src/doing.rt": """use crate::filling;
use cups::Cup;

/// Does hidden(task).
pub fn run(task: Task) -> u8
    ensures { hidden(task) }
{
    match task {
        Task::Show(path) => hidden(path),
        Task::Migrate(path) => {
            hidden(path)
        }
        Task::Check(path) | Task::CheckStamp(path) => Cup::of(path).drink(),
        Failure::Sums(_) => each_of(hidden),
        _ => filling::fill(),
    }
}

fn hidden() -> u8 {
    0
}
""",
    "crates/cli_cups/src/filling.rt": "pub fn fill() -> u8 {\n    der_cups::pour()\n}\n",
    "crates/cups/src/lib.rt": """pub fn pour(text: &str) -> u8 {
    inner(text)
}

fn inner(text: &str) -> u8 {
    0
}

impl<'a> Cup<'a> {
    pub fn of(path: &'a str) -> Cup<'a> {
        Self { path }
    }

    pub fn drink(self) -> u8 {
        self.path.len()
    }
}
""",
    "crates/der_cups/src/lib.rt": "pub fn pour() -> u8 {\n    0\n}\n",
    "crates/plates/src/lib.rt": "impl Plate {\n    fn drink(&self) -> u8 {\n        0\n    }\n}\n",
    "crates/cups/src/laws.rt": "pub fn inner() {}\n",
}
PASSED = ["Cup::drink", "Cup::of", "fill", "inner", "main", "pour", "run"]


class Walk(unittest.TestCase):
    def test_passed(self):
        tree = walk.Tree(CRATES)
        for ends, further in ((walk.ENDS, []), ("", ["pour"])):
            with self.subTest(ends):
                passed = tree.walk(ends)
                names = [f"{it.owner}::{it.name}" if it.owner else it.name for it in passed]
                self.assertEqual(sorted(names), sorted(PASSED + further))
                crates = sorted((at.crate, it.crate) for at, called in passed.items() for it in called if at.crate != it.crate)
                wanted = [("cli_cups", "cups")] * 2 + [("cli_cups", "der_cups")] * len(further)
                self.assertEqual(crates, wanted + [("cmsproof", "cli_cups"), ("cmsproof", "cups")])


if __name__ == "__main__":
    unittest.main()

"""Tests of the completion: bash, zsh and fish offer what the help of each command has, and no other file is there than is made."""
import re
import shutil
import subprocess
import sys
import unittest
from concurrent.futures import ThreadPoolExecutor
from pathlib import Path

from making import INSTALLED, PROGRAM, TOP, folder_of, need_tools

need_tools()

COMPLETIONS = TOP / "packaging" / "completion"
# what the completion for bash has for the last of some words; `files` where bash itself completes names of files
BASH = """. "$1"; shift; files=yes; compopt() { files=no; }; COMP_WORDS=("$@"); COMP_CWORD=$(($# - 1))
_cmsproof "$1"; [ "${#COMPREPLY[@]}" = 0 ] && [ "$files" = yes ] && compgen -f -- "${COMP_WORDS[COMP_CWORD]}"
for word in "${COMPREPLY[@]}"; do echo "$word"; done"""
FISH = 'for file in $argv[1]/*.fish; source $file; end; complete -C "$argv[2]"'
TOOLS = sorted(path.name for path in INSTALLED.glob("cmsproof-*[a-z]"))


def help_of(*words):
    """The text of a help."""
    return subprocess.run(list(map(str, words)), capture_output=True, text=True, check=True).stdout


def options_in(text):
    """The options that a help has, each on a line of its own."""
    return set(re.findall(r"^ +(?:-\w, +)?(--[a-z0-9-]+)", text, re.M))


def commands(*words):
    """The commands of the program, or those behind these words; `help` is one of them."""
    block = re.search(r"^Commands:\n((?: .*\n)+)", help_of(PROGRAM, *words, "--help"), re.M)
    return set(re.findall(r"^  (\w+)", block[1], re.M)) if block else set()


def options_of(name):
    """The options of a command of the program, or of all that stand behind it."""
    others = [[name, one] for one in commands(name) - {"help"}] or [[name]]
    return {option for words in others for option in options_in(help_of(PROGRAM, *words, "--help"))}


@unittest.skipUnless(PROGRAM.exists(), "the program is not built")
class Made(unittest.TestCase):
    """The files in packaging/completion."""

    def test_they_are_made_of_the_help_as_it_is(self):
        words = [sys.executable, TOP / "tools" / "completion.py", "--check", "--program", PROGRAM]
        done = subprocess.run(words, capture_output=True, text=True, check=False)
        self.assertEqual((done.returncode, done.stdout), (0, ""), done.stderr)


class Offered:
    """What a shell offers at the end of a line, beside the help."""

    def setUp(self):
        self.folder = folder_of(self)
        (self.folder / "letter.p7s").write_bytes(b"")

    def offered(self, line):
        """The words that are offered."""
        done = subprocess.run(self.command(line), capture_output=True, text=True, check=False, cwd=self.folder, timeout=60)
        self.assertEqual(done.stderr, "")
        return {word.partition("\t")[0] for word in done.stdout.splitlines() if word}

    def check(self, table):
        """Compares what is offered at the end of each line."""
        with ThreadPoolExecutor(4) as pool:
            for (line, expected), found in zip(table, pool.map(self.offered, [line for line, _ in table])):
                self.assertEqual(found, expected, line)

    def test_commands(self):
        self.assertIn("check", commands())
        found = [{word for word in self.offered(line) if word[0] != "-"} for line in ("cmsproof ", "cmsproof help ")]
        self.assertEqual(found, [commands(), commands()])

    def test_options_of_commands_and_tools(self):
        table = [(f"cmsproof {name} --", options_of(name)) for name in commands() - {"help"}]
        helps = [(name, help_of(sys.executable, INSTALLED / name, "--help")) for name in TOOLS]
        for word in ("report", "evidence", "due", "stamp", "renew"):
            name = f"cmsproof-archive {word}"
            helps.append((name, help_of(sys.executable, INSTALLED / "cmsproof-archive", word, "--help")))
        table += [(f"{name} --", options_in(text)) for name, text in helps]
        self.assertEqual(len(table), len(commands()) - 1 + 4 + 5)
        self.assertTrue(all("--help" in expected for _, expected in table))
        self.check(table)

    def test_values(self):
        text = " ".join(help_of(PROGRAM, "request", "--help").split())
        digests = set(re.search(r"--alg\W.*?\[possible values: (.*?)\]", text)[1].split(", "))
        verdicts = {"accepted", "stamped", "evidenced", "unsigned", "refused", "malformed", "failed"}
        table = [
            ("cmsproof show ", {"evidence", "request", "response", "signed", "tst"}),
            ("cmsproof stamp ", {"check", "questions"}),
            ("cmsproof evidence ", {"check", "questions", "request", "make", "renew", "rehash"}),
            ("cmsproof request --alg ", digests),
            ("cmsproof evidence make --alg ", digests),
            ("cmsproof-archive --only ", verdicts),
            ("cmsproof-archive report --only ", verdicts),
            ("cmsproof-archive rep", {"report"}),
            ("cmsproof-archive evi", {"evidence"}),
            ("cmsproof-archive du", {"due"}),
            ("cmsproof-archive st", {"stamp"}),
            ("cmsproof-archive ren", {"renew"}),
        ]
        self.check(table)

    def test_files_stand_where_they_may(self):
        there, nothing = {"letter.p7s"}, set()
        table = [
            ("cmsproof check l", there),
            ("cmsproof check --trust l", there),
            ("cmsproof check --buffer ", nothing),
            ("cmsproof evidence check --answers l", there),
            ("cmsproof evidence check --end ", nothing),
            ("cmsproof evidence make --into l", there),
            ("cmsproof evidence request --nonce ", nothing),
            ("cmsproof show signed l", there),
            ("cmsproof-archive l", there),
            ("cmsproof-archive --files-from l", there),
            ("cmsproof-archive --jobs ", nothing),
            ("cmsproof-archive report l", there),
            ("cmsproof-archive evidence --to l", there),
            ("cmsproof-archive due l", there),
            ("cmsproof-archive due --trust l", there),
            ("cmsproof-archive due --months ", nothing),
            ("cmsproof-archive stamp --trust l", there),
            ("cmsproof-archive renew --records l", there),
            ("cmsproof-archive renew --tsa ", nothing),
            ("cmsproof-archive stamp --tsa ", nothing),
            ("cmsproof-trust --tsa l", there),
            ("cmsproof-trust --until ", nothing),
            ("cmsproof-extract l", there),
            ("cmsproof-verify l", there),
        ]
        self.check(table)


@unittest.skipUnless(shutil.which("bash") and PROGRAM.exists(), "there is no bash")
class Bash(Offered, unittest.TestCase):
    """The completion for bash."""

    def command(self, line):
        """What has bash complete the last word of a line."""
        return ["bash", "-c", BASH, "bash", COMPLETIONS / "cmsproof.bash", *line.split(" ")]

    def test_the_value_behind_a_sign(self):
        words = ["cmsproof-archive", "--only", "="]
        for line in (words, [*words, "ref"]):
            done = subprocess.run(self.command(" ".join(line)), capture_output=True, text=True, check=True)
            self.assertIn("refused", done.stdout.split())


@unittest.skipUnless(shutil.which("zsh") and PROGRAM.exists(), "there is no zsh")
class Zsh(Offered, unittest.TestCase):
    """The completion for zsh, which finds it by its search path."""

    def command(self, line):
        """What has zsh complete the end of a line, as if somebody typed it."""
        return ["zsh", "-f", Path(__file__).parent / "capture.zsh", COMPLETIONS, line]


@unittest.skipUnless(shutil.which("fish") and PROGRAM.exists(), "there is no fish")
class Fish(Offered, unittest.TestCase):
    """The completion for fish."""

    def command(self, line):
        """What has fish complete the end of a line."""
        return ["fish", "--no-config", "-c", FISH, COMPLETIONS, line]


if __name__ == "__main__":
    unittest.main()

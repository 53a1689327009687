"""under_inputs.py FOLDER: writes what under.c is handed, of the made records of the rows: a trust list, a record, a file with a token of
20240115100000Z, and an answers list that vouches for each question of both, by the program ./cmsproof."""
import pathlib
import subprocess
import sys

TOP = pathlib.Path(__file__).resolve().parents[3]
sys.path.insert(0, str(TOP / "tools"))
import program_rows  # noqa: E402

TRUST = "2\\nsigner,-,-,$signer\\ntsa,-,-,$authority\\ntsa,-,-,$long_lived\\n"


def main(folder):
    rows, _ = program_rows.rows_of(program_rows.FOLDER)
    blobs = next(found for _, name, _, _, found in rows if name.endswith("/under.rows"))
    (folder / "under.trust").write_text("cmsproof trust " + program_rows.text_of(TRUST, blobs))
    for name, blob in (("under.record", "$under_at_20"), ("under.file", "$stamped")):
        (folder / name).write_bytes(program_rows.octets_of(blob, blobs))
    lines = []
    for words in (["evidence", "questions"], ["questions"]):
        file = "under.record" if words[0] == "evidence" else "under.file"
        asked = subprocess.run([TOP / "cmsproof", *words, "--trust", "under.trust", file], cwd=folder, stdout=subprocess.PIPE, check=True)
        lines += [line for line in asked.stdout.splitlines() if line.startswith(b"30")]
    (folder / "under.answers").write_bytes(b"\n".join([b"cmsproof answers 1", *dict.fromkeys(lines), b""]))


if __name__ == "__main__":
    main(pathlib.Path(sys.argv[1]))

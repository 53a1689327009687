"""What programs show of a file: the text of a PDF, of the files in a zip file, of the parts of a mail. Programs that are missing are left out."""
from __future__ import annotations

import email
import email.policy
import mailbox
import os
import shutil
import subprocess
import tempfile
import zipfile
from contextlib import suppress
from pathlib import Path

SECONDS = 20
# FILE is the file, and FOLDER one that is empty, into which it is unpacked
PDF = {
    "pdftotext": "pdftotext -q FILE -",
    "mutool": "mutool draw -q -F txt FILE",
    "gs": "gs -q -dNOPAUSE -dBATCH -dSAFER -sDEVICE=txtwrite -sOutputFile=- FILE",
}
ZIP = {
    "bsdtar": "bsdtar -xf FILE -C FOLDER",
    "bsdtar by a pipe": "cat FILE | bsdtar -xf - -C FOLDER",
    "unzip": "unzip -qq -o FILE -d FOLDER",
    "7z": "7z x -y -oFOLDER FILE",
    "jar": "cd FOLDER && jar xf FILE",
    "jar by a pipe": "cd FOLDER && jar x < FILE",
}
# what of an ASiC-S nobody reads as a letter
UNREAD = ("mimetype", "META-INF/manifest.xml", "META-INF/signature.p7s")
MUTT = 'set folder="FOLDER" spoolfile="FOLDER/spool" record="" pipe_decode=yes wait_key=no quit=yes move=no mail_check=0\n'
MUTT += 'set crypt_use_gpgme=no crypt_verify_sig=no\npush "<pipe-message>cat > FOLDER/text<enter><quit>"\n'
PERL = """use MIME::Parser; my $parser = MIME::Parser->new; $parser->output_to_core(1); $parser->tmp_to_core(1);
sub show { my $one = shift; if ($one->parts) { show($_) for $one->parts } elsif ($one->bodyhandle) { print $one->bodyhandle->as_string } }
show($parser->parse_open($ARGV[0]));"""


def is_there(name):
    """Whether the program of this viewer is there."""
    if name == "MIME::Parser":
        return subprocess.run(["perl", "-MMIME::Parser", "-e", "1"], capture_output=True).returncode == 0
    if name == "mutt":
        return bool(shutil.which("mutt") and shutil.which("script"))
    return name.startswith("python") or shutil.which(name.split()[0]) is not None


def by_command(command, path, folder):
    """What a command prints; nothing if it takes too long."""
    words = command.replace("FILE", str(path)).replace("FOLDER", folder)
    with suppress(subprocess.TimeoutExpired):
        return subprocess.run(words, shell=True, capture_output=True, stdin=subprocess.DEVNULL, timeout=SECONDS).stdout
    return b""


def unpacked(command, path, folder):
    """The octets of the files that a command unpacks, but for those that nobody reads."""
    by_command(command, path, folder)
    files = [file for file in Path(folder).rglob("*") if file.is_file() and str(file.relative_to(folder)) not in UNREAD]
    return b"".join(file.read_bytes() for file in files)


def by_zipfile(path):
    """The same by Python's zipfile."""
    found = b""
    with suppress(zipfile.BadZipFile, OSError, ValueError, NotImplementedError, EOFError), zipfile.ZipFile(path) as file:
        for one in file.infolist():
            with suppress(Exception):
                found += b"" if one.filename in UNREAD else file.read(one)
    return found


def texts_in(mail):
    """The texts in the parts of a mail that Python's email read."""
    parts = [part for part in mail.walk() if not part.is_multipart() and part.get_content_maintype() == "text"]
    return b"".join(part.get_payload(decode=True) or b"" for part in parts)


def by_email(name, path):
    """What Python's email finds."""
    octets = Path(path).read_bytes()
    with suppress(Exception):
        if name == "python mailbox":
            return b"".join(map(texts_in, mailbox.mbox(path))) if octets.startswith(b"From ") else b""
        if name == "python email of a text":
            return texts_in(email.message_from_string(octets.decode("utf-8", "replace"), policy=email.policy.default))
        policy = email.policy.compat32 if name == "python email before 3.6" else email.policy.default
        return texts_in(email.message_from_bytes(octets, policy=policy))
    return b""


def by_mutt(path, folder):
    """What mutt hands on of the first mail of an mbox, made of the file if it is none."""
    octets, box, rc = Path(path).read_bytes(), Path(folder, "box"), Path(folder, "rc")
    box.write_bytes(octets if octets.startswith(b"From ") else b"From a Mon Jan  1 00:00:00 2026\n" + octets)
    rc.write_text(MUTT.replace("FOLDER", folder))
    command = f"TERM=xterm script -qec 'mutt -R -n -F {rc} -f {box}' /dev/null"
    by_command(command, path, folder)
    text = Path(folder, "text")
    return text.read_bytes() if text.exists() else b""


def by_perl(path, folder):
    """What MIME::Parser of Perl finds."""
    program = Path(folder, "program")
    program.write_text(PERL)
    return by_command(f"perl {program} FILE", path, folder)


MAIL = ("python email", "python email before 3.6", "python email of a text", "python mailbox", "mutt", "MIME::Parser")
NAMES = {"pdf": tuple(PDF), "zip": ("python zipfile", *ZIP), "mail": MAIL}


def shown(name, path):
    """The text that a viewer shows of a file."""
    with tempfile.TemporaryDirectory() as folder:
        if name in PDF:
            return by_command(PDF[name], path, folder)
        if name in ZIP:
            return unpacked(ZIP[name], path, folder)
        if name == "python zipfile":
            return by_zipfile(path)
        if name == "mutt":
            return by_mutt(path, folder)
        return by_perl(path, folder) if name == "MIME::Parser" else by_email(name, os.fspath(path))

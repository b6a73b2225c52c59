"""What bench/compare and bench/damage begin and end with: the library for this machine, and bench/ratios linked with it."""

import os
import shutil
import subprocess
import sys

ROOT = os.path.dirname(os.path.dirname(os.path.abspath(__file__)))
ARCHIVE = os.path.join(ROOT, "target/native/libabi.a")
PROGRAM = os.path.join(ROOT, "bench/ratios/target/release/ratios")
NAME = os.path.basename(sys.argv[0])


def say(words):
    print("%s: %s" % (NAME, words), file=sys.stderr, flush=True)


def output(*command):
    return subprocess.run(command, stdout=subprocess.PIPE, text=True, check=True, cwd=ROOT).stdout


def need(*programs):
    """Ends with status 2 where one of these is not installed, and names it."""
    missing = [program for program in programs if shutil.which(program) is None]
    if missing:
        say("not installed: %s (--help says what each is for)" % ", ".join(missing))
        sys.exit(2)


def build():
    """Needs rt and cargo."""
    say("bench/native abi_c target/native/libabi.a")
    os.makedirs(os.path.dirname(ARCHIVE), exist_ok=True)
    output("bench/native", "abi_c", ARCHIVE)
    say("cargo build")
    subprocess.run(["cargo", "build", "--release", "--offline", "--locked", "--quiet"], check=True,
                   cwd=os.path.join(ROOT, "bench/ratios"), env=dict(os.environ, TINGMUDRA_LIB=os.path.dirname(ARCHIVE)))


def end(main):
    """Ends with the status of `main` on the command's words; a program that fails on the way is named, with status 1."""
    try:
        sys.exit(main(sys.argv[1:]))
    except (subprocess.CalledProcessError, OSError) as error:
        sys.exit("%s: %s\n%s" % (NAME, error, getattr(error, "stderr", None) or ""))

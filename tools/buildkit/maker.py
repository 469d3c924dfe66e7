"""The image of the front end in `frontend/`: the Go program and dfsolve, by a definition that dfsolve writes."""
import csv
import glob
import io
import os
import re
import shutil
import subprocess
import tempfile

from common import CRATES, PROVED, TOP
from packages import NotRun, told

# what the Dockerfile takes of the C library
LIBRARIES = {"libc.so.6", "ld-linux-x86-64.so.2"}
# the program that `./run` made: the proved one, else the other
PROGRAM = PROVED if os.path.exists(PROVED) else f"{CRATES}/dfsolve/out/unproved/dfsolve"


def go(packages, verb, *words):
    """Calls Go below BuildKit's source, where alone what it brings along is seen. The folder always has one name, since the program has it too."""
    home = packages.home("moby/buildkit")
    at = f"{home}/cmd/dfsolve-frontend"
    shutil.rmtree(at, ignore_errors=True)
    os.mkdir(at)
    try:
        for name in glob.glob(f"{TOP}/frontend/*.go"):
            shutil.copy(name, at)
        return packages.go(verb, *words, f"./cmd/{os.path.basename(at)}", path=f"{packages.folder}/theirs", cwd=home)
    finally:
        shutil.rmtree(at)


def put_folder(packages, program, folder):
    """The folder that `frontend/Dockerfile` is built of."""
    os.makedirs(f"{folder}/lib")
    shutil.copy(f"{TOP}/frontend/Dockerfile", folder)
    shutil.copy(program, f"{folder}/dfsolve")
    go(packages, "build", "-trimpath", "-ldflags", "-s -w -buildid=", "-o", f"{folder}/frontend")
    named = {os.path.basename(place): place for place in re.findall(r"(?:=> |^\s)(/\S+) \(0x", told("ldd", program), re.M)}
    if set(named) != LIBRARIES:
        raise NotRun(f"{program} is linked with {', '.join(sorted(named))}, and the image has {', '.join(sorted(LIBRARIES))}")
    for name, place in named.items():
        shutil.copy(os.path.realpath(place), f"{folder}/lib/{name}")


def output(**fields):
    """What buildctl is told of an output: a row of CSV, since a value may be JSON."""
    row = io.StringIO()
    csv.writer(row, lineterminator="").writerow([f"{name.replace('_', '-')}={value}" for name, value in fields.items()])
    return row.getvalue()


def make(packages, engine, program, **to):
    """Makes the image, and puts it where an output of buildctl says. What is made of the same files has the same layers."""
    with tempfile.TemporaryDirectory(prefix="dfsolve-frontend-") as folder:
        put_folder(packages, program, folder)
        bundle = told(program, "pack", folder, "--names").encode()
        config = told(program, "config", input=bundle).strip()
        definition = subprocess.run([program, "llb", "--unique", os.path.basename(folder)], input=bundle, stdout=subprocess.PIPE, check=True).stdout
        words = output(**to, source_date_epoch=0, rewrite_timestamp="true", **{"containerimage.config": config})
        told(f"{packages.made}/buildctl", "--addr", engine.sock, "build", "--local", f"context={folder}", "--output", words, input=definition)


def make_file(packages, engine, program, path):
    """The same as an OCI layout in a tar file."""
    make(packages, engine, program, type="oci", dest=path)

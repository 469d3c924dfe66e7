"""What tools/buildkit takes from Debian's packages, unpacked in a folder that is kept: nothing is installed. Here are those of BuildKit 0.8."""
import contextlib
import glob
import os
import shutil
import subprocess
import sys

HERE = os.path.dirname(os.path.abspath(__file__))
# what BuildKit's client imports and its source package hasn't got, and the matcher of newer ones
SOURCES = [f"golang-{name}-dev" for name in """
    github-containerd-containerd github-containerd-continuity github-containerd-ttrpc github-containerd-typeurl github-docker-distribution
    github-docker-docker github-gofrs-flock github-gogo-googleapis github-gogo-protobuf github-golang-protobuf-1-3 github-google-shlex
    github-grpc-ecosystem-go-grpc-middleware github-grpc-ecosystem-grpc-opentracing github-hashicorp-golang-lru github-moby-patternmatcher
    github-opencontainers-go-digest github-opencontainers-image-spec github-opencontainers-specs github-opentracing-opentracing-go
    github-pkg-errors github-sirupsen-logrus golang-x-crypto golang-x-net golang-x-sync golang-x-sys golang-x-term golang-x-text
    google-genproto google-grpc google-protobuf""".split()]


class NotRun(Exception):
    pass


def told(*words, **more):
    """What a command prints; an error says which command failed."""
    done = subprocess.run([*words], stdout=subprocess.PIPE, stderr=subprocess.PIPE, check=False, **more)
    if done.returncode:
        raise NotRun(f"{words[0]} {words[-1]}: {(done.stderr or done.stdout).decode(errors='replace').strip()[-1000:]}")
    return done.stdout.decode()


def link(leads, place):
    with contextlib.suppress(FileNotFoundError):
        os.remove(place)
    os.symlink(leads, place)


class Packages:
    """A folder of what was taken: the packages unpacked (`root`), sources, and what was built of them (`made`)."""
    programs, sources, tags = ["docker.io", "golang-go", "busybox-static"], SOURCES, ""
    # capabilities that this BuildKit doesn't know
    lacks = {"mergeop"}

    def __init__(self, folder):
        self.folder, self.root = folder, os.path.join(folder, "root")
        self.source, self.made = os.path.join(folder, "source"), os.path.join(folder, "made")

    def fetch(self):
        whole, wanted = os.path.join(self.folder, "whole"), "\n".join(self.programs + self.sources) + "\n"
        with contextlib.suppress(FileNotFoundError), open(whole, encoding="utf-8") as it:
            if it.read() == wanted:
                return
        print("taking packages and building; this is done once", file=sys.stderr)
        debs = os.path.join(self.folder, "debs")
        os.makedirs(os.path.join(debs, "partial"), exist_ok=True)
        os.makedirs(self.source, exist_ok=True)
        self.fetch_all(debs)
        with open(whole, "w", encoding="utf-8") as out:
            out.write(wanted)

    def fetch_all(self, debs):
        apt = self.with_lists("packages", [])
        told(*apt, "-o", f"Dir::Cache::archives={debs}/", "--download-only", "--no-install-recommends", "-y", "--reinstall", "install", *self.programs)
        told(*apt, "download", *self.sources, cwd=debs)
        self.unpack(debs)
        self.fetch_source(apt)

    def unpack(self, debs):
        for deb in sorted(glob.glob(f"{debs}/*.deb")):
            told("dpkg", "-x", deb, self.root)

    def with_lists(self, name, options):
        """The words of an apt-get whose lists are fresh and in the folder: those of the system may be old, or none."""
        lists = os.path.join(self.folder, "lists", name)
        os.makedirs(os.path.join(lists, "partial"), exist_ok=True)
        words = ["apt-get", *options, "-o", f"Dir::State::Lists={lists}", "-o", "Debug::NoLocking=1", "-o", "Dir::Cache::pkgcache=",
                 "-o", "Dir::Cache::srcpkgcache="]
        told(*words, "update")
        return words

    def with_rows(self, name, rows):
        """The same of these rows alone, in place of the system's."""
        with open(os.path.join(self.folder, f"{name}.list"), "w", encoding="utf-8") as out:
            out.write("\n".join(sorted(rows)) + "\n")
        return self.with_lists(name, ["-o", f"Dir::Etc::SourceList={out.name}", "-o", "Dir::Etc::SourceParts=/dev/null"])

    def debians(self, apt, form):
        """This text of each list that the system has from Debian."""
        rows = told(*apt, "indextargets", "--format", "$(ORIGIN) " + form, "Identifier: Packages").splitlines()
        return {row.split(" ", 1)[1] for row in rows if row.startswith("Debian ")}

    def fetch_source(self, apt):
        """BuildKit's source is in that of docker.io, and the lists of sources are where the system has its packages from."""
        apt = self.with_rows("sources", self.debians(apt, "deb-src $(REPO_URI) $(RELEASE) $(COMPONENT)"))
        told(*apt, "source", "--download-only", "docker.io", cwd=self.source)
        for packed in glob.glob(f"{self.source}/docker.io_*.orig.tar.*"):
            told("tar", "-C", self.source, "-xf", packed)

    def build(self):
        """The programs of tools/buildkit/go, by the compiler of Go."""
        vendor = [found for found, _, _ in os.walk(self.source) if found.endswith("/vendor/github.com/moby/buildkit")]
        if not vendor:
            raise NotRun("no source of BuildKit")
        theirs = os.path.join(self.folder, "theirs")
        os.makedirs(theirs, exist_ok=True)
        link(vendor[0].removesuffix("/github.com/moby/buildkit"), f"{theirs}/src")
        self.build_own(theirs)

    def build_own(self, theirs):
        own = os.path.join(self.folder, "own")
        os.makedirs(own, exist_ok=True)
        link(f"{HERE}/go", f"{own}/src")
        for name in ("solve", "fixture", "sent"):
            os.makedirs(f"{self.made}/{name}", exist_ok=True)
            self.go("build", "-tags", self.tags, "-o", f"{self.made}/{name}/{name}", name, path=f"{own}:{theirs}", cwd=f"{own}/src/{name}")

    def go(self, *words, path, cwd):
        compilers = sorted(glob.glob(f"{self.root}/usr/lib/go-*/bin/go")) or [shutil.which("go")]
        if not compilers[-1]:
            raise NotRun("no compiler of Go")
        env = dict(os.environ, GOPATH=f"{path}:{self.root}/usr/share/gocode", GO111MODULE="off", GOPROXY="off", GOFLAGS="", CGO_ENABLED="0",
                   GOCACHE=os.path.join(self.folder, "cache"), GOROOT=os.path.dirname(os.path.dirname(os.path.realpath(compilers[-1]))))
        return told(compilers[-1], *words, env=env, cwd=cwd)

    def solver(self):
        return f"{self.made}/solve/solve"

    def sender(self):
        return f"{self.made}/sent/sent"

    def fixture(self):
        return f"{self.made}/fixture"

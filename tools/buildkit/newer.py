"""What tools/buildkit --engine 0.13 takes and builds: buildkitd and buildctl, of the sources that Debian 13 has its docker.io from, for an older Debian."""
import glob
import os
import re
import shutil

import packages

# what BuildKit imports, and neither its own source nor Docker's engine has got
SOURCES = [f"golang-{name}-dev" for name in """
    github-agext-levenshtein github-appc-cni github-armon-circbuf github-aws-aws-sdk-go-v2 github-aws-smithy-go github-beorn7-perks
    github-cenkalti-backoff github-cespare-xxhash github-containerd-console github-containerd-containerd github-containerd-continuity
    github-containerd-errdefs github-containerd-fifo github-containerd-go-cni github-containerd-go-runc github-containerd-log
    github-containerd-platforms github-containerd-ttrpc github-containerd-typeurl github-coreos-bbolt github-coreos-go-systemd
    github-dimchansky-utfbom github-distribution-reference github-docker-docker-credential-helpers github-docker-go-connections
    github-docker-go-events github-docker-go-metrics github-docker-go-units github-felixge-httpsnoop github-go-logr-logr github-go-logr-stdr
    github-gofrs-flock github-gogo-googleapis github-gogo-protobuf github-golang-groupcache github-golang-jwt-jwt github-golang-protobuf-1-5
    github-google-go-cmp github-google-shlex github-google-uuid github-grpc-ecosystem-grpc-gateway github-hashicorp-errwrap
    github-hashicorp-go-immutable-radix github-hashicorp-go-multierror github-hashicorp-golang-lru github-in-toto-in-toto-golang
    github-klauspost-compress github-mitchellh-hashstructure github-moby-docker-image-spec github-moby-locker github-moby-patternmatcher
    github-moby-sys github-morikuni-aec github-munnerz-goautoneg github-opencontainers-go-digest github-opencontainers-image-spec
    github-opencontainers-selinux github-opencontainers-specs github-pelletier-go-toml github-pkg-errors github-prometheus-client-golang
    github-prometheus-client-model github-prometheus-common github-prometheus-procfs github-secure-systems-lab-go-securesystemslib
    github-shibumi-go-pathspec github-sirupsen-logrus github-tonistiigi-units github-vbatts-tar-split github-vishvananda-netlink
    github-vishvananda-netns golang-x-crypto golang-x-net golang-x-sync golang-x-sys golang-x-text golang-x-time google-genproto google-grpc
    google-protobuf opentelemetry-contrib opentelemetry-otel opentelemetry-proto""".split()]
RELEASE = "trixie"


class Newer(packages.Packages):
    """The compiler and the sources are Debian 13's, and what runs is this system's: runc of Debian 13 needs a newer C library."""
    programs, sources, tags = ["runc", "libseccomp2", "patch"], ["golang-1.24-go", "golang-1.24-src", *SOURCES], "newer"
    lacks = set()

    def fetch_all(self, debs):
        apt = self.with_lists("packages", [])
        told = packages.told
        told(*apt, "download", *self.programs, cwd=debs)
        places = self.debians(apt, "$(REPO_URI) $(RELEASE) $(COMPONENT)")
        main = sorted(row.split(" ")[0] for row in places if not re.search("-|/", row.split(" ")[1]) and row.endswith(" main"))
        if not main:
            raise packages.NotRun("no list of Debian's main packages")
        newer = self.with_rows(RELEASE, [f"{kind} {main[0]} {RELEASE} main" for kind in ("deb", "deb-src")])
        newer += ["-o", "Dir::State::status=/dev/null"]
        told(*newer, "download", *self.sources, cwd=debs)
        for part in ("--tar-only", "--diff-only"):
            told(*newer, "source", "--download-only", part, "docker.io", cwd=self.source)
        self.unpack(debs)
        self.unpack_source()

    def home(self, name):
        return f"{self.folder}/theirs/src/github.com/{name}"

    def unpack_source(self):
        shutil.rmtree(f"{self.folder}/theirs", ignore_errors=True)
        for packed in glob.glob(f"{self.source}/docker.io_*.tar.*"):
            packages.told("tar", "-C", self.source, "-xf", packed)
        for name, found in (("moby/buildkit", "buildkit"), ("docker/docker", "*/engine")):
            os.makedirs(os.path.dirname(self.home(name)))
            os.rename(*glob.glob(f"{self.source}/{found}"), self.home(name))
        self.patch()

    def patch(self):
        """BuildKit's part of Debian's patches."""
        folder = f"{self.source}/debian/patches"
        with open(f"{folder}/series", encoding="utf-8") as it:
            names = [line.strip() for line in it if re.match("[a-z]", line)]
        for name in names:
            with open(f"{folder}/{name}", encoding="utf-8") as it:
                text = re.sub(r"^(Index:|diff|index) .*\n|^=+\n", "", it.read(), flags=re.M)
            files = re.split(r"^(?=--- \S+.*\n\+\+\+ )", text, flags=re.M)
            own = "".join(file for file in files if re.search(r"\A--- .*\n\+\+\+ [^/\s]+/buildkit/", file))
            if own:
                packages.told(f"{self.root}/usr/bin/patch", "-p2", "-f", "-d", self.home("moby/buildkit"), input=own.encode())

    def build(self):
        path, home = f"{self.folder}/theirs", self.home("moby/buildkit")
        with open(f"{self.home('docker/docker')}/vendor.mod", encoding="utf-8") as it:
            version = re.search(r"github.com/moby/buildkit (v\S+)", it.read()).group(1)
        flags = f"-s -w -X github.com/moby/buildkit/version.Version={version}"
        os.makedirs(self.made, exist_ok=True)
        for name in ("buildctl", "buildkitd"):
            self.go("build", "-ldflags", flags, "-o", f"{self.made}/{name}", f"./cmd/{name}", path=path, cwd=home)
        # what nothing but BuildKit has got, for our program that isn't linked with BuildKit
        os.makedirs(os.path.dirname(self.home("tonistiigi/fsutil")), exist_ok=True)
        packages.link(f"{home}/vendor/github.com/tonistiigi/fsutil", self.home("tonistiigi/fsutil"))
        self.build_own(path)

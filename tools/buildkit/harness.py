"""BuildKit's own integration tests of its Dockerfile front end, built and run here against a front end in an image."""
import glob
import os
import re
import shutil
import signal
import subprocess
import tempfile
import time

import layouts
from newer import Newer
from packages import NotRun, link

TESTS = "frontend/dockerfile"
PROGRAMS = ["cmd/buildctl", "cmd/buildkitd", f"{TESTS}/cmd/dockerfile-frontend"]
CAPS = ["inputs", "subrequests", "contexts"]
# file, what stands there (a regular expression), and what takes its place
RUN, UTIL, SKIP = f"{TESTS}/dockerfile_", "util/testutil/integration", r"if _, ok := f\.\(\*clientFrontend\); !ok {"
CLIENT = r"(func\(ctx context\.Context, c gateway\.Client\) \(\*gateway\.Result, error\) {\n)(?!.*through)"
CHANGES = [
    # images come from files
    (f"{UTIL}/run.go", r'ref := "[^"]*" \+ ns \+ "/" \+ name', 'ref := "local:" + os.Getenv("SUITE_IMAGES") + "/" + name'),
    (f"{UTIL}/run.go", r'ref \+= "@" \+ dgst', "_ = dgst"),
    (f"{RUN}test.go", r'"[^"]*/debian:bullseye[^"]*@sha256:[^"]*"', '"local:" + os.Getenv("SUITE_IMAGES") + "/busybox:latest"'),
    # each pass has a registry of its own, and its tests have alpine from elsewhere
    (f"{RUN}test.go", r'OfficialImages\("busybox:latest"\)', 'OfficialImages("busybox:latest", "alpine:latest")'),
    # what buildctl says is lost otherwise
    (f"{UTIL}/sandbox.go", r'cmd := exec\.Command\("buildctl", args\.\.\.\)\n',
     'cmd, said := exec.Command("buildctl", args...), new(bytes.Buffer)\n\tcmd.Stderr, sb.logs["buildctl"] = said, said\n'),
    # some tests are skipped unless the front end is in the client, though they can be made with any
    *((f"{RUN}{name}test.go", SKIP, "if f == nil {") for name in ("", "outline_", "targets_")),
    # where a client solves by BuildKit's own front end, whichever is tested
    *((f"{RUN}{name}test.go", CLIENT, r"\1\t\tc = &through{c, getFrontend(t, sb)}\n") for name in ("", "outline_", "provenance_", "targets_")),
]
THROUGH = """package dockerfile

import (
	"context"

	gateway "github.com/moby/buildkit/frontend/gateway/client"
)

type through struct {
	gateway.Client
	f frontend
}

func (c *through) Solve(ctx context.Context, req gateway.SolveRequest) (*gateway.Result, error) {
	if req.Frontend == "dockerfile.v0" {
		return c.f.SolveGateway(ctx, c.Client, req)
	}
	return c.Client.Solve(ctx, req)
}
"""


class Suite(Newer):
    """What the tests need beside BuildKit: a containerd, a registry, and five packages of test code."""
    programs = [*Newer.programs, "containerd", "docker-registry", "busybox-static"]
    sources = [*Newer.sources, *(f"golang-{name}-dev" for name in """
        github-davecgh-go-spew github-pmezard-go-difflib github-stretchr-objx github-stretchr-testify gopkg-yaml.v3""".split())]

    def __init__(self, folder):
        super().__init__(folder)
        self.images, self.programs_at, self.binary = f"{folder}/images", f"{folder}/programs", f"{folder}/made/dockerfile.test"

    def change(self):
        """BuildKit's own text is kept beside each file that is changed."""
        texts = {}
        for name, old, new in CHANGES:
            path = f"{self.home('moby/buildkit')}/{name}"
            if path not in texts:
                if not os.path.exists(f"{path}.own"):
                    shutil.copy(path, f"{path}.own")
                with open(f"{path}.own", encoding="utf-8") as it:
                    texts[path] = it.read()
            texts[path], count = re.subn(old, new, texts[path])
            if not count:
                raise NotRun(f"{name} hasn't got {old}")
        for path, text in texts.items():
            with open(path, "w", encoding="utf-8") as out:
                out.write(text)
        with open(f"{self.home('moby/buildkit')}/{TESTS}/through_test.go", "w", encoding="utf-8") as out:
            out.write(THROUGH)

    def build(self):
        home, path = self.home("moby/buildkit"), f"{self.folder}/theirs"
        self.change()
        with open(f"{self.home('docker/docker')}/vendor.mod", encoding="utf-8") as it:
            version = re.search(r"github.com/moby/buildkit (v\S+)", it.read()).group(1)
        flags = f"-s -w -X github.com/moby/buildkit/version.Version={version}"
        os.makedirs(self.made, exist_ok=True)
        for name in PROGRAMS:
            self.go("build", "-ldflags", flags, "-o", f"{self.made}/{os.path.basename(name)}", f"./{name}", path=path, cwd=home)
        self.go("test", "-c", "-vet=off", "-o", self.binary, f"./{TESTS}", path=path, cwd=home)

    def prepare(self):
        self.fetch()
        self.build()
        for folder in (self.images, self.programs_at):
            os.makedirs(folder, exist_ok=True)
        busybox = f"{self.root}/bin/busybox" if os.path.exists(f"{self.root}/bin/busybox") else f"{self.root}/usr/bin/busybox"
        for name in ("busybox", "alpine"):
            layouts.put_busybox(f"{self.images}/{name}:latest", busybox, name == "alpine")
        layer = layouts.Layer()
        with open(f"{self.made}/dockerfile-frontend", "rb") as it:
            layer.put("frontend", it.read())
        layouts.put_frontend(f"{self.images}/gateway", layer, CAPS)
        layouts.put_frontend(f"{self.images}/none", layouts.Layer(), CAPS)
        # the tests look for programs by these names
        for name in ("buildctl", "buildkitd"):
            link(f"{self.made}/{name}", f"{self.programs_at}/{name}")
        for name, found in (("registry", "docker-registry"), *((n, n) for n in ("runc", "containerd", "containerd-shim-runc-v2", "ctr"))):
            link([*glob.glob(f"{self.root}/usr/sbin/{found}"), *glob.glob(f"{self.root}/usr/bin/{found}")][0], f"{self.programs_at}/{name}")



def names_of(suite):
    """In the order in which they are called."""
    found = []
    for path in sorted(glob.glob(f"{suite.home('moby/buildkit')}/{TESTS}/*_test.go")):
        with open(path, encoding="utf-8") as it:
            text = it.read()
        if re.search(r"^//go:build df", text, re.M):
            continue  # of what is only in a front end that is built with a tag
        for listed in re.findall(r"integration\.TestFuncs\(\n(.*?)\n\)", text, re.S):
            found += [name[0].upper() + name[1:] for name in re.findall(r"^\s*(\w+),", listed, re.M)]
    return found


def children_of(pid):
    found = []
    for row in glob.glob("/proc/[0-9]*/stat"):
        try:
            with open(row, encoding="utf-8", errors="replace") as it:
                fields = it.read().rpartition(")")[2].split()
        except OSError:
            continue
        if int(fields[1]) == pid:
            child = int(row.split("/")[2])
            found += [child, *children_of(child)]
    return found


def end_children():
    """What a test left running: it is all below this process, since that takes in orphans."""
    for number in (signal.SIGTERM, signal.SIGKILL):
        for _ in range(50):
            try:
                while os.waitpid(-1, os.WNOHANG)[0]:
                    pass
            except ChildProcessError:
                return
            left = children_of(os.getpid())
            if not left:
                return
            for pid in left:
                try:
                    os.kill(pid, number)
                except ProcessLookupError:
                    pass
            time.sleep(0.2)


def unmount(folder):
    with open("/proc/self/mounts", encoding="utf-8") as it:
        places = [line.split(" ")[1] for line in it]
    for place in sorted((p for p in places if p.startswith(folder + "/")), reverse=True):
        subprocess.run(["umount", "-l", place], check=False)


def run(suite, options, image, names, worker, log):
    """One pass: what the tests print. `image` is the front end, as an OCI layout in a tar file, or none for BuildKit's own in the daemon."""
    with tempfile.TemporaryDirectory(prefix="bk") as at:
        env = dict(os.environ, HOME=at, TMPDIR=at, SUITE_IMAGES=suite.images, GOMAXPROCS=str(options.jobs),
                   PATH=f"{suite.programs_at}:/usr/sbin:/usr/bin:/sbin:/bin", LD_LIBRARY_PATH=":".join(glob.glob(f"{suite.root}/usr/lib/*-linux-gnu")))
        env |= {"FRONTEND_GATEWAY_ONLY": f"local:{image}"} if image else {"FRONTEND_BUILTIN_ONLY": "1"}
        words = [suite.binary, "-test.v", f"-test.timeout={options.minutes}m", "-test.run", f"^TestIntegration$/^({'|'.join(names)})$/^worker={worker}$"]
        try:
            subprocess.run(words, cwd=f"{suite.home('moby/buildkit')}/{TESTS}", env=env, stdin=subprocess.DEVNULL, stdout=log, stderr=subprocess.STDOUT, check=False)
        finally:
            end_children()
            unmount(at)

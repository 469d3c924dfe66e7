"""Images of `dfsolve llb` beside those of `docker build`, for tools/buildkit --beside: entries of the trees and fields of the configurations."""
import io
import json
import os
import subprocess
import tarfile

# what Docker's builder alone writes (docs/FORMATS.md)
DOCKERS = {"ArgsEscaped", "Shell"}
PASSWD = "root:x:0:0:root:/root:/bin/sh\nnobody:x:65534:65534:nobody:/:/bin/false\n"
CONFIG = {"Env": ["PATH=/usr/local/sbin:/usr/local/bin:/usr/sbin:/usr/bin:/sbin:/bin"], "Cmd": ["sh"]}


class Docker:
    """Docker's own client, from the packages, at one socket."""

    def __init__(self, root, sock, home):
        self.words = [f"{root}/usr/bin/docker", "-H", f"unix://{sock}"]
        self.env = dict(os.environ, HOME=home, DOCKER_BUILDKIT="1")

    def __call__(self, *words):
        return subprocess.run([*self.words, *words], env=self.env, stdout=subprocess.PIPE, stderr=subprocess.PIPE, check=True).stdout

    def inspected(self, name):
        return json.loads(self("image", "inspect", name))[0]

    def bases(self):
        """The images that are there, as a bundle has them: by name, with the configuration and an empty tree."""
        found = {}
        for tag in self("image", "ls", "--format", "{{.Repository}}:{{.Tag}}").decode().split():
            of = self.inspected(tag)
            layers = {"type": "layers", "diff_ids": of["RootFS"]["Layers"]}
            image = {"config": {"architecture": of["Architecture"], "os": of["Os"], "config": of["Config"], "rootfs": layers}, "tree": []}
            found[tag] = found[tag.removesuffix(":latest")] = image
        return found

    def entries(self, name):
        """The entries of an image's tree."""
        number = self("create", "--network", "none", name, "none").decode().strip()
        packed = self("export", number)
        self("rm", number)
        with tarfile.open(fileobj=io.BytesIO(packed), errors="surrogateescape") as whole:
            return {m.name: (m.type, oct(m.mode), m.uid, m.gid, m.linkname, whole.extractfile(m).read() if m.isreg() else b"") for m in whole}


def busybox(program):
    """A layer with busybox, and a link to it for each of its commands."""
    layer = io.BytesIO()
    with tarfile.open(fileobj=layer, mode="w", format=tarfile.PAX_FORMAT) as out:
        def put(path, kind=tarfile.DIRTYPE, held=b"", mode=0o755, link=""):
            member = tarfile.TarInfo(path)
            member.type, member.mode, member.size, member.linkname = kind, mode, len(held), link
            out.addfile(member, io.BytesIO(held))

        for path in ("bin", "etc", "home", "root"):
            put(path)
        put("tmp", mode=0o1777)
        put("etc/passwd", tarfile.REGTYPE, PASSWD.encode(), 0o644)
        put("etc/group", tarfile.REGTYPE, b"root:x:0:\nnogroup:x:65534:\n", 0o644)
        with open(program, "rb") as it:
            put("bin/busybox", tarfile.REGTYPE, it.read())
        for name in subprocess.run([program, "--list"], stdout=subprocess.PIPE, check=True).stdout.decode().split():
            if name != "busybox":
                put(f"bin/{name}", tarfile.SYMTYPE, mode=0o777, link="busybox")
    return layer.getvalue()


def differences(docker, ours, theirs):
    """Paths whose entries differ, and fields of the configurations that do."""
    mine, other = docker.entries(ours), docker.entries(theirs)
    paths = sorted(path for path in set(mine) | set(other) if mine.get(path) != other.get(path))
    mine, other = docker.inspected(ours)["Config"], docker.inspected(theirs)["Config"]
    return paths, sorted(key for key in set(mine) | set(other) if mine.get(key) != other.get(key))


def compare(docker, folder, make):
    """The line of one folder, and whether nothing differs that shouldn't. `make` makes it an image of a name from a bundle."""
    name = os.path.basename(os.path.abspath(folder)).lower()
    docker("build", "--network", "none", "--quiet", "--tag", f"theirs-{name}", folder)
    make(f"ours-{name}", folder, docker.bases())
    paths, fields = differences(docker, f"ours-{name}", f"theirs-{name}")
    count = len(docker.entries(f"theirs-{name}"))
    said = "equal" if not paths else f"{len(paths)} of them differ: {paths[:5]}"
    return f"{name}: {count} entries, {said}; the configuration differs in {', '.join(fields) or 'nothing'}", not paths and set(fields) <= DOCKERS

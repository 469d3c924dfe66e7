"""The private daemons of tools/buildkit: a dockerd (BuildKit 0.8), and a buildkitd (0.13) beside a registry that has the bundles' images."""
import contextlib
import glob
import hashlib
import http.client
import http.server
import io
import json
import os
import re
import signal
import socket
import subprocess
import tarfile
import threading
import time

from packages import NotRun


class Unix(http.client.HTTPConnection):
    def __init__(self, path):
        super().__init__("docker", timeout=120)
        self.path = path

    def connect(self):
        self.sock = socket.socket(socket.AF_UNIX)
        self.sock.settimeout(self.timeout)
        self.sock.connect(self.path)


def asked(sock, method, where, body=None):
    line = Unix(sock)
    try:
        line.request(method, where, body, {"Content-Type": "application/x-tar"})
        found = line.getresponse()
        return found.status, found.read().decode(errors="replace")
    finally:
        line.close()


def config_of(layer, fields):
    """The configuration of an image for linux/amd64 of one layer, with these fields."""
    return {"architecture": "amd64", "os": "linux", "config": fields, "history": [], "rootfs": {"type": "layers", "diff_ids": [digest_of(layer)]}}


def digest_of(held):
    return "sha256:" + hashlib.sha256(held).hexdigest()


def tagged(name):
    return name if ":" in name.split("/")[-1] else name + ":latest"


class Dockerd:
    """A dockerd that runs. Its clients get the socket as it is."""

    def __init__(self, sock):
        self.sock = sock

    def put_layer(self, name, layer, fields):
        """Loads an image of one layer; whether it was taken."""
        saved = io.BytesIO()
        parts = {"layer.tar": layer, "config.json": json.dumps(config_of(layer, fields)).encode(),
                 "manifest.json": json.dumps([{"Config": "config.json", "RepoTags": [tagged(name)], "Layers": ["layer.tar"]}]).encode()}
        with tarfile.open(fileobj=saved, mode="w") as out:
            for part, held in parts.items():
                member = tarfile.TarInfo(part)
                member.size = len(held)
                out.addfile(member, io.BytesIO(held))
        status, said = asked(self.sock, "POST", "/images/load?quiet=1", saved.getvalue())
        return status == 200 and '"error"' not in said

    def load(self, saved):
        asked(self.sock, "POST", "/images/load?quiet=1", saved)

    def is_elsewhere(self, _name):
        """Whether an image of this name can't be put where the daemon finds it."""
        return False


class Registry(http.server.ThreadingHTTPServer):
    """A registry that has a few images in memory: by `name:tag` or digest, the media type and the bytes."""
    daemon_threads = True

    def __init__(self):
        super().__init__(("127.0.0.1", 0), Answer)
        self.held = {}

    def place(self):
        return f"127.0.0.1:{self.server_port}"

    def put(self, name, layer, fields):
        self.put_configured(name, layer, json.dumps(config_of(layer, fields)).encode())

    def put_configured(self, name, layer, config):
        """An image of one layer with just these bytes as its configuration."""
        manifest = {"schemaVersion": 2, "mediaType": "application/vnd.oci.image.manifest.v1+json"}
        for part, kind, held in (("config", "config.v1+json", config), ("layer", "layer.v1.tar", layer)):
            kind = f"application/vnd.oci.image.{kind}"
            self.held[digest_of(held)] = kind, held
            row = {"mediaType": kind, "digest": digest_of(held), "size": len(held)}
            manifest |= {"layers": [row]} if part == "layer" else {part: row}
        held = json.dumps(manifest).encode()
        self.held[digest_of(held)] = self.held[name] = manifest["mediaType"], held

    def put_layout(self, name, path):
        """The image of an OCI layout in a tar file."""
        with tarfile.open(path) as packed:
            blobs = [packed.extractfile(member).read() for member in packed if member.isreg() and member.name.startswith("blobs/")]
            (row,) = json.load(packed.extractfile("index.json"))["manifests"]
        self.held |= {digest_of(held): ("application/octet-stream", held) for held in blobs}
        self.held[row["digest"]] = self.held[name] = row["mediaType"], self.held[row["digest"]][1]


class Answer(http.server.BaseHTTPRequestHandler):
    protocol_version = "HTTP/1.1"

    def do_GET(self):
        asked_for = re.fullmatch(r"/v2/(.+)/(?:manifests|blobs)/([^/?]+)(?:\?.*)?", self.path)
        name, part = asked_for.groups() if asked_for else ("", "")
        kind, held = self.server.held.get(part if part.startswith("sha256:") else f"{name}:{part}", (None, b""))
        self.send_response(200 if kind or self.path == "/v2/" else 404)
        if kind:
            self.send_header("Content-Type", kind)
            self.send_header("Docker-Content-Digest", digest_of(held))
        self.send_header("Content-Length", str(len(held)))
        self.end_headers()
        if self.command == "GET":
            self.wfile.write(held)

    do_HEAD = do_GET

    def log_message(self, *_):
        pass


class Buildkitd:
    """A buildkitd that runs. A socket that begins with unix:// is one that speaks to BuildKit's client without dockerd's request before."""

    def __init__(self, sock, registry):
        self.sock, self.registry = f"unix://{sock}", registry

    def place(self, name):
        name = tagged(name.removeprefix("docker.io/"))
        return name if "/" in name else f"library/{name}"

    def put_layer(self, name, layer, fields):
        """Puts an image of one layer where this buildkitd looks for those of docker.io."""
        self.registry.put(self.place(name), layer, fields)
        return True

    def is_elsewhere(self, name):
        """A name with a host is asked for at that host."""
        host, is_deep, _ = name.removeprefix("docker.io/").partition("/")
        return bool(is_deep) and (bool(re.search("[.:]", host)) or host == "localhost")

    def pinned(self, name):
        """The digest of the image of a name, whose tag is then that of another image, of an empty layer."""
        digest = digest_of(self.registry.held[self.place(name)][1])
        self.registry.put(self.place(name), bytes(1024), {})
        return digest


def environment(root, folder):
    return dict(os.environ, HOME=folder, PATH=f"{root}/usr/sbin:{root}/usr/bin:/usr/sbin:/usr/bin:/sbin:/bin",
                LD_LIBRARY_PATH=":".join(glob.glob(f"{root}/usr/lib/*-linux-gnu")))


@contextlib.contextmanager
def running(program, words, env, folder, is_up):
    """A program whose data are in the folder. At the end it is stopped by its number, and what it mounted there is released."""
    name = os.path.basename(program)
    with open(f"{folder}/log", "wb") as log:
        run = subprocess.Popen([name, *words], executable=program, env=env, stdout=log, stderr=log, stdin=subprocess.DEVNULL, start_new_session=True)
    try:
        for _ in range(600):
            with contextlib.suppress(OSError):
                if is_up():
                    break
            if run.poll() is not None:
                break
            time.sleep(0.1)
        else:
            raise NotRun(f"{name} doesn't answer")
        if run.poll() is not None:
            with open(f"{folder}/log", encoding="utf-8", errors="replace") as log:
                raise NotRun(f"{name} ended: " + log.read()[-1000:])
        yield
    finally:
        run.send_signal(signal.SIGTERM)
        try:
            run.wait(60)
        except subprocess.TimeoutExpired:
            run.kill()
            run.wait()
        with open("/proc/mounts", encoding="utf-8") as mounts:
            places = [line.split(" ")[1] for line in mounts]
        for place in reversed([place for place in places if place.startswith(folder + "/")]):
            subprocess.run(["umount", "-l", place], check=False)


@contextlib.contextmanager
def dockerd(packages, folder, _snapshotter):
    sock, config = f"{folder}/sock", f"{folder}/daemon.json"
    with open(config, "w", encoding="utf-8") as out:
        out.write("{}\n")
    words = [f"--config-file={config}", f"--host=unix://{sock}", f"--data-root={folder}/data", f"--exec-root={folder}/exec",
             f"--pidfile={folder}/pid", "--bridge=none", "--iptables=false", "--ip6tables=false", "--ip-forward=false", "--ip-masq=false",
             "--storage-driver=vfs"]
    with running(f"{packages.root}/usr/sbin/dockerd", words, environment(packages.root, folder), folder, lambda: asked(sock, "GET", "/_ping")[0] == 200):
        yield Dockerd(sock)


@contextlib.contextmanager
def buildkitd(packages, folder, snapshotter):
    sock, config = f"{folder}/sock", f"{folder}/buildkitd.toml"

    def is_up():
        Unix(sock).connect()
        return True

    with Registry() as registry:
        threading.Thread(target=registry.serve_forever, daemon=True).start()
        with open(config, "w", encoding="utf-8") as out:
            out.write(f"""root = "{folder}/data"
insecure-entitlements = ["network.host"]
[grpc]
  address = ["unix://{sock}"]
[worker.oci]
  enabled = true
  snapshotter = "{snapshotter}"
  networkMode = "host"
[worker.containerd]
  enabled = false
[registry."docker.io"]
  mirrors = ["{registry.place()}"]
[registry."{registry.place()}"]
  http = true
""")
        with running(f"{packages.made}/buildkitd", [f"--config={config}"], environment(packages.root, folder), folder, is_up):
            yield Buildkitd(sock, registry)
        registry.shutdown()

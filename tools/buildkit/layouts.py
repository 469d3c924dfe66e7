"""Images for BuildKit's own tests, each an OCI layout of one packed layer in a tar file: busybox, what passes for alpine, and front ends."""
import gzip
import io
import json
import tarfile

from daemons import digest_of
from packages import told

ADDUSER = b"""#!/bin/sh
# adduser -D NAME: Debian's busybox has none
n=1000
while grep -q "^[^:]*:[^:]*:$n:" /etc/passwd; do n=$((n + 1)); done
echo "$2:x:$n:$n:Linux User,,,:/home/$2:/bin/sh" >> /etc/passwd
echo "$2:x:$n:" >> /etc/group
mkdir -p "/home/$2" && chown "$n:$n" "/home/$2"
"""
USERS = {"root": 0, "daemon": 1, "bin": 2, "sys": 3, "sync": 4, "mail": 8, "www-data": 33, "operator": 37, "nobody": 65534}
GROUPS = {"root": 0, "daemon": 1, "bin": 2, "sys": 3, "adm": 4, "tty": 5, "disk": 6, "lp": 7, "mail": 8, "kmem": 9, "wheel": 10, "cdrom": 11, "dialout": 18,
          "floppy": 19, "video": 28, "audio": 29, "tape": 32, "www-data": 33, "operator": 37, "utmp": 43, "plugdev": 46, "staff": 50, "lock": 54,
          "netdev": 82, "users": 100, "nobody": 65534}
CREATED = "2023-11-14T22:13:20Z"


class Layer:
    def __init__(self):
        self.bytes = io.BytesIO()
        self.tar = tarfile.open(fileobj=self.bytes, mode="w", format=tarfile.PAX_FORMAT)

    def put(self, name, held=None, mode=0o755, link=None):
        row = tarfile.TarInfo(name)
        row.mode, row.mtime = mode, 1700000000
        row.type = tarfile.LNKTYPE if link else tarfile.DIRTYPE if held is None else tarfile.REGTYPE
        row.linkname, row.size = link or "", len(held or b"")
        self.tar.addfile(row, io.BytesIO(held or b""))

    def held(self):
        self.tar.close()
        return self.bytes.getvalue()


def put_image(path, layer, fields):
    """An OCI layout of one packed layer, as a tar file."""
    packed = gzip.compress(layer, mtime=0)
    history = [{"created": CREATED, "created_by": "made of Debian's packages"}, {"created": CREATED, "created_by": "CMD", "empty_layer": True}]
    config = {"architecture": "amd64", "os": "linux", "created": CREATED, "config": fields, "history": history,
              "rootfs": {"type": "layers", "diff_ids": [digest_of(layer)]}}
    kind, blobs = "application/vnd.oci.image.", {}

    def row(name, held, **more):
        blobs[digest_of(held)] = held
        return {"mediaType": kind + name, "digest": digest_of(held), "size": len(held), **more}
    manifest = {"schemaVersion": 2, "mediaType": kind + "manifest.v1+json", "config": row("config.v1+json", json.dumps(config).encode()),
                "layers": [row("layer.v1.tar+gzip", packed)]}
    rows = [row("manifest.v1+json", json.dumps(manifest).encode(), platform={"architecture": "amd64", "os": "linux"})]
    index = {"schemaVersion": 2, "mediaType": kind + "index.v1+json", "manifests": rows}
    parts = {"oci-layout": b'{"imageLayoutVersion":"1.0.0"}', "index.json": json.dumps(index).encode()}
    whole = Layer()
    for name, held in (parts | {f"blobs/sha256/{digest[7:]}": held for digest, held in blobs.items()}).items():
        whole.put(name, held, 0o644)
    with open(path, "wb") as out:
        out.write(whole.held())


def put_busybox(path, busybox, alpine):
    layer = Layer()
    for name in "bin dev etc home lib proc root sbin sys tmp usr usr/bin usr/sbin var var/spool var/spool/mail var/www".split():
        layer.put(name + "/", mode={"tmp": 0o1777, "root": 0o700}.get(name, 0o755))
    with open(busybox, "rb") as it:
        layer.put("bin/busybox", it.read())
    for name in told(busybox, "--list").split():
        if name not in ("busybox", "adduser"):
            layer.put(f"bin/{name}", link="bin/busybox")
    layer.put("usr/bin/env", link="bin/busybox")
    layer.put("bin/adduser", ADDUSER)
    users = (f"{name}:x:{n}:{n}:{name}:{'/root' if n == 0 else '/'}:/bin/{'sh' if n == 0 else 'false'}\n" for name, n in USERS.items())
    layer.put("etc/passwd", "".join(users).encode(), 0o644)
    layer.put("etc/group", "".join(f"{name}:x:{n}:{'root' if name == 'wheel' else ''}\n" for name, n in GROUPS.items()).encode(), 0o644)
    if alpine:
        layer.put("etc/alpine-release", b"3.18.0\n", 0o644)
        layer.put("etc/os-release", b'NAME="Alpine Linux"\nID=alpine\nVERSION_ID=3.18.0\nPRETTY_NAME="Alpine Linux v3.18"\n', 0o644)
    put_image(path, layer.held(), {"Env": ["PATH=/usr/local/sbin:/usr/local/bin:/usr/sbin:/usr/bin:/sbin:/bin"], "Cmd": ["/bin/sh" if alpine else "sh"]})


def put_frontend(path, layer, caps):
    labels = {"network.none": "true", "caps": ",".join(f"moby.buildkit.frontend.{name}" for name in caps)}
    put_image(path, layer.held(), {"Entrypoint": ["/frontend"], "Labels": {f"moby.buildkit.frontend.{name}": said for name, said in labels.items()}})

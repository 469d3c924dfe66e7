"""Bundles for tools/buildkit --merges, whose linked copies are laid over what stands there: files over folders, folders over files, and onto `/`."""
import itertools

from bundles import PLAIN

CONFIG = {**PLAIN, "config": {}}
ODD = "COPY --link --chown=5:6 odd /"
STEPS = ["COPY --link f /d", "COPY --link dir /d", "COPY --link dir /d/q", "COPY --link f /d/q", ODD, "COPY f /d/z", "RUN put /d/r 1", "RUN rm /d",
         "WORKDIR /d", "COPY --link g /e/deep", "COPY --link --chmod=0700 g /e/deep/x"]
# merges of merges, copies and a bind of a merge, linked copies over what a command removed, and a copy of a root that was merged
NESTED = {
    "nested-1": "FROM base AS a\nCOPY --link f /d\nCOPY --link dir /e\nFROM base\nCOPY --link --from=a /e /d\nCOPY --link --from=a / /m\nCOPY --from=a / /n\n",
    "nested-2": "FROM scratch AS a\nCOPY --link f /d\nCOPY --link dir /e\nFROM a\nCOPY --link --from=a / /\n"
                "RUN --mount=type=bind,from=a,target=/b cat /b/d /got\n",
    "nested-3": "FROM base AS a\nCOPY --link f /d/k\nRUN rm /d/old\nFROM a\nCOPY --link g /d/k\nCOPY --link --from=a /d /w\n",
    "nested-4": "FROM base AS a\nRUN rm /d\nFROM a\nCOPY --link dir /d\nRUN put /d/z 1\nCOPY --link dir /d/z\n",
    "nested-5": "FROM base\nRUN rm /d/old\nCOPY --link f /d/f\n",
    "nested-6": "FROM base\nRUN rm /e\nRUN put /e file\nCOPY --link dir /e/in\nCOPY --link f /e/in/a/b\n",
    "nested-7": "FROM base AS a\nCOPY --link f /new/f\nFROM scratch\nCOPY --from=a / /m\n",
}


def entry(path, text=None, **more):
    return {"path": path, **({"dir": True} if text is None else {"text": text}), **more}


BASE = [entry("/", mode="0700", uid=5, gid=6), entry("/d", mode="0711", uid=7, gid=8), entry("/d/old", "old", mode="0604", uid=9, gid=10),
        entry("/file", "base", mode="0644", uid=1, gid=2), entry("/e", mode="0750"), entry("/e/deep", mode="0701", uid=2), entry("/e/deep/x", "x")]


def context(name):
    """A context whose files are those of this bundle alone: BuildKit 0.8 takes a copy for one that it knows if only owners differ."""
    return [entry("/f", f"f {name}"), entry("/g", f"g {name}", mode="0755"), entry("/dir/a", f"a {name}"), entry("/dir/sub/b", f"b {name}", mode="0600"),
            entry("/dir/empty", mode="0711"), entry("/odd", mode="0700"), entry("/odd/c", f"c {name}", mode="0640", uid=3, gid=4)]


def texts():
    """Dockerfiles by name: one linked copy on a base and on nothing, three steps one after another, and some of several stages."""
    places = ["/d", "/d/", "/file", "/e", "/e/deep", "/e/deep/", "/", "/new/", "/new/x/y", "/file2"]
    sources = ["f", "g", "dir", "dir/", "odd", "dir/sub", "."]
    flags = ["--link", "--link --chown=11:12", "--link --chmod=0751", "--link --chown=13:4294967295"]
    for number, (place, source, flag) in enumerate(itertools.product(places, sources, flags)):
        yield f"base-{number}", f"FROM base\nCOPY {flag} {source} {place}\n"
    scratch = itertools.product(["/", "/d", "/d/x/", "/a/b/c"], ["f", "dir", "odd", "."], ["--link", "--link --chown=1:2"])
    for number, (place, source, flag) in enumerate(scratch):
        yield f"scratch-{number}", f"FROM scratch\nCOPY {flag} {source} {place}\n"
    for number, steps in enumerate(itertools.permutations(STEPS, 3)):
        if number % 4 == 0 and sum("--link" in step for step in steps) >= 2:
            for base in ("base", "scratch") if number % 8 == 0 else ("base",):
                yield f"chain-{number}-{base}", f"FROM {base}\n" + "\n".join(steps) + "\n"
    yield from NESTED.items()


def bundles():
    for name, text in texts():
        yield name, {"dockerfile": {"text": text}, "context": context(name), "images": {"base": {"config": CONFIG, "tree": BASE}}}

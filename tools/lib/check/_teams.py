"""What stands in the folders of `examples/teams` where people work, and isn't in git: secrets, links, what was made."""
import os


class Link(str):
    """Where a link leads."""


# texts of files, and links, by their paths
LEFT_THERE = {
    "go/bin/api": "made by a build\n",
    "go/.env": "TOKEN=secret\n",
    "node/.env": "TOKEN=secret\n",
    "node/node_modules/typescript/bin/tsc": "#!/usr/bin/env node\n",
    "node/node_modules/.bin/tsc": Link("../typescript/bin/tsc"),
    "python/.venv/pyvenv.cfg": "home = /usr/bin\n",
    "python/.venv/bin/python3": Link("/usr/bin/python3"),
    "python/.venv/bin/python": Link("python3"),
    "python/api/__pycache__/main.cpython-312.pyc": "made by a run\n",
    "monorepo/node_modules/.pnpm/lock.yaml": "{}\n",
    "monorepo/packages/web/node_modules/api": Link("../../api"),
    "monorepo/packages/web/dist/index.html": "<!doctype html>\n",
    "site/_site/index.html": "<!doctype html>\n",
    "site/drafts/latest.md": Link("2024.md"),
}


def fill(teams):
    """Puts all of it into a copy of the folders."""
    for path, held in LEFT_THERE.items():
        whole = f"{teams}/{path}"
        os.makedirs(os.path.dirname(whole), exist_ok=True)
        if isinstance(held, Link):
            os.symlink(held, whole)
        else:
            with open(whole, "w", encoding="utf-8") as it:
                it.write(held)

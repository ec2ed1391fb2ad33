#!/usr/bin/env python3
"""Prints which packages modules import most, and which modules have an argument of which nothing is known.

usage: job.py FILE ..
example: build/cluster/bin/python examples/job/job.py examples/*.*s

First come the 20 packages that most dependencies name, each as `COUNT NAME`, then an empty line, and then the files
with an argument of which nothing is known, as of `import(x)`. Equal counts are in the order of the names, files in
that of theirs, by bytes. A file with a fault has a line on the error output, and the status is 1.
"""

import os
import sys
from collections import Counter

import modinfo

MOST = 20


def package_of(specifier: str) -> str | None:
    """The package that a specifier names, `fs` for `node:fs`. None for a path and for another URL."""
    bare = specifier.removeprefix("node:")
    if bare.startswith((".", "/", "#")) or ":" in bare:
        return None
    parts = bare.split("/")
    return "/".join(parts[: 2 if bare.startswith("@") else 1]) or None


def specifier_of(dependency: modinfo.Dependency) -> str | None:
    if isinstance(dependency, modinfo.StaticDependency):
        return dependency.specifier
    return dependency.argument if isinstance(dependency.argument, str) else None


def main(paths: list[str]) -> int:
    packages: Counter[str] = Counter()
    unknown, status = [], 0
    for path, (_, info) in zip(paths, modinfo.files(paths, jobs=os.cpu_count() or 1)):
        if isinstance(info, modinfo.Fault):
            print(f"{path}: {info}", file=sys.stderr)
            status = 1
            continue
        specifiers = filter(None, map(specifier_of, info.dependencies))
        packages.update(filter(None, map(package_of, specifiers)))
        if any(each.type == "dynamic" and each.has_unknown_argument for each in info.dependencies):
            unknown.append(path)
    for name, count in sorted(packages.items(), key=lambda each: (-each[1], each[0]))[:MOST]:
        print(count, name)
    print("", *sorted(unknown, key=os.fsencode), sep="\n")
    return status


if __name__ == "__main__":
    sys.exit(main(sys.argv[1:]))

#!/usr/bin/env python3
"""Says what was proved of the program and the library: proved.py WORK CPU .. prints the kit, and each crate that they
are made of with the checksums of its sources and of what was proved from them, as tools/build keeps them. WORK has a
folder for each processor, in which the program and the library were built for it."""
import importlib.machinery
import importlib.util
import os
import sys


def tools_build(top):
    loader = importlib.machinery.SourceFileLoader("tools_build", f"{top}/tools/build")
    module = importlib.util.module_from_spec(importlib.util.spec_from_loader("tools_build", loader))
    loader.exec_module(module)
    return module


def lines(top, cpu):
    """The kit's line, and one for each crate, the lowest first."""
    build = tools_build(top)
    crates, kit = build.crates_of(top), build.Kit()
    with open(f"{kit.at}/KIT-ID") as it:
        yield f"kit {it.read().strip()}"
    targets = [crates["rstore"], crates["rstore_c"]]
    plan = build.Build(top, kit, targets, 1, cpu)
    for it in plan.held.values():
        os.close(it)
    if plan.left:
        sys.exit(f'proved.py: not proved: {" ".join(it.name for it in plan.left)}')
    for it in dict.fromkeys(low for target in targets for low in [*target.below, target]):
        name = it.name if it.is_library else f"{it.name} for {cpu}"
        yield f"{name} sources {it.sources[0]} made {it.identity()}"


def main(work, *cpus):
    for line in dict.fromkeys(line for cpu in cpus for line in lines(f"{work}/{cpu}", cpu)):
        print(line)


main(*sys.argv[1:])

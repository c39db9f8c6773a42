"""The module of LLVM that a build of a program hands to the kit's clang, and clang's words for it."""
import os
import shutil
import subprocess

KIT = os.path.dirname(subprocess.run(["rt", "doc"], capture_output=True, text=True, check=True).stdout.split()[0])
CLANG = f"{KIT}/toolchain/bin/clang"
# What stands for clang in a copy of the kit: it keeps the module that it is given, and its words, one a line.
KEEPER = """#!/bin/bash
for it in "$@"; do
    case "$it" in *.bc) cp "$it" "{folder}/module.bc"; printf '%s\\n' "$@" > "{folder}/words";; esac
done
exec "{clang}" "$@"
"""


def links(source, target, but):
    os.makedirs(target, exist_ok=True)
    for it in os.listdir(source):
        if it not in but:
            os.symlink(f"{source}/{it}", f"{target}/{it}")


def kit_that_keeps_modules(folder):
    """A copy of the kit, in `folder`, whose clang keeps there the module that it is given, and its words."""
    kit = f"{folder}/kit"
    shutil.rmtree(kit, ignore_errors=True)
    links(KIT, kit, ("bin", "toolchain"))
    links(f"{KIT}/toolchain", f"{kit}/toolchain", ("bin",))
    links(f"{KIT}/toolchain/bin", f"{kit}/toolchain/bin", ("clang",))
    scripts = [it for it in os.listdir(f"{KIT}/bin") if not it.startswith("rattle")]
    links(f"{KIT}/bin", f"{kit}/bin", scripts)
    for it in scripts:
        shutil.copy(f"{KIT}/bin/{it}", f"{kit}/bin/{it}")
    clang = f"{kit}/toolchain/bin/clang"
    with open(clang, "w", encoding="utf-8") as file:
        file.write(KEEPER.format(folder=folder, clang=CLANG))
    os.chmod(clang, 0o755)
    return kit

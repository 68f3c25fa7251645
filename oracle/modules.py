"""The module of a proved program, as the toolchain hands it to its compiler, and that compiler.

The compiler takes one module for the whole program. It is kept on the way, by a compiler that stands in its place in a copy of the toolchain.
"""
import os, shutil, stat, subprocess

ROOT = os.path.dirname(os.path.dirname(os.path.abspath(__file__)))
KEEP = """#!/bin/sh
for word in "$@"; do case "$word" in *.bc) cp "$word" "{module}" ;; esac; done
exec "{clang}" "$@"
"""


class Missing(Exception):
    """What is missing, in one line."""


def executable(path, text):
    with open(path, "w") as file:
        file.write(text)
    os.chmod(path, os.stat(path).st_mode | stat.S_IXUSR | stat.S_IXGRP | stat.S_IXOTH)


def toolchain():
    """The kit's folder and its toolchain."""
    rt = shutil.which("rt")
    if rt is None:
        raise Missing("rt is not in the path")
    kit = os.path.dirname(os.path.dirname(os.path.realpath(rt)))
    return kit, os.path.join(kit, "toolchain")


def keeping(kit, tools, own, keep):
    """The kit as links in a folder of its own, with another compiler. Its command takes the kit to be where it lies itself, so its scripts are copied."""
    os.mkdir(own)
    for name in os.listdir(kit):
        if name not in ("bin", "toolchain"):
            os.symlink(os.path.join(kit, name), os.path.join(own, name))
    os.mkdir(own + "/bin")
    for name in os.listdir(kit + "/bin"):
        path = os.path.join(kit, "bin", name)
        with open(path, "rb") as file:
            is_program = file.read(4) == b"\x7fELF"
        (os.symlink if is_program else shutil.copy)(path, os.path.join(own, "bin", name))
    subprocess.run(["cp", "-rs", tools, own + "/toolchain"], check=True)
    os.remove(own + "/toolchain/bin/clang")
    executable(own + "/toolchain/bin/clang", keep)
    return own + "/bin/rt"


class Module:
    """The module of a program and the object that is linked from it, made anew in a folder that is there for it alone."""

    def __init__(self, program, work):
        os.chmod(work, 0o755)
        kit, tools = toolchain()
        self.work, self.clang = work, os.path.join(tools, "bin/clang")
        copy = os.path.join(work, "copy")
        self.path, self.object = os.path.join(work, "module.bc"), os.path.join(copy, f"crates/{program}/out/{program}.o")
        rt = keeping(kit, tools, os.path.join(work, "kit"), KEEP.format(module=self.path, clang=self.clang))
        shutil.copytree(ROOT, copy, symlinks=True, ignore=shutil.ignore_patterns(".git"))
        for path in (program, program + ".o", program + ".stamp"):
            if os.path.exists(os.path.join(copy, "crates", program, "out", path)):
                os.remove(os.path.join(copy, "crates", program, "out", path))
        done = subprocess.run([rt, "run"], cwd=os.path.join(copy, "crates", program), stdin=subprocess.DEVNULL, capture_output=True)
        if done.returncode != 0 or not os.path.exists(self.path):
            raise Missing(f"{program} is not proved, or no module of it was seen")

    def compiled(self, target, *words, source=None):
        """An object of the module, or of another source, for a target."""
        out = os.path.join(self.work, "compiled.o")
        given = ["-x", "ir", self.path] if source is None else [source]
        done = subprocess.run([self.clang, f"--target={target}", "-Wno-override-module", "-O3", "-c", *words, *given, "-o", out], capture_output=True, text=True)
        if done.returncode != 0:
            raise Missing(f"the compiler makes nothing for {target}: " + (done.stderr.strip().split("\n")[-1]))
        return out

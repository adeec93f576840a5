"""The processors that the library and the program are built for, and what differs between them."""
import shutil
import subprocess
import sys
from pathlib import Path
from typing import NamedTuple

from tools.sums import CRATES, TOP, kit, words_over

HERE = Path(__file__).resolve().parent


class Machine(NamedTuple):
    """A processor: what it is called, and the C compiler that builds for it on x86-64 Linux."""

    name: str
    debian: str
    gcc: str
    target: str = ""

    def has_compiler(self):
        return bool(shutil.which(self.gcc))

    def compile(self, crate, root, made, *more):
        """Compiles a crate over the proved libraries of those below it; whether that succeeded."""
        how = ["--target", self.target] if self.target else []
        how += ["--toolchain", f"{kit()}/toolchain", "--backend", "llvm", "--jobs", "2"]
        how += ["--incremental", "out/incremental"]
        made.parent.mkdir(parents=True, exist_ok=True)
        words = words_over(crate, "build", *how, *more, "-o", made, root=root)
        return subprocess.run(words, cwd=CRATES / crate, stdout=sys.stderr).returncode == 0

    def add_host(self, folder, *names):
        """Adds to `folder` the object files of the C functions that Rattle's libraries call."""
        for name in names:
            if self.target:
                words = [self.gcc, "-O2", "-fPIC", "-Wall", "-Wextra", "-Werror", "-c"]
                subprocess.run([*words, HERE / f"{name}.c"], cwd=folder, check=True)
            else:
                subprocess.run(["ar", "x", kit() / "c" / f"lib{name}_c.a"], cwd=folder, check=True)

    def libraries_to_ask(self, folder):
        """Links the archive in `folder` with inline.c and pool.c or fence.c, for bindings/c/ask."""
        own = TOP / "bindings" / "c"
        words = [self.gcc, "-std=c11", "-O2", "-Wall", "-Wextra", "-Werror", "-shared", "-fPIC"]
        words += ["-DPOOL_BYTES=300000000", f"-I{own}", own / "inline.c", folder / "goqlanis_c.o"]
        archive = folder / "libgoqlanis.a"
        subprocess.run(["ar", "x", archive, "goqlanis_c.o"], cwd=folder, check=True)
        for name in ("pool", "fence"):
            made = folder / f"lib{name}.so"
            subprocess.run([*words, own / f"{name}.c", "-o", made], check=True)
            yield made


X86 = Machine("x86_64", "amd64", "gcc")
ARM = Machine("aarch64", "arm64", "aarch64-linux-gnu-gcc", "aarch64-unknown-linux-gnu")
MACHINES = (X86, ARM)

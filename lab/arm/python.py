"""Debian's Python for 64-bit ARM, run by qemu-aarch64-static."""
import subprocess

PACKAGES = """libpython3.11-minimal libpython3.11-stdlib python3.11-minimal libc6 libgcc-s1 libffi8
    libexpat1 zlib1g libssl3 liblzma5 libbz2-1.0 libuuid1 libcrypt1 libtirpc3 libnsl2""".split()


def python(folder, **environment):
    """Downloads Python to `folder`; returns the words that run it with these variables."""
    for words in (["dpkg", "--add-architecture", "arm64"], ["apt-get", "-qq", "update"],
                  ["apt-get", "-qq", "download", *(f"{it}:arm64" for it in PACKAGES)]):
        subprocess.run(words, cwd=folder, check=True)
    for package in folder.glob("*_arm64.deb"):
        subprocess.run(["dpkg", "-x", package, folder / "root"], check=True)
    own = {"PYTHONHOME": "/usr", "PYTHONDONTWRITEBYTECODE": "1", **environment}
    return ["env", *(f"{name}={value}" for name, value in own.items()), "qemu-aarch64-static", "-L",
            folder / "root", folder / "root/usr/bin/python3.11"]

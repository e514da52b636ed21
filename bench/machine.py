"""What a run was taken on, and the building of what is timed."""

import os
import pathlib
import platform
import shutil
import subprocess
import sys
import time

ROOT = pathlib.Path(__file__).resolve().parents[1]
CARGO = ROOT / "target" / "cargo"


def told(*command):
    """The first line that a command prints, or nothing."""
    try:
        said = subprocess.run([str(word) for word in command], capture_output=True, text=True)
    except OSError:
        return ""
    return said.stdout.partition("\n")[0] if said.returncode == 0 else ""


def processor():
    try:
        listed = subprocess.run(["lscpu"], capture_output=True, text=True).stdout + open("/proc/cpuinfo").read()
    except OSError:
        listed = ""
    names = [line.partition(":")[2].strip() for line in listed.splitlines() if line.lower().startswith("model name")]
    return next((name for name in names if name not in ("", "-")), "unknown processor")


def clang():
    """The version of the Rattle kit's clang, which compiles the proved side."""
    rt = shutil.which("rt")
    if not rt:
        return "clang of no known version"
    said = told(pathlib.Path(rt).resolve().parents[1] / "toolchain" / "bin" / "clang", "--version").split()
    return "clang " + said[said.index("version") + 1] if "version" in said else "clang of no known version"


def described():
    """The lines above the tables."""
    rust = " ".join(told("rustc", "--version").split()[:2]) or "rustc of no known version"
    load = f"load {os.getloadavg()[0]:.1f} at the start"
    return (f"{processor()}, {platform.machine()}, {os.cpu_count()} processors, {time.strftime('%Y-%m-%d')}, {load}\n"
            f"proved: the Rattle kit's {clang()}; second: {rust}, release build\n"
            "buffers and files warm; both sides take turns, and the best of each side's rounds counts")


def built(*command):
    """Runs a command that builds code of this machine, and gives the last line that it prints."""
    made = subprocess.run([str(word) for word in command], cwd=ROOT, stdout=subprocess.PIPE, text=True)
    if made.returncode:
        sys.exit(f"bench: could not be built: {' '.join(str(word) for word in command)}")
    return made.stdout.strip().rpartition("\n")[2]


def cargo(package, program):
    """A program of a Rust package, built for release."""
    built("cargo", "build", "--quiet", "--release", "--offline", "--target-dir", CARGO, "--manifest-path", ROOT / package / "Cargo.toml", "--bin", program)
    return CARGO / "release" / program

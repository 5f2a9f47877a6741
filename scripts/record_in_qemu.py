#!/usr/bin/env python3
"""Makes recordings of a kernel of Linux that runs in an emulated machine, where one's own kernel cannot be traced.

    scripts/record_in_qemu.py KERNEL SCRIPT DIRECTORY [QEMU_WORD ..]

KERNEL is a kernel of x86-64 that has what SCRIPT uses (for calls CONFIG_FUNCTION_GRAPH_TRACER); none of its modules is needed. Debian's has
all: `apt-get download linux-image-6.1.0-56-amd64`, `dpkg -x` of that, and in it `boot/vmlinuz-6.1.0-56-amd64`. SCRIPT is run by busybox's
shell in an empty folder of the machine, with busybox and trace-cmd in its PATH and tracefs mounted; `samples/graph.sh` is one. What it leaves
in the folder is put into DIRECTORY, and what it says goes to this script's output. QEMU_WORDs are qemu's own, and stand after those that are
given here. `apt-get install qemu-system-x86 busybox-static cpio trace-cmd` brings what is needed (trace-cmd 3.1.6 was tried).

    echo 'trace-cmd record --file-version 6 -e sched -o sched.dat sleep 1' > sched.sh
    scripts/record_in_qemu.py boot/vmlinuz-6.1.0-56-amd64 sched.sh recordings -smp 8 -accel tcg,thread=single

The machine is emulated without help of the processor: on a busy host it takes some 15 seconds up to SCRIPT, and files come back, packed, at
200 KB a second. More than half of the way to SCRIPT the kernel unpacks itself: an unpacked one (`vmlinux`) is taken too. On a host that leaves the
machine next to no time its kernel may not find its timer. There `-smp 1 -accel tcg,thread=single -icount shift=3,sleep=off` lets the time go by
the instructions that are done.
"""

from __future__ import annotations

import argparse
import gzip
import re
import shutil
import subprocess
import sys
import tempfile
from pathlib import Path

FIRST = """#!/bin/sh
/bin/busybox --install -s /bin
mount -t proc proc /proc
mount -t sysfs sys /sys
mount -t devtmpfs dev /dev
mount -t tracefs tracefs /sys/kernel/tracing
mkdir /work
cd /work
sh /script
stty -F /dev/ttyS1 raw
tar -czf - . > /dev/ttyS1
poweroff -f
"""

# The first serial port is the machine's console, and the files come back by the second, for which the kernel needs no module.
MACHINE = "-display none -vga none -nic none -monitor none -no-reboot -m 1G -smp 2 -append".split() + ["console=ttyS0 quiet panic=-1"]


def initramfs(script: Path) -> bytes:
    """The machine's first files, packed: busybox, trace-cmd with what it is linked with, the script, and what runs it."""
    with tempfile.TemporaryDirectory() as name:
        root = Path(name)
        for folder in ("bin", "dev", "proc", "sys", "tmp"):
            (root / folder).mkdir()
        for tool in ("busybox", "trace-cmd"):
            shutil.copy(shutil.which(tool) or sys.exit(f"{tool} is not installed"), root / "bin")
        (root / "bin/sh").symlink_to("busybox")
        linked = subprocess.run(["ldd", root / "bin/trace-cmd"], capture_output=True, check=True, text=True).stdout
        for library in re.findall(r"(/\S+) \(0x", linked):
            target = root / library.lstrip("/")
            target.parent.mkdir(parents=True, exist_ok=True)
            shutil.copy(library, target)
        shutil.copy(script, root / "script")
        (root / "init").write_text(FIRST)
        (root / "init").chmod(0o755)
        files = "\n".join(str(path.relative_to(root)) for path in sorted(root.rglob("*")))
        packed = subprocess.run(["cpio", "-o", "-H", "newc", "--quiet"], input=files.encode(), capture_output=True, check=True, cwd=root)
        return gzip.compress(packed.stdout, 1)


def main() -> None:
    parser = argparse.ArgumentParser(description=__doc__, formatter_class=argparse.RawDescriptionHelpFormatter)
    for name in ("kernel", "script", "directory"):
        parser.add_argument(name, type=Path, metavar=name.upper())
    parser.add_argument("more", nargs=argparse.REMAINDER, metavar="QEMU_WORD")
    given = parser.parse_args()
    with tempfile.TemporaryDirectory() as name:
        packed, brought = Path(name, "initramfs"), Path(name, "brought.tar")
        packed.write_bytes(initramfs(given.script))
        machine = [*MACHINE, "-kernel", str(given.kernel), "-initrd", str(packed), "-serial", "stdio", "-serial", f"file:{brought}"]
        subprocess.run(["qemu-system-x86_64", *machine, *given.more], stdin=subprocess.DEVNULL, check=True)
        if brought.stat().st_size == 0:
            sys.exit("the machine gave no files back")
        given.directory.mkdir(parents=True, exist_ok=True)
        subprocess.run(["tar", "-xf", brought, "-C", given.directory], check=True)


if __name__ == "__main__":
    main()

"""A machine of QEMU, with Debian's kernel, whose drivers are real: V4L2 test devices (vivid) and two displays
(virtio-gpu and cirrus).

What it needs are packages of Debian, which tools/needs sees to. The kernel's package is only unpacked, below out/.
"""
import glob
import json
import os
import re
import shutil
import socket
import subprocess
import threading
import time

TOP = os.path.abspath(os.path.join(os.path.dirname(__file__), "..", "..", ".."))
OUT = os.path.join(TOP, "out", "machine")
MODULES = ("virtio_pci", "virtio-gpu", "cirrus", "vivid")
# A camera, another one, and one with an output beside it (HDMI, of whole images) whose queues have several planes:
# nodes 0, 1, 2 and 3.
VIVID = "n_devs=3 multiplanar=1,1,2 node_types=0x1,0x1,0x101 num_outputs=1,1,1 output_types=1,1,1"
INIT = """#!/bin/sh
mount -t proc proc /proc; mount -t sysfs sys /sys; mount -t devtmpfs dev /dev
while read -r module; do
    case $module in
    */vivid.ko) insmod $module VIVID ;;
    */drm_kms_helper.ko) insmod $module fbdev_emulation=0 ;; # no console is drawn on the screens, which takes seconds
    *) insmod $module ;;
    esac
done </modules
echo on >/sys/class/drm/card0-Virtual-2/status # a second screen is connected, as by a hand that plugs it in
cd /tmp
. /commands >/dev/ttyS1 2>&1
poweroff -f
"""


class Missing(Exception):
    """What this machine can't have, so that no machine is started."""


def output(*words, **how):
    done = subprocess.run(words, stdout=subprocess.PIPE, stderr=subprocess.STDOUT, text=True, errors="replace", **how)
    return done.stdout, done.returncode


def find(program):
    return shutil.which(program, path=os.environ.get("PATH", "") + ":/usr/sbin:/sbin")


def install():
    """Installs the packages that are missing."""
    said, status = output(os.path.join(TOP, "tools", "needs"), "drivers")
    if status:
        raise Missing(said.strip().splitlines()[-1])


def kernel():
    """The folder of the kernel's package, which is unpacked once."""
    folder = os.path.join(OUT, "kernel")
    if os.path.exists(os.path.join(folder, "whole")):
        return folder
    shutil.rmtree(folder, ignore_errors=True)
    os.makedirs(folder)
    name = kernel_name()
    if not name or output("apt-get", "-qq", "download", name, cwd=folder)[1]:
        raise Missing("the kernel's package can't be downloaded")
    package = glob.glob(os.path.join(folder, "*.deb"))[0]
    if output("dpkg", "-x", package, folder)[1] or output(find("depmod"), "-b", folder, version(folder))[1]:
        raise Missing("the kernel's package can't be unpacked")
    os.remove(package)
    with open(os.path.join(folder, "whole"), "w", encoding="utf-8"):
        return folder


def kernel_name():
    """The name of the newest kernel's package; None where no list of packages has one."""
    if not shutil.which("apt-cache"):
        return None
    for update in (False, True):
        if update:
            output("apt-get", "-qq", "update")
        found = re.search(r"Depends: (linux-image-\S+)", output("apt-cache", "depends", "linux-image-amd64")[0])
        if found:
            return found[1]
    return None


def version(folder):
    return os.listdir(os.path.join(folder, "lib", "modules"))[0]


def modules(folder):
    """The modules in the order in which they are loaded."""
    files = []
    for module in MODULES:
        told = output(find("modprobe"), "-d", folder, "-S", version(folder), "--show-depends", module)[0]
        files += [line.split()[1] for line in told.splitlines() if line.startswith("insmod")]
    return list(dict.fromkeys(files))


def libraries(program):
    """What a program links."""
    return re.findall(r"(/\S+) \(0x", output("ldd", program)[0])


def valgrind():
    """The files of valgrind, each with its place: none where this machine hasn't all of them, or hasn't the dynamic
    linker's symbols, which it needs."""
    linker = re.search(r"Build ID: (\w+)", output("readelf", "-n", "/lib64/ld-linux-x86-64.so.2")[0])
    names = [
        "memcheck-amd64-linux", "vgpreload_core-amd64-linux.so", "vgpreload_memcheck-amd64-linux.so", "default.supp",
    ]
    files = {"/usr/libexec/valgrind/" + name: "/usr/libexec/valgrind/" + name for name in names} | {
        "/usr/bin/valgrind.bin": "/bin/valgrind"
    }
    symbols = f"/usr/lib/debug/.build-id/{linker[1][:2]}/{linker[1][2:]}.debug" if linker else ""
    files[symbols] = symbols
    return files if all(map(os.path.exists, files)) else {}


def put(root, file, at):
    to = os.path.join(root, at.lstrip("/"))
    os.makedirs(os.path.dirname(to), exist_ok=True)
    if not os.path.exists(to):
        shutil.copy(file, to)


def fill(root, folder, files, commands):
    """The files of the machine: programs by name, with what they link, others by their place."""
    for name in ("proc", "sys", "dev", "tmp"):
        os.makedirs(os.path.join(root, name))
    put(root, find("busybox"), "/bin/busybox")
    for name in ("sh", "mount", "insmod", "cat", "poweroff", "sleep", "ls", "dmesg", "grep", "head", "ln", "sed", "wc"):
        os.symlink("busybox", os.path.join(root, "bin", name))
    loaded = modules(folder)
    for module in loaded:
        put(root, module, "/modules.d/" + os.path.basename(module))
    for file, at in files.items():
        put(root, file, at)
        for library in libraries(file):
            put(root, library, library)
    for name, text in (
        ("init", INIT.replace("VIVID", VIVID)),
        ("commands", commands),
        ("modules", "".join(f"/modules.d/{os.path.basename(module)}\n" for module in loaded)),
    ):
        with open(os.path.join(root, name), "w", encoding="utf-8") as out:
            out.write(text)
    os.chmod(os.path.join(root, "init"), 0o755)


def pack(room, folder, files, commands):
    """The machine's file system, as one file."""
    root, packed = os.path.join(room, "root"), os.path.join(room, "root.cpio")
    shutil.rmtree(root, ignore_errors=True)
    os.makedirs(os.path.join(root, "bin"))
    fill(root, folder, files, commands)
    names = subprocess.run(["find", "."], cwd=root, stdout=subprocess.PIPE, check=True).stdout
    with open(packed, "wb") as out:
        subprocess.run(["cpio", "--quiet", "-o", "-H", "newc"], cwd=root, input=names, stdout=out, check=True)
    shutil.rmtree(root)
    return packed


class Screens(threading.Thread):
    """Asks QEMU, as long as it runs, what is on the two screens of a display in turn; keeps each picture that differs
    from the one before on the same screen."""

    def __init__(self, room):
        super().__init__(daemon=True)
        self.at, self.picture, self.pictures = os.path.join(room, "monitor"), os.path.join(room, "picture"), ([], [])

    def connected(self):
        """The lines to and from QEMU's monitor, once it is there."""
        while True:
            link = socket.socket(socket.AF_UNIX)
            try:
                link.connect(self.at)
                return link.makefile("rw")
            except OSError:
                link.close()
                time.sleep(0.1)

    def run(self):
        lines = self.connected()
        try:
            lines.readline()
            self.told(lines, {"execute": "qmp_capabilities"})
            while True:
                for screen, pictures in enumerate(self.pictures):
                    self.told(
                        lines,
                        {
                            "execute": "screendump",
                            "arguments": {"filename": self.picture, "device": "screen", "head": screen},
                        },
                    )
                    self.keep(pictures)
                time.sleep(0.3)
        except (OSError, ValueError):
            return

    def told(self, lines, words):
        """Waits for the answer, among what else is told."""
        lines.write(json.dumps(words) + "\n")
        lines.flush()
        while not re.search('"(return|error)"', line := lines.readline()):
            if not line:
                raise OSError

    def keep(self, pictures):
        if not os.path.exists(self.picture):
            return
        with open(self.picture, "rb") as file:
            found = file.read()
        os.remove(self.picture)
        if found and found != (pictures or [b""])[-1]:
            pictures.append(found)


def boot(room, files, commands, seconds):
    """Starts a machine that runs the commands: what they print, the pictures that were on each screen, and how many
    seconds it took."""
    folder, begun = kernel(), time.time()
    packed, told, screens = pack(room, folder, files, commands), os.path.join(room, "told"), Screens(room)
    words = [
        "qemu-system-x86_64", "-accel", "tcg", "-cpu", "max", "-m", "768", "-smp", "2", "-no-reboot", "-nodefaults",
        "-display", "none",
    ]
    words += [
        "-kernel", glob.glob(os.path.join(folder, "boot", "vmlinuz-*"))[0], "-initrd", packed, "-append",
        "console=ttyS0 quiet panic=-1",
    ]
    words += [
        "-serial", f"file:{os.path.join(room, 'console')}", "-serial", f"file:{told}", "-qmp",
        f"unix:{screens.at},server=on,wait=off",
    ]
    # Without EDID a screen has all modes of VESA's list.
    words += ["-device", "virtio-gpu-pci,id=screen,edid=off,max_outputs=2", "-device", "cirrus-vga"]
    screens.start()
    try:
        said, _ = output(*words, timeout=seconds)
    except subprocess.TimeoutExpired:
        said = f"the machine was stopped after {seconds} seconds"
        print(f"machine: {said}")
    os.remove(packed)
    if not os.path.exists(told):
        raise Missing(f"no machine is started: {said.strip()[-200:]}")
    with open(told, encoding="utf-8", errors="replace", newline="") as text:
        return text.read().replace("\r\n", "\n"), screens.pictures, time.time() - begun

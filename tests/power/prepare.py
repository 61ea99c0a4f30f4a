"""What a guest boots from: its kernel, its first file system, with the program in it, and the disk that it starts
on."""
import collections
import glob
import os
import shutil
import subprocess

from ..system import program

HERE = os.path.dirname(os.path.realpath(__file__))
EXT4 = "mkfs.ext4 -q -F -g 8192 -J size=4 -E nodiscard,lazy_itable_init=0,lazy_journal_init=0 -b "
MODULES = (
    "virtio_pci", "virtio_blk", "virtio_console", "crc32c_generic", "xxhash_generic", "blake2b_generic",
    "sha256_generic")
PACKAGES = {
    "qemu-system-x86_64": "qemu-system-x86",
    "busybox": "busybox-static",
    "cpio": "cpio",
    "cc": "gcc",
    "mkfs.ext4": "e2fsprogs",
    "mkfs.xfs": "xfsprogs",
    "btrfs": "btrfs-progs",
}
NO_KERNEL = """There is no kernel at {0}/boot/vmlinuz-VERSION, with its modules in {0}/lib/modules.
To take one of Debian:
    apt-get download linux-image-VERSION-amd64
    dpkg -x linux-image-VERSION-amd64_*.deb FOLDER
and --kernel FOLDER"""

System = collections.namedtuple("System", "module mebibytes make")
SYSTEMS = {
    "ext4": System("ext4", 64, EXT4 + "4096"),
    "ext4-1k": System("ext4", 64, EXT4 + "1024"),
    "xfs": System("xfs", 320, "mkfs.xfs -q -f -K"),
    "btrfs": System("btrfs", 160, "mkfs.btrfs -q -f -K"),
}
Setup = collections.namedtuple("Setup", "folder kernel initrd fresh module")  # of one file system


def lacking_packages(needed):
    """The command that installs what is missing of these programs or files, each of which has its package; or None."""
    packages = [package for word, package in needed.items() if not shutil.which(word, os.F_OK)]
    if packages:
        return "apt-get install " + " ".join(dict.fromkeys(packages))
    return None


def lacking(kernel):
    """What is to be done first."""
    found = [lacking_packages(PACKAGES)]
    if not glob.glob(f"{kernel}/boot/vmlinuz-*"):
        found.append(NO_KERNEL.format(kernel))
    found.append(lacking_program())
    return [text for text in found if text]


def lacking_program():
    """What is to be done first, if there is no program to try; or None."""
    if os.access(program.PROGRAM, os.X_OK):
        return None
    return f"There is no program at {program.PROGRAM}: ./build makes it."


def modules(folder, names):
    """The files of these modules, each behind those that it depends on. What is built into the kernel has none."""
    paths = glob.glob(f"{folder}/**/*.ko", recursive=True)
    found = {os.path.basename(path)[:-len(".ko")].replace("-", "_"): path for path in paths}

    def needed(name):
        path = found.get(name.replace("-", "_"))
        if not path:
            return []
        with open(path, "rb") as file:
            others = file.read().split(b"\0depends=")[1].split(b"\0")[0].decode().split(",")
        return [below for other in others for below in needed(other)] + [path]

    return dict.fromkeys(path for name in names for path in needed(name))


def libraries_of(paths):
    """The shared libraries that these programs need."""
    printed = [subprocess.run(["ldd", path], capture_output=True, text=True, check=False).stdout for path in paths]
    words = "".join(printed).split()
    return [word for word in words if word.startswith("/") and not word.endswith(":")]


def make_initrd(kernel, image, names, files):
    """An initial file system for this kernel with guest.sh, these modules, and files, each with where it is put. A
    program's libraries come with it. The kernel's file."""
    file = max(glob.glob(f"{kernel}/boot/vmlinuz-*"))
    version = file.partition("vmlinuz-")[2]
    top = image + ".top"
    loaded = {path: "/lib/" + os.path.basename(path) for path in modules(f"{kernel}/lib/modules/{version}", names)}
    files = {
        f"{HERE}/guest.sh": "/init",
        program.PROGRAM: "/bin/waffd",
        shutil.which("busybox"): "/bin/busybox",
        **files,
    }
    libraries = {path: path for path in libraries_of(files)}
    for path, there in {**files, **libraries, **loaded}.items():
        os.makedirs(os.path.dirname(top + there), exist_ok=True)
        shutil.copy(path, top + there)
    for there in ("proc", "dev", "mnt", "tmp"):
        os.mkdir(f"{top}/{there}")
    program.put_bytes(f"{top}/modules", "".join(there + "\n" for there in loaded.values()).encode())
    subprocess.run(f"find . | cpio -o -H newc --quiet > {image}", shell=True, cwd=top, check=True)
    return file


def setup(folder, kernel, name):
    """What a guest boots from with this file system. An empty one is made on a disk of ones, so that where nothing was
    written a gate is open."""
    system = SYSTEMS[name]
    image = f"{folder}/{name}.initrd"
    shim = f"{folder}/{name}.so"
    fresh = f"{folder}/{name}.fresh"
    subprocess.run(["cc", "-O1", "-Wall", "-shared", "-fPIC", "-o", shim, f"{HERE}/shim.c"], check=True)
    files = {shim: "/bin/shim.so", shutil.which("btrfs"): "/bin/btrfs"}
    file = make_initrd(kernel, image, (*MODULES, system.module), files)
    program.put_bytes(fresh, b"\1" * (system.mebibytes << 20))
    subprocess.run([*system.make.split(), fresh], stdout=subprocess.DEVNULL, check=True)
    return Setup(folder, file, image, fresh, system.module)

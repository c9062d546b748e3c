"""Programs that others wrote: where their sources come from, how they are built, their inputs, and what a run of them pays."""
from __future__ import annotations

import json
import os
import subprocess
import sys
import tarfile
import tempfile
import time
from dataclasses import dataclass
from pathlib import Path

from pages import paged

HERE = Path(__file__).resolve().parent
TOP = HERE.parent.parent

OUT = HERE / "out"
PROGRAM = os.path.abspath(os.environ.get("SPMLINK", TOP / "spmlink"))
GCC = "riscv64-unknown-elf-gcc"
FLAGS = ("-march=rv32im -mabi=ilp32 -O2 -fno-section-anchors --specs=picolibc.specs -nostartfiles -static "
         "-D__PICOLIBC_ERRNO_FUNCTION=errno_place -w").split()
RELOCATIONS = "-Wl,--emit-relocs -Wl,--no-relax".split()
LIST = "deb-src [signed-by=/usr/share/keyrings/debian-archive-keyring.gpg] http://deb.debian.org/debian bookworm main\n"
SPM = 0x01000000
FURTHER = [(0x00080000, 0x10000), (0x00400000, 0x100000), (SPM, 0x10000)]  # stacks and the scratchpad, under qemu
MAIN, NEAR = 10, 2  # prices of an access


@dataclass(frozen=True)
class Program:
    package: str
    flags: str
    sources: str
    fix: list[str]  # what a refused relink told to keep
    inputs: list[tuple[str, int, int]]  # a package's file, or *.json for a list of a package's files; from where, how many


TEXTS = [("lz4/lib/lz4.c", 20000, 12000), ("bzip2/manual.xml", 9000, 9000), ("bzip2/sample1.bz2", 0, 6000)]
SHORT = [("lz4/lib/lz4.c", 20000, 4000), ("bzip2/manual.xml", 9000, 3000), ("bzip2/sample1.bz2", 0, 2000)]
PROGRAMS = {
    "lz4": Program("lz4", "-DLZ4_MEMORY_USAGE=12 -Ilib", "lib/lz4.c lib/lz4hc.c", ["packed", "unpacked"], TEXTS),
    "bzip2": Program("bzip2", "-DBZ_NO_STDIO -I.",
                     "blocksort.c huffman.c crctable.c randtable.c compress.c decompress.c bzlib.c", [], SHORT),
    "expat": Program("expat", "-DXML_POOR_ENTROPY -DXML_NS=1 -DXML_DTD=1 -DXML_CONTEXT_BYTES=1024 -DBYTEORDER=1234 -Iexpat/lib",
                     "expat/lib/xmlparse.c expat/lib/xmlrole.c expat/lib/xmltok.c", [],
                     [("expat/expat/doc/xmlwf.xml", 0, 18009), ("bzip2/manual.xml", 0, 30000),
                      ("expat/testdata/largefiles/recset.xml", 0, 12000)]),
    "jsmn": Program("jsmn", "-I.", "", [], [("lz4.json", 0, 30000), ("md4c.json", 0, 8000), ("jsmn/library.json", 0, 1000)]),
    "md4c": Program("md4c", "-Isrc", "src/md4c.c src/md4c-html.c src/entity.c", ["input", "md_dummy_blank_line"],
                    [("md4c/README.md", 0, 12578), ("md4c/CHANGELOG.md", 0, 13381), ("lz4/doc/lz4_Block_format.md", 0, 10683)]),
    "tomcrypt": Program("libtomcrypt", "-DLTC_NO_TEST -DLTC_SOURCE -DLTC_NO_FILE -DARGTYPE=3 -Isrc/headers",
                        "src/ciphers/aes/aes.c src/hashes/sha2/sha256.c src/hashes/md5.c src/stream/chacha/chacha_setup.c "
                        "src/stream/chacha/chacha_ivctr32.c src/stream/chacha/chacha_crypt.c", [], TEXTS),
    "zlib": Program("zlib", "-I.",
                    "adler32.c compress.c crc32.c deflate.c inffast.c inflate.c inftrees.c trees.c uncompr.c zutil.c",
                    ["unpacked"], TEXTS),
    "bearssl": Program("bearssl", "-Iinc -Isrc",
                       "src/rsa/rsa_i15_pub.c src/int/i15_decode.c src/int/i15_decmod.c src/int/i15_ninv15.c src/int/i15_tmont.c "
                       "src/int/i15_modpow2.c src/int/i15_encode.c src/int/i15_montmul.c src/int/i15_muladd.c src/int/i15_fmont.c "
                       "src/int/i15_bitlen.c src/int/i15_sub.c src/int/i15_add.c src/int/i15_rshift.c src/int/i32_div32.c "
                       "src/hash/sha2small.c src/codec/enc32be.c src/codec/dec32be.c src/codec/dec32le.c src/codec/enc32le.c "
                       "src/codec/ccopy.c src/symcipher/aes_common.c src/symcipher/aes_big_enc.c src/symcipher/aes_big_cbcenc.c "
                       "src/symcipher/chacha20_ct.c src/symcipher/poly1305_ctmul.c", [], TEXTS),
}


def said(words: list[object], **more: object) -> subprocess.CompletedProcess[bytes]:
    return subprocess.run(list(map(str, words)), stdout=subprocess.PIPE, **more)  # type: ignore[call-overload, no-any-return]


@dataclass(frozen=True)
class Spent:
    """By a call and what it called."""
    clock: float  # seconds
    processor: float
    megabytes: float  # the greatest of one process

    def __str__(self) -> str:
        return f"{self.clock:.2f} s, {self.processor:.2f} s of a processor, {self.megabytes:.0f} MB"


def timed(words: list[object], **more: object) -> tuple[str, Spent]:
    """What a call printed, and what it took. Where it fails, that is the end."""
    started = time.monotonic()
    with tempfile.TemporaryFile() as out, tempfile.TemporaryFile() as told, tempfile.NamedTemporaryFile() as most:
        # GNU time tells the memory: a child of a Python script counts the script's own as well.
        call = ["/usr/bin/time", "-f", "%M", "-o", most.name, *map(str, words)]
        process = subprocess.Popen(call, stdout=out, stderr=told, **more)  # type: ignore[call-overload]
        _, status, used = os.wait4(process.pid, 0)
        clock, process.returncode = time.monotonic() - started, os.waitstatus_to_exitcode(status)
        out.seek(0)
        told.seek(0)
        printed = out.read().decode(errors="replace")
        if process.returncode:
            sys.exit(f"{' '.join(map(str, words))}: status {process.returncode}\n{printed}{told.read().decode(errors='replace')}")
        return printed, Spent(clock, used.ru_utime + used.ru_stime, int(most.read()) / 1024)


# ---- sources and programs

def apt(*words: str) -> None:
    """By lists of its own, so that nothing of the system changes."""
    folder = OUT / "apt"
    for name in ("lists/partial", "cache/archives/partial"):
        (folder / name).mkdir(parents=True, exist_ok=True)
    (folder / "sources.list").write_text(LIST)
    options = {"Dir::Etc::sourcelist": folder / "sources.list", "Dir::Etc::sourceparts": "-", "Dir::State::lists": folder / "lists",
               "Dir::Cache": folder / "cache", "APT::Get::List-Cleanup": "0", "APT::Sandbox::User": "root"}
    given = [it for key, value in options.items() for it in ("-o", f"{key}={value}")]
    if subprocess.run(["apt-get", "-q", *given, *words], cwd=OUT, stdout=subprocess.DEVNULL).returncode:
        raise OSError(f"apt-get {' '.join(words)} failed: is there a network?")


def archive(package: str) -> Path:
    """What the authors released; Debian's changes are left out."""
    found = sorted(OUT.glob(f"{package}_*.orig.tar.*"))
    if not found:
        if not list((OUT / "apt/lists").glob("*_Sources*")):
            apt("update")
        apt("source", "--download-only", "--tar-only", package)
        found = sorted(OUT.glob(f"{package}_*.orig.tar.*"))
    return found[0]


def sources(package: str) -> Path:
    folder = OUT / "sources" / package
    if not folder.exists():
        with tarfile.open(archive(package)) as tar:
            top = tar.getnames()[0].split("/")[0]
            tar.extractall(folder.parent)
        (folder.parent / top).rename(folder)
    return folder


def linker_script() -> Path:
    """That of the examples, with constants and data behind the patch range and room for a heap and a stack of 1 MiB."""
    text = (TOP / "examples/board.ld").read_text()
    text = text.replace("    /* Tables of constructors", "    . = 0x00100000;\n    /* Tables of constructors")
    path = OUT / "real.ld"
    path.write_text(text.replace("__stack_top = 0x00090000", "__stack_top = 0x00500000"))
    return path


def driver(name: str, rounds: int = 1) -> list[object]:
    """What uses a program: its main function, so many times."""
    path = HERE / f"use_{name}.c"
    return [path] if rounds == 1 else [f"-DROUNDS={rounds}", f'-DDRIVER="{path}"', HERE / "rounds.c"]


def words_of(name: str, rounds: int = 1) -> list[object]:
    """What the compiler is given for all sources of a program but the start code."""
    program = PROGRAMS[name]
    (OUT / "expat_config.h").touch()
    return [f"-I{HERE}", f"-I{OUT}", *program.flags.split(), HERE / "layer.c", *driver(name, rounds), *program.sources.split()]


def built(name: str, rounds: int = 1, path: Path | None = None) -> Path:
    path = path or OUT / f"{name}.elf"
    words = [GCC, *FLAGS, *RELOCATIONS, "-T", linker_script(), TOP / "examples/crt0.S", *words_of(name, rounds), "-o", path]
    subprocess.run(list(map(str, words)), cwd=sources(PROGRAMS[name].package), check=True)
    return path


def board_of(name: str, size: int) -> str:
    """A board with so many bytes of scratchpad."""
    fixed = json.dumps(["arena", *PROGRAMS[name].fix])
    return f"spm = [{SPM:#x}, {size}]\nfix = {fixed}\n" + (HERE / "board.toml").read_text()


def listing(package: str) -> bytes:
    with tarfile.open(archive(package)) as tar:
        found = [{"name": it.name, "size": it.size, "mode": it.mode, "folder": it.isdir()} for it in tar]
    return json.dumps(found[:150], indent=1).encode()


def inputs(name: str) -> list[Path]:
    found = []
    for number, (which, start, count) in enumerate(PROGRAMS[name].inputs, 1):
        package, _, path = which.partition("/")
        content = (sources(package) / path).read_bytes() if path else listing(package.split(".")[0])
        found.append(OUT / f"{name}.{number}.in")
        found[-1].write_bytes(content[start:start + count])
    return found


@dataclass(frozen=True)
class Paid:
    steps: int
    energy: int
    output: bytes
    code: int


def paid(file: Path, size: int, given: Path) -> Paid:
    done = said([OUT / "price", file, SPM, size], stdin=given.open("rb"), stderr=subprocess.PIPE)
    steps, far, near = map(int, done.stderr.split())
    return Paid(steps, MAIN * far + NEAR * near, done.stdout, done.returncode)


def by_qemu(file: Path, given: Path) -> tuple[bytes, int]:
    path = file.with_suffix(".qemu")
    path.write_bytes(paged(file.read_bytes(), FURTHER))
    path.chmod(0o755)
    done = said(["qemu-riscv32", path], stdin=given.open("rb"))
    return done.stdout, done.returncode

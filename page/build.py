#!/usr/bin/env python3
"""Builds the page: the module of WebAssembly from the proved crate hb_page, and the one file that has all.

    page/build.py            builds the module, by the kit, and the page
    page/build.py --check    builds the module, and tells whether it is the one that stands here
    page/build.py --page     makes the page alone, of the module that stands here; needs no kit

The crate is proved again by this build, as by any, and lowered by the kit for x86-64. Only the last step, clang, is
pointed at WebAssembly. The script stops where a line of the module that it rewrites is not as expected.
"""
import base64
import gzip
import hashlib
import json
import os
import re
import shutil
import subprocess
import sys
import tempfile
from pathlib import Path

HERE = Path(__file__).resolve().parent
ROOT = HERE.parent
MODULE, SUMS, PAGE = HERE / "hbird.wasm", HERE / "hbird.wasm.sum", HERE / "hbird.html"
CRATE = "hb_page"
# The layout of memory, as the kit has it for each target: both have pointers of 64 bits, and the lowest byte first.
X86 = "e-m:e-p270:32:32-p271:32:32-p272:64:64-i64:64-i128:128-f80:128-n8:16:32:64-S128"
WASM = "e-m:e-p:64:64-p10:8:8-p20:8:8-i64:64-i128:128-n32:64-S128-ni:1:10:20"
# As the kit calls clang for wasm64.
FLAGS = """--target=wasm64-unknown-unknown -mcpu=lime1 -mllvm -expand-div-rem-bits=64 -mllvm -expand-fp-convert-bits=64
-ffunction-sections -fdata-sections -mllvm -trap-unreachable -mllvm -disable-machine-licm -mllvm -disable-postra-machine-licm
-mllvm -sink-common-insts=false --no-default-config -Werror -c -Oz""".split()
# The evaluator calls itself; to run past the stack, which lies at the low end of memory, ends the module.
STACK = 1048576


def kit():
    """The folder of the kit: that of the page that `rt doc` names."""
    page = subprocess.run(["rt", "doc"], stdout=subprocess.PIPE, text=True, check=True).stdout.strip()
    return Path(page).resolve().parent


def call(*words):
    subprocess.run([str(word) for word in words], check=True)


def crates():
    """Each crate of the repository, with the libraries on which it stands."""
    rows = (line.partition(":") for line in (ROOT / "crates.txt").read_text().splitlines() if ":" in line)
    return {name.split()[0]: rest.split() for name, _, rest in rows}


def below(name, known, found):
    """The crates below one, each once."""
    for part in known[name]:
        if part in known and part not in found:
            found.append(part)
            below(part, known, found)
    return found


def toolchain(at, room):
    """The kit's toolchain with a clang that also keeps the module which it is given."""
    tools = room / "toolchain"
    (tools / "bin").mkdir(parents=True)
    (tools / "lib").symlink_to(at / "toolchain/lib")
    for tool in (at / "toolchain/bin").iterdir():
        if tool.name != "clang":
            (tools / "bin" / tool.name).symlink_to(tool)
    clang = tools / "bin/clang"
    clang.write_text('#!/bin/sh\ncp module.bc "%s"\nexec "%s" "$@"\n' % (room / "module.bc", at / "toolchain/bin/clang"))
    clang.chmod(0o755)
    return tools


def lowered(at, room):
    """The module of the proved crate that the kit gives to clang."""
    known = crates()
    words = [at / "bin/rattle", "build", "--crate-name", CRATE, "src/lib.rt", "--extern", "std=%s" % (at / "rlibs/std.rlib"),
             "-L", "dependency=%s" % (at / "rlibs")]
    for name in known[CRATE]:
        words += ["--extern", "%s=%s" % (name, ROOT / "crates" / name / "out/rlib" / (name + ".rlib"))]
    for name in below(CRATE, known, []):
        words += ["-L", "dependency=%s" % (ROOT / "crates" / name / "out/rlib")]
    words += ["--antt-project", at / "rattle/logic/antt-project.json", "--logic-built", at / "logic_built", "--links", CRATE + "=", "--jobs", "1",
              "--cpu", "x86-64", "--backend", "llvm", "--toolchain", toolchain(at, room), "--crate-type", "staticlib", "-o", room / "unused"]
    done = subprocess.run([str(word) for word in words], cwd=ROOT / "crates" / CRATE, stdout=subprocess.PIPE, stderr=subprocess.STDOUT, text=True)
    if done.returncode:
        sys.exit("page: the crate was not built\n" + done.stdout[-2000:])
    return room / "module.bc"


def once(text, old, new):
    if text.count(old) != 1:
        sys.exit("page: the module has %d times %r, and not once" % (text.count(old), old))
    return text.replace(old, new)


def retargeted(text):
    """The module as text, for wasm64."""
    for word in ("@llvm.x86", "@llvm.frameaddress", " asm "):
        found = [line for line in text.splitlines() if word in line and 'asm sideeffect "", "~{memory}"()' not in line]
        if found:
            sys.exit("page: the module has %r, which is for x86-64 alone" % found[0])
    text = once(once(text, X86, WASM), '"x86_64-unknown-linux-gnu"', '"wasm64-unknown-unknown"')
    return text.replace('"probe-stack"="inline-asm" "stack-probe-size"="3072" "target-cpu"="x86-64"',
                        '"no-builtin-bcmp" "no-builtin-memcmp" "no-builtin-strlen" "target-cpu"="lime1"')


def built():
    """The bytes of the module."""
    at = kit()
    clang = at / "toolchain/bin/clang"
    with tempfile.TemporaryDirectory() as folder:
        room = Path(folder)
        module = lowered(at, room)
        call(clang, "-x", "ir", module, "-S", "-emit-llvm", "-Xclang", "-disable-llvm-passes", "-o", room / "module.ll")
        (room / "wasm.ll").write_text(retargeted((room / "module.ll").read_text()))
        call(clang, *FLAGS, "-x", "ir", room / "wasm.ll", "-o", room / "module.o")
        for source in ("host.c", "heap.h"):
            shutil.copy(HERE / source, room / source)
        # The names of folders would stand in the module.
        os.chdir(room)
        call(clang, *FLAGS, "-ffreestanding", "-nostdinc", "host.c", "-o", "host.o")
        call(at / "toolchain/bin/llvm-ar", "--format=gnu", "rcs", "libhbird.a", "module.o", "host.o")
        call(at / "bin/rattle-link", "--target", "wasm64-unknown-unknown", "--toolchain", at / "toolchain", "--stack", STACK, "-o", "hbird.wasm", "libhbird.a")
        return (room / "hbird.wasm").read_bytes()


def examples():
    """The programs of the menu, each with the values of its options."""
    found = []
    for text in sorted((ROOT / "examples").glob("*.hb"), key=lambda text: (text.stem != "rechecked", text.stem)):
        words = text.with_suffix(".words")
        options = dict(word[2:].split("=") for word in words.read_text().split() if "=" in word) if words.exists() else {}
        found.append({"name": text.stem, "text": text.read_text(), **options})
    return found


def explained():
    """The first sentence on each word of a report, by the part of the report in which it stands."""
    import pages
    found = {"text": {}, "stop": {}, "reason": {}}
    for section in pages.sections():
        if section.is_word and section.part in found:
            found[section.part][section.title] = section.first_sentence()
    return found


def page():
    """The text of the page."""
    sys.path.insert(0, str(ROOT / "front"))
    import timeline
    module = base64.b64encode(gzip.compress(MODULE.read_bytes(), mtime=0)).decode()
    data = {"module": module, "words": explained(), "sentences": {"calls": timeline.CALLS, "others": timeline.OTHERS, "ill": timeline.ILL},
            "pictureStyle": (ROOT / "front/picture.css").read_text(), "examples": examples()}
    parts = {"STYLE": (HERE / "page.css").read_text(), "DATA": json.dumps(data).replace("<", "\\u003c"),
             "SCRIPT": "".join((HERE / name).read_text().replace('"use strict";\n', "", number) for number, name in
                               enumerate(("timeline.js", "picture.js", "page.js")))}
    return re.sub("{([A-Z]+)}", lambda found: parts[found.group(1)], (HERE / "page.html").read_text())


def main(words):
    if words not in ([], ["--check"], ["--page"]):
        sys.exit("page: the words are --check or --page, or none")
    if words != ["--page"]:
        module = built()
        if words == ["--check"]:
            return 0 if module == MODULE.read_bytes() else "page: the module that stands here is another than what is built"
        MODULE.write_bytes(module)
        SUMS.write_text("%s  hbird.wasm\n" % hashlib.sha256(module).hexdigest())
    PAGE.write_text(page())
    print("page: the module has %d bytes, the page %d" % (MODULE.stat().st_size, PAGE.stat().st_size))
    return 0


if __name__ == "__main__":
    sys.exit(main(sys.argv[1:]))

"""What the headers and the archives hold to: one version number everywhere, headers for C and C++ that each stand by
themselves, null pointers where a count is 0, the functions that are declared and no others, and one name from outside.

The kernel's archive has what include/zoghvari.h declares, the sweep's what include/zoghvari_sweep.h does."""

import os
import re
import shutil
import subprocess

from files import ROOT, read

STRICT = ["-Wall", "-Wextra", "-pedantic", "-Werror"]
KERNEL, SWEEP = "include/zoghvari.h", "include/zoghvari_sweep.h"
# Where the version number stands: file, and what is around it. Of the changelog the newest release counts.
VERSION = {
    KERNEL: r'^#define ZOGHVARI_VERSION "([^"]*)"$',
    "rust/Cargo.toml": r'^\[package\]\n(?:[^\[].*\n)*?version = "([^"]*)"$',
    "rust/Cargo.lock": r'^name = "zoghvari"\nversion = "([^"]*)"$',
    "CHANGELOG.md": r"^## \[?([0-9][^\s\]]*)",
}


def versions(text_of=read):
    """The version number in each place, None where there is none."""
    found = {name: re.search(form, text_of(name), re.MULTILINE) for name, form in VERSION.items()}
    return {name: match and match.group(1) for name, match in found.items()}


def agree(found):
    """All places have a version number, and the same."""
    return None not in found.values() and len(set(found.values())) == 1


def one_version(tally):
    found = versions()
    tally.holds(f"one version number: {found}", agree(found))
    for name, version in found.items():
        def changed(path, name=name, version=version):
            return read(path).replace(str(version), "9.8.7") if path == name else read(path)
        tally.holds(f"a version number changed in {name} alone is seen", not agree(versions(changed)))


def built(command, source, output, archive):
    """What the compiler and the program say; nothing where both are content."""
    command = command + STRICT + ["-I", os.path.join(ROOT, "include"), "-o", output]
    for words in (command + [os.path.join(ROOT, "tests", "examples", source), "-x", "none", archive], [output]):
        done = subprocess.run(words, stdout=subprocess.PIPE, stderr=subprocess.STDOUT, text=True, timeout=60, check=False)
        if done.returncode != 0:
            return f"exit status {done.returncode}: {done.stdout}"
    return ""


def both_languages(tally, folder, source, archive):
    """C as C99 knows it. C++ where there is a compiler: the kernel needs none, so it may be missing."""
    output = os.path.join(folder, "header")
    tally.equal(f"{source} in C", built(["cc", "-std=c99"], source, output, archive), "")
    if shutil.which("c++"):
        tally.equal(f"{source} in C++", built(["c++", "-x", "c++", "-std=c++11"], source, output, archive), "")


def names(tally, archive, header):
    """The names that an archive needs and gives, by the listing tool that comes with a linker."""
    listing = subprocess.run(["nm", "-g", archive], stdout=subprocess.PIPE, text=True, check=True).stdout
    found = re.findall(r"^[0-9a-f ]* (\w) (\w+)$", listing, re.MULTILINE)
    tally.equal("names from outside", [name for kind, name in found if kind == "U"], ["memset"])
    declared = set(re.findall(r"\bzoghvari_\w+(?=\()", read(header)))
    tally.equal("names given", {name for kind, name in found if kind != "U"}, declared)


def all_headers(tally, folder, kernel, sweep):
    one_version(tally)
    names(tally, kernel, KERNEL)
    names(tally, sweep, SWEEP)
    both_languages(tally, folder, "header.c", kernel)
    both_languages(tally, folder, "header_sweep.c", sweep)

"""The compiled library for tests: the archives of the kernel and of the sweep, a driver linked with both, and cases
asked of the driver.

A driver that crashes or hangs on a case costs that case its answer (None) and nothing more: it is started again behind it.
"""

import os
import subprocess

import wire

ROOT = os.path.dirname(os.path.dirname(os.path.dirname(os.path.abspath(__file__))))
ARCHIVES = os.path.join(ROOT, "target", "staticlib")
# So many cases go to one process, which gets so many seconds; after so many cases without an answer the rest is given up.
BATCH, SECONDS, LOST = 500, 120, 5


def newest_source():
    """The time of the last change under crates/, of what `rt` keeps in their out/ aside."""
    times = []
    for folder, folders, names in os.walk(os.path.join(ROOT, "crates")):
        folders[:] = [name for name in folders if name != "out"]
        times += [os.path.getmtime(os.path.join(folder, name)) for name in names]
    return max(times)


def build(name):
    """Makes an archive or a program, by tools/build."""
    subprocess.run([os.path.join(ROOT, "tools", "build"), name], check=True, stdout=subprocess.DEVNULL)


def archive(name="kernel"):
    """The archive of the kernel or of "sweep"; made where it is missing or older than the code it is made of."""
    path = os.path.join(ARCHIVES, f"lib{name}.a")
    if not os.path.exists(path) or os.path.getmtime(path) < newest_source():
        build(name)
    return path


def sweep_beside(kernel):
    """The sweep's archive in the folder of a kernel's."""
    return os.path.join(os.path.dirname(kernel), "libsweep.a")


def compile_c(sources, output, kernel=None, flags=()):
    """A C program of these files (named from the repository's root), linked with the archive."""
    paths = [os.path.join(ROOT, source) for source in sources]
    subprocess.run(["cc", "-std=gnu11", "-O1", "-g", "-Wall", "-Wextra", "-Werror", "-I", os.path.join(ROOT, "include"),
                    "-o", output] + paths + [kernel or archive(), *flags], check=True)
    return output


def build_driver(folder, kernel=None, name="driver"):
    """A program of tests/driver that answers frames by calls of the kernel and of the sweep, whose archive lies beside
    the kernel's where that is given. Its symbols are bound before it begins: a call that had to bind memset first would
    take some KB of stack for it."""
    sources = [f"tests/driver/{part}.c" for part in (name, "calls", "frames")]
    sweep = sweep_beside(kernel) if kernel else archive("sweep")
    return compile_c(sources, os.path.join(folder, name), kernel, [sweep, "-Wl,-z,now"])


def library_given(arguments):
    """The kernel's archive behind --library, None without it; and the other arguments."""
    if "--library" not in arguments:
        return None, arguments
    place = arguments.index("--library")
    return arguments[place + 1], arguments[:place] + arguments[place + 2:]


def ask(driver, cases):
    """One answer for each case, None where the driver gave none."""
    answers = []
    for place in range(0, len(cases), BATCH):
        answers += ask_batch(driver, cases[place:place + BATCH])
        if answers.count(None) >= LOST:
            break
    return answers + [None] * (len(cases) - len(answers))


def ask_batch(driver, cases):
    answers = []
    while len(answers) < len(cases) and answers.count(None) < LOST:
        answers += ask_once(driver, cases[len(answers):])
        if len(answers) < len(cases):
            answers.append(None)
    return answers


def ask_once(driver, cases):
    """The answers of one process up to where it ended."""
    data = b"".join(wire.encode_case(case) for case in cases)
    try:
        done = subprocess.run([driver], input=data, stdout=subprocess.PIPE, timeout=SECONDS, check=False)
        status, output = done.returncode, done.stdout
    except subprocess.TimeoutExpired as late:
        status, output = None, late.stdout or b""
    answers = wire.decode_whole(output)
    # A bad end behind the last answer has no case of its own; it must not pass for a good one.
    return answers[:-1] if status != 0 and len(answers) == len(cases) else answers

"""tools/build makes the two archives and the two programs anew from what is proved. Prints 'N passed, M failed'."""
import os
import subprocess
import sys

sys.path.insert(0, os.path.dirname(os.path.abspath(__file__)))
from closing import close

BUILD = os.path.join("tools", "build")
MADE = ("target/staticlib/libkernel.a", "target/staticlib/libsweep.a", "target/bin/zoghvari", "target/bin/zoghvari_obj")


def faults(root):
    """A line for each of them that is not there, and what the script says where it fails."""
    for path in MADE:
        if os.path.exists(os.path.join(root, path)):
            os.remove(os.path.join(root, path))
    done = subprocess.run([os.path.join(".", BUILD)], cwd=root, stdout=subprocess.PIPE, stderr=subprocess.STDOUT,
                          text=True, errors="replace", check=False)
    said = [] if done.returncode == 0 else [done.stdout, f"{BUILD}: exit status {done.returncode}"]
    return said + [f"{path} was not made" for path in MADE if not os.path.isfile(os.path.join(root, path))]


def main(root):
    bad = faults(root)
    return close(len(MADE) if not bad else 0, bad)


if __name__ == "__main__":
    sys.exit(main(sys.argv[1]))

"""What the runs through an archive share: the archive among their arguments, a program in C over it, and a clock for such a program."""
import subprocess

# microseconds; needs time.h
CLOCK = r"""
static double now(void) {
    struct timespec t;
    clock_gettime(CLOCK_MONOTONIC, &t);
    return t.tv_sec * 1e6 + t.tv_nsec / 1e3;
}
"""


def without_archive(args):
    """The archive that `--lib` names and the other arguments, or None."""
    if "--lib" not in args[:-1]:
        return None
    at = args.index("--lib")
    return args[at + 1], args[:at] + args[at + 2 :]


def compiled(code, archive, folder):
    """The program of some C code over the archive."""
    open(f"{folder}/code.c", "w").write(code)
    subprocess.run(["cc", "-O1", "-o", f"{folder}/program", f"{folder}/code.c", archive], check=True)
    return f"{folder}/program"

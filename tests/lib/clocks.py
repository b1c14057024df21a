"""Sets the clocks of a program ahead, by a library in front of the C library: what is to happen in an hour is seen at once. The machine's C
compiler builds it: `$CC`, or `cc` if that is not set."""

import os
import pathlib
import shlex
import struct
import subprocess

SOURCE = r"""
struct timespec { long seconds, nanoseconds; };
char *getenv(const char *);
int open(const char *, int, ...);
long read(int, void *, unsigned long);
int close(int);
void *dlsym(void *, const char *);

static long ahead(void) {
    const char *path = getenv("SECONDS_AHEAD");
    int file = path ? open(path, 0) : -1;
    long seconds = 0;
    if (file < 0)
        return 0;
    if (read(file, &seconds, sizeof seconds) != sizeof seconds)
        seconds = 0;
    close(file);
    return seconds;
}

int clock_gettime(int clock, struct timespec *time) {
    static int (*read_clock)(int, struct timespec *);
    if (!read_clock)
        read_clock = dlsym((void *)-1L, "clock_gettime");
    int failed = read_clock(clock, time);
    time->seconds += ahead();
    return failed;
}
"""


class Clocks:
    """The clocks of a program that is started with this environment. They are as those of the system until they are set ahead."""

    def __init__(self, folder):
        source, library, self.file = (pathlib.Path(folder) / name for name in ("ahead.c", "ahead.so", "ahead"))
        source.write_text(SOURCE)
        compiler = shlex.split(os.environ.get("CC") or "cc")
        subprocess.run([*compiler, "-shared", "-fPIC", "-O1", source, "-o", library, "-ldl"], check=True)
        self.file.write_bytes(bytes(8))
        self.environment = {"LD_PRELOAD": str(library), "SECONDS_AHEAD": str(self.file)}

    def set_ahead(self, seconds):
        """They are this many seconds ahead of the system's from now on."""
        with self.file.open("r+b") as file:
            file.write(struct.pack("l", seconds))

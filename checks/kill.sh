#!/usr/bin/env bash
# Kills runs on one file at random moments, half of them while they write it: checks/kill.sh [COUNT] [SEED]. COUNT is the number of runs, 1,000 if it
# isn't given; SEED is 1. Each run changes each page of the image. Meanwhile two readers check the file in a loop, and
# must find it sound each time. After each run the file must be the old image or the new one.
#
# A killed run can leave a file NAME.1.new, or one with a higher number, as docs/FORMATS.md states, and nothing else.
# The files are left until there are 100, which are all names that are tried. Then a run must fail with status 3, tell
# which file failed, and change nothing. After the removal of these files runs succeed again.
#
# Prints how many runs were killed, and what they left. Needs Python 3, and the program in crates/segtool/out, or
# SEGTOOL.
set -eu
here=$(cd "$(dirname "$0")" && pwd)
SEGTOOL=$(realpath "${SEGTOOL:-$here/../crates/segtool/out/segtool}")
export SEGTOOL
exec python3 - "$@" << 'P'
import os, random, re, signal, subprocess, sys, tempfile, threading, time

segtool = os.environ["SEGTOOL"]
count = int(sys.argv[1]) if len(sys.argv) > 1 else 1000
chance = random.Random(int(sys.argv[2]) if len(sys.argv) > 2 else 1)
memory = "/dev/shm" if os.path.isdir("/dev/shm") else None

# counts the runs in each of 60,000 numbers, which fill 117 pages
CLIENT = """type i64
name numbers
CONST r1 1
CONST r2 60000
CONST r3 0
MAKE r0 - r2 t0 k0
ELSE
END
CONST r4 1
WHILE r4 60000
  FIND r0 - r3 t0 k0
    LOAD r5 r0
    ADD r5 r5 r1
    STORE r0 r5
  ELSE
  END
  ADD r3 r3 r1
  LT r4 r3 r2
END
"""


class Killed:
    def __init__(self, folder):
        os.chdir(folder)
        self.wrong, self.checks, self.is_over = [], 0, False
        with open("text", "w") as file:
            file.write(CLIENT)
        self.must("asm", "text", "client")
        self.must("new", "image", "524288", "best", "tree")
        self.must("run", "image", "image", "client")

    def must(self, *words):
        done = subprocess.run([segtool, *words], capture_output=True)
        if done.returncode:
            self.wrong.append(f"{' '.join(words)}: status {done.returncode}, {done.stderr}")

    def read_all(self):
        """A reader: the file is sound whenever it is looked at."""
        while not self.is_over:
            done = subprocess.run([segtool, "check", "image"], capture_output=True)
            self.checks += 1
            if (done.returncode, done.stdout) != (0, b"ok\n"):
                self.wrong.append(f"a reader got status {done.returncode}, {done.stdout}{done.stderr}")

    def beside(self):
        return [name for name in os.listdir() if name.startswith("image.")]

    def expected(self):
        """The image that the next run saves."""
        self.must("run", "image", "expected", "client")
        return bytes_of("expected")

    def start(self):
        return subprocess.Popen([segtool, "run", "image", "image", "client"], stderr=subprocess.PIPE)

    def wait_for_new_file(self, running):
        """Until a run has made its new file, or has ended."""
        taken = set(self.beside())
        name = next(it for it in (f"image.{number}.new" for number in range(1, 101)) if it not in taken)
        while running.poll() is None and not os.path.exists(name):
            pass

    def fill_up(self, old):
        """All names of new files are taken: a run fails and changes nothing."""
        for name in self.beside():
            if not re.fullmatch(r"image\.([1-9][0-9]?|100)\.new", name):
                self.wrong.append(f"a file with another name: {name}")
        done = subprocess.run([segtool, "run", "image", "image", "client"], capture_output=True)
        if (done.returncode, done.stderr) != (3, b"file image\n") or bytes_of("image") != old:
            self.wrong.append(f"all names are taken: status {done.returncode}, {done.stderr}")
        for name in self.beside():
            os.remove(name)

    def run(self):
        times = sorted(self.time() for _ in range(20))
        old = bytes_of("image")
        new = self.expected()
        longest = times[15] * 1.3
        killed = saved = filled = left = 0
        readers = [threading.Thread(target=self.read_all) for _ in range(2)]
        for reader in readers:
            reader.start()
        for _ in range(count):
            running = self.start()
            if chance.random() < 0.5:
                time.sleep(chance.random() * longest)
            else:
                self.wait_for_new_file(running)
                time.sleep(chance.random() ** 2 * 0.0005)
            running.send_signal(signal.SIGKILL)
            _, err = running.communicate()
            now = bytes_of("image")
            killed += running.returncode < 0
            if running.returncode not in (0, -signal.SIGKILL):
                self.wrong.append(f"status {running.returncode}, {err}")
            if now not in (old, new) or running.returncode == 0 and now != new:
                self.wrong.append("the file is neither the old image nor the new one")
            if now != old:
                saved += running.returncode < 0
                old, new = now, self.expected()
            if len(self.beside()) == 100:
                filled += 1
                left += 100
                self.fill_up(old)
        left += len(self.beside())
        self.is_over = True
        for reader in readers:
            reader.join()
        print(f"{count} runs of {times[10] * 1000:.1f} ms: {killed} were killed, "
              f"of which {saved} had saved the new image; "
              f"{left} new files were left, and all 100 names were taken {filled} times; "
              f"{self.checks} checks by readers; {len(self.wrong)} wrong")

    def time(self):
        running = self.start()
        begun = time.perf_counter()
        running.communicate()
        return time.perf_counter() - begun


def bytes_of(name):
    with open(name, "rb") as file:
        return file.read()


with tempfile.TemporaryDirectory(dir=memory) as folder:
    it = Killed(folder)
    it.run()
    os.chdir("/")
for why in it.wrong[:20]:
    print(why)
sys.exit(len(it.wrong) > 0)
P

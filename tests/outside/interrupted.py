#!/usr/bin/env python3
"""Asks tools/verdicts.py about runs that are ended at each of their steps, and caches that change while they are read.

    interrupted.py [--all]

A run is a process of its own, forked from this one, in which an audit hook counts what it does with files and folders,
and kills it, or changes the cache, right before one of these steps. So each step is met, on each run the same ones.
Whatever happens, OUT is the old folder or the new one, octet by octet; and the next run leaves nothing else behind.
Without --all every fourth step of the long middle is met. Exits with 1 at the first answer that differs.
"""

import os
import shutil
import signal
import subprocess
import sys
import tempfile
import time

import odd_caches
from odd_caches import POINT, SECRET, Room, repository, same, tree

sys.dont_write_bytecode = True

import outputs  # noqa: E402
import verdicts  # noqa: E402

# What a run does with files and folders, as Python's audit events have it.
STEPS = {"open", "os.mkdir", "os.rename", "os.remove", "os.rmdir", "os.scandir", "os.listdir", "shutil.rmtree"}
STEPS |= {"fcntl.flock", "ctypes.dlsym"}
STRIDE = 4


class Hook:
    """Counts the steps of one process, and acts right before some of them."""

    def __init__(self, act):
        self.act, self.count, self.busy = act, 0, False
        self.process = self.counted = os.getpid()

    def __call__(self, event, words):
        if event not in STEPS or self.busy:
            return
        if self.counted != os.getpid():
            # (a helper has the run's hook, and counts its own steps)
            self.counted, self.count = os.getpid(), 0
        self.busy = True
        self.count += 1
        self.act(self, event, words)
        self.busy = False


def quiet_run(room, cache, act, *others, before=None):
    """One run in a forked process: its status as `subprocess` has it."""
    child = os.fork()
    if child == 0:
        os.dup2(os.open(room.path("said"), os.O_WRONLY | os.O_CREAT | os.O_TRUNC), 2)
        sys.stderr = os.fdopen(2, "w", closefd=False)
        sys.argv = ["verdicts.py", *room.words(cache, *others)]
        status = 99
        try:
            if before:
                before()
            if act:
                sys.addaudithook(Hook(act))
            status = verdicts.main()
        except SystemExit as end:
            status = end.code
        finally:
            sys.stderr.flush()
            os._exit(status)
    _, status = os.waitpid(child, 0)
    return os.waitstatus_to_exitcode(status)


def kill_at(step, who):
    """Kills at that step: the run itself, or its helper."""

    def act(hook, *_):
        if hook.count == step and (os.getpid() == hook.process) == (who == "run"):
            os.kill(os.getpid(), signal.SIGKILL)

    return act


def steps_of(room, cache, *others, before=None):
    """How many steps the run itself takes, and how many its helper."""
    path = room.path("steps")

    def act(hook, *_):
        with open(f"{path}.{os.getpid() == hook.process}", "w") as file:
            file.write(str(hook.count))

    same("a run that is counted", quiet_run(room, cache, act, *others, before=before), 0)
    return [int(open(f"{path}.{which}").read()) for which in (True, False)]


def chosen(count, all_steps):
    """The steps to meet: all, or the first, the last, and some of those between."""
    near = set(range(1, 25)) | set(range(count - 45, count + 1))
    return [step for step in range(1, count + 1) if all_steps or step in near or step % STRIDE == 0]


def left_over(room):
    """What lies beside OUT that no run should leave."""
    return sorted(name for name in os.listdir(room.folder) if name.endswith(".verdicts"))


def unsupported(*_):
    raise outputs.Unsupported


def without_exchange():
    """As on a file system that can't exchange two folders."""
    outputs.rename = unsupported


def killed(room, old, new, all_steps, before=None):
    """A run over an old folder is killed at each step; then the next one."""
    what = "killed, without exchange" if before else "killed"
    room.told(old)
    kept = room.path("kept")
    shutil.rmtree(kept, ignore_errors=True)
    shutil.copytree(room.out, kept)
    wanted = {"old": tree(room.out)}
    counts = steps_of(room, new, "--replace", "--jobs", "1", before=before)
    wanted["new"] = tree(room.out)
    same(f"{what}: two folders", wanted["old"] == wanted["new"], False)
    met = 0
    for who, count in zip(("run", "helper"), counts):
        for step in chosen(count, all_steps):
            shutil.rmtree(room.out)
            shutil.copytree(kept, room.out)
            status = quiet_run(room, new, kill_at(step, who), "--replace", "--jobs", "1", before=before)
            if who == "helper" and status not in (1, 8) or who == "run" and status not in (-signal.SIGKILL, 0):
                sys.exit(f"{what}: {who} at step {step}: status {status}")
            judge(room, f"{what}: {who} at step {step} of {count}", status, wanted, before)
            met += 1
    print(f"{what}: {met} steps of {sum(counts)}: ok", flush=True)


def judge(room, what, status, wanted, before):
    """OUT has to be the old folder or the new one; and the next run, which fails, leaves that and nothing else."""
    if before is None and not os.path.isdir(room.out):
        sys.exit(f"{what}: OUT isn't there")
    next_status = quiet_run(room, room.path("empty"), None, "--replace", before=before)
    if next_status != 1 or left_over(room):
        sys.exit(f"{what}: the next run has status {next_status}, and leaves {left_over(room)}")
    found = tree(room.out)
    if found not in wanted.values() or status == 0 and found != wanted["new"]:
        sys.exit(f"{what}: OUT is neither the old folder nor the new one")


def fresh(room, new):
    """Where nothing was there before, a run that is killed leaves nothing at OUT's place, or all."""
    shutil.rmtree(room.out)
    count, _ = steps_of(room, new, "--jobs", "1")
    wanted = tree(room.out)
    for step in chosen(count, False):
        shutil.rmtree(room.out, ignore_errors=True)
        quiet_run(room, new, kill_at(step, "run"), "--jobs", "1")
        if os.path.lexists(room.out) and tree(room.out) != wanted:
            sys.exit(f"killed at step {step} of {count}: OUT is only a part")
    print("killed where nothing was there: ok")


def ended(room, old, new):
    """Signals that end a run: what it made is removed, and it ends by the signal."""
    room.told(new)
    wanted = [tree(room.out)]
    for number in (signal.SIGTERM, signal.SIGINT, signal.SIGHUP):
        for step in (5, 20, 60, 80):
            room.told(old)
            wanted[1:] = [tree(room.out)]

            def act(hook, *_, step=step, number=number):
                if hook.count == step and os.getpid() == hook.process:
                    os.kill(os.getpid(), number)

            status = quiet_run(room, new, act, "--replace", "--jobs", "2")
            found = (status, left_over(room), tree(room.out) in wanted)
            same(f"{number.name} at step {step}", found, (-number, [], True))


# A run that reads nothing before a file is there.
WAITING = """
import caches, os, time
read = caches.read_file
def wait(*given):
    while not os.path.exists({flag!r}):
        time.sleep(0.05)
    return read(*given)
caches.read_file = wait
"""


def twice(room, new):
    """Of two runs on one OUT the second ends, and the first goes on."""
    room.told(new)
    flag = room.path("flag")
    code = odd_caches.PREPARED.format(tools=odd_caches.TOOLS, code=WAITING.format(flag=flag))
    words = [sys.executable, "-B", "-c", code, *room.words(new, "--replace", "--jobs", "1")]
    first = subprocess.Popen(words, stderr=subprocess.DEVNULL)
    while not left_over(room) and first.poll() is None:
        time.sleep(0.01)
    done, _ = room.run(new, "--replace")
    repository.write(flag, b"")
    same("a second run", (done.returncode, "another run is writing" in done.stderr), (1, True))
    same("the first run", first.wait(), 0)


def refused(room, new):
    """What stands at OUT's place and isn't replaced."""
    shutil.rmtree(room.out, ignore_errors=True)
    os.symlink(room.path("empty"), room.out)
    done, _ = room.run(new, "--replace")
    same("a link at OUT", (done.returncode, os.path.islink(room.out), left_over(room)), (1, True, []))
    os.remove(room.out)
    repository.write(os.path.join(room.out, "letters"), b"mine")
    done, _ = room.run(new, "--replace")
    same("other things at OUT", (done.returncode, tree(room.out), left_over(room)), (1, {"letters": b"mine"}, []))
    shutil.rmtree(room.out)
    room.told(new)
    done, _ = room.run(new)
    same("OUT without --replace", (done.returncode, "is there already" in done.stderr, left_over(room)), (1, True, []))


def swap_link(path, target):
    """Puts a link in the place of a file or a folder, as whoever fills the cache could at any time."""
    os.rename(path, path + ".away")
    os.symlink(target, path)


def cut(path, _):
    os.truncate(path, 100)


def grow(path, _):
    with open(path, "ab") as file:
        file.truncate(33 << 20)


def pipe(path, _):
    os.remove(path)
    os.mkfifo(path)


def remove(path, _):
    os.rename(path, path + ".away")


# What happens to the entry of that name right before it is opened, and whether another file is read then.
CHANGES = (
    ("o0.roa", swap_link, False),
    ("o0.roa", pipe, False),
    ("o0.roa", remove, False),
    ("o0.roa", grow, False),
    ("o0.roa", cut, True),
    ("a0", swap_link, False),
    ("a0", remove, False),
    ("repository", swap_link, False),
    (repository.HOST, swap_link, False),
    ("rsync", swap_link, False),
)


def change_at(change, who, name, path, target):
    """Changes what is at the path, once, right before that name is opened: by the run itself, or by its helper."""

    def act(hook, event, words):
        if event == "open" and words[0] == name and (os.getpid() == hook.process) == who:
            if os.path.lexists(path) and not os.path.islink(path) and not os.path.lexists(path + ".away"):
                change(path, target)

    return act


def changing(room):
    """Entries that change between being listed and being opened, in the run and in its helper."""
    outside = room.path("outside")
    for name in ("secret.roa", "o0.roa", "a0/o0.roa", f"{repository.HOST}/repository/a0/o0.roa", "repository/a0/o0.roa"):
        repository.write(os.path.join(outside, name), SECRET)
    for name, change, is_read in CHANGES:
        for who in (True, False):
            cache = room.path("changing")
            shutil.copytree(room.cache, cache)
            full = {"rsync": "rsync", repository.HOST: f"rsync/{repository.HOST}", "repository": POINT}
            path = os.path.join(cache, full.get(name) or os.path.join(POINT, name if name == "a0" else f"a0/{name}"))
            target = os.path.join(outside, "secret.roa") if name == "o0.roa" else outside

            act = change_at(change, who, name, path, target)
            status = quiet_run(room, cache, act, "--replace", "--jobs", "1")
            found = tree(room.out)
            # (where the only folder on the way goes before it is opened nothing is left)
            if status not in ((0, 1) if name in ("repository", "rsync", repository.HOST) else (0,)):
                sys.exit(f"{change.__name__} of {name}: status {status}: {open(room.path('said')).read()}")
            if any(octets == SECRET for octets in found.values()):
                sys.exit(f"{change.__name__} of {name}: something outside was read")
            if status == 0 and not who and (f"{POINT}/a0/o0.roa" in found) != is_read:
                sys.exit(f"{change.__name__} of {name}: not as it should be")
            shutil.rmtree(cache)
        print(f"{change.__name__} of {name} before it is opened: ok", flush=True)


STIR = """
import os, random, sys
folder, outside = sys.argv[1:]
names = [os.path.join(at, name) for at, folders, files in os.walk(folder) for name in [*files, *folders]]
while True:
    path = random.choice(names)
    try:
        os.rename(path, path + ".away")
        how = random.randrange(4)
        if how == 0:
            os.symlink(outside, path)
        elif how == 1:
            os.mkfifo(path)
        elif how == 2:
            os.symlink(path, path)
        if os.path.lexists(path):
            os.remove(path)
        os.rename(path + ".away", path)
    except OSError:
        pass
"""


def stirred(room):
    """A cache in which another process turns files and folders into links and pipes all the while."""
    cache = room.path("stirred")
    shutil.copytree(room.cache, cache)
    words = [sys.executable, "-c", STIR, os.path.join(cache, POINT), room.path("outside")]
    stirring = subprocess.Popen(words, stderr=subprocess.DEVNULL)
    try:
        for _ in range(10):
            summary = room.told(cache)
            if any(octets == SECRET for octets in tree(room.out).values()):
                sys.exit("stirred: something outside was read")
            assert summary["signatures"]["computed"] <= 2 * summary["objects"]
    finally:
        stirring.kill()
        stirring.wait()
    print("a cache that is stirred: ok")


def main():
    made = repository.Repository(odd_caches.AUTHORITIES, odd_caches.ORIGINS, odd_caches.CUSTOMERS, 2)
    all_steps = "--all" in sys.argv
    with tempfile.TemporaryDirectory() as folder:
        room = Room(folder, made)
        new = room.path("new")
        shutil.copytree(room.cache, new)
        repository.write(os.path.join(new, POINT, "a0", "o0.roa"), b"other octets")
        os.mkdir(room.path("empty"))
        changing(room)
        stirred(room)
        refused(room, new)
        twice(room, new)
        ended(room, room.cache, new)
        killed(room, room.cache, new, all_steps)
        killed(room, room.cache, new, all_steps, without_exchange)
        fresh(room, new)


if __name__ == "__main__":
    main()

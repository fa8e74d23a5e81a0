"""Small traces, each made from its number alone."""
from __future__ import annotations

import random


def trace_of(number: int, all_age: bool) -> str:
    """A small trace: one to four CPUs, one or two disks, up to two cgroups, two to six tasks. In half of them the flushers begin at once, and
    tasks write the same pages anew; in a third of them contexts have ages of up to 200 ticks. Where all contexts age, each task rests at
    each write. A rest stands before its write in three of four traces, and behind it in the fourth."""
    pick = random.Random(number)
    cpus = pick.randint(1, 4)
    devices = pick.randint(1, 2)
    cgroups = pick.randint(0, 2)
    eager = pick.random() < 0.5
    lines = [f"cpus {cpus}", f"cap {pick.choice([1, 4, 32, 1024])}", f"avail 0 {pick.choice([600, 2000, 20000, 100000])}"]
    lines += ["set dirty_background_bytes 4096"] * eager
    lines += [f"device {device} {pick.choice([2560, 25600, 256000])} 0 100" for device in range(devices)]
    lines += [f"cgroup {group} {pick.randint(50, 2000)} 0" for group in range(1, cgroups + 1)]
    contexts = [(device, group) for device in range(devices) for group in range(cgroups + 1)]
    contexts = pick.sample(contexts, pick.randint(1, len(contexts)))
    lines += [f"context {at} {device} {group}" for at, (device, group) in enumerate(contexts)]
    sizes = [pick.randint(33, 64) if eager else pick.randint(1, 40) for _ in contexts]
    lines += [f"inode {at} {at} {pages}" for at, pages in enumerate(sizes)]
    tasks = pick.randint(2, 6)
    lines += [f"task {task} {pick.randrange(cpus)}" for task in range(tasks)]
    lines += [f"flusher {device} {device} {pick.randrange(cpus)}" for device in range(devices)]
    for task in range(tasks):
        for _ in range(pick.randint(1, 3)):
            inode = pick.randrange(len(sizes))
            first = 0 if eager else pick.randrange(sizes[inode])
            actions = [f"write {task} {inode} {first} {pick.randint(1, sizes[inode] - first)}"]
            if eager or all_age or pick.random() < 0.3:
                actions.append(f"rest {task} {pick.choice([100, 120, 250] if eager else [1, 20, 250])}")
            lines += actions if number % 4 == 0 else reversed(actions)
    if all_age or pick.random() < 1 / 3:
        lines += [f"expire {at} {pick.randint(1, 20)}" for at in range(len(contexts)) if all_age or pick.random() < 0.7]
    return "\n".join(lines) + "\n"

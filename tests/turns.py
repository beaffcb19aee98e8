"""Runs trials side by side, in an order, so that no processor is idle while something is left to do."""

import re
import threading
from concurrent.futures import ThreadPoolExecutor


def at_once(gigabytes):
    """How many trials run at once, if each takes at most these gigabytes: three keep all processors busy while one of them reads
    what it stands on."""
    try:
        with open("/proc/meminfo", encoding="ascii") as file:
            free = int(re.search(r"MemAvailable: +(\d+) kB", file.read())[1]) / 1e6
    except (OSError, TypeError):
        free = 0
    return 3 if free > 3 * gigabytes else 2


def in_turn(turns, many, processors):
    """Runs turns, each a trial and a stage of it, in their order, `many` at once, and of one trial no two at once. Each is given
    a call that says how many processes it may have now: the fewer trials are left, the more."""
    left, busy, failed, changed = [*turns], [], [], threading.Condition()

    def jobs():
        with changed:
            trials = {id(it) for it in [*busy, *(trial for trial, _ in left)]}
        return max(-(-processors // min(many, len(trials))), 1)

    def lane():
        while True:
            with changed:
                while not (ready := [it for it in left if it[0] not in busy]) and left and not failed:
                    changed.wait()
                if not left or failed:
                    return
                trial, stage = ready[0]
                left.remove(ready[0])
                busy.append(trial)
            try:
                trial.run(stage, jobs)
            except BaseException as why:
                failed.append(why)
            with changed:
                busy.remove(trial)
                changed.notify_all()

    with ThreadPoolExecutor(many) as pool:
        for it in [pool.submit(lane) for _ in range(many)]:
            it.result()
    if failed:
        raise failed[0]

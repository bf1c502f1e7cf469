"""The engine of this machine: workers of the farm's own, which share a file of what is left to judge."""
import os
import signal
import sys
import time

from base import words_of, write_whole

# The bytes of a line of the queue, of which a worker always reads a whole one, and how many scripts it has; how many
# scripts for each worker have one of their own, and the number of the pipe that workers hold.
WIDE_LINE, GROUP, ALONE, HELD = 896, 16, 16, 3
# How long what an engine started may take to end, where the farm is ended.
SECONDS_TO_END = 20


def queue_of(words, jobs):
    """The lines of the queue: each of several scripts, and the last ones alone, so that all workers have some to the
    end."""
    grouped = max(0, len(words) - ALONE * jobs)
    groups = [words[first : min(first + GROUP, grouped)] for first in range(0, grouped, GROUP)]
    groups += [[word] for word in words[grouped:]]
    return "".join([f"{' '.join(it):{WIDE_LINE - 1}}\n" for it in groups])


def side_by_side(plan, keys, options):
    """Has workers judge the scripts of keys, of which each takes the next when it has judged those before. One is
    started, which starts the others; all have ended once nobody holds the pipe open that they are given."""
    queue, jobs = f"{plan.folder}/queue", min(options.jobs or os.cpu_count() or 1, len(keys))
    write_whole(queue, queue_of(plan.words_of(keys), jobs), synced=False)
    worker = f"{plan.folder}/bin/farm_worker.py"
    words = [*words_of(plan, options, "queue", plan.folder, worker, sys.executable), str(jobs)]
    ended, held = os.pipe()
    moves = [(os.POSIX_SPAWN_OPEN, 0, queue, os.O_RDONLY, 0), (os.POSIX_SPAWN_DUP2, held, HELD)]
    started = os.posix_spawn(words[0], words, os.environ, file_actions=moves)
    os.close(held)
    try:
        os.read(ended, 1)
        os.waitpid(started, 0)
    except BaseException:
        end(started)
        raise
    finally:
        os.close(ended)


def end(worker):
    """Ends a worker, and so those that it started, by a signal; where that takes too long, by one that can't be
    caught."""
    until = time.monotonic() + SECONDS_TO_END
    try:
        os.kill(worker, signal.SIGTERM)
        while os.waitpid(worker, os.WNOHANG) == (0, 0):
            if time.monotonic() > until:
                os.kill(worker, signal.SIGKILL)
            time.sleep(0.02)
    except (ProcessLookupError, ChildProcessError):
        # (it has ended)
        pass

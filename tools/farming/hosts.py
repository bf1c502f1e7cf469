"""The engines that hand work to others: GNU parallel, on this machine or over ssh on many, and Slurm."""
import concurrent.futures
import json
import os
import re
import shlex
import signal
import subprocess
import sys
import time

from base import LIBRARY, NAME, fail, hash_of, words_of, write_whole
from workers import SECONDS_TO_END

SSH = "ssh -o BatchMode=yes -o ConnectTimeout=20 -o ServerAliveInterval=15 -o ServerAliveCountMax=4"
MOST_AT_A_TIME = 200


def pack(plan, keys):
    """Writes a chunk with the texts of scripts, which goes to another machine, and gives its name."""
    texts = {key: plan.text_of(key).decode("latin-1") for key in keys}
    name = hash_of(" ".join(keys).encode()).hexdigest()
    write_whole(f"{plan.folder}/chunks/{name}.in", json.dumps(texts))
    return name


def wait_for(started, endings):
    """Waits for what an engine started. Where the farm is ended meanwhile, by Ctrl-C or a signal, it ends that by
    signals, one after another, and waits for it."""
    try:
        started.wait()
    except BaseException:
        for ending in endings:
            started.send_signal(ending)
            time.sleep(0.05)
        try:
            started.wait(SECONDS_TO_END)
        except subprocess.TimeoutExpired:
            started.kill()
        raise


def chunk_size(keys, places):
    """How many scripts a worker gets at a time: many, which share the cost of a start, but few enough that all places
    have some to the end."""
    return max(1, min(MOST_AT_A_TIME, len(keys) // (8 * places)))


def answers(login):
    """Whether the host of a line of a file of hosts answers within a minute."""
    login = re.sub(r"^(@[^/]*/)?(\d+/)?", "", login)
    words = shlex.split(login) if " " in login else [*SSH.split(), login]
    try:
        if login == ":":
            return True
        ran = subprocess.run([*words, "true"], stdin=subprocess.DEVNULL, capture_output=True, timeout=60, check=False)
        return ran.returncode == 0
    except subprocess.TimeoutExpired:
        return False


def hosts_of(path):
    """The lines of a file of hosts whose host answers."""
    with open(path, encoding="utf-8") as file:
        lines = [line.strip() for line in file if line.strip() and not line.startswith("#")]
    with concurrent.futures.ThreadPoolExecutor(16) as pool:
        kept = [line for line, here in zip(lines, pool.map(answers, lines)) if here]
    for line in lines:
        if line not in kept:
            print(f"{NAME}: no answer, left out: {line.split()[-1]}", file=sys.stderr)
    return kept


def over_ssh(plan, keys, options, hosts):
    """The words that GNU parallel needs for hosts, and the chunks that it hands to them."""
    write_whole(f"{plan.folder}/hosts", "".join(f"{line}\n" for line in hosts))
    counts = [re.match(r"(?:@[^/]*/)?(?:(\d+)/)?", line)[1] for line in hosts]
    size = chunk_size(keys, sum(options.jobs or int(it or os.cpu_count() or 1) for it in counts))
    chunks = [pack(plan, keys[first : first + size]) for first in range(0, len(keys), size)]
    # ssh gives a host up that doesn't answer for a minute; the job is then tried again on another one.
    words = ["--sshloginfile", "hosts", "--ssh", SSH, "--timeout", str(size * 2 * options.seconds + 60)]
    words += ["--workdir", f".clsim-farm/{os.getpid()}", "--basefile", "bin/farm_worker.py"]
    words += ["--basefile", "bin/clsim"]
    if os.path.isfile(f"{plan.folder}/{LIBRARY}"):
        words += ["--basefile", LIBRARY]
    return [*words, "--transferfile", "chunks/{}.in", "--return", "chunks/{}.out", "--cleanup"], chunks


def by_parallel(plan, keys, options):
    """GNU parallel, on this machine or on the hosts of a file."""
    words = ["parallel", "--jobs", str(options.jobs or "100%"), "--joblog", "joblog", "--results", "output",
             "--retries", "2"]
    if options.hosts:
        hosts = hosts_of(options.hosts)
        if not hosts:
            return
        others, inputs = over_ssh(plan, keys, options, hosts)
        command = words_of(plan, options, "chunk")
    else:
        others = ["--max-args", str(chunk_size(keys, options.jobs or os.cpu_count() or 1))]
        inputs, command = plan.words_of(keys), words_of(plan, options, "judge", python=shlex.quote(sys.executable))
    write_whole(f"{plan.folder}/inputs", "".join(f"{it}\n" for it in inputs))
    with open(f"{plan.folder}/inputs", "rb") as file:
        started = subprocess.Popen([*words, *others, " ".join([*command, "{}"])], cwd=plan.folder, stdin=file,
                                   stdout=subprocess.DEVNULL)
    # (the second SIGTERM has GNU parallel end what it runs)
    wait_for(started, [signal.SIGTERM, signal.SIGTERM])


def by_slurm(plan, keys, options):
    """Slurm: an array of at most 64 jobs, or four for each that may run at a time, waited for.
    Each judges as many scripts."""
    write_whole(f"{plan.folder}/keys", "".join(f"{it}\n" for it in plan.words_of(keys)))
    each = max(1, -(-len(keys) // (4 * options.jobs if options.jobs else 64)))
    limit = f"%{options.jobs}" if options.jobs else ""
    first, last = f"SLURM_ARRAY_TASK_ID * {each} + 1", f"SLURM_ARRAY_TASK_ID * {each} + {each}"
    body = " ".join(words_of(plan, options, "judge")) + f" $(sed -n \"$(({first})),$(({last}))p\" keys)"
    words = ["sbatch", "--wait", f"--array=0-{(len(keys) - 1) // each}{limit}", "--output=output-%a", f"--wrap={body}"]
    with open(f"{plan.folder}/submitted", "w+", encoding="utf-8") as said:
        started = subprocess.Popen(words, cwd=plan.folder, stdout=said, stderr=subprocess.STDOUT)
        try:
            wait_for(started, [signal.SIGTERM])
        finally:
            said.seek(0)
            told = said.read().strip()
            job = re.search(r"Submitted batch job (\d+)", told)
            if job and started.returncode != 0:
                # (a job whose wait was ended would go on)
                subprocess.run(["scancel", job[1]], stderr=subprocess.DEVNULL, check=False)
    if not job:
        fail(f"sbatch: {told}")

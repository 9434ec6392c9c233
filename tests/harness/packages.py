"""Packages of Debian that a command needs, and installs if it may."""
import os
import shutil
import subprocess
import time

APT = ["apt-get", "-q", "-o", "DPkg::Lock::Timeout=120", "-o", "Acquire::Retries=3"]
MOST_APT_RUNS, APT_SECONDS, APT_PAUSE_SECONDS, APT_LINES = 5, 600, 10, 20


def lacking(packages):
    """Those that aren't there. `packages` has of each what it brings: the path of a file, or the name of a program."""
    def is_there(brought):
        return os.path.exists(brought) if os.path.isabs(brought) else shutil.which(brought)
    return [package for package, brought in packages.items() if not is_there(brought)]


def apt(*words):
    """Whether a run of apt-get succeeds."""
    try:
        ended = subprocess.run([*APT, *words], env={**os.environ, "DEBIAN_FRONTEND": "noninteractive"}, timeout=APT_SECONDS,
                               stdin=subprocess.DEVNULL, stdout=subprocess.PIPE, stderr=subprocess.STDOUT, text=True,
                               errors="replace")
    except (OSError, subprocess.TimeoutExpired) as error:
        print(f"apt-get {words[0]}: {error}", flush=True)
        return False
    if ended.returncode:
        last = "\n".join(ended.stdout.splitlines()[-APT_LINES:])
        print(f"apt-get {' '.join(words)}: status {ended.returncode}\n{last}", flush=True)
    return not ended.returncode


def install(packages):
    """Installs what is lacking, if this may be done; returns what is lacking still."""
    if not lacking(packages) or os.geteuid() or not shutil.which("apt-get"):
        return lacking(packages)
    print("installing " + " ".join(lacking(packages)), flush=True)
    for turn in range(MOST_APT_RUNS):
        if turn:
            time.sleep(APT_PAUSE_SECONDS)
            apt("update")
        if apt("install", "-y", "--no-install-recommends", *lacking(packages)) and not lacking(packages):
            break
    return lacking(packages)

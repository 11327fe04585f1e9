"""examples/fleet/measure.py [FOLDER]: prints the table of docs/FLEET.md, over the ELF files below FOLDER, by default /usr.

`binfarce` and `nm` are in the PATH, and this interpreter has Dask. A time is the least of five, after a first run that fills the cache.
"""
import os
import subprocess
import sys
import time
from distributed import LocalCluster


def seconds(command):
    start = time.monotonic()
    subprocess.run(command, input=files, stdout=subprocess.DEVNULL, stderr=subprocess.DEVNULL)
    return time.monotonic() - start


if __name__ == "__main__":
    folder = os.fsencode(sys.argv[1] if len(sys.argv) > 1 else "/usr")
    paths = (os.path.join(top, name) for top, _, names in os.walk(folder) for name in names)
    regular = (it for it in paths if os.path.isfile(it) and not os.path.islink(it) and os.access(it, os.R_OK))
    found = [it for it in regular if open(it, "rb").read(4) == b"\x7fELF"]
    files, sizes = b"".join(it + b"\0" for it in found), os.path.join(os.path.dirname(os.path.realpath(__file__)), "sizes")
    with LocalCluster(n_workers=2, threads_per_worker=2, dashboard_address=None) as cluster:
        engines = {"1": "1 process", "2": "2 processes", "4": "4 processes", cluster.scheduler_address: "Dask, 2 workers of 2 threads"}
        rows = {f"`sizes`, {engines[it]}": [[sys.executable, sizes, it], [sys.executable, sizes, it, "--dynamic"]] for it in engines}
        xargs = {it: ["xargs", "-0", "-n", "200", "-P", it, "nm"] for it in "124"}
        rows.update({f"nm, {engines[it]}": [[*xargs[it], "-S"], [*xargs[it], "-DS"]] for it in xargs})
        runs = [[[seconds(it) for it in commands] for commands in rows.values()] for _ in range(6)][1:]
    print(f"{len(found)} ELF files, {sum(map(os.path.getsize, found)) / 1e9:.1f} GB\n")
    print("| by | `.symtab`: seconds, files a second | `.dynsym`: seconds, files a second |\n|---|---|---|")
    for what, *timed in zip(rows, *runs):
        least = map(min, zip(*timed))
        print(f"| {what} |", " | ".join(f"{it:.2f}, {len(found) / it:,.0f}" for it in least), "|")

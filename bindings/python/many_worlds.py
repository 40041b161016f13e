#!/usr/bin/env python3
"""Sweeps a parameter over hundreds of worlds: how high a wall of discs stands still after a ball has hit it, by the ball's speed and the friction.

    bindings/python/many_worlds.py [--worlds 240] [--by threads|processes|dask|ADDRESS] [--workers N] [--plot FILE.svg]

`threads` and `processes` are those of concurrent.futures; steps of several worlds run at once in threads too, since a call lets go of Python's own lock. `dask` makes a
cluster of processes on this machine, and ADDRESS (tcp://HOST:8786) is that of a scheduler whose workers may be on many machines: each needs this module and the wheel.
Nothing here distributes anything by itself, and nothing is shared: a world is made, stepped and told by one task. Whoever did it, the results are the same, byte for
byte: a sum over all digests is printed at the end. Debian has Dask (python3-distributed) and Matplotlib (python3-matplotlib); without --plot the latter isn't needed.
"""

import argparse
import concurrent.futures
import hashlib
import sys
import time
from pathlib import Path

sys.path.insert(0, str(Path(__file__).resolve().parent))

ROWS, COLUMNS, SECONDS = 6, 3, 4


def run(task):
    """One world: the height in metres of the wall's highest disc at the end, and the world's digest."""
    from dillmonth import RATE, Body, World, at, circle, circle_mass, gravity, in_metres, metres, push_of, segment, share

    speed, friction = task
    rough, half = share(friction), metres(0.25)
    with World(gravity(0, -9.81)) as world:
        world.create_body(Body.static(), [segment(at(-16, 0), at(16, 0), friction=rough)])
        mass = circle_mass(half)
        wall = [world.create_body(Body.dynamic(at(column * 0.5, 0.25 + row * 0.5), *mass), [circle(half, friction=rough)])
                for row in range(ROWS) for column in range(COLUMNS)]
        ball = world.create_body(Body.dynamic(at(-6, 1), *circle_mass(metres(0.4))), [circle(metres(0.4), friction=rough)])
        world.push(ball, push_of(circle_mass(metres(0.4)).mass, speed, 1))
        for _ in range(SECONDS * RATE):
            world.step(1)
        return max(in_metres(world.body(disc).pose.at.y) + 0.25 for disc in wall), world.digest()


def tasks(count):
    """A grid of speeds (metres a second) and frictions."""
    speeds = max(1, round((count / 6) ** 0.5 * 2.45))
    frictions = -(-count // speeds)
    return [(1 + 19 * i / max(1, speeds - 1), j / max(1, frictions - 1)) for j in range(frictions) for i in range(speeds)][:count]


def progress(done, total, began):
    width = 40 * done // total
    print(f"\r[{'#' * width}{'.' * (40 - width)}] {done} of {total} worlds, {time.monotonic() - began:.1f} s", end="", file=sys.stderr, flush=True)


def by_futures(executor, work):
    began, results = time.monotonic(), [None] * len(work)
    with executor:
        places = {executor.submit(run, task): place for place, task in enumerate(work)}
        for done, future in enumerate(concurrent.futures.as_completed(places), start=1):
            results[places[future]] = future.result()
            progress(done, len(work), began)
    return results


def by_dask(address, workers, work):
    from distributed import Client, LocalCluster, as_completed

    began, results = time.monotonic(), [None] * len(work)
    cluster = LocalCluster(n_workers=workers, threads_per_worker=1, dashboard_address=None) if address == "dask" else address
    with Client(cluster) as client:
        places = {client.submit(run, task): place for place, task in enumerate(work)}
        for done, future in enumerate(as_completed(places), start=1):
            results[places[future]] = future.result()
            progress(done, len(work), began)
    if address == "dask":
        cluster.close()
    return results


def plot(path, work, results):
    import matplotlib

    matplotlib.use("Agg")
    import matplotlib.pyplot as pyplot

    figure, axes = pyplot.subplots(figsize=(7, 4.2), layout="constrained")
    found = axes.scatter(*zip(*work), c=[height for height, _ in results], cmap="viridis", marker="s", s=70, linewidths=0)
    axes.set(xlabel="speed of the ball, m/s", ylabel="friction", title=f"A wall of {ROWS * 0.5:g} m, {SECONDS} s after it was hit")
    figure.colorbar(found, label="height that is left, m")
    figure.savefig(path)


def main():
    words = argparse.ArgumentParser(description=__doc__.partition("\n")[0])
    words.add_argument("--worlds", type=int, default=240)
    words.add_argument("--by", default="processes")
    words.add_argument("--workers", type=int, default=4)
    words.add_argument("--plot")
    given = words.parse_args()
    work = tasks(given.worlds)
    if given.by in ("threads", "processes"):
        pool = concurrent.futures.ThreadPoolExecutor if given.by == "threads" else concurrent.futures.ProcessPoolExecutor
        results = by_futures(pool(given.workers), work)
    else:
        results = by_dask(given.by, given.workers, work)
    print(file=sys.stderr)
    if given.plot:
        plot(given.plot, work, results)
    total = hashlib.sha256(b"".join(digest for _, digest in results)).hexdigest()
    print(f"{len(results)} worlds, the highest wall that is left has {max(height for height, _ in results):.2f} m; all digests: {total}")


if __name__ == "__main__":
    main()

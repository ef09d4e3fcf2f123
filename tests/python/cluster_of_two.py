"""A cluster of Dask: a scheduler and two workers as processes, each in a folder of its own, of which the first is killed while it works.

usage: cluster_of_two.py PROGRAM, in a folder with in.opb: writes all.list and all.log
"""
import asyncio
import os
import signal
import stat
import subprocess
import sys
import threading
import time

from distributed import Client

from scuttle import spread

# Each process reads it by its own folder, so that a worker doesn't see that of the caller.
FOLDER = '/proc/self/cwd/parts'
# The first worker's run never ends; the second's waits for it, so that both have work, and says that it was there.
RUNS = {'first': ': > begun; exec sleep 600', 'second': 'until [ -e ../first/begun ]; do sleep 0.1; done; : > solved; exec %s "$@"'}


def start(words, name, program):
    """Starts a process of the cluster in its folder, with its own executable."""
    os.makedirs(name)
    text = RUNS.get(name, 'exit 1')
    with open(os.path.join(name, 'program'), 'w') as out:
        out.write('#!/bin/sh\n' + (text % program if '%s' in text else text) + '\n')
    os.chmod(out.name, stat.S_IRWXU)
    environment = dict(os.environ, SCUTTLE=os.path.abspath(out.name), DASK_LOGGING__DISTRIBUTED='critical')
    return subprocess.Popen([sys.executable, '-B', '-m', 'distributed.cli.' + words[0]] + words[1:], cwd=name, env=environment,
                            stderr=subprocess.DEVNULL, start_new_session=True)


def kill_at_work(worker):
    """Kills a worker, and what it has started, once it works."""
    while not os.path.exists('first/begun'):
        time.sleep(0.1)
    os.killpg(worker.pid, signal.SIGKILL)
    print('killed the worker first', flush=True)


def main(program):
    known = os.path.abspath('scheduler.json')
    started = [start(['dask_scheduler', '--host', '127.0.0.1', '--port', '0', '--no-dashboard', '--scheduler-file', known], 'scheduler', program)]
    try:
        worker = ['dask_worker', '--scheduler-file', known, '--nthreads', '1', '--no-nanny', '--no-dashboard', '--local-directory', '.']
        started += [start(worker, name, program) for name in ('first', 'second')]
        with Client(scheduler_file=known, timeout=60) as client:
            client.wait_for_workers(2, 60)
            threading.Thread(target=kill_at_work, args=(started[1],), daemon=True).start()
            result = spread.spread('in.opb', 'all.list', 'all.log', spread.Settings(by=(1, 2), folder=FOLDER), client)
            print('accepted: %s' % (result.joined.refused is None and not result.joined.unsolved), flush=True)
    finally:
        for process in started:
            try:
                os.killpg(process.pid, signal.SIGKILL)
            except ProcessLookupError:
                pass


if __name__ == '__main__':
    asyncio.set_event_loop(asyncio.new_event_loop())
    main(sys.argv[1])

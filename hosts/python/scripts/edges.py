"""Forks, processes, signals and daemons. What it writes is the same each time, and its status is 3."""
import multiprocessing
import os
import signal
import subprocess
import sys
import threading
import time


def started_in_child(queue):
    thread = threading.Thread(target=queue.put, args=(os.getpid(),))
    thread.start()
    thread.join()


def forked_in_thread(statuses):
    child = os.fork()
    if child == 0:
        thread = threading.Thread(target=lambda: None)
        thread.start()
        thread.join()
        os._exit(7)
    statuses.append(os.waitstatus_to_exitcode(os.waitpid(child, 0)[1]))


def spin():
    while True:
        sum(range(50))


def interrupted_sleep():
    def alarm(*_):
        raise TimeoutError("the alarm")

    signal.signal(signal.SIGALRM, alarm)
    signal.setitimer(signal.ITIMER_REAL, 0.3)
    try:
        time.sleep(60)
    except TimeoutError as why:
        return str(why)


def main():
    hits = []
    signal.signal(signal.SIGUSR1, lambda *_: hits.append(threading.current_thread().name))
    threading.Thread(target=spin, daemon=True).start()
    threading.Thread(target=time.sleep, args=(1000,), daemon=True).start()
    queue = multiprocessing.Queue()
    children = [multiprocessing.Process(target=started_in_child, args=(queue,)) for _ in range(3)]
    for child in children:
        child.start()
    pids = {queue.get() for _ in children}
    for child in children:
        child.join()
    print("children", len(pids), [child.exitcode for child in children])
    statuses = []
    thread = threading.Thread(target=forked_in_thread, args=(statuses,))
    thread.start()
    thread.join()
    print("forked in a thread", statuses)
    with multiprocessing.get_context("spawn").Pool(2) as pool:
        print("spawned", pool.map(abs, [-1, -2]))
    for _ in range(5):
        os.kill(os.getpid(), signal.SIGUSR1)
        time.sleep(0.05)
    print("signals", set(hits), len(hits))
    print("a program", subprocess.run([sys.executable, "-c", "print(1)"], capture_output=True).stdout)
    print(interrupted_sleep())
    sys.exit(3)


if __name__ == "__main__":
    main()

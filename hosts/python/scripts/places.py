"""Threads in known places, until there is a file STOP in the folder that the first argument names."""
import asyncio
import os
import sys
import threading
import time


def stop():
    return os.path.exists(os.path.join(sys.argv[1], "STOP"))


def spin():
    while not stop():
        for _ in range(1000):
            pass


def nap():
    while not stop():
        time.sleep(0.05)


def wait_for_lock(lock):
    with lock:
        pass


def generate():
    while not stop():
        time.sleep(0.05)
        yield


async def pause():
    for _ in generate():
        await asyncio.sleep(0)


def run_loop():
    asyncio.run(pause())


def main():
    lock = threading.Lock()
    lock.acquire()
    threads = [threading.Thread(target=target, name=name, args=arguments) for name, target, arguments in (
        ("spinner", spin, ()), ("napper", nap, ()), ("locked", wait_for_lock, (lock,)), ("loop", run_loop, ()))]
    for thread in threads:
        thread.start()
    while not stop():
        time.sleep(0.05)
    lock.release()
    for thread in threads:
        thread.join()
    print("ended")


if __name__ == "__main__":
    main()

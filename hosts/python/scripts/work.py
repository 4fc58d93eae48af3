"""Workloads, whose least processor time is told in milliseconds: work.py REPEAT [NAME..]"""
import concurrent.futures
import json
import sys
import threading
import time
import zlib


def fib(n):
    return n if n < 2 else fib(n - 1) + fib(n - 2)


def loop(n):
    total = 0
    for i in range(n):
        total += i & 7
    return total


def strings(n):
    words = {}
    for i in range(n):
        words["k%d" % i] = str(i).upper()
    return sum(len(word) for word in words.values())


def documents(n):
    data = [{"a": i, "b": [str(j) for j in range(10)]} for i in range(500)]
    for _ in range(n):
        json.loads(json.dumps(data))


def packed(n):
    data = json.dumps(list(range(100000))).encode()
    for _ in range(n):
        zlib.decompress(zlib.compress(data, 1))


def pool(n):
    with concurrent.futures.ThreadPoolExecutor(4) as workers:
        return sum(workers.map(loop, [n] * 16))


def started(n):
    for _ in range(n):
        thread = threading.Thread(target=len, args=((),))
        thread.start()
        thread.join()


def locks(n):
    first, second = threading.Semaphore(1), threading.Semaphore(0)

    def play(own, other):
        for _ in range(n):
            own.acquire()
            other.release()

    threads = [threading.Thread(target=play, args=pair) for pair in ((first, second), (second, first))]
    for thread in threads:
        thread.start()
    for thread in threads:
        thread.join()


WORKLOADS = {"fib": (fib, 24), "loop": (loop, 1000000), "strings": (strings, 80000), "json": (documents, 20), "zlib": (packed, 4),
             "pool": (pool, 50000), "threads": (started, 600), "locks": (locks, 3000)}


def never():
    print("a breakpoint may stand here, in code that does not run")


def main():
    repeat, wanted = int(sys.argv[1]), sys.argv[2:]
    for name, (function, argument) in WORKLOADS.items():
        if wanted and name not in wanted:
            continue
        times = []
        for _ in range(repeat):
            start = time.process_time()
            function(argument)
            times.append(time.process_time() - start)
        print(f"{name} {min(times) * 1000:.1f}", flush=True)
    if repeat < 1:
        never()


if __name__ == "__main__":
    main()

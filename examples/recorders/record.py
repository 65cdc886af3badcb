"""Records a queue of Python's module `queue` from threads, and writes the recording: record.py [lifo] [THREADS CALLS]."""
import queue, sys, threading, time


def work(q, name, calls, log):
    for count in range(1, calls + 1):
        text = f"{name}-{count}"
        first = time.monotonic_ns()
        if count % 4 in (1, 2):
            q.put(text)
            call, reply = f"enq {text}", "done"
        else:
            try:
                call, reply = "deq", f"value {q.get_nowait()}"
            except queue.Empty:
                call, reply = "deq", "empty"
        last = time.monotonic_ns()
        log.append(f"{name} {call} from {first} to {last} reply {reply}")


words = sys.argv[1:]
faulty = "lifo" in words
threads, calls = (int(word) for word in (words[-2:] if len(words) > 1 else (4, 8)))
sys.setswitchinterval(1e-6)
q = queue.LifoQueue() if faulty else queue.SimpleQueue()
logs = [[] for _ in range(threads)]
running = [threading.Thread(target=work, args=(q, f"t{n + 1}", calls, logs[n])) for n in range(threads)]
for thread in running:
    thread.start()
for thread in running:
    thread.join()
lines = [line for log in logs for line in log]
print(f"msq record 1\noperations {len(lines)}")
print("\n".join(lines))

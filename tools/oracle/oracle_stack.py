"""Room for deep recursion."""
import sys
import threading


def deep(work):
    """Runs on a large stack, and answers what the work answers, 70 where it raised."""
    result = []
    sys.setrecursionlimit(200_000)
    threading.stack_size(512 * 1024 * 1024)
    thread = threading.Thread(target=lambda: result.append(work()))
    thread.start()
    thread.join()
    return result[0] if result else 70

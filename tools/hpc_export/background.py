"""Questions that other processes answer while this one goes on."""
import os


def asked(question, in_background):
    """Begins to ask a question; gives what waits for the answer, yes or no. It is no where the other process fails."""
    if not in_background or not hasattr(os, "fork"):
        answer = question()
        return lambda: answer
    process = os.fork()
    if process == 0:
        status = 2
        try:
            status = 0 if question() else 1
        finally:
            os._exit(status)
    return lambda: os.waitpid(process, 0)[1] == 0

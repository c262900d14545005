"""One run of the program: what the other scripts print of it."""
import os, subprocess, tempfile, threading, time

MOST_SECONDS = 60


class Run:
    """A run on a text: its seconds, of them those of a processor in the program, greatest resident kilobytes, exit
    status and output. Status None: it was stopped. A small run shows some 10,000 kilobytes, which the interpreter that
    starts it takes."""

    def __init__(self, program, words, text, most_seconds=MOST_SECONDS, environment={}):
        with tempfile.TemporaryFile() as given, tempfile.TemporaryFile() as printed:
            given.write(text.encode())
            given.seek(0)
            start = time.perf_counter()
            child = subprocess.Popen([program] + words, stdin=given, stdout=printed, env={**os.environ, **environment})
            stopped = threading.Event()

            def stop():
                stopped.set()
                child.kill()

            clock = threading.Timer(most_seconds, stop)
            clock.start()
            _, ended, used = os.wait4(child.pid, 0)
            clock.cancel()
            self.seconds = time.perf_counter() - start
            child.returncode = os.waitstatus_to_exitcode(ended)
            self.processor_seconds = used.ru_utime
            self.kilobytes = used.ru_maxrss
            self.status = None if stopped.is_set() else child.returncode
            printed.seek(0)
            self.output = printed.read().decode()

    def last_line(self):
        """What it ended with."""
        if self.status is None:
            return "stopped after %d seconds" % MOST_SECONDS
        lines = self.output.splitlines()
        said = lines[-1] if lines else "nothing printed"
        return said if self.status in (0, 3) else "%s, status %d" % (said, self.status)


def problem(parameters, variables, order, polynomials):
    """The text of a problem modulo 32003."""
    head = ["field 32003", "parameters " + parameters, "variables " + variables, "order " + order]
    return "\n".join(head + ["poly " + f for f in polynomials] + ["end", ""])

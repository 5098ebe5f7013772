"""What a command prints within some processor seconds, for the scripts that set solvers side by side."""
import resource, subprocess


def timed(words, seconds):
    """What a command prints, and the processor seconds that it took."""
    before = resource.getrusage(resource.RUSAGE_CHILDREN)
    limits = lambda: resource.setrlimit(resource.RLIMIT_CPU, (seconds, seconds + 1))
    ran = subprocess.run(words, capture_output=True, text=True, preexec_fn=limits)
    after = resource.getrusage(resource.RUSAGE_CHILDREN)
    return ran.stdout, after.ru_utime + after.ru_stime - before.ru_utime - before.ru_stime

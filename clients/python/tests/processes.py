"""What tests ask of other processes."""
import time


def alive(process):
    """Whether a process runs (a zombie doesn't)."""
    try:
        with open('/proc/%d/stat' % process, encoding='ascii') as file:
            return file.read().rsplit(')', 1)[1].split()[0] != 'Z'
    except FileNotFoundError:
        return False


def gone(process, seconds=10):
    """Wait until a process has ended; tell whether it has."""
    end = time.monotonic() + seconds
    while alive(process) and time.monotonic() < end:
        time.sleep(.01)
    return not alive(process)

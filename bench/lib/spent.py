"""What this process and those that it waited for took of the processors."""
import resource


def spent():
    """In seconds, so far."""
    used = [resource.getrusage(who) for who in (resource.RUSAGE_SELF, resource.RUSAGE_CHILDREN)]
    return sum(one.ru_utime + one.ru_stime for one in used)

"""A daemon with a port and a configuration of its own, for programs that measure one or try it elsewhere."""
from clients import client
from daemon import WAIT, Daemon, free_port


class Serving(Daemon):
    """A daemon of a configuration that has this text and a port, and is kept at this path."""

    def __init__(self, conf, text, **options):
        self.conf, self.port = conf, free_port()
        conf.write_text(f"port = {self.port}\n{text}")
        super().__init__(conf, port=self.port, **options)


def tell(port, *lines):
    """Gives the operator's lines in one talk, and gives what answers them."""
    with client.Talk(port, timeout=WAIT) as talk:
        answers = [answer for line in lines for answer in talk.console(line)]
        talk.terminate()
    return answers

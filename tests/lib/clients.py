"""The client of examples/client.py as a library, and the command sdd-client."""
import importlib.machinery
import importlib.util
import subprocess

from daemon import CLIENT, ROOT, WAIT


def library(path):
    """A python file as a module."""
    loader = importlib.machinery.SourceFileLoader(path.stem, str(path))
    module = importlib.util.module_from_spec(importlib.util.spec_from_loader(path.stem, loader))
    loader.exec_module(module)
    return module


client = library(ROOT / "examples" / "client.py")
END_OF_DATA = client.signal(client.END_OF_DATA)


def say(port, *words, **options):
    """What the command prints for these words, on standard output and error, and its status."""
    command = [CLIENT, "--port", str(port), *words]
    run = subprocess.run(command, capture_output=True, text=True, timeout=2 * WAIT, **options)
    return run.stdout + run.stderr, run.returncode

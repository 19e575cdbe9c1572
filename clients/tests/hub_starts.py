"""Starts hubs for the tests as forks of one process that has aiohttp loaded: loading it takes longer than all else of a start."""
import importlib
import multiprocessing
import os
import sys

CLIENTS = os.path.dirname(os.path.dirname(os.path.realpath(__file__)))
FORKS = multiprocessing.get_context("forkserver")
# (the package is not among them, since a test may change its constants before its modules are loaded)
FORKS.set_forkserver_preload(["__main__", "aiohttp.web", "argparse", "http.client", "tempfile"])


def run(output, words, environment, constants):
    """Runs `cigrelk hub` with these words in this process, with its standard output at a connection."""
    os.dup2(output.fileno(), sys.stdout.fileno())
    output.close()
    os.environ.clear()
    os.environ.update(environment)
    sys.path[0] = CLIENTS
    for name, value in constants.items():
        module, _, constant = name.partition(".")
        setattr(importlib.import_module(f"cigrelk.hub.{module}"), constant, value)
    from cigrelk.command import main

    sys.exit(main(["hub", *words]))


def start(words, environment, constants):
    """The process of a hub that has begun to listen."""
    output, its_output = FORKS.Pipe(duplex=False)
    process = FORKS.Process(target=run, args=(its_output, words, environment, constants), daemon=True)
    process.start()
    its_output.close()
    with os.fdopen(os.dup(output.fileno())) as lines:
        output.close()
        if not lines.readline():
            raise RuntimeError("the hub did not start")
    return process

"""Programs are compiled and run side by side, before the tests ask for their ends."""

from concurrent.futures import ThreadPoolExecutor

import pytest
from programs import both_ends


class Runs:
    """The ends of programs and of their translations, worked out in the background."""

    def __init__(self, folder):
        self.folder = str(folder)
        self.pool = ThreadPoolExecutor(4)
        self.found = {}

    def start(self, path, shapes):
        if path not in self.found:
            self.found[path] = self.pool.submit(both_ends, path, self.folder, shapes)
        return self.found[path]


@pytest.fixture(scope="session")
def runs(tmp_path_factory):
    made = Runs(tmp_path_factory.mktemp("programs"))
    yield made
    made.pool.shutdown(cancel_futures=True)

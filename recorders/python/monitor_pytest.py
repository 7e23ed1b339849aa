"""A fixture for pytest. In conftest.py:

    from monitor_pytest import monitored

and in a test, which fails as monitor_testing says:

    def test_they_take_turns(monitored):
        with monitored("session.json", never=["both"]) as run:
            take_turns(run.recorder("left"), run.recorder("right"))
"""
import os

import pytest

from monitor_testing import MonitoredRun


@pytest.fixture
def monitored(request):
    """Makes a MonitoredRun that has the test's name. The path of a document is relative to the test's file."""
    def run(document, **options):
        if not isinstance(document, dict):
            document = os.path.join(os.path.dirname(request.module.__file__), document)
        return MonitoredRun(request.node.name, document, **options)
    return run

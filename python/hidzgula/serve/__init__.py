"""A page in a browser: drop a log on it and see what `watch` tells, or see a bus as it is now.

    python3 -m hidzgula.serve
    candump -L -d can0 | python3 -m hidzgula.serve --live

It needs Python and the proved program; docs/PYTHON.md of the project tells what is served, to whom, and within which limits.
"""

"""The tries of tests/run/logs, by theme."""

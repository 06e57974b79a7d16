"""The parts of service/check.py."""

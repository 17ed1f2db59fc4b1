"""The front end's tests, by subject; front/next/test.py runs them all."""

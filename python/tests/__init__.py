"""The tests of the Python module. They run in the folder above by `python3 -m unittest discover`."""

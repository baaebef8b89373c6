"""Tests of what is outside of the crates, a folder for each kind: `python3 -m unittest discover -s tests -t .`"""
import os

os.environ['PYTHONPATH'] = os.path.dirname(os.path.dirname(os.path.abspath(__file__)))   # for what the tests start

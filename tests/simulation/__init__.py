"""A whole desk in service, drawn from one seed: who asks what, and what befalls the desk meanwhile."""
import os
import sys

sys.path.append(os.path.join(os.path.dirname(os.path.abspath(__file__)), "..", "..", "bench"))  # fuzz_desks.py draws requests

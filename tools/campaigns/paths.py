"""Where the commands of this folder find the modules of `model` and `workshop`."""
import os
import sys

sys.dont_write_bytecode = True
TOOLS = os.path.dirname(os.path.dirname(os.path.abspath(__file__)))
TOP = os.path.dirname(TOOLS)
sys.path += [os.path.join(TOOLS, name) for name in ('model', 'workshop')]

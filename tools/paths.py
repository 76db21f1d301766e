"""Where things are, for the tools."""
import os

TOP = os.path.dirname(os.path.dirname(os.path.abspath(__file__)))
CRATES = os.path.join(TOP, 'crates')
CLIENT = os.path.join(TOP, 'clients', 'python')
BLOCKS = os.path.join(TOP, 'clients', 'blocks')
NETWORKX = os.path.join(TOP, 'clients', 'networkx')

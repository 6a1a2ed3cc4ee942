"""A service beside its node: starts `fabricd node N FILE --parent`, and speaks protocol 1 with it."""
from .errors import FabricError
from .lines import Epoch
from .node import Answer, Entry, Node

__all__ = ["Answer", "Entry", "Epoch", "FabricError", "Node"]

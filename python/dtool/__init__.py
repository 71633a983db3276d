"""Flattened devicetree blobs, checked once and then asked: nodes, values, addresses, interrupts and other specifiers.

    import dtool
    blob = dtool.Blob.read("board.dtb")
    node = blob["/soc@0/bus@30800000/serial@30860000"]
    node["compatible"].texts              # ('fsl,imx8mm-uart', 'fsl,imx6q-uart')
    node.regions()                        # [Region(address=813039616, size=65536, whole=True)]
    node.interrupts()                     # [Route(controller=<Node /soc@0/interrupt-controller@38800000>, cells=(0, 27, 4), hops=0)]
    node.specifiers("clocks", "clock")

A blob doesn't change; `blob.editable()` is a copy that does.

Each answer comes from libdtool, whose calls are proved to answer what the flattened format and the Devicetree Specification v0.4 say of the
bytes. A blob keeps bytes of its own that were checked, and a node comes from a call alone, so the two conditions of the library always hold.
"""
from .editing import EditableBlob
from .faults import Fault, FaultKind, NoSuchNode
from .tree import Blob, Node, Region, Reservation, Route
from .values import Value

__version__ = "0.9.0"
__all__ = ["Blob", "EditableBlob", "Fault", "FaultKind", "NoSuchNode", "Node", "Region", "Reservation", "Route", "Value"]

"""Which properties are lists of phandles, and of what kind: as drivers/of/property.c of Linux and dtc's checks have them."""
import re
from typing import Optional, Tuple

#: Properties that are lists of phandles with specifiers, with their kind: an entry has as many cells as `#KIND-cells` of its node says.
SPECIFIERS = {
    "access-controllers": "access-controller",
    "assigned-clock-parents": "clock",
    "assigned-clocks": "clock",
    "clocks": "clock",
    "cooling-device": "cooling",
    "dmas": "dma",
    "gpio": "gpio",
    "gpios": "gpio",
    "hwlocks": "hwlock",
    "interconnects": "interconnect",
    "io-backends": "io-backend",
    "io-channels": "io-channel",
    "iommus": "iommu",
    "mboxes": "mbox",
    "msi-parent": "msi",
    "mux-controls": "mux-control",
    "mux-states": "mux-state",
    "nvmem-cells": "nvmem-cell",
    "phys": "phy",
    "power-domains": "power-domain",
    "pses": "pse",
    "pwms": "pwm",
    "resets": "reset",
    "sound-dai": "sound-dai",
    "thermal-sensors": "thermal-sensor",
    "trigger-sources": "trigger-source",
}

#: Kinds whose specifiers have no cells where the provider has no `#KIND-cells`.
OPTIONAL = {"msi", "nvmem-cell"}

#: Properties that are lists of phandles alone.
PHANDLES = {
    "backlight", "cpu-idle-states", "ddc-i2c-bus", "domain-idle-states", "extcon", "i2c-parent", "interrupt-affinity", "interrupt-parent",
    "mdio-parent-bus", "memory-region", "monitored-battery", "next-level-cache", "nvmem", "operating-points-v2", "panel", "phy-handle",
    "post-init-providers", "power-supplies", "required-opps", "trip", "usb-phy", "wakeup-parent",
}
_PHANDLES = re.compile(r"pinctrl-\d+|.*-supply")


def specifier_kind(name: str) -> Optional[Tuple[str, Optional[int]]]:
    """The kind of a property that lists specifiers, and how many cells it has where the provider doesn't say; else None."""
    kind = SPECIFIERS.get(name)
    if kind is None and name.endswith(("-gpios", "-gpio")) and not name.endswith(",nr-gpios"):
        kind = "gpio"
    return None if kind is None else (kind, 0 if kind in OPTIONAL else None)


def is_phandles(name: str) -> bool:
    """Whether a property is a list of phandles alone."""
    return name in PHANDLES or _PHANDLES.fullmatch(name) is not None

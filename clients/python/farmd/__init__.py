"""Farms that run packets on worker code of the transputer: docs/CLIENTS.md shows how."""

from farmd.faults import Different, FarmEnded, Fault, Lost, NotFound, Refused, WrongFolder, WrongLength
from farmd.farm import Farm
from farmd.workers import Image, Packet, Result, Worker

__all__ = [
    "Different", "Farm", "FarmEnded", "Fault", "Image", "Lost", "NotFound", "Packet", "Refused", "Result", "Worker",
    "WrongFolder", "WrongLength",
]

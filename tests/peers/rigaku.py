"""dxtbx's SMV readers for detectors of Rigaku and of ADSC, and the items of a d*TREK header that they want beside the page's required ones."""
from typing import NamedTuple

from dxtbx.format.Registry import get_format_class_for_file


class Detector(NamedTuple):
    """What dxtbx knows a detector by, and the pixels that it then reads: their type, and the byte orders."""
    reader: str
    items: list
    kind: str
    orders: str


ADSC = [("BEAM_CENTER_X", "10"), ("BEAM_CENTER_Y", "10"), ("DISTANCE", "100"), ("WAVELENGTH", "1.5418"), ("PIXEL_SIZE", "0.1"), ("OSC_START", "0"),
        ("OSC_RANGE", "0.5"), ("TIME", "10"), ("DATE", "Thu Jan  1 12:00:00 2026")]
DETECTORS = [
    Detector("FormatSMVRigakuSaturn", [("CCD_DETECTOR_DESCRIPTION", "Saturn 944")], "u2", "<>"),
    Detector("FormatSMVRigakuPilatus", [("DETECTOR_TYPE", "Pilatus 200K")], "u4", "<"),
    Detector("FormatSMVRigakuEiger", [("CCD_DETECTOR_DESCRIPTION", "Eiger 1M")], "u4", "<"),
    Detector("FormatSMVADSC", ADSC, "u2", "<>"),
]
PILATUS = DETECTORS[1]

# A detector square to the beam at 100 mm, and one rotation.
ITEMS = """DETECTOR_NUMBER=1
DETECTOR_NAMES=CCD_
CCD_DETECTOR_SIZE=70 70
CCD_DETECTOR_VECTORS=1 0 0 0 1 0
CCD_GONIO_NUM_VALUES=6
CCD_GONIO_NAMES=RotX RotY RotZ TransX TransY TransZ
CCD_GONIO_UNITS=deg deg deg mm mm mm
CCD_GONIO_VALUES=0 0 0 0 0 100
CCD_GONIO_VECTORS=1 0 0 0 1 0 0 0 1 1 0 0 0 1 0 0 0 -1
CCD_SPATIAL_BEAM_POSITION=10 10
CCD_SPATIAL_DISTORTION_INFO=10 10 0.1 0.1
CCD_SPATIAL_DISTORTION_VECTORS=1 0 0 1
CRYSTAL_GONIO_NUM_VALUES=3
CRYSTAL_GONIO_NAMES=Omega Chi Phi
CRYSTAL_GONIO_UNITS=deg deg deg
CRYSTAL_GONIO_VALUES=0 0 0
CRYSTAL_GONIO_VECTORS=1 0 0 0 1 0 1 0 0
DTREK_DATE_TIME=01-Jan-2026 12:00:00
ROTATION=0.0 0.5 0.5 10 0 0 0 0 0 0
ROTATION_AXIS_NAME=Omega
ROTATION_VECTOR=1 0 0
SATURATED_VALUE=65535
SCAN_WAVELENGTH=1.5418
SOURCE_POLARZ=0.5 1 0 0
SOURCE_VECTORS=0 0 1 0 1 0 1 0 0
SOURCE_WAVELENGTH=1 1.5418"""


def items_of(detector, shape):
    """For Rigaku's dxtbx takes the sizes from DETECTOR_DIMENSIONS."""
    if detector.items is ADSC:
        return ADSC
    sizes = ("CCD_DETECTOR_DIMENSIONS", f"{shape[1]} {shape[0]}")
    return [sizes, *detector.items, *(tuple(line.split("=")) for line in ITEMS.splitlines())]


def dxtbx_read(path, detector):
    """The pixels by the reader that dxtbx chooses, which must be the detector's. It keeps its choice for a path."""
    try:
        reader = get_format_class_for_file(str(path))
        assert reader.__name__ == detector.reader, reader
        return reader(str(path)).get_raw_data().as_numpy_array()
    except Exception as error:
        return error

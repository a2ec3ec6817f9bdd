"""The codes of RFC 5456 that the checks use."""
from enum import IntEnum
from typing import NamedTuple

# The highest bit of the first and of the second 16 bits of a full frame: it is a full frame, and it is sent again (RFC 5456,
# "Full Frames"). The other bits are call numbers.
FULL = 0x8000
RETRANSMITTED = 0x8000
CALL_NUMBER = 0x7FFF
# The exchange's call number in frames that belong to no leg of its own, as a POKE or the REJECT of a NEW that opens none.
NO_LEG = 0x7FFF


class FrameType(IntEnum):
    """The type of a full frame (RFC 5456, "Frame Types")."""

    DTMF = 1
    VOICE = 2
    CONTROL = 4
    IAX = 6
    TEXT = 7


class Kind(NamedTuple):
    """The type and the subclass of a full frame."""

    frame_type: int
    subclass: int


# IAX frames (RFC 5456, "IAX Frames"). CALLTOKEN is that of chan_iax2.
NEW = Kind(FrameType.IAX, 0x01)
PING = Kind(FrameType.IAX, 0x02)
PONG = Kind(FrameType.IAX, 0x03)
ACK = Kind(FrameType.IAX, 0x04)
HANGUP = Kind(FrameType.IAX, 0x05)
REJECT = Kind(FrameType.IAX, 0x06)
ACCEPT = Kind(FrameType.IAX, 0x07)
AUTHREQ = Kind(FrameType.IAX, 0x08)
AUTHREP = Kind(FrameType.IAX, 0x09)
INVAL = Kind(FrameType.IAX, 0x0A)
LAGRQ = Kind(FrameType.IAX, 0x0B)
LAGRP = Kind(FrameType.IAX, 0x0C)
REGREQ = Kind(FrameType.IAX, 0x0D)
REGREJ = Kind(FrameType.IAX, 0x10)
VNAK = Kind(FrameType.IAX, 0x12)
TXCNT = Kind(FrameType.IAX, 0x17)
TXACC = Kind(FrameType.IAX, 0x18)
QUELCH = Kind(FrameType.IAX, 0x1C)
UNQUELCH = Kind(FrameType.IAX, 0x1D)
POKE = Kind(FrameType.IAX, 0x1E)
UNSUPPORT = Kind(FrameType.IAX, 0x21)
CALLTOKEN = Kind(FrameType.IAX, 0x28)
# Frames that take no sequence number (RFC 5456, "Message Transport").
UNNUMBERED = frozenset((ACK, INVAL, VNAK, TXCNT, TXACC))

# Control frames (RFC 5456, "Control Frames").
RINGING = Kind(FrameType.CONTROL, 0x03)
ANSWER = Kind(FrameType.CONTROL, 0x04)
PROGRESS = Kind(FrameType.CONTROL, 0x0E)
PROCEEDING = Kind(FrameType.CONTROL, 0x0F)

# G.711 in mu-law (RFC 5456, "Media Formats"), and its voice. A text frame has no subclass.
ULAW = 0x04
VOICE = Kind(FrameType.VOICE, ULAW)
TEXT = Kind(FrameType.TEXT, 0)


def digit_kind(digit):
    """Returns the kind of a frame with a digit, which is given by its code in ASCII."""
    return Kind(FrameType.DTMF, digit)


class Element(IntEnum):
    """An information element (RFC 5456, "Information Elements"). CALLTOKEN is that of chan_iax2."""

    CALLED_NUMBER = 0x01
    CALLING_NUMBER = 0x02
    USERNAME = 0x06
    CAPABILITY = 0x08
    FORMAT = 0x09
    VERSION = 0x0B
    AUTHMETHODS = 0x0E
    CHALLENGE = 0x0F
    MD5_RESULT = 0x10
    CAUSE = 0x16
    CAUSECODE = 0x2A
    CALLTOKEN = 0x36


# The version of the protocol, and MD5 among the methods of authentication.
VERSION = 2
MD5 = 0x0002

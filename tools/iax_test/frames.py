"""Frames of IAX2, built and read octet by octet (RFC 5456, "Frame Structure")."""
import hashlib
import struct
from typing import NamedTuple

from .protocol import CALL_NUMBER, FULL, MD5, NEW, RETRANSMITTED, ULAW, UNNUMBERED, VERSION, Element, Kind

HEAD = struct.Struct(">HHIBBBB")
MINI_HEAD = struct.Struct(">HH")
# The first octets of a trunk frame, whose entries have no timestamps or have one each (RFC 5456, "Meta Frames"). A timestamp of
# 32 bits follows.
TRUNK, STAMPED_TRUNK = b"\0\0\1\0", b"\0\0\1\1"
TRUNK_HEAD_OCTETS = 8
# An entry before its media: its call number and the length of the media, in the other order if a timestamp follows.
ENTRY, STAMPED_ENTRY = struct.Struct(">HH"), struct.Struct(">HHH")


class FullFrame(NamedTuple):
    """A full frame. Numbers that are too large for their fields are reduced when it is packed."""

    source: int
    destination: int
    timestamp: int
    oseq: int
    iseq: int
    kind: Kind
    data: bytes = b""
    is_retransmitted: bool = False

    @classmethod
    def read(cls, octets):
        """Returns the full frame in a datagram. Raises `struct.error` if its head is cut."""
        source, destination, timestamp, oseq, iseq, frame_type, subclass = HEAD.unpack_from(octets)
        kind, data, is_retransmitted = Kind(frame_type, subclass), octets[HEAD.size :], destination & RETRANSMITTED != 0
        return cls(source & CALL_NUMBER, destination & CALL_NUMBER, timestamp, oseq, iseq, kind, data, is_retransmitted)

    def packed(self):
        """Returns the octets of the frame."""
        source, destination = FULL | self.source, self.destination | (RETRANSMITTED if self.is_retransmitted else 0)
        head = HEAD.pack(source, destination, self.timestamp % 2**32, self.oseq % 256, self.iseq % 256, *self.kind)
        return head + self.data

    @property
    def is_numbered(self):
        """Whether the frame takes a sequence number."""
        return self.kind not in UNNUMBERED

    def element(self, code):
        """Returns the value of the first information element with this code, or None."""
        at = 0
        while at + 2 <= len(self.data):
            end = at + 2 + self.data[at + 1]
            if self.data[at] == code:
                return self.data[at + 2 : end]
            at = end
        return None


def is_full(octets):
    """Returns whether a datagram is a full frame, with a whole head."""
    return len(octets) >= HEAD.size and octets[0] & 0x80 != 0


def is_of(octets, kind):
    """Returns whether a datagram is a full frame of this kind."""
    return is_full(octets) and FullFrame.read(octets).kind == kind


def retransmitted(octets, destination, iseq=None):
    """Returns a full frame as it is sent again, to the call number `destination`. While that is 0, it isn't marked as sent
    again. Keeps its `iseq` unless one is given."""
    frame = FullFrame.read(octets)._replace(destination=destination, is_retransmitted=destination != 0)
    return (frame if iseq is None else frame._replace(iseq=iseq)).packed()


def mini_frame(source, timestamp, media):
    """Returns the octets of a mini frame. Its timestamp has 16 bits."""
    return MINI_HEAD.pack(source, timestamp % 2**16) + media


def media_of_mini(octets):
    """Returns the media of a mini frame, or None for a full frame."""
    return None if octets[0] & 0x80 else octets[MINI_HEAD.size :]


def trunk_frame(timestamp, entries):
    """Returns the octets of a trunk frame without timestamps in its entries, which are call numbers and media."""
    packed = (ENTRY.pack(number, len(media)) + media for number, media in entries)
    return TRUNK + timestamp.to_bytes(4, "big") + b"".join(packed)


def media_of_trunk(octets):
    """Returns the media of the entries of a trunk frame with timestamps; none for another datagram."""
    if not octets.startswith(STAMPED_TRUNK):
        return []
    found, at = [], TRUNK_HEAD_OCTETS
    while at < len(octets):
        length, _, _ = STAMPED_ENTRY.unpack_from(octets, at)
        at += STAMPED_ENTRY.size
        found.append(octets[at : at + length])
        at += length
    return found


def element(code, value=b""):
    """Returns the octets of an information element."""
    return bytes([code, len(value)]) + value


# The elements of a frame that names mu-law: as the format of a call, and as all that a caller can play.
FORMAT = element(Element.FORMAT, ULAW.to_bytes(4, "big"))
CAPABILITY = element(Element.CAPABILITY, ULAW.to_bytes(4, "big"))


def new_data(called, *elements):
    """Returns the elements of a NEW: the version, the called number, and further ones, each as its octets."""
    version = element(Element.VERSION, VERSION.to_bytes(2, "big"))
    return version + element(Element.CALLED_NUMBER, called) + b"".join(elements)


def new_frame(source, data):
    """Returns the octets of the NEW that begins a call, from the caller's number."""
    return FullFrame(source, 0, 0, 0, 0, NEW, data).packed()


def cause_code(code):
    """Returns the element CAUSECODE."""
    return element(Element.CAUSECODE, bytes([code]))


def challenge_data(challenge):
    """Returns the elements of an AUTHREQ that asks for an MD5 result."""
    return element(Element.AUTHMETHODS, MD5.to_bytes(2, "big")) + element(Element.CHALLENGE, challenge)


def md5_result(challenge, secret):
    """Returns the answer to a challenge, as lower-case hexadecimal digits (RFC 5456, "MD5 RESULT")."""
    return hashlib.md5(challenge + secret).hexdigest().encode()


def answer_to(challenge, secret):
    """Returns the element MD5 RESULT that answers a challenge."""
    return element(Element.MD5_RESULT, md5_result(challenge, secret))

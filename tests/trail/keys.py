"""The key of a flow from its line, and where it belongs."""
import ipaddress
from typing import NamedTuple

from model.decode import ICMP, ICMP6, TCP, UDP
from model.flows import COUNTERPARTS, ends

PROTOCOLS = {"TCP": TCP, "UDP": UDP, "ICMP": ICMP, "IPv6-ICMP": ICMP6}


class Key(NamedTuple):
    """Ids of VLAN tags, version, protocol, whether the order of the ends is of the key, and the ends, the lesser first where it isn't."""

    vlans: tuple
    version: int
    protocol: int
    one_way: bool
    ends: tuple

    @property
    def is_tcp(self):
        return self.protocol == TCP

    def hash(self):
        """FNV-1a over the key's bytes."""
        vlans = (self.vlans + (0, 0, 0))[:3]
        raw = [bytes([len(self.vlans)])] + [tag.to_bytes(2, "big") for tag in vlans] + [bytes([self.version, self.protocol, self.one_way])]
        for address, port in self.ends:
            raw += [address.to_bytes(16, "big"), port.to_bytes(2, "big")]
        value = 2_166_136_261
        for byte in b"".join(raw):
            value = (value ^ byte) * 16_777_619 % 2**32
        return value

    def bucket(self, rows):
        return self.hash() // 256 % rows

    def worker(self, workers):
        return self.hash() % workers


def key_of_packet(packet):
    source, dest, one_way = ends(packet)
    pair = tuple((int.from_bytes(address, "big"), port) for address, port in (source, dest))
    internet = packet.internet
    return Key(packet.vlans, internet.version, internet.protocol, one_way, pair if one_way else tuple(sorted(pair)))


def key_of(line):
    """The key of the flow that this line tells of."""
    source, dest = (ipaddress.ip_address(line[name]) for name in ("src_ip", "dest_ip"))
    protocol, one_way = PROTOCOLS[line["proto"]], False
    if "icmp_type" in line:
        counterpart = COUNTERPARTS[source.version].get(line["icmp_type"])
        one_way = counterpart is None
        ports = line["icmp_type"], line["icmp_code"] if one_way else counterpart
    else:
        ports = line["src_port"], line["dest_port"]
    ends = (int(source), ports[0]), (int(dest), ports[1])
    return Key(tuple(line.get("vlan", ())), source.version, protocol, one_way, ends if one_way else tuple(sorted(ends)))

"""The network of a lab, from the declarations of its file, and the configurations of its hub."""
import ipaddress

HUB_PORTS = 9100, 9101
FRONT = 9000
NODE_PORT = {"agent": 9001, "mobile": 9002, "correspondent": 9003}
HOST_PORT = {"agent": 9011, "mobile": 9012, "correspondent": 9013}
ANYCAST = "fdfffffffffffffe"
# a router advertises itself so often after a move, once in so many turns
ADVERTISEMENTS, BETWEEN = 20, 50


class Network:
    """Prefixes and addresses are digits. `at` is the link on which the mobile stands, `-` for none."""

    def __init__(self, path):
        self.links, self.address, self.link_of = {}, {}, {}
        with open(path, encoding="ascii") as it:
            for words in map(str.split, it):
                if words[0] == "link":
                    self.links[words[1]] = words[2]
                elif words[0] in NODE_PORT:
                    self.link_of[words[0]], self.address[words[0]] = words[2], words[3]
        self.home = self.address["mobile"]
        self.at = self.link_of["mobile"]

    def careof(self, link):
        """The mobile's address on this link, or None."""
        return self.links[link] + self.home[16:] if link in self.links else None

    def prefix(self, link):
        return str(ipaddress.IPv6Network((bytes.fromhex(self.links[link] + "0" * 16), 64)))

    def claims(self, link):
        """Who has which address while the mobile stands on this link."""
        agent = self.address["agent"]
        yield agent, "agent"
        yield agent[:16] + ANYCAST, "agent"
        yield self.address["correspondent"], "correspondent"
        careof = self.careof(link)
        if careof:
            yield careof, "mobile"
        if careof != self.home:
            yield self.home, "agent"

    def hub(self, link, port):
        """The configuration of a hub for it: the mobile hears its router once the addresses are claimed."""
        yield f"mip 1\nport {port}\n"
        for address, role in self.claims(link):
            yield f"claim 1 {address} {HOST_PORT[role]}\n"
        is_home = "yes" if link == self.link_of["agent"] else "no"
        for n in range(ADVERTISEMENTS if link in self.links else 0):
            yield f"advertise {2 + n * BETWEEN} {self.links[link]} {is_home} {HOST_PORT['mobile']}\n"

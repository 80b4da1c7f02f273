"""What the kit has to know of a role, beside its table of cases."""
import dataclasses


@dataclasses.dataclass(frozen=True)
class Role:
    """A role: its cases, and what is the same in all of them."""

    name: str
    letter: str  # the name of the device's own address in cases
    own: str  # that address, where none is given
    cases: tuple
    addresses: object  # of the number of a case, of the run and the device's address: the names of the case's addresses and their bytes
    configuration: object  # of two ports, the device's address and the cases for it: the lines of a `mip node` of this role
    barrier: object  # of an Env: a packet that is always answered, its shield, and whether a packet is that answer; or None where there is none now
    hello: object  # of an Env: packets beside the barrier's of which any host of this role may answer one
    ignores: tuple = ()  # kinds of packets that may come at any time
    shared: tuple = ()  # names of addresses that are no case's own
    is_exclusive: bool = False  # a case that waits keeps others from the device
    once_bound: object = lambda case: case  # a case for a device that has the binding of H to A already, without the steps that make it
    is_stray: object = lambda data: False  # whether a packet for no address of a case is nothing to look at
    at_one_node: int = 24  # cases that share one proved node; 1 where each wants its own

"""A member of a totally ordered group over UDP, with the seven calls of Amoeba: create, join, leave, send, receive, reset, info.

    import muoswyld

    config = muoswyld.Config("0", founders="0,1,2", resilience=1, key=key, addresses={
        0: "10.0.0.1:7000", 1: "10.0.0.2:7000", 2: "10.0.0.3:7000"})
    with muoswyld.Group.create(config) as group:
        group.send(b"hello")
        for delivery in group:
            match delivery:
                case muoswyld.Message(at, sender, message):
                    print(at.number, sender, message)
                case muoswyld.View(_, members):
                    print("here are", *members)

All members are given the same deliveries in the same order, though the network loses, repeats and reorders datagrams and members stop. In asyncio
`async for delivery in group` and `await group.send_async(b"hello")` do the same.

`Service` replicates a state machine of yours over a group: all members apply the same commands in the same order, and who joins is sent the state.

Each error is an exception of its own, and a MuoswyldError. Times are in seconds. Notices for an operator go to the logger `muoswyld`.
"""

from ._config import Config, add_options, config_of, new_key, node_version, read_key, write_key
from ._errors import (
    BadAddress,
    BadName,
    BadState,
    BadValue,
    Busy,
    Crowded,
    Ended,
    Full,
    IsFounder,
    Itself,
    Leaving,
    MachineFailed,
    MaybeSent,
    MuoswyldError,
    NoAddress,
    NoFounder,
    NoKey,
    NotIn,
    NotMember,
    NotNow,
    NotSent,
    NotSucceeded,
    Otherwise,
    Overtaken,
    Panicked,
    ServiceEnded,
    SystemRefused,
    Timeout,
    TooFew,
    TooLong,
)
from ._group import Group, Ticket
from ._service import Machine, Service, ServiceInfo
from ._types import Delivery, End, Info, Joined, Left, Message, Name, Position, Role, Succeeded, View

__all__ = [
    "BadAddress",
    "BadName",
    "BadState",
    "BadValue",
    "Busy",
    "Config",
    "Crowded",
    "Delivery",
    "End",
    "Ended",
    "Full",
    "Group",
    "Info",
    "IsFounder",
    "Itself",
    "Joined",
    "Leaving",
    "Left",
    "Machine",
    "MachineFailed",
    "MaybeSent",
    "Message",
    "MuoswyldError",
    "Name",
    "NoAddress",
    "NoFounder",
    "NoKey",
    "NotIn",
    "NotMember",
    "NotNow",
    "NotSent",
    "NotSucceeded",
    "Otherwise",
    "Overtaken",
    "Panicked",
    "Position",
    "Role",
    "Service",
    "ServiceEnded",
    "ServiceInfo",
    "Succeeded",
    "SystemRefused",
    "Ticket",
    "Timeout",
    "TooFew",
    "TooLong",
    "View",
    "add_options",
    "config_of",
    "new_key",
    "node_version",
    "read_key",
    "write_key",
]

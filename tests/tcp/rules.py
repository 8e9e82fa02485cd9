"""Which rules of RFC 9293 a connection can meet in which state, as the model names both."""
from model import (CLOSE_WAIT, CLOSED, CLOSING, ESTABLISHED, FIN_WAIT_1, FIN_WAIT_2, LAST_ACK, LISTEN, STATES, SYN_RECEIVED,
                   SYN_SENT, TIME_WAIT)

# The states that take text, those after the FIN of the peer, in which RCV.WND is 0, and those that may send text.
TAKING = (ESTABLISHED, FIN_WAIT_1, FIN_WAIT_2)
ENDED = (CLOSE_WAIT, CLOSING, LAST_ACK, TIME_WAIT)
SENDING = (ESTABLISHED, FIN_WAIT_1, CLOSE_WAIT, CLOSING, LAST_ACK)
SYNCHRONIZED = TAKING + ENDED
OTHER = (SYN_RECEIVED,) + SYNCHRONIZED
OPEN = (SYN_SENT,) + OTHER

RULES = {
    # User calls
    "listen": (CLOSED,),
    "listen: error": (LISTEN,) + OPEN,
    "open": (CLOSED, LISTEN),
    "open: error": OPEN,
    "write": (SYN_SENT, SYN_RECEIVED, ESTABLISHED, CLOSE_WAIT),
    "write: error": (CLOSED, LISTEN, SYN_RECEIVED, FIN_WAIT_1, FIN_WAIT_2, CLOSING, LAST_ACK, TIME_WAIT),
    "read": (CLOSED,) + SYNCHRONIZED,
    "read: nothing": STATES,
    "close": (ESTABLISHED, CLOSE_WAIT),
    "close: deleted": (LISTEN, SYN_SENT),
    "close: queued": (SYN_RECEIVED,),
    "close: error": (CLOSED, SYN_RECEIVED, FIN_WAIT_1, FIN_WAIT_2, CLOSING, LAST_ACK, TIME_WAIT),
    "abort": (LISTEN, SYN_SENT, CLOSING, LAST_ACK, TIME_WAIT),
    "abort: reset": (SYN_RECEIVED, ESTABLISHED, FIN_WAIT_1, FIN_WAIT_2, CLOSE_WAIT),
    "abort: error": (CLOSED,),
    "send": (ESTABLISHED, FIN_WAIT_1, CLOSE_WAIT, CLOSING, LAST_ACK),
    "send again": SENDING,
    "send SYN": (SYN_SENT, SYN_RECEIVED),
    "send: nothing": SYNCHRONIZED,
    "send: after SND.NXT": SYNCHRONIZED,
    "send: error": (CLOSED, LISTEN),
    # Segments: sections 3.10.7.1 to 3.10.7.3
    "RST": (CLOSED, LISTEN),
    "ACK: reset": (CLOSED, LISTEN),
    "no ACK: reset": (CLOSED,),
    "no SYN": (LISTEN, SYN_SENT),
    "SYN": (LISTEN, SYN_SENT),
    "SYN, ACK": (SYN_SENT,),
    "RST, bad ACK": (SYN_SENT,),
    "RST, no ACK": (SYN_SENT,),
    # Section 3.10.7.4: the sequence number
    "acceptable: no number, a window": (SYN_RECEIVED,) + TAKING,
    "acceptable: no number, window 0": SYNCHRONIZED,
    "acceptable: numbers, a window": (SYN_RECEIVED,) + TAKING,
    "not acceptable: no number, a window": (SYN_RECEIVED,) + TAKING,
    "not acceptable: no number, window 0": SYNCHRONIZED,
    "not acceptable: numbers, a window": (SYN_RECEIVED,) + TAKING,
    "not acceptable: numbers, window 0": SYNCHRONIZED,
    "special allowance": SYNCHRONIZED,
    "old SEG.SEQ": SYNCHRONIZED,
    "after the window": SYNCHRONIZED,
    # RST and SYN
    "RST: closed": OPEN,
    "RST: to LISTEN": (SYN_RECEIVED,),
    "RST: challenge": (SYN_RECEIVED,) + TAKING,
    "RST outside": OTHER,
    "SYN: to LISTEN": (SYN_RECEIVED,),
    "SYN: challenge": (SYN_RECEIVED,) + TAKING,
    # ACK
    "no ACK": OTHER,
    "bad ACK: reset": (SYN_SENT, SYN_RECEIVED),
    "ACK of SYN": (SYN_RECEIVED,),
    "ACK of SYN beside RCV.NXT": (SYN_RECEIVED,),
    "SYN again": (SYN_RECEIVED,),
    "SYN, ACK again": (SYN_RECEIVED,),
    "SYN again, bad ACK": (SYN_RECEIVED,),
    "ACK": SENDING,
    "ACK again": SYNCHRONIZED,
    "old ACK": SYNCHRONIZED,
    "ACK of unsent": SYNCHRONIZED,
    "ACK of FIN": (FIN_WAIT_1, CLOSING, LAST_ACK),
    "window": SYNCHRONIZED,
    "older window": SYNCHRONIZED,
    # Text and FIN, also of the segment that ends SYN-RECEIVED
    "text": (SYN_RECEIVED,) + TAKING,
    "text, cut": (SYN_RECEIVED,) + TAKING,
    "text, in part again": TAKING,
    "text after a gap": TAKING,
    "FIN": (SYN_RECEIVED,) + TAKING,
}

# Of sockets, above those of connections.
SOCKET_RULES = {
    "silence": OPEN,
    "duplicate ACK": SENDING,
    "third duplicate ACK": SENDING,
    "partial ACK": SENDING,
    "TIME-WAIT begins": (FIN_WAIT_1, FIN_WAIT_2, CLOSING, TIME_WAIT),
    "loss probe": SENDING,
    "repair": SENDING,
    "time-out": SENDING,
    "window probe": SENDING,
    "override": SENDING,
    "idle": SENDING,
    "goes on": SENDING,
    "goes back": SENDING,
    "acknowledgement": SYNCHRONIZED,
    "held back": SYNCHRONIZED,
    "window update": TAKING,
    "keep-alive": (ESTABLISHED, FIN_WAIT_2, CLOSE_WAIT),
    # Options and errors
    "no timestamp": SYNCHRONIZED,
    "old timestamp": SYNCHRONIZED,
    "TS.Recent": SYNCHRONIZED,
    "RTTM": SENDING,
    "spurious": SENDING,
    "SACK": SENDING,
    "bad SACK": SYNCHRONIZED,
    "hole": SENDING,
    "too big": (SYN_SENT, SYN_RECEIVED) + SENDING,
    "too big: nothing": STATES,
}


# They can meet in these states, but hardly ever do.
RARE = {("third duplicate ACK", CLOSE_WAIT), ("third duplicate ACK", CLOSING), ("third duplicate ACK", LAST_ACK),
        ("partial ACK", CLOSE_WAIT), ("partial ACK", CLOSING), ("partial ACK", LAST_ACK), ("repair", CLOSE_WAIT),
        ("repair", CLOSING), ("repair", LAST_ACK), ("override", CLOSING),
        ("override", LAST_ACK), ("idle", CLOSING), ("idle", LAST_ACK), ("acknowledgement", LAST_ACK), ("hole", CLOSE_WAIT),
        ("hole", CLOSING), ("hole", LAST_ACK), ("spurious", CLOSING), ("spurious", LAST_ACK), ("too big", CLOSING),
        ("too big", LAST_ACK), ("no timestamp", TIME_WAIT), ("too big: nothing", TIME_WAIT)}
# Rules that are named in either table.
NAMED = RULES.keys() | SOCKET_RULES.keys()


def wrong_cells(rules, counts):
    """The rules and states that were not met, or that cannot meet and did."""
    met = {(rule, state) for state, rule in counts if rule in rules or rule not in NAMED}
    possible = {(rule, state) for rule, states in rules.items() for state in states}
    return sorted((met ^ possible) - (RARE & possible))

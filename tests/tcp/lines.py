"""The lines of crates/tcp_steps: an event each, and the answer of the model in the words of the program."""
import model
from socket_model import Socket
from tcp_options import Options, Packet

# The states as the program prints them.
SHOWN = {state: state.title().replace("-", "") for state in model.STATES}


def shown(value):
    """An operand or a result as words: a segment, a packet, a text or a number, and `-` for nothing."""
    if isinstance(value, (model.Segment, Packet)):
        seq, ack, bits, window, text, *options = value
        words = f"{seq} {'-' if ack is None else ack} .{bits} {window} {text.decode() or '-'}"
        return " ".join([words, *map(word_of, options)])
    return "-" if value is None else str(value) if isinstance(value, int) else value.decode() or "-"


def word_of(options):
    """Options as one word."""
    parts = [f"mss={options.mss}"] if options.mss is not None else []
    parts += [f"ws={options.scale}"] if options.scale is not None else []
    parts += ["sackok"] if options.has_sack else []
    parts += ["ts={}:{}".format(*options.stamps)] if options.stamps else []
    parts += [f"sack={first}-{end}" for first, end in options.blocks]
    return ",".join(parts) or "-"


def options_of(word):
    """The options that a word tells."""
    options = Options()
    for part in word.split(",") if word != "-" else ():
        name, _, value = part.partition("=")
        if name == "mss":
            options = options._replace(mss=int(value))
        elif name == "ws":
            options = options._replace(scale=int(value))
        elif name == "sackok":
            options = options._replace(has_sack=True)
        elif name == "ts":
            options = options._replace(stamps=tuple(map(int, value.split(":"))))
        elif name == "sack":
            options = options._replace(blocks=(*options.blocks, tuple(map(int, value.split("-")))))
    return options


def line_of(name, operands):
    return " ".join([name, *map(shown, operands)])


def event_of(line):
    """The name and the operands of a line."""
    name, *words = line.split()
    if name == "arrives":
        return name, [segment_of(words[:-1]), int(words[-1])]
    return name, [text_of(word) if name == "write" else int(word) for word in words]


def text_of(word):
    return b"" if word == "-" else word.encode()


def variables(one):
    """The state, and the variables that it has."""
    if one.state in (model.CLOSED, model.LISTEN):
        return SHOWN[one.state]
    rcv_nxt = "-" if one.state == model.SYN_SENT else one.rcv_nxt
    return f"{SHOWN[one.state]} {one.snd_nxt} {rcv_nxt} {one.rcv_wnd} {one.snd_wnd}"


def happens(one, name, operands):
    """Lets an event happen. Returns what the call returns, and the answer of the program."""
    one.met.clear()
    returned = getattr(one, name.replace("-", "_"))(*operands)
    return returned, answer(one, returned)


def answer(one, returned):
    """Of a socket, also when the next `tick` has something to do."""
    due = f" {shown(one.due)}" if isinstance(one, Socket) else ""
    return f"{variables(one)} {shown(returned)}{due}"


def parsed(line):
    """Of an answer for a socket: the state, its variables, the words of the result, and when `tick` is due."""
    state, *words = line.split()
    count = 0 if state in ("Closed", "Listen") else 4
    due = None if words[-1] == "-" else int(words[-1])
    return state, words[:count], words[count:-1], due


def segment_of(words):
    """The segment of these words, the packet if options are among them, or None."""
    if words == ["-"]:
        return None
    seq, ack, flags, window, text, *options = words
    parts = int(seq), None if ack == "-" else int(ack), flags[1:], int(window), text_of(text)
    return Packet(*parts, *map(options_of, options)) if options else model.Segment(*parts)

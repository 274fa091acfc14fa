"""yamux over libymx: many streams over one connection.

`open_connection`, `start_server` and `start_stream_server` run it over asyncio, where a stream is a StreamReader and a
StreamWriter. `Session` is the session alone, which does no input or output.
"""
from ._library import LEAST_WINDOW, WIDEST_WINDOW, Refused, fault_name, fault_text, version
from .connection import Connection, open_connection, start_server, start_stream_server
from .errors import ConnectionLost, NotTaken, StreamClosed, StreamReset
from .session import BROKEN, CLIENT, CLOSED, LOST, RUNNING, SERVER, Session
from .streams import StreamReader, StreamWriter

__all__ = [
    "BROKEN", "CLIENT", "CLOSED", "Connection", "ConnectionLost", "LEAST_WINDOW", "LOST", "NotTaken", "RUNNING", "Refused", "SERVER",
    "Session", "StreamClosed", "StreamReader", "StreamReset", "StreamWriter", "WIDEST_WINDOW", "fault_name", "fault_text",
    "open_connection", "start_server", "start_stream_server", "version",
]

"""What can go wrong with a stream or a connection. None of these is ever told as the end of a stream."""


class StreamReset(ConnectionResetError):
    """Either side has reset the stream: what was unread or unsent of it is gone."""


class StreamClosed(ConnectionResetError):
    """The stream was closed here: it is not written any more, nor read further than to where it was closed."""


class ConnectionLost(ConnectionError):
    """The connection has ended before the stream."""


class NotTaken(ConnectionLost, TimeoutError):
    """The peer did not take in time what was written."""


def again(error: Exception) -> Exception:
    """The same error, to be raised once more. One that was raised holds the frames that it went through."""
    try:
        return type(error)(*error.args)
    except Exception:  # a program's own, which is made of other words
        return error

/* ymx.h: yamux (version 0 of HashiCorp's stream multiplexer) as a library that does no input or output.
 *
 * A session is one side of a connection. It never reads, writes, waits, starts a thread or ends the program: the
 * caller feeds it the bytes that came from the peer, and writes out the bytes that it emits. A call that would
 * have to wait says so. docs/C.md has a whole server, and says what is proved.
 *
 * Results. A call returns a number. 0 or more is good. YMX_WAIT says that there is nothing to do yet. Any other number
 * below 0 is an ymx_error: a refusal, which changes nothing. If several refusals apply, the call returns the one that it
 * lists first. If a pointer is NULL that may not be, a call returns YMX_E_NULL and changes no session.
 *
 * Threads. One thread at a time uses a session; it may be another one each time. Two sessions share nothing, and
 * nothing of the library's own is ever written. No call belongs into a signal handler.
 *
 * Memory. Sessions come from malloc and go by free. Only ymx_new, ymx_touched_new, ymx_open, ymx_feed (for streams
 * that the peer opens) and a ymx_write beyond 262,144 unsent bytes of one stream take memory; ymx_shrink exchanges some,
 * and gives some back. Bytes and buffers belong
 * to the caller: nothing else touches them during a call, and the session keeps no pointer to them. They may be NULL
 * if the length is 0. A length is at most PTRDIFF_MAX. What ymx_unread lends is the session's.
 */
#ifndef YMX_H
#define YMX_H

#include <stddef.h>
#include <stdint.h>

/* The version of this header; ymx_version() has that of the library. */
#define YMX_VERSION_MAJOR 0
#define YMX_VERSION_MINOR 3
#define YMX_VERSION_PATCH 0

/* The same as one number, for #if: 203 is 0.2.3, and 10203 is 1.2.3. */
#define YMX_VERSION_NUM (YMX_VERSION_MAJOR * 10000 + YMX_VERSION_MINOR * 100 + YMX_VERSION_PATCH)

/* The least and the widest window of a stream, in bytes (flow control). */
#define YMX_LEAST_WINDOW 262144
#define YMX_WIDEST_WINDOW 16777216

/* How many streams a ymx_touched names at most. No more than these are touched by 12,276 bytes, as a frame has at least
 * 12 (framing). */
#define YMX_MOST_TOUCHED 1024

/* How many streams a session has, at most: those that were opened, or came from the peer, and are not forgotten, and
 * those that are forgotten and have something unsent. */
#define YMX_MOST_STREAMS 1024

/* How many own streams are neither acknowledged, reset nor forgotten, at most. */
#define YMX_MOST_OPENS_PENDING 256

/* How many streams of the peer's wait for ymx_accept, at most. */
#define YMX_MOST_OFFERED 256

/* How many pings are not collected by ymx_ponged, at most. */
#define YMX_MOST_PINGS_PENDING 16

/* How many answers to the peer are unsent, at most: ymx_feed takes nothing more then. */
#define YMX_MOST_ANSWERS 1024

#if defined(__GNUC__) && __GNUC__ >= 4
#define YMX_API __attribute__((visibility("default")))
#else
#define YMX_API
#endif

#ifdef __cplusplus
extern "C" {
#endif

/* A session. Nobody looks into it. */
typedef struct ymx_session ymx_session;

/* A note of the streams that bytes have touched. Nobody looks into it. */
typedef struct ymx_touched ymx_touched;

/* Which side of the connection it is. The client is the side that connected (stream identifiers). */
typedef enum ymx_role { YMX_CLIENT = 0, YMX_SERVER = 1 } ymx_role;

/* Why a call was refused. Each call lists the refusals that it can return. */
typedef enum ymx_error {
    YMX_E_NO_STREAM = -1,      /* no stream of the caller's has this id */
    YMX_E_FINISHED = -2,       /* the stream was finished on this side */
    YMX_E_RESET = -3,          /* the stream was reset, by either side */
    YMX_E_LOST = -4,           /* the connection is lost, or the session broke */
    YMX_E_CLOSED = -5,         /* the session was closed */
    YMX_E_PEER_AWAY = -6,      /* the peer takes no more streams (go away) */
    YMX_E_OPENS_PENDING = -7,  /* YMX_MOST_OPENS_PENDING own streams are not acknowledged, reset or forgotten */
    YMX_E_TOO_MANY = -8,       /* YMX_MOST_STREAMS streams are there */
    YMX_E_EXHAUSTED = -9,      /* the own stream ids are used up */
    YMX_E_PINGS_PENDING = -10, /* YMX_MOST_PINGS_PENDING pings are not collected */
    YMX_E_NO_MEMORY = -11,     /* malloc gave none */
    YMX_E_BAD_WINDOW = -13,    /* the window is below YMX_LEAST_WINDOW or above YMX_WIDEST_WINDOW */
    YMX_E_BAD_FIRST = -14,     /* the first stream id is one that the peer opens */
    YMX_E_NULL = -15,          /* a pointer is NULL that may not be; nothing was done */
    YMX_E_BAD_ROLE = -16       /* the role is neither YMX_CLIENT nor YMX_SERVER */
} ymx_error;

/* No error: nothing is there to read yet, or there is no credit to write. Ask again once bytes have touched the
 * stream. */
enum { YMX_WAIT = -12 };

/* What ymx_status returns: for a session that broke, YMX_BROKEN and a ymx_fault, so 101 to 109. */
enum { YMX_RUNNING = 0, YMX_LOST = 1, YMX_CLOSED = 2, YMX_BROKEN = 100 };

/* Why a session broke. This side has found the first seven, the peer says the last two. */
typedef enum ymx_fault {
    YMX_FAULT_BAD_VERSION = 1,             /* a frame's version is not 0 (framing) */
    YMX_FAULT_UNKNOWN_TYPE = 2,            /* a frame's type is above 3 (framing) */
    YMX_FAULT_BAD_SYN = 3,                 /* a SYN for stream 0, or for an id of this side's (stream identifiers) */
    YMX_FAULT_STREAM_IN_USE = 4,           /* a SYN for a stream that is there (stream identifiers) */
    YMX_FAULT_WINDOW_EXCEEDED = 5,         /* Data beyond the window (flow control) */
    YMX_FAULT_CREDIT_OVERFLOW = 6,         /* a credit above 4,294,967,295 bytes (flow control) */
    YMX_FAULT_BAD_GO_AWAY_CODE = 7,        /* a Go Away code above 2 (go away) */
    YMX_FAULT_PEER_SAW_PROTOCOL_ERROR = 8, /* the peer says that it found a protocol error (go away) */
    YMX_FAULT_PEER_SAW_INTERNAL_ERROR = 9  /* the peer says that it has an internal error (go away) */
} ymx_fault;

/* ---- a session comes and goes */

/* Makes a session that has done nothing, writes its address to *out, and returns 0. Whoever has it calls ymx_free.
 *
 * `window` is how many bytes the peer may have unread on one stream: YMX_LEAST_WINDOW, which is the usual one, to
 * YMX_WIDEST_WINDOW. `first` is the first own stream id: odd at a client, even at a server; or 0 for the least.
 *
 * Otherwise *out is NULL, and it returns YMX_E_BAD_ROLE, YMX_E_BAD_WINDOW, YMX_E_BAD_FIRST or YMX_E_NO_MEMORY: the
 * first that applies. With `out` NULL it returns YMX_E_NULL. */
YMX_API int64_t ymx_new(ymx_role role, uint32_t window, uint32_t first, ymx_session **out);

/* Ends a session and gives back its memory. The peer learns nothing. To tell it, call ymx_go_away before this, and
 * send what ymx_emit gives. NULL is allowed, and does nothing. */
YMX_API void ymx_free(ymx_session *session);

/* ---- bytes of the connection */

/* Feeds `len` bytes that came from the peer, in pieces of any length (framing), and returns how many were taken.
 *
 * Fewer than `len` are taken if YMX_MOST_ANSWERS are unsent: then emit, and feed the rest. Or the session broke, now or
 * before (ymx_status): then emit what is due, and hang up. A session that is lost or closed takes all
 * and drops it. It never fails for want of memory: a stream that the peer opens is then rejected. */
YMX_API int64_t ymx_feed(ymx_session *session, const void *bytes, size_t len);

/* Feeds bytes as ymx_feed does, and notes in `touched` the streams that they touch, and whether an answer to a ping
 * came, after what was noted before.
 *
 * A stream that isn't noted is as it was: what a ymx_read or ymx_write of it returns has not changed, as long as the
 * session runs (ymx_status). So only the noted ones are tried again, and idle streams cost nothing. One is noted anew
 * only if a frame of it, or a part of one, was among the bytes that were taken. ymx_accept gives new streams of the
 * peer's. */
YMX_API int64_t ymx_feed_touching(ymx_session *session, const void *bytes, size_t len, ymx_touched *touched);

/* Feeds bytes as ymx_feed_touching does, but no further than to the first payload that ymx_pass may take, and returns
 * how many were taken. So payload is taken from where it lies in `bytes`, and the session copies none of it.
 *
 * If fewer than `len` are taken, ymx_passing says of which stream the next byte is, and how many of its bytes may be
 * passed on. If it returns 0, feed the rest, unless nothing was taken: then the session takes no more for now, and
 * ymx_feed says why. Payload that nobody wants to take this way, ymx_feed_touching takes: then it waits to be read as
 * ever. What comes of a stream that was released is taken and dropped. */
YMX_API int64_t ymx_feed_to_payload(ymx_session *session, const void *bytes, size_t len, ymx_touched *touched);

/* How many bytes are still to come of the payload to which the next byte belongs, if that may be passed on; its
 * stream's id is written to *id. Else it returns 0, and *id is 0.
 *
 * It may be passed on as long as the session runs, if the caller has the stream, its end has not come, and nothing of
 * it is unread. With `id` NULL it returns YMX_E_NULL. */
YMX_API int64_t ymx_passing(const ymx_session *session, uint32_t *id);

/* Passes bytes on that came from the peer, and that the caller has taken: the first bytes of what ymx_passing says,
 * `len` of them, or as many as it says. Returns how many, and 0 if none may be passed on. This is a ymx_feed of
 * these bytes, and then a ymx_read of as many on their stream: the peer gets credit for them. */
YMX_API int64_t ymx_pass(ymx_session *session, const void *bytes, size_t len);

/* The connection has ended or failed: nothing more will come. Returns 0. Bytes that are there are still read; after
 * them calls return YMX_E_LOST. */
YMX_API int64_t ymx_feed_end(ymx_session *session);

/* Writes bytes for the peer into `buffer`, at most `len`, and returns how many (framing). The caller sends them all,
 * in order. 0 if nothing is due. Fewer than `len` come only if nothing is left due. Streams take turns. */
YMX_API int64_t ymx_emit(ymx_session *session, void *buffer, size_t len);

/* 1 if ymx_emit would give at least one byte, else 0. No stream is looked at.
 *
 * Bytes can become due by ymx_open, ymx_write, ymx_finish, ymx_reset, ymx_release, ymx_ping and ymx_go_away. And by
 * ymx_feed, ymx_feed_touching and ymx_feed_to_payload, which answer the peer; by ymx_accept, which acknowledges the
 * stream; by ymx_read, ymx_consume and ymx_pass, which give the peer credit; and by ymx_forget, which may reset the
 * stream. So look after each of these, or once after a turn of them. No other call makes bytes due. */
YMX_API int64_t ymx_due(const ymx_session *session);

/* ---- streams */

/* Opens a stream, and returns its id, which is above 0 (stream identifiers). Bytes may be written at once.
 *
 * Refused with YMX_E_CLOSED, YMX_E_LOST, YMX_E_PEER_AWAY, YMX_E_EXHAUSTED, YMX_E_OPENS_PENDING, YMX_E_TOO_MANY,
 * YMX_E_NO_MEMORY: the first that applies. */
YMX_API int64_t ymx_open(ymx_session *session);

/* How many streams may be opened now, one after another, while nothing is fed, emitted or forgotten in between: at most
 * YMX_MOST_OPENS_PENDING. At 0 a ymx_open is refused. Else it opens, if it finds memory, and one less is left. */
YMX_API int64_t ymx_opens_left(const ymx_session *session);

/* 1 if the peer takes no more streams, and has said so (go away); else 0. */
YMX_API int64_t ymx_is_peer_away(const ymx_session *session);

/* Takes the stream of the peer's that came first, and returns its id, or 0 if none waits.
 *
 * Refused with YMX_E_CLOSED, and YMX_E_LOST once none waits. */
YMX_API int64_t ymx_accept(ymx_session *session);

/* How many streams of the peer's ymx_accept would give: YMX_MOST_OFFERED at most. */
YMX_API int64_t ymx_offered_count(const ymx_session *session);

/* Writes to a stream, and returns how many of the `len` bytes were taken: as many as the peer's credit allows, from
 * the first on (flow control). YMX_WAIT if there is no credit. If `len` is 0 it returns 0, also without credit.
 *
 * Refused with YMX_E_CLOSED, YMX_E_NO_STREAM, YMX_E_RESET, YMX_E_FINISHED, YMX_E_LOST, YMX_E_NO_MEMORY. */
YMX_API int64_t ymx_write(ymx_session *session, uint32_t id, const void *bytes, size_t len);

/* Writes `len` bytes to a stream and emits the frame that carries them, at once: into `buffer`, which has `size`
 * bytes, and does not overlap with them. Returns how many bytes stand at its front for the peer: 12 more than `len`
 * (framing). They are sent as those of ymx_emit are. This is a ymx_write of all of them and a ymx_emit, with one copy
 * less.
 *
 * 0 if it can't be done, and then nothing has changed: `len` is not 1 to 16,384, ymx_room is less, `buffer` has no
 * room for 12 bytes more, or something else is due. Then ymx_write and ymx_emit say what goes. */
YMX_API int64_t ymx_write_through(ymx_session *session, uint32_t id, const void *bytes, size_t len, void *buffer, size_t size);

/* Reads from a stream into `buffer`, at most `len` bytes, and returns how many: as many as are there and fit. The
 * rest of the buffer stays as it was. 0 at the end, once the peer has finished and all was read; YMX_WAIT if
 * nothing is there yet.
 *
 * Refused with YMX_E_CLOSED, YMX_E_NO_STREAM, YMX_E_RESET; and with YMX_E_LOST if no byte waits and no end has come.
 * If `len` is 0 it returns 0, or one of the first three: that 0 says nothing of the end, or of a session that is
 * lost. */
YMX_API int64_t ymx_read(ymx_session *session, uint32_t id, void *buffer, size_t len);

/* How many bytes a ymx_write would take now, at most 4,294,967,295: the peer's credit (flow control). 0 if it would
 * return YMX_WAIT or be refused. It may still be refused with YMX_E_NO_MEMORY. */
YMX_API int64_t ymx_room(const ymx_session *session, uint32_t id);

/* 1 if a ymx_read would return 0 for the end (half-close), else 0, also if it would be refused. */
YMX_API int64_t ymx_is_at_end(const ymx_session *session, uint32_t id);

/* 1 if the peer's end of a stream has arrived, also while bytes wait to be read, which are then the last (half-
 * close); else 0, also if a ymx_read would be refused with any error but YMX_E_LOST. A stream that has ended and is
 * finished is safe to forget: what was written still goes out. */
YMX_API int64_t ymx_has_ended(const ymx_session *session, uint32_t id);

/* How many bytes were written to a stream and stand in no frame begun yet (framing). Once it is 0, and ymx_due is, all
 * that was written was emitted. 0 if the stream is none of the caller's, or was reset. */
YMX_API int64_t ymx_unsent(const ymx_session *session, uint32_t id);

/* The same of all streams together, of those that were released or forgotten too: a sum that is kept, however many
 * streams there are. Once it is 0, and ymx_due is, all that was ever written was emitted or dropped. 0 once the session
 * is closed, which drops what is unsent. */
YMX_API int64_t ymx_unsent_total(const ymx_session *session);

/* What ymx_next_of returns: what of a stream goes next, and YMX_NEXT_REST more if the rest of a frame goes before. */
enum {
    YMX_NEXT_FIRST = 1,  /* the frame that opens or accepts it (flags) */
    YMX_NEXT_RESET = 2,  /* its reset (flags) */
    YMX_NEXT_CREDIT = 3, /* credit for the peer (flow control) */
    YMX_NEXT_DATA = 4,   /* bytes that were written */
    YMX_NEXT_END = 5,    /* its end (half-close) */
    YMX_NEXT_REST = 8    /* the rest of a frame that was emitted in part: the next ymx_emit begins with it */
};

/* What of a stream ymx_emit gives next: the first of YMX_NEXT_FIRST to YMX_NEXT_END, in this order, that is due; 0 if
 * none is. So all that stands before the result in this order was emitted, but for the rest of a frame: YMX_NEXT_REST is
 * added if there is one, and it has fewer than 16,396 bytes. To learn when bytes or an end are on their way, ask this
 * after each ymx_emit.
 *
 * It knows streams too that were released or forgotten and have something to send. In a session that is lost, broken
 * or closed no frame begins, so there it is 0 or YMX_NEXT_REST. */
YMX_API int64_t ymx_next_of(const ymx_session *session, uint32_t id);

/* 1 if the peer has acknowledged a stream that was opened here (flags); else 0, also if the stream is none of the
 * caller's, or was reset. */
YMX_API int64_t ymx_is_acknowledged(const ymx_session *session, uint32_t id);

/* 1 if a stream was reset, by either side, and is not forgotten (flags); else 0. */
YMX_API int64_t ymx_is_reset(const ymx_session *session, uint32_t id);

/* How many streams the caller has, and their ids in the order in which they came: as many as fit stand at the front of
 * `ids`, which has room for `len`. The rest of `ids` stays as it was. The caller has a stream from ymx_open or
 * ymx_accept until ymx_forget or ymx_release. */
YMX_API int64_t ymx_streams(const ymx_session *session, uint32_t *ids, size_t len);

/* Lends the first bytes that wait to be read on a stream, as they lie in the session: writes their address to *bytes,
 * and returns how many there are. Nothing is copied or taken out. More may wait after them, and come once these are
 * consumed. If nothing waits, at the end, and if a ymx_read would be refused, it returns 0, and *bytes is NULL.
 *
 * The bytes are the session's: they are only read, until the next call on this session whose parameter isn't const, and
 * are not given to a call on it. With `bytes` NULL it returns YMX_E_NULL. */
YMX_API int64_t ymx_unread(const ymx_session *session, uint32_t id, const void **bytes);

/* How many bytes wait to be read on a stream, at most 4,294,967,295: those that ymx_unread lends and those after them. 0
 * if a ymx_read would be refused with any error but YMX_E_LOST. */
YMX_API int64_t ymx_unread_count(const ymx_session *session, uint32_t id);

/* Takes out the first `count` bytes that wait on a stream, or as many as are there: a ymx_read of bytes that the caller
 * has seen by ymx_unread. The peer gets credit for them. Returns 0, also at the end; YMX_WAIT if `count` is above 0
 * and nothing is there yet.
 *
 * Refused with YMX_E_CLOSED, YMX_E_NO_STREAM, YMX_E_RESET; and with YMX_E_LOST if `count` is above 0, no byte waits
 * and no end has come. */
YMX_API int64_t ymx_consume(ymx_session *session, uint32_t id, size_t count);

/* Half-closes a stream: nothing more is written to it, and its end goes out after the last byte (half-close).
 * Returns 0. It may still be read.
 *
 * Refused with YMX_E_CLOSED, YMX_E_NO_STREAM, YMX_E_RESET, YMX_E_FINISHED, YMX_E_LOST. */
YMX_API int64_t ymx_finish(ymx_session *session, uint32_t id);

/* Breaks a stream off, both ways: what is unread or unsent of it is dropped, and the peer learns of it. Returns 0.
 * The id stays the caller's until ymx_forget.
 *
 * Refused with YMX_E_CLOSED, YMX_E_NO_STREAM, YMX_E_RESET, YMX_E_LOST. */
YMX_API int64_t ymx_reset(ymx_session *session, uint32_t id);

/* Gives a stream up: its id is none of the caller's from now on. Returns 0. If both sides have finished it, its
 * unsent bytes still go out; if not, it is reset. Every stream that was opened or accepted is to be forgotten or
 * released once, or it keeps its memory as long as the session.
 *
 * Refused with YMX_E_CLOSED, YMX_E_NO_STREAM. */
YMX_API int64_t ymx_forget(ymx_session *session, uint32_t id);

/* Lets a stream go whose user is done with it, so that what was written still arrives. Returns 0. It is finished, what
 * comes of it is dropped, so that the peer gets its credit back, and it is forgotten by itself once the peer's end is
 * there, or it was reset, or the session runs no more. Its id is none of the caller's from now on; ymx_touched_ids may
 * still name it.
 *
 * So nothing is lost, as it is by a ymx_forget before the peer's end. But a peer that never ends the stream keeps it
 * among the YMX_MOST_STREAMS: a caller that won't wait for that calls ymx_forget in its place.
 *
 * Refused with YMX_E_CLOSED, YMX_E_NO_STREAM. */
YMX_API int64_t ymx_release(ymx_session *session, uint32_t id);

/* ---- memory */

/* Gives memory of a stream back that it doesn't need now: 1 if it did; 0 if there was none to give, or none for a
 * fresh buffer. What was once used of a stream's two buffers stays in use until it ends, 524,288 bytes or more. So a host
 * of many streams calls this of one that is to be quiet for long. What is unread or unsent of it stays.
 *
 * Refused with YMX_E_CLOSED, YMX_E_NO_STREAM, YMX_E_RESET. */
YMX_API int64_t ymx_shrink(ymx_session *session, uint32_t id);

/* Gives memory of the session back that is no stream's; 1 if it did, else 0. It is buffers that are kept for streams to come,
 * and what is in use of those with which streams take turns, at most 48 in all. With glibc, memory that was freed before
 * goes to the system too. A host calls it of a session that is to be quiet for long, or has no more streams. */
YMX_API int64_t ymx_shrink_spare(ymx_session *session);

/* ---- the session as a whole */

/* Pings the peer, and returns the number of the ping (ping). A ping stays pending until ymx_ponged
 * has said that its answer is back. So collect each one, even if nobody waits for its answer: after
 * YMX_MOST_PINGS_PENDING that nobody collects, no more are taken.
 *
 * Refused with YMX_E_CLOSED, YMX_E_LOST, YMX_E_PINGS_PENDING. */
YMX_API int64_t ymx_ping(ymx_session *session);

/* 1 if the answer to the ping of this number is back, which is said once; else 0.
 *
 * Refused with YMX_E_CLOSED, and if the answer isn't back with YMX_E_LOST. */
YMX_API int64_t ymx_ponged(ymx_session *session, uint32_t number);

/* Takes no more streams of the peer's, and tells it so (go away). Returns 0. Streams that are there go on.
 *
 * Refused with YMX_E_CLOSED, YMX_E_LOST. */
YMX_API int64_t ymx_go_away(ymx_session *session);

/* Closes the session at once: nothing more is emitted, unsent bytes are dropped. The peer is told nothing: it sees the
 * connection end. Returns 0. */
YMX_API int64_t ymx_close(ymx_session *session);

/* YMX_RUNNING, YMX_LOST, YMX_CLOSED, or YMX_BROKEN and the number of a fault. */
YMX_API int64_t ymx_status(const ymx_session *session);

/* ---- the streams that bytes have touched
 *
 * A ymx_touched belongs to no session, and may serve several in turn, if it is cleared between them. One thread at a
 * time uses it. */

/* Makes one that notes nothing, writes its address to *out, and returns 0. Whoever has it calls ymx_touched_free.
 * Otherwise *out is NULL, and it returns YMX_E_NO_MEMORY; with `out` NULL, YMX_E_NULL. */
YMX_API int64_t ymx_touched_new(ymx_touched **out);

/* Gives its memory back. NULL is allowed, and does nothing. */
YMX_API void ymx_touched_free(ymx_touched *touched);

/* Writes the ids of the noted streams to `ids`, at most `len` of them, and returns how many are noted: each once, the
 * first touched first, YMX_MOST_TOUCHED at most. The rest of `ids` stays as it was. The caller may have forgotten some,
 * and not have accepted others: calls on those return YMX_E_NO_STREAM. */
YMX_API int64_t ymx_touched_ids(const ymx_touched *touched, uint32_t *ids, size_t len);

/* 1 if more than YMX_MOST_TOUCHED streams were touched since ymx_touched_clear, so that any may have changed; else
 * 0. */
YMX_API int64_t ymx_touched_is_all(const ymx_touched *touched);

/* 1 if an answer to a ping came, else 0: then ymx_ponged returns what it did before. */
YMX_API int64_t ymx_touched_has_pong(const ymx_touched *touched);

/* Notes nothing from here on, and keeps the memory. Returns 0. */
YMX_API int64_t ymx_touched_clear(ymx_touched *touched);

/* ---- texts */

/* The name of an error without its prefix, such as "RESET"; "OK" of 0 and more, "WAIT" of YMX_WAIT, "UNKNOWN" of any other
 * number. It is static, and never NULL. */
YMX_API const char *ymx_error_name(int64_t code);

/* The name of a ymx_fault as docs/PROTOCOL.md has it, "B1" to "B9"; "UNKNOWN" of any other number. Of a session that
 * broke it is ymx_fault_name(ymx_status(session) - YMX_BROKEN). It is static, and never NULL. */
YMX_API const char *ymx_fault_name(int64_t fault);

/* What an error says, and what to do: "BAD_WINDOW: give a window from 262,144 to 16,777,216 bytes". It begins with the name
 * that ymx_error_name gives, is static, and never NULL. Since 0.4. */
YMX_API const char *ymx_refusal_text(int64_t code);

/* What the peer did, of a ymx_fault, after the name that ymx_fault_name gives: "B5: Data beyond the window". It is static,
 * and never NULL. Since 0.4. */
YMX_API const char *ymx_fault_text(int64_t fault);

/* The library's version, such as "0.3.0". It is static. */
YMX_API const char *ymx_version(void);

#ifdef __cplusplus
}
#endif

#endif

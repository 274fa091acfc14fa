/* The C half of libymx: each call looks whether its pointers are NULL, and then calls the proved function of its
 * name. The proved functions are those of crates/ymx_c. They ask for pointers that aren't NULL, even to no bytes. Of a
 * role they ask nothing: all but 0 is a server to them, so ymx_new refuses here what is no role. */
#include "ymx.h"

/* glibc's, and no other C library's. The reference is weak, so that a library that was built over glibc loads over musl too. */
extern int malloc_trim(size_t) __attribute__((weak));

/* Two rather than one, so that YMX_VERSION_MAJOR is replaced by its number before it is made a text. */
#define TEXT_OF(number) #number
#define TEXT(number) TEXT_OF(number)

/* What crates/ymx_c exports. A slice is passed as a pointer and a length. */
int64_t ymx_core_new(uint32_t role, uint32_t window, uint32_t first, ymx_session **out);
void ymx_core_drop(ymx_session *session);
int64_t ymx_core_feed(ymx_session *session, const void *bytes, size_t len);
int64_t ymx_core_feed_end(ymx_session *session);
int64_t ymx_core_emit(ymx_session *session, void *buffer, size_t len);
int64_t ymx_core_due(ymx_session *session);
int64_t ymx_core_open(ymx_session *session);
int64_t ymx_core_accept(ymx_session *session);
int64_t ymx_core_write(ymx_session *session, uint32_t id, const void *bytes, size_t len);
int64_t ymx_core_read(ymx_session *session, uint32_t id, void *buffer, size_t len);
int64_t ymx_core_finish(ymx_session *session, uint32_t id);
int64_t ymx_core_reset(ymx_session *session, uint32_t id);
int64_t ymx_core_forget(ymx_session *session, uint32_t id);
int64_t ymx_core_ping(ymx_session *session);
int64_t ymx_core_ponged(ymx_session *session, uint32_t number);
int64_t ymx_core_go_away(ymx_session *session);
int64_t ymx_core_close(ymx_session *session);
int64_t ymx_core_status(ymx_session *session);
int64_t ymx_core_feed_touching(ymx_session *session, const void *bytes, size_t len, ymx_touched *touched);
int64_t ymx_core_offered_count(ymx_session *session);
int64_t ymx_core_room(ymx_session *session, uint32_t id);
int64_t ymx_core_is_at_end(ymx_session *session, uint32_t id);
int64_t ymx_core_unread(ymx_session *session, uint32_t id, const void **places, size_t len);
int64_t ymx_core_consume(ymx_session *session, uint32_t id, uint32_t count);
int64_t ymx_core_has_ended(ymx_session *session, uint32_t id);
int64_t ymx_core_unsent(ymx_session *session, uint32_t id);
int64_t ymx_core_unsent_total(ymx_session *session);
int64_t ymx_core_next_of(ymx_session *session, uint32_t id);
int64_t ymx_core_is_acknowledged(ymx_session *session, uint32_t id);
int64_t ymx_core_is_reset(ymx_session *session, uint32_t id);
int64_t ymx_core_streams(ymx_session *session, uint32_t *ids, size_t len);
int64_t ymx_core_opens_left(ymx_session *session);
int64_t ymx_core_is_peer_away(ymx_session *session);
int64_t ymx_core_unread_count(ymx_session *session, uint32_t id);
int64_t ymx_core_shrink(ymx_session *session, uint32_t id);
int64_t ymx_core_shrink_spare(ymx_session *session);
int64_t ymx_core_release(ymx_session *session, uint32_t id);
int64_t ymx_core_write_through(ymx_session *session, uint32_t id, const void *bytes, size_t len, void *buffer,
                               size_t size);
int64_t ymx_core_feed_to_payload(ymx_session *session, const void *bytes, size_t len, ymx_touched *touched);
int64_t ymx_core_passing(ymx_session *session, uint32_t *ids, size_t len);
int64_t ymx_core_pass(ymx_session *session, const void *bytes, size_t len);
int64_t ymx_core_touched_new(ymx_touched **out);
void ymx_core_touched_drop(ymx_touched *touched);
int64_t ymx_core_touched_ids(ymx_touched *touched, uint32_t *ids, size_t len);
int64_t ymx_core_touched_is_all(ymx_touched *touched);
int64_t ymx_core_touched_has_pong(ymx_touched *touched);
int64_t ymx_core_touched_clear(ymx_touched *touched);

/* The kit's free, the other half of its malloc. */
void rattle_dealloc(void *block);

/* Where a slice of no bytes lies. Nothing reads or writes it. */
static unsigned char nowhere, no_room;
static uint32_t no_ids;

/* No session, or bytes that lie at NULL. */
static int is_bad(const ymx_session *session, const void *bytes, size_t len) {
    return session == NULL || (bytes == NULL && len > 0);
}

int64_t ymx_new(ymx_role role, uint32_t window, uint32_t first, ymx_session **out) {
    if (out == NULL) return YMX_E_NULL;
    *out = NULL;
    if (role != YMX_CLIENT && role != YMX_SERVER) return YMX_E_BAD_ROLE;
    return ymx_core_new(role == YMX_CLIENT ? 0 : 1, window, first, out);
}

void ymx_free(ymx_session *session) {
    if (session == NULL) return;
    ymx_core_drop(session);
    rattle_dealloc(session);
}

int64_t ymx_feed(ymx_session *session, const void *bytes, size_t len) {
    if (is_bad(session, bytes, len)) return YMX_E_NULL;
    return ymx_core_feed(session, bytes == NULL ? &nowhere : bytes, len);
}

int64_t ymx_emit(ymx_session *session, void *buffer, size_t len) {
    if (is_bad(session, buffer, len)) return YMX_E_NULL;
    return ymx_core_emit(session, buffer == NULL ? &nowhere : buffer, len);
}

int64_t ymx_feed_touching(ymx_session *session, const void *bytes, size_t len, ymx_touched *touched) {
    if (is_bad(session, bytes, len) || touched == NULL) return YMX_E_NULL;
    return ymx_core_feed_touching(session, bytes == NULL ? &nowhere : bytes, len, touched);
}

int64_t ymx_feed_to_payload(ymx_session *session, const void *bytes, size_t len, ymx_touched *touched) {
    if (is_bad(session, bytes, len) || touched == NULL) return YMX_E_NULL;
    return ymx_core_feed_to_payload(session, bytes == NULL ? &nowhere : bytes, len, touched);
}

/* The proved function writes the id where there is one. */
int64_t ymx_passing(const ymx_session *session, uint32_t *id) {
    if (id == NULL) return YMX_E_NULL;
    *id = 0;
    return session == NULL ? YMX_E_NULL : ymx_core_passing((ymx_session *)session, id, 1);
}

int64_t ymx_pass(ymx_session *session, const void *bytes, size_t len) {
    if (is_bad(session, bytes, len)) return YMX_E_NULL;
    return ymx_core_pass(session, bytes == NULL ? &nowhere : bytes, len);
}

int64_t ymx_write_through(ymx_session *session, uint32_t id, const void *bytes, size_t len, void *buffer,
                          size_t size) {
    if (is_bad(session, bytes, len) || is_bad(session, buffer, size)) return YMX_E_NULL;
    return ymx_core_write_through(session, id, bytes == NULL ? &nowhere : bytes, len, buffer == NULL ? &no_room : buffer,
                                  size);
}

int64_t ymx_write(ymx_session *session, uint32_t id, const void *bytes, size_t len) {
    if (is_bad(session, bytes, len)) return YMX_E_NULL;
    return ymx_core_write(session, id, bytes == NULL ? &nowhere : bytes, len);
}

int64_t ymx_read(ymx_session *session, uint32_t id, void *buffer, size_t len) {
    if (is_bad(session, buffer, len)) return YMX_E_NULL;
    return ymx_core_read(session, id, buffer == NULL ? &nowhere : buffer, len);
}

int64_t ymx_feed_end(ymx_session *session) {
    return session == NULL ? YMX_E_NULL : ymx_core_feed_end(session);
}

/* The proved function gives the session back as it was, so it may be const here. */
int64_t ymx_due(const ymx_session *session) {
    return session == NULL ? YMX_E_NULL : ymx_core_due((ymx_session *)session);
}

int64_t ymx_status(const ymx_session *session) {
    return session == NULL ? YMX_E_NULL : ymx_core_status((ymx_session *)session);
}

int64_t ymx_open(ymx_session *session) {
    return session == NULL ? YMX_E_NULL : ymx_core_open(session);
}

int64_t ymx_accept(ymx_session *session) {
    return session == NULL ? YMX_E_NULL : ymx_core_accept(session);
}

int64_t ymx_offered_count(const ymx_session *session) {
    return session == NULL ? YMX_E_NULL : ymx_core_offered_count((ymx_session *)session);
}

int64_t ymx_room(const ymx_session *session, uint32_t id) {
    return session == NULL ? YMX_E_NULL : ymx_core_room((ymx_session *)session, id);
}

int64_t ymx_is_at_end(const ymx_session *session, uint32_t id) {
    return session == NULL ? YMX_E_NULL : ymx_core_is_at_end((ymx_session *)session, id);
}

int64_t ymx_has_ended(const ymx_session *session, uint32_t id) {
    return session == NULL ? YMX_E_NULL : ymx_core_has_ended((ymx_session *)session, id);
}

int64_t ymx_unsent(const ymx_session *session, uint32_t id) {
    return session == NULL ? YMX_E_NULL : ymx_core_unsent((ymx_session *)session, id);
}

int64_t ymx_unsent_total(const ymx_session *session) {
    return session == NULL ? YMX_E_NULL : ymx_core_unsent_total((ymx_session *)session);
}

int64_t ymx_next_of(const ymx_session *session, uint32_t id) {
    return session == NULL ? YMX_E_NULL : ymx_core_next_of((ymx_session *)session, id);
}

int64_t ymx_is_acknowledged(const ymx_session *session, uint32_t id) {
    return session == NULL ? YMX_E_NULL : ymx_core_is_acknowledged((ymx_session *)session, id);
}

int64_t ymx_is_reset(const ymx_session *session, uint32_t id) {
    return session == NULL ? YMX_E_NULL : ymx_core_is_reset((ymx_session *)session, id);
}

int64_t ymx_opens_left(const ymx_session *session) {
    return session == NULL ? YMX_E_NULL : ymx_core_opens_left((ymx_session *)session);
}

int64_t ymx_is_peer_away(const ymx_session *session) {
    return session == NULL ? YMX_E_NULL : ymx_core_is_peer_away((ymx_session *)session);
}

int64_t ymx_unread_count(const ymx_session *session, uint32_t id) {
    return session == NULL ? YMX_E_NULL : ymx_core_unread_count((ymx_session *)session, id);
}

/* What was freed lies with malloc. glibc's may keep it, dirty as it is, for the next block that is asked for: this has the
 * system take it. */
static void hand_back(void) {
    if (malloc_trim != NULL) malloc_trim(0);
}

int64_t ymx_shrink(ymx_session *session, uint32_t id) {
    if (session == NULL) return YMX_E_NULL;
    int64_t answer = ymx_core_shrink(session, id);
    if (answer == 1) hand_back();
    return answer;
}

int64_t ymx_shrink_spare(ymx_session *session) {
    if (session == NULL) return YMX_E_NULL;
    int64_t answer = ymx_core_shrink_spare(session);
    hand_back();
    return answer;
}

int64_t ymx_streams(const ymx_session *session, uint32_t *ids, size_t len) {
    if (session == NULL || (ids == NULL && len > 0)) return YMX_E_NULL;
    return ymx_core_streams((ymx_session *)session, ids == NULL ? &no_ids : ids, len);
}

/* The address of no bytes leads nowhere, so NULL is written for it. */
int64_t ymx_unread(const ymx_session *session, uint32_t id, const void **bytes) {
    int64_t count;
    if (bytes == NULL) return YMX_E_NULL;
    *bytes = NULL;
    if (session == NULL) return YMX_E_NULL;
    count = ymx_core_unread((ymx_session *)session, id, bytes, 1);
    if (count == 0) *bytes = NULL;
    return count;
}

/* No more bytes wait than YMX_WIDEST_WINDOW, so a larger count takes out the same. */
int64_t ymx_consume(ymx_session *session, uint32_t id, size_t count) {
    if (session == NULL) return YMX_E_NULL;
    return ymx_core_consume(session, id, count > YMX_WIDEST_WINDOW ? YMX_WIDEST_WINDOW : (uint32_t)count);
}

int64_t ymx_finish(ymx_session *session, uint32_t id) {
    return session == NULL ? YMX_E_NULL : ymx_core_finish(session, id);
}

int64_t ymx_reset(ymx_session *session, uint32_t id) {
    return session == NULL ? YMX_E_NULL : ymx_core_reset(session, id);
}

int64_t ymx_forget(ymx_session *session, uint32_t id) {
    return session == NULL ? YMX_E_NULL : ymx_core_forget(session, id);
}

int64_t ymx_release(ymx_session *session, uint32_t id) {
    return session == NULL ? YMX_E_NULL : ymx_core_release(session, id);
}

int64_t ymx_ping(ymx_session *session) {
    return session == NULL ? YMX_E_NULL : ymx_core_ping(session);
}

int64_t ymx_ponged(ymx_session *session, uint32_t number) {
    return session == NULL ? YMX_E_NULL : ymx_core_ponged(session, number);
}

int64_t ymx_go_away(ymx_session *session) {
    return session == NULL ? YMX_E_NULL : ymx_core_go_away(session);
}

int64_t ymx_close(ymx_session *session) {
    return session == NULL ? YMX_E_NULL : ymx_core_close(session);
}

int64_t ymx_touched_new(ymx_touched **out) {
    if (out == NULL) return YMX_E_NULL;
    *out = NULL;
    return ymx_core_touched_new(out);
}

void ymx_touched_free(ymx_touched *touched) {
    if (touched == NULL) return;
    ymx_core_touched_drop(touched);
    rattle_dealloc(touched);
}

int64_t ymx_touched_ids(const ymx_touched *touched, uint32_t *ids, size_t len) {
    if (touched == NULL || (ids == NULL && len > 0)) return YMX_E_NULL;
    return ymx_core_touched_ids((ymx_touched *)touched, ids == NULL ? &no_ids : ids, len);
}

int64_t ymx_touched_is_all(const ymx_touched *touched) {
    return touched == NULL ? YMX_E_NULL : ymx_core_touched_is_all((ymx_touched *)touched);
}

int64_t ymx_touched_has_pong(const ymx_touched *touched) {
    return touched == NULL ? YMX_E_NULL : ymx_core_touched_has_pong((ymx_touched *)touched);
}

int64_t ymx_touched_clear(ymx_touched *touched) {
    return touched == NULL ? YMX_E_NULL : ymx_core_touched_clear(touched);
}

/* A name and a text, which begins with the name. The texts are those of the library's Error (crates/yamux), where it has them. */
struct words { const char *name, *text; };
#define REFUSAL(name, text) [-YMX_E_##name] = {#name, #name ": " text}
#define FAULT(number, text) {"B" #number, "B" #number ": " text}
static const struct words refusals[] = {
    {"OK", "OK: the call was not refused"},
    REFUSAL(NO_STREAM, "no stream has this id, or it was forgotten; give one that open or accept returned"),
    REFUSAL(FINISHED, "the stream was finished here; open another to write more"),
    REFUSAL(RESET, "the stream was cut off; take what came of it for a part"),
    REFUSAL(LOST, "the connection has ended or failed; connect again"),
    REFUSAL(CLOSED, "this side has closed the session; make another"),
    REFUSAL(PEER_AWAY, "the peer takes no more streams; open them in another session"),
    REFUSAL(OPENS_PENDING, "256 streams wait for the peer; open more once it has accepted some"),
    REFUSAL(TOO_MANY, "1,024 streams are there; close some first"),
    REFUSAL(EXHAUSTED, "this session has had all its streams; make another"),
    REFUSAL(PINGS_PENDING, "16 pings wait; ping again once one was answered"),
    REFUSAL(NO_MEMORY, "there was none; free some"),
    [-YMX_WAIT] = {"WAIT", "WAIT: no credit, or nothing there yet; ask again once bytes touched the stream"},
    REFUSAL(BAD_WINDOW, "give a window from 262,144 to 16,777,216 bytes"),
    REFUSAL(BAD_FIRST, "give an odd first id to a client, an even one to a server, or 0"),
    [-YMX_E_NULL] = {"NULL", "NULL: a pointer is NULL that may not be; give one"},
    REFUSAL(BAD_ROLE, "give YMX_CLIENT or YMX_SERVER"),
};
static const struct words faults[] = {
    FAULT(1, "a frame's version is not 0; see that the peer speaks yamux"),
    FAULT(2, "a frame's type is above 3; see that the peer speaks yamux"),
    FAULT(3, "a SYN for stream 0, or for an id of this side's; see that the peer has the other role"),
    FAULT(4, "a SYN for a stream that is there"),
    FAULT(5, "Data beyond the window"),
    FAULT(6, "a credit above 4,294,967,295 bytes"),
    FAULT(7, "a Go Away code above 2"),
    FAULT(8, "the peer says that it found a protocol error"),
    FAULT(9, "the peer says that it has an internal error"),
};
static const struct words unknown = {"UNKNOWN", "UNKNOWN: no such number"};

static const struct words *of_code(int64_t code) {
    if (code >= 0) return &refusals[0];
    return code < YMX_E_BAD_ROLE ? &unknown : &refusals[-code];
}

static const struct words *of_fault(int64_t fault) {
    if (fault < YMX_FAULT_BAD_VERSION || fault > YMX_FAULT_PEER_SAW_INTERNAL_ERROR) return &unknown;
    return &faults[fault - YMX_FAULT_BAD_VERSION];
}

const char *ymx_error_name(int64_t code) { return of_code(code)->name; }
const char *ymx_refusal_text(int64_t code) { return of_code(code)->text; }
const char *ymx_fault_name(int64_t fault) { return of_fault(fault)->name; }
const char *ymx_fault_text(int64_t fault) { return of_fault(fault)->text; }

const char *ymx_version(void) {
    return TEXT(YMX_VERSION_MAJOR) "." TEXT(YMX_VERSION_MINOR) "." TEXT(YMX_VERSION_PATCH);
}

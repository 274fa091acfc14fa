/* NULL where a call allows it, and where it doesn't; and what a session says before anything was sent. */
#include "check.h"

int main(void) {
    ymx_session *s, *none = NULL;
    unsigned char byte = 7;
    CHECK(ymx_new(YMX_CLIENT, YMX_LEAST_WINDOW, 0, NULL) == YMX_E_NULL);
    s = (ymx_session *)&byte;
    CHECK(ymx_new(YMX_CLIENT, YMX_LEAST_WINDOW - 1, 0, &s) == YMX_E_BAD_WINDOW && s == NULL);
    CHECK(ymx_new(YMX_CLIENT, YMX_WIDEST_WINDOW + 1, 2, &s) == YMX_E_BAD_WINDOW && s == NULL);
    CHECK(ymx_new(YMX_CLIENT, YMX_LEAST_WINDOW, 2, &s) == YMX_E_BAD_FIRST && s == NULL);
    CHECK(ymx_new(YMX_SERVER, YMX_WIDEST_WINDOW, 1, &s) == YMX_E_BAD_FIRST && s == NULL);

    CHECK(ymx_new(YMX_SERVER, YMX_WIDEST_WINDOW, 4, &s) == 0 && ymx_open(s) == 4 && ymx_open(s) == 6);
    ymx_free(s);
    CHECK(ymx_new(YMX_CLIENT, YMX_LEAST_WINDOW, 0, &s) == 0 && ymx_open(s) == 1);

    /* bytes at NULL, none and one */
    CHECK(ymx_feed(s, NULL, 0) == 0 && ymx_feed(s, NULL, 1) == YMX_E_NULL);
    CHECK(ymx_emit(s, NULL, 0) == 0 && ymx_emit(s, NULL, 1) == YMX_E_NULL);
    CHECK(ymx_write(s, 1, NULL, 0) == 0 && ymx_write(s, 1, NULL, 1) == YMX_E_NULL);
    CHECK(ymx_read(s, 1, NULL, 0) == 0 && ymx_read(s, 1, NULL, 1) == YMX_E_NULL);
    CHECK(ymx_read(s, 1, &byte, 1) == YMX_WAIT && byte == 7);
    CHECK(ymx_write(s, 9, NULL, 0) == YMX_E_NO_STREAM && ymx_read(s, 9, NULL, 0) == YMX_E_NO_STREAM);

    /* no session */
    CHECK(ymx_feed(none, &byte, 1) == YMX_E_NULL && ymx_feed_end(none) == YMX_E_NULL);
    CHECK(ymx_emit(none, &byte, 1) == YMX_E_NULL && ymx_due(none) == YMX_E_NULL);
    CHECK(ymx_open(none) == YMX_E_NULL && ymx_accept(none) == YMX_E_NULL);
    CHECK(ymx_write(none, 1, &byte, 1) == YMX_E_NULL && ymx_read(none, 1, &byte, 1) == YMX_E_NULL);
    CHECK(ymx_finish(none, 1) == YMX_E_NULL && ymx_reset(none, 1) == YMX_E_NULL && ymx_forget(none, 1) == YMX_E_NULL);
    CHECK(ymx_ping(none) == YMX_E_NULL && ymx_ponged(none, 0) == YMX_E_NULL && ymx_go_away(none) == YMX_E_NULL);
    CHECK(ymx_close(none) == YMX_E_NULL && ymx_status(none) == YMX_E_NULL && ymx_release(none, 1) == YMX_E_NULL);
    CHECK(ymx_has_ended(none, 1) == YMX_E_NULL && ymx_unsent(none, 1) == YMX_E_NULL && ymx_is_reset(none, 1) == YMX_E_NULL);
    CHECK(ymx_unsent_total(none) == YMX_E_NULL && ymx_unread_count(none, 1) == YMX_E_NULL);
    CHECK(ymx_next_of(none, 1) == YMX_E_NULL && ymx_next_of(s, 0) == 0 && ymx_next_of(s, 9) == 0);
    CHECK(ymx_opens_left(none) == YMX_E_NULL && ymx_is_peer_away(none) == YMX_E_NULL);
    CHECK(ymx_shrink(none, 1) == YMX_E_NULL && ymx_shrink_spare(none) == YMX_E_NULL);
    CHECK(ymx_is_acknowledged(none, 1) == YMX_E_NULL && ymx_streams(none, NULL, 0) == YMX_E_NULL && ymx_streams(s, NULL, 1) == YMX_E_NULL);

    /* readiness: no session, no note, nowhere to write an address */
    ymx_touched *touched, *no_note = NULL;
    const void *bytes = &byte;
    uint32_t id = 5;
    CHECK(ymx_touched_new(NULL) == YMX_E_NULL && ymx_touched_new(&touched) == 0 && touched != NULL);
    CHECK(ymx_feed_touching(none, &byte, 1, touched) == YMX_E_NULL && ymx_feed_touching(s, &byte, 1, no_note) == YMX_E_NULL);
    CHECK(ymx_feed_touching(s, NULL, 1, touched) == YMX_E_NULL && ymx_feed_touching(s, NULL, 0, touched) == 0);
    CHECK(ymx_unread(none, 1, &bytes) == YMX_E_NULL && bytes == NULL && ymx_unread(s, 1, NULL) == YMX_E_NULL);
    CHECK(ymx_consume(none, 1, 1) == YMX_E_NULL && ymx_room(none, 1) == YMX_E_NULL && ymx_is_at_end(none, 1) == YMX_E_NULL);
    CHECK(ymx_offered_count(none) == YMX_E_NULL && ymx_offered_count(s) == 0);
    CHECK(ymx_touched_ids(no_note, &id, 1) == YMX_E_NULL && ymx_touched_ids(touched, NULL, 1) == YMX_E_NULL);
    CHECK(ymx_touched_ids(touched, NULL, 0) == 0 && ymx_touched_ids(touched, &id, 1) == 0 && id == 5);
    CHECK(ymx_touched_is_all(no_note) == YMX_E_NULL && ymx_touched_has_pong(no_note) == YMX_E_NULL);
    CHECK(ymx_touched_clear(no_note) == YMX_E_NULL && ymx_touched_is_all(touched) == 0);
    ymx_touched_free(no_note);
    ymx_touched_free(touched);
    ymx_free(none);
    ymx_free(s);
    return 0;
}

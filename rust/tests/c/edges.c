/*
 * Empty buffers as NULL, buffers at odd addresses, what a refusal leaves in the caller's structs, a state that is moved or
 * overwritten. Prints the line that fails.
 */
#include "hyphaloom.h"

#include <stdio.h>
#include <string.h>

#define WANT(fact)                                                                                                             \
    do {                                                                                                                       \
        if (!(fact)) {                                                                                                         \
            printf("line %d: %s\n", __LINE__, #fact);                                                                          \
            return 1;                                                                                                          \
        }                                                                                                                      \
    } while (0)

#define STATE_LEN HYPHALOOM_STATE_BYTES
#define POOL_LEN HYPHALOOM_POOL_BYTES

static uint8_t state_room[STATE_LEN + 1], pool_room[POOL_LEN + 1];

/* at odd addresses */
static uint8_t *const state = state_room + 1, *const pool = pool_room + 1;

static int empty_buffers(void)
{
    struct hyphaloom_send send = {9, 1, HYPHALOOM_TAG_FRESH, 0, 1, 0, 0, 0, 0, 0};
    struct hyphaloom_fragmenter fragmenter;
    struct hyphaloom_handle handle = {5, 5};
    struct hyphaloom_message message;
    uint8_t packet[5];
    uint64_t len = 99;
    WANT(hyphaloom_new(NULL, 0, 8, 255, 0) == HYPHALOOM_NO_SPACE);
    WANT(hyphaloom_new(state, STATE_LEN, 8, 255, 0) == HYPHALOOM_OK);
    WANT(!hyphaloom_is_local_dest(state, STATE_LEN, NULL, 0));
    WANT(hyphaloom_start_send(state, STATE_LEN, &send, &fragmenter) == HYPHALOOM_OK);
    WANT(hyphaloom_fragment(&fragmenter, NULL, 0, NULL, 0, &len) == HYPHALOOM_NO_SPACE && len == 99);
    WANT(hyphaloom_fragment(&fragmenter, NULL, 0, packet, sizeof packet, &len) == HYPHALOOM_OK && len == 5);
    WANT(memcmp(packet, "\x01\x09\x08\xD9\x01", 5) == 0);
    WANT(hyphaloom_fragment(&fragmenter, NULL, 0, NULL, 0, &len) == HYPHALOOM_OK && len == 0);
    WANT(hyphaloom_receive(state, STATE_LEN, NULL, 0, NULL, 0, &handle) == HYPHALOOM_POOL_SHORT);
    WANT(hyphaloom_receive(state, STATE_LEN, pool, POOL_LEN, NULL, 0, &handle) == HYPHALOOM_INVALID_INPUT);
    WANT(hyphaloom_fetch_message(state, STATE_LEN, NULL, 0, 0, 1, &message) == HYPHALOOM_POOL_SHORT);
    WANT(handle.index == 5 && handle.issue == 5);
    hyphaloom_get_deferred_bycookie(state, STATE_LEN, NULL, 0, &handle);
    WANT(handle.index == 0 && handle.issue == 0);
    return 0;
}

static int refusals_leave_structs(void)
{
    struct hyphaloom_send send = {256, 1, HYPHALOOM_TAG_FRESH, 0, 1, 0, 0, 0, 0, 0};
    struct hyphaloom_fragmenter fragmenter, before;
    struct hyphaloom_next next = {7, 7};
    memset(&before, 0xEE, sizeof before);
    fragmenter = before;
    WANT(hyphaloom_start_send(state, STATE_LEN, &send, &fragmenter) == HYPHALOOM_INVALID_INPUT);
    send.dest = 9;
    send.tag_kind = 3;
    WANT(hyphaloom_start_send(state, STATE_LEN, &send, &fragmenter) == HYPHALOOM_INVALID_INPUT);
    WANT(memcmp(&fragmenter, &before, sizeof before) == 0);
    WANT(hyphaloom_update(state, STATE_LEN, 50, &next) == HYPHALOOM_OK && next.millis == 100 && !next.expired);
    WANT(hyphaloom_update(state, STATE_LEN, 49, &next) == HYPHALOOM_INVALID_INPUT && next.millis == 100);
    return 0;
}

static int messages_at_odd_addresses(void)
{
    static const uint8_t room[] = {0xEE, 0x01, 0x08, 0x09, 0xC9, 0x81, 0x2A, 0x2B};
    struct hyphaloom_handle handle;
    struct hyphaloom_message m;
    WANT(hyphaloom_receive(state, STATE_LEN, pool, POOL_LEN, room + 1, 7, &handle) == HYPHALOOM_OK);
    WANT(handle.index == 0 && handle.issue == 1);
    WANT(hyphaloom_fetch_message(state, STATE_LEN, pool, POOL_LEN, 0, 1, &m) == HYPHALOOM_OK);
    WANT(m.source == 9 && m.dest == 8 && m.owner == 1 && m.tag == 1 && m.typ == 1 && m.ic == 1 && m.has_cookie == 0);
    WANT(m.at == 0 && m.len == 2 && pool[0] == 0x2A && pool[1] == 0x2B);
    WANT(hyphaloom_finished_receive(state, STATE_LEN, 0, 1) == HYPHALOOM_OK);
    WANT(hyphaloom_finished_receive(state, STATE_LEN, 0, 1) == HYPHALOOM_BAD_ARGUMENT);
    return 0;
}

/* A message half in and a request's flow move with the state's bytes to another buffer; the old one is overwritten. */
static int a_moved_state_works_on(void)
{
    static const uint8_t opening[] = {0x01, 0x08, 0x09, 0x89, 0x01, 0x2A}, closing[] = {0x01, 0x08, 0x09, 0x59, 0x2B};
    static const uint8_t reply[] = {0x01, 0x08, 0x0A, 0xC1, 0x01};
    static uint8_t other[STATE_LEN + 3];
    struct hyphaloom_send send = {10, 1, HYPHALOOM_TAG_FRESH, 0, 1, 0, 0, 0, 1, 77};
    struct hyphaloom_fragmenter fragmenter;
    struct hyphaloom_handle handle;
    struct hyphaloom_message m;
    WANT(hyphaloom_new(state, STATE_LEN, 8, 255, 0) == HYPHALOOM_OK);
    WANT(hyphaloom_is_kept(state, STATE_LEN));
    WANT(hyphaloom_start_send(state, STATE_LEN, &send, &fragmenter) == HYPHALOOM_OK && fragmenter.tag == 1);
    WANT(hyphaloom_receive(state, STATE_LEN, pool, POOL_LEN, opening, sizeof opening, &handle) == HYPHALOOM_OK);
    memset(other, 0xEE, sizeof other);
    memcpy(other, state, STATE_LEN);
    memset(state, 0xEE, STATE_LEN);
    WANT(hyphaloom_is_kept(other, sizeof other) && !hyphaloom_is_kept(state, STATE_LEN));
    WANT(hyphaloom_receive(other, sizeof other, pool, POOL_LEN, closing, sizeof closing, &handle) == HYPHALOOM_OK);
    WANT(hyphaloom_fetch_message(other, sizeof other, pool, POOL_LEN, handle.index, handle.issue, &m) == HYPHALOOM_OK);
    WANT(m.source == 9 && m.len == 2 && pool[m.at] == 0x2A && pool[m.at + 1] == 0x2B);
    WANT(hyphaloom_receive(other, sizeof other, pool, POOL_LEN, reply, sizeof reply, &handle) == HYPHALOOM_OK);
    WANT(hyphaloom_fetch_message(other, sizeof other, pool, POOL_LEN, handle.index, handle.issue, &m) == HYPHALOOM_OK);
    WANT(m.source == 10 && m.has_cookie == 1 && m.cookie == 77);
    WANT(hyphaloom_is_kept(other, sizeof other));
    return 0;
}

static int what_is_no_state(void)
{
    WANT(!hyphaloom_is_kept(NULL, 0));
    WANT(hyphaloom_new(state, STATE_LEN, 8, 255, 0) == HYPHALOOM_OK);
    WANT(hyphaloom_is_kept(state, STATE_LEN) && !hyphaloom_is_kept(state, STATE_LEN - 1));
    state[1] = 8; /* the tag counter */
    WANT(!hyphaloom_is_kept(state, STATE_LEN));
    WANT(hyphaloom_new(state, STATE_LEN, 8, 4, 0) == HYPHALOOM_BAD_ARGUMENT && !hyphaloom_is_kept(state, STATE_LEN));
    WANT(hyphaloom_new(state, STATE_LEN, 8, 255, 0) == HYPHALOOM_OK && hyphaloom_is_kept(state, STATE_LEN));
    return 0;
}

int main(void)
{
    return empty_buffers() || refusals_leave_structs() || messages_at_odd_addresses() || a_moved_state_works_on() ||
           what_is_no_state();
}

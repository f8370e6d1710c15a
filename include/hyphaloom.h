/*
 * Hyphaloom: the IO-less core of an MCTP stack (DMTF DSP0236).
 *
 * The core cuts messages into packets, joins packets into messages, keeps the flows of requests that wait for a reply, and
 * tells what has timed out. It drives no wire and has no heap. Its state and its message bodies lie in buffers that the
 * caller lends.
 *
 * THE PREMISE. Every call answers any numbers, packets, handles and lengths, in any order. It asks only this of the caller:
 *
 *   - `state` holds at least 2,248 bytes, which hyphaloom_new has filled and only these calls have changed since. Of all
 *     calls only hyphaloom_new and hyphaloom_is_kept look at `state_len`; the others trust it.
 *   - Every pointer leads to as many bytes as its length says; a pointer to a struct or to a number leads to one. The buffers
 *     of one call do not overlap.
 *
 * A state holds no addresses. Between calls it may be moved or copied to another buffer, or kept over a warm start.
 *
 * Where the premise is broken nothing is promised: a call may answer wrongly, or write outside the buffers that it is lent. Two
 * overwritten bytes of a state are enough to make hyphaloom_receive write outside the pool. hyphaloom_is_kept tells whether
 * bytes are a state. A board that has kept its state over a warm start, or that suspects its memory, makes this call before any
 * other.
 *
 * Byte buffers need no alignment. A pointer whose length is 0 is not followed.
 *
 * ANSWERS. Where a call returns a refusal, 0 is HYPHALOOM_OK. A refusal leaves every buffer and every struct as it was. It
 * leaves the state as it was too, except for what the call's comment names and for the counter that orders events.
 *
 * NUMBERS. In the structs a yes or no is written 1 or 0, and any number but 0 is read as yes.
 *
 * The calls keep nothing between them but the lent state, so any number of stacks live side by side. One stack is used by one
 * thread at a time. The archive to link is for 64-bit machines that store the lowest byte first. It needs memset, and on riscv64
 * memcpy too.
 */
#ifndef HYPHALOOM_H
#define HYPHALOOM_H

#include <stdbool.h>
#include <stddef.h>
#include <stdint.h>

#ifdef __cplusplus
extern "C" {
#endif

/* The least size of the state buffer. What lies past these bytes is never read or written. */
#define HYPHALOOM_STATE_BYTES 2248

/* Messages that are collected or kept at a time, and the longest body of one. */
#define HYPHALOOM_SLOTS 4
#define HYPHALOOM_BODY_BYTES 1032

/* The least size of the pool: slot i keeps its body from byte 1,032 i on. A longer pool's tail is never read or written. */
#define HYPHALOOM_POOL_BYTES 4128

/* Requests that wait for a reply. */
#define HYPHALOOM_FLOWS 64

/* The least and the largest MTU of a send: how long its packets may be, header included. */
#define HYPHALOOM_MIN_MTU 5
#define HYPHALOOM_MAX_MTU 255

/* A message, or a flow with expiry, expires when it is older than its timeout. The next check is at most an interval away. */
#define HYPHALOOM_REASSEMBLY_TIMEOUT_MILLIS 6000
#define HYPHALOOM_FLOW_TIMEOUT_MILLIS 6000
#define HYPHALOOM_INTERVAL_MILLIS 100

/* Endpoint IDs that are no endpoint's own. */
#define HYPHALOOM_EID_NULL 0
#define HYPHALOOM_EID_ANY 255

/* Why a call says no. */
enum hyphaloom_refusal {
    HYPHALOOM_OK = 0,
    HYPHALOOM_INVALID_INPUT = 1,   /* bad packet, type, tag, EID, payload or clock */
    HYPHALOOM_NO_SPACE = 2,        /* no slot, message too long, buffer too short */
    HYPHALOOM_BAD_ARGUMENT = 3,    /* MTU, owned tag that expires, handle, cancel under a handle */
    HYPHALOOM_TAG_UNAVAILABLE = 4, /* no free tag for the peer, or the table of flows is full */
    HYPHALOOM_UNREACHABLE = 5,     /* reply without a flow */
    HYPHALOOM_POOL_SHORT = 6       /* pool under 4,128 bytes */
};

/* Which tag a send asks for. */
enum hyphaloom_tag_kind {
    HYPHALOOM_TAG_FRESH = 0,  /* a free one, owned; `tag` is not looked at */
    HYPHALOOM_TAG_OWNED = 1,  /* this one, owned: a request */
    HYPHALOOM_TAG_UNOWNED = 2 /* this one, the peer's: a reply */
};

/* What hyphaloom_start_send is asked for. */
struct hyphaloom_send {
    uint64_t dest;
    uint64_t typ;
    uint64_t tag_kind;
    uint64_t tag;
    uint64_t expires; /* whether the flow expires; ignored for a reply */
    uint64_t ic;
    uint64_t has_mtu; /* 0: the stack's MTU is taken; otherwise the smaller of the two */
    uint64_t mtu;
    uint64_t has_cookie;
    uint64_t cookie;
};

/* A message on its way out. hyphaloom_start_send fills it, hyphaloom_fragment moves it on. Read it freely. */
struct hyphaloom_fragmenter {
    uint64_t src;
    uint64_t dest;
    uint64_t typ;
    uint64_t owner; /* TO: whether the tag is this side's */
    uint64_t tag;
    uint64_t ic;
    uint64_t seq;
    uint64_t mtu;
    uint64_t first;
    uint64_t done;
    uint64_t has_cookie;
    uint64_t cookie;
    uint64_t payload_used;
};

/* A message that has come in. Its body is `len` bytes of the pool from byte `at`. */
struct hyphaloom_message {
    uint64_t source;
    uint64_t dest;
    uint64_t owner; /* TO: yes for a request, no for a reply */
    uint64_t tag;
    uint64_t typ;
    uint64_t ic;
    uint64_t has_cookie;
    uint64_t cookie;
    uint64_t at;
    uint64_t len;
};

/* Names a message that has come in. Each handle that goes out has a new issue number, from 1 on, so an old one is refused. */
struct hyphaloom_handle {
    uint64_t index;
    uint64_t issue; /* 0: no handle */
};

/* What hyphaloom_update tells. */
struct hyphaloom_next {
    uint64_t millis; /* 0 to 100: call again after so long */
    uint64_t expired;
};

/*
 * Makes a new stack in the first 2,248 bytes of `state`. `own` is its EID and may be any number. `mtu` is for sends that name
 * none.
 * BAD_ARGUMENT: MTU under 5. NO_SPACE: the buffer is too short.
 */
uint8_t hyphaloom_new(uint8_t *state, size_t state_len, uint8_t own, size_t mtu, uint64_t clock);

/*
 * Whether the bytes are a state, so that every call answers on it as its comment says and writes nothing but what it is lent.
 * Any bytes may be asked about; a buffer under 2,248 bytes is no state. It changes nothing.
 * It is no checksum: where overwritten bytes make another state, the answer is yes. It does not look at what only a stack that
 * has come from hyphaloom_new call by call is sure to have: one flow for a peer and tag, no handle out with number 0 or with a
 * number that has yet to go out, no stamp later than the clock. Nor does it tell a warm start from a cold one: bytes that are
 * all 0 are a state, with own EID 0 and MTU 0, on which no send succeeds.
 * A state kept over a warm start needs its pool, where the bodies lie. Handles that were out are still out, and
 * hyphaloom_update still refuses a clock below the last one.
 */
bool hyphaloom_is_kept(const uint8_t *state, size_t state_len);

/*
 * Sets the own EID.
 * INVALID_INPUT: not 8 to 254.
 */
uint8_t hyphaloom_set_eid(uint8_t *state, size_t state_len, uint8_t eid);

/* The own EID. */
uint8_t hyphaloom_eid(const uint8_t *state, size_t state_len);

/* Whether the packet has a good header and its destination is the own EID or 0. */
bool hyphaloom_is_local_dest(const uint8_t *state, size_t state_len, const uint8_t *packet, size_t packet_len);

/*
 * Starts a send and fills `fragmenter`. A request (fresh or owned tag) puts up a flow, which lets its reply in and gives it
 * the cookie. An owned tag whose flow stands without expiry is used again; that flow keeps its first cookie.
 * INVALID_INPUT: type above 127, given tag above 7, destination above 255, or no such kind of tag; nothing has changed.
 * TAG_UNAVAILABLE: no tag is free for this peer, or 64 flows stand; the tag counter of a fresh tag has moved.
 * BAD_ARGUMENT: the owned tag's flow stands with an expiry; nothing has changed. Or the smaller MTU is not 5 to 255; the flow
 * stands and the sequence has moved.
 */
uint8_t hyphaloom_start_send(uint8_t *state, size_t state_len, const struct hyphaloom_send *send,
                             struct hyphaloom_fragmenter *fragmenter);

/*
 * Writes the next packet to the front of `out` and its length to `len`; 0 there says that all is sent. Lend the same payload
 * at every step. Bytes of `out` past the packet stay. A later packet in a buffer of 4 bytes is a header alone.
 * NO_SPACE: `out` has under 5 bytes (first packet) or under 4 (later). INVALID_INPUT: the payload is shorter than what is sent
 * already. The fragmenter has not moved.
 */
uint8_t hyphaloom_fragment(struct hyphaloom_fragmenter *fragmenter, const uint8_t *payload, size_t payload_len, uint8_t *out,
                           size_t out_len, uint64_t *len);

/*
 * Takes the clock, in milliseconds, and tells after how long to call again. When the time that the last call told has passed,
 * and in the first call, it drops what is older than its timeout: incomplete messages, counted from their opening packet; whole
 * ones with no handle out, from their closing packet; flows with expiry, from their send.
 * INVALID_INPUT: the clock is below the last one.
 */
uint8_t hyphaloom_update(uint8_t *state, size_t state_len, uint64_t clock, struct hyphaloom_next *next);

/*
 * Takes a packet. If it closes a message, `handle` names that message; otherwise its issue is 0. Give every handle back, with
 * hyphaloom_finished_receive or hyphaloom_return_handle, or its slot stays taken. A reply's flow goes when the reply is whole.
 * Lend the same pool every time, and let nothing else write it.
 * POOL_SHORT: pool under 4,128 bytes; tested first.
 * NO_SPACE: no slot collects this packet's key and none is empty; tested before the header. Or the body grows past 1,032
 * bytes; the slot is freed.
 * INVALID_INPUT: for a message that no slot collects, a bad header, a destination neither own nor 0, source 255, or no SOM.
 * Or SOM with 4 bytes only, or not the sequence expected; the slot is freed.
 * UNREACHABLE: a reply that no slot collects and no flow waits for.
 */
uint8_t hyphaloom_receive(uint8_t *state, size_t state_len, uint8_t *pool, size_t pool_len, const uint8_t *packet,
                          size_t packet_len, struct hyphaloom_handle *handle);

/*
 * Gives out the handle of the earliest message kept from that source under that tag, with `owner` (TO) as given. Issue 0 says
 * that there is none. Messages whose handle is out already are passed over. It refuses nothing: a tag above 7 finds none.
 */
void hyphaloom_get_deferred(uint8_t *state, size_t state_len, uint8_t source, uint8_t owner, uint8_t tag,
                            struct hyphaloom_handle *handle);

/* The same for a message whose cookie is one of the list. */
void hyphaloom_get_deferred_bycookie(uint8_t *state, size_t state_len, const uint64_t *cookies, size_t cookies_len,
                                     struct hyphaloom_handle *handle);

/*
 * Tells the message that a handle names, and changes nothing else.
 * POOL_SHORT: pool under 4,128 bytes; tested first. BAD_ARGUMENT: not a handle that is out.
 */
uint8_t hyphaloom_fetch_message(const uint8_t *state, size_t state_len, const uint8_t *pool, size_t pool_len, size_t index,
                                uint64_t issue, struct hyphaloom_message *message);

/*
 * Gives a handle back and drops its message.
 * BAD_ARGUMENT: not a handle that is out.
 */
uint8_t hyphaloom_finished_receive(uint8_t *state, size_t state_len, size_t index, uint64_t issue);

/*
 * Gives a handle back and keeps its message for hyphaloom_get_deferred, until it expires.
 * BAD_ARGUMENT: not a handle that is out.
 */
uint8_t hyphaloom_return_handle(uint8_t *state, size_t state_len, size_t index, uint64_t issue);

/*
 * Changes the cookie of the message that a handle names; `has_cookie` 0 takes it away.
 * BAD_ARGUMENT: not a handle that is out.
 */
uint8_t hyphaloom_set_cookie(uint8_t *state, size_t state_len, size_t index, uint64_t issue, uint8_t has_cookie,
                             uint64_t cookie);

/*
 * Drops the flow of a request to `source` under `tag`, if there is one, and what has come in of its reply.
 * INVALID_INPUT: tag above 7. BAD_ARGUMENT: a handle of such a reply is out; replies in lower slots are gone, the flow stands.
 */
uint8_t hyphaloom_cancel_flow(uint8_t *state, size_t state_len, uint8_t source, uint8_t tag);

/* How many of the eight tags are free for a peer. */
uint8_t hyphaloom_free_tags(const uint8_t *state, size_t state_len, uint8_t peer);

#ifdef __cplusplus
}
#endif

#endif

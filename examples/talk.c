/*
 * Two stacks exchange a request and its reply, and each packet is printed.
 *
 *     cc -std=c99 -Wall -Wextra -Werror -Iinclude examples/talk.c target/native/libhyphaloom.a -o talk
 */
#include "hyphaloom.h"

#include <inttypes.h>
#include <stdio.h>
#include <stdlib.h>

/* A stack and its pool. */
struct node {
    uint8_t state[HYPHALOOM_STATE_BYTES];
    uint8_t pool[HYPHALOOM_POOL_BYTES];
};

static struct node board, blade;

/* Ends the program where a call says no. */
static void must(const char *call, uint8_t refusal)
{
    if (refusal != HYPHALOOM_OK) {
        fprintf(stderr, "%s: refusal %u\n", call, (unsigned)refusal);
        exit(1);
    }
}

static void print_packet(const uint8_t *packet, size_t len)
{
    size_t i;
    for (i = 0; i < len; i++)
        printf(i == 0 ? "  %02X" : " %02X", (unsigned)packet[i]);
    printf("\n");
}

/* Sends all packets of a payload to a node, and gives the handle of the message that they make there. */
static struct hyphaloom_handle carry(struct hyphaloom_fragmenter *send, const char *payload, size_t payload_len, struct node *to)
{
    struct hyphaloom_handle handle = {0, 0};
    uint8_t packet[HYPHALOOM_MAX_MTU];
    uint64_t len;
    for (;;) {
        must("fragment", hyphaloom_fragment(send, (const uint8_t *)payload, payload_len, packet, sizeof packet, &len));
        if (len == 0)
            return handle;
        print_packet(packet, len);
        must("receive", hyphaloom_receive(to->state, sizeof to->state, to->pool, sizeof to->pool, packet, len, &handle));
    }
}

static struct hyphaloom_message fetch(const struct node *at, struct hyphaloom_handle handle)
{
    struct hyphaloom_message message;
    must("fetch_message", hyphaloom_fetch_message(at->state, sizeof at->state, at->pool, sizeof at->pool, handle.index,
                                                  handle.issue, &message));
    return message;
}

static void print_message(const struct node *at, const struct hyphaloom_message *message)
{
    printf("%u has it from %" PRIu64 ", type %" PRIu64, (unsigned)hyphaloom_eid(at->state, sizeof at->state), message->source,
           message->typ);
    if (message->has_cookie)
        printf(", cookie %" PRIu64, message->cookie);
    printf(": %.*s\n", (int)message->len, (const char *)at->pool + message->at);
}

/* The board asks the blade; gives the handle of the question there. */
static struct hyphaloom_handle ask(void)
{
    static const char question[] = "who is it?";
    struct hyphaloom_send send = {0};
    struct hyphaloom_fragmenter fragmenter;
    send.dest = 9;
    send.typ = 1;
    send.tag_kind = HYPHALOOM_TAG_FRESH;
    send.expires = 1;
    send.has_cookie = 1;
    send.cookie = 7;
    must("start_send", hyphaloom_start_send(board.state, sizeof board.state, &send, &fragmenter));
    printf("8 asks 9, tag %" PRIu64 "\n", fragmenter.tag);
    return carry(&fragmenter, question, sizeof question - 1, &blade);
}

/* The blade replies under the question's tag; gives the handle of the reply at the board. */
static struct hyphaloom_handle reply(const struct hyphaloom_message *question)
{
    static const char answer[] = "blade 41 in bay 7";
    struct hyphaloom_send send = {0};
    struct hyphaloom_fragmenter fragmenter;
    send.dest = question->source;
    send.typ = question->typ;
    send.tag_kind = HYPHALOOM_TAG_UNOWNED;
    send.tag = question->tag;
    must("start_send", hyphaloom_start_send(blade.state, sizeof blade.state, &send, &fragmenter));
    printf("9 replies to %" PRIu64 ", tag %" PRIu64 "\n", fragmenter.dest, fragmenter.tag);
    return carry(&fragmenter, answer, sizeof answer - 1, &board);
}

int main(void)
{
    struct hyphaloom_handle handle;
    struct hyphaloom_message message;
    must("new", hyphaloom_new(board.state, sizeof board.state, 8, 12, 0));
    must("new", hyphaloom_new(blade.state, sizeof blade.state, 9, 12, 0));

    handle = ask();
    message = fetch(&blade, handle);
    print_message(&blade, &message);
    must("finished_receive", hyphaloom_finished_receive(blade.state, sizeof blade.state, handle.index, handle.issue));

    handle = reply(&message);
    message = fetch(&board, handle);
    print_message(&board, &message);
    must("finished_receive", hyphaloom_finished_receive(board.state, sizeof board.state, handle.index, handle.issue));
    return 0;
}

/* What carries frames between the library and a server: child.c, where the server is a process of
   its own, or inside.c, where it runs in this one. Private to the library. */
#ifndef TISWENOR_TRANSPORT_H
#define TISWENOR_TRANSPORT_H

#include <stddef.h>

#include "tiswenor.h"

enum { MOST_CHANNELS = 62, LONGEST_REQUEST = 8388608, LONGEST_ANSWER = 16777216 };

struct transport;

/* Whether the server reads no more from a channel that it answers with this status. */
static inline int is_last(unsigned char status) {
  return status == tiswenor_malformed || status == tiswenor_unanswered;
}

/* Whether a channel is ended by an exchange that came to this fault, or to this answer. */
static inline int is_end(int fault, const unsigned char *answer) {
  return fault ? fault != tiswenor_out_of_memory : is_last(*answer);
}

#pragma GCC visibility push(hidden) /* a shared library does not show them */

/* Starts a server with that many channels, and hands it its opening request, but for the number of
   the first channel: `opening` is the frame of docs/PROTOCOL.md, whose bytes 4 to 7 are set here.
   NULL for an error, whose number is *fault. */
struct transport *tiswenor_transport_open(const char *server, unsigned channels,
                                          unsigned char *opening, size_t length, int *fault);

/* What is started, where the options name this server. */
const char *tiswenor_transport_program(const char *server);

/* Sends a frame on a channel, if there is one, and waits for the frame that comes back. One call on
   a channel at a time. Gives 0, and the answer without its length, in memory of malloc. Or gives
   tiswenor_out_of_memory, and the answer is lost; tiswenor_bad_answer, or tiswenor_ended. Where
   this is_end, the channel is closed: another exchange on it gives tiswenor_ended. */
int tiswenor_transport_exchange(struct transport *transport, unsigned channel,
                                const unsigned char *frame, size_t length, unsigned char **answer,
                                size_t *answer_length);

/* Whether the server works while the caller does, so that it is worth the while to send a request
   before its answer is needed. */
extern const int tiswenor_transport_works_beside;

/* Sends a frame on a channel. Whether it is on its way: then an exchange of no frame, NULL, waits
   for its answer; if not, the channel is closed. Only where the server works beside. */
int tiswenor_transport_send(struct transport *transport, unsigned channel,
                            const unsigned char *frame, size_t length);

/* Whether this process was forked from the one that opened it. */
int tiswenor_transport_is_forked(const struct transport *transport);

/* How the server ended, for people. Waits up to a second for its end. */
void tiswenor_transport_tell_end(struct transport *transport, char *text, size_t room);

/* Ends all channels, and waits for the server's end. */
void tiswenor_transport_close(struct transport *transport);

#pragma GCC visibility pop

#endif

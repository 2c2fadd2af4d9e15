/* ee_client.h: the rules by which a client of the counter keeps one act one request, as a machine without input or output.
 *
 * The call is proved (crates/ee_client): for all arguments it returns, with exactly the turn that specs/Turns.antt gives.
 * It allocates nothing, keeps nothing between calls and calls nothing, so any thread may call it. The tests run it beside
 * the tellers' page and the Python client (tests/client_machine). This header is written by hand.
 *
 * Link with libee_client.a; it needs only memmove of the C library.
 */
#ifndef EE_CLIENT_H
#define EE_CLIENT_H

#include <stddef.h>
#include <stdint.h>

#ifdef __cplusplus
extern "C" {
#endif

/* What the journal holds. An act has a name of the caller's own, which isn't 0. */
struct ee_client_journal {
    uint64_t next;     /* the least number that no request has had */
    uint64_t number;   /* the open request's number; all that follows is 0 if none is open */
    uint64_t step;     /* how far it moves on if another request has that number */
    uint64_t sent;     /* how often it was sent under that number */
    uint64_t act;      /* the name of its act; 0 if no request is open */
    uint64_t follower; /* the act that follows it once it is done; 0 if none does */
};

enum {
    EE_CLIENT_SUBMIT = 1,     /* act, follower: the teller submits an act, and perhaps one that follows it */
    EE_CLIENT_GO_ON = 2,      /* the client starts, a pause ends, or what was shown was read */
    EE_CLIENT_WRITTEN = 3,    /* the journal is written */
    EE_CLIENT_UNWRITTEN = 4,  /* it can't be written, and is what it was */
    EE_CLIENT_ANSWERED = 5,   /* number, detail: an answer to a sending under this number */
    EE_CLIENT_GIVE_UP = 6,    /* the open request is given up */
    EE_CLIENT_KILLED = 7      /* detail: the client was killed; not 0 if a write that it cut is in the journal */
};

/* The detail of an answer. */
enum {
    EE_CLIENT_DONE = 1,    /* a reply that is no refusal */
    EE_CLIENT_REFUSED = 2, /* a refusal other than NumberReused */
    EE_CLIENT_REUSED = 3,  /* NumberReused */
    EE_CLIENT_FAULT = 4,   /* a fault of what was sent, or that this user may not do it */
    EE_CLIENT_NOTHING = 5  /* no answer, or one that says nothing of the request */
};

struct ee_client_event {
    uint64_t kind, number, act, follower, detail;
};

/* Actions. */
enum {
    EE_CLIENT_WAIT = 0,
    EE_CLIENT_WRITE = 1,  /* write the journal `written` */
    EE_CLIENT_SEND = 2,   /* send `act` under `number` */
    EE_CLIENT_SHOW = 3,   /* show `outcome` of `act`: 1 done, 2 refused, 3 not done, 4 given up */
    EE_CLIENT_REFUSE = 4  /* another request is open, none is, or there is no number left */
};

struct ee_client_turn {
    uint64_t action, number, act, outcome;
    struct ee_client_journal journal; /* what the journal holds */
    struct ee_client_journal written; /* what is written; the same if nothing is */
};

/* Writes the last turn of a client that starts with a journal, after `count` events in order. `most` is the greatest
 * number that its journal can hold. */
void ee_client_turn(uint64_t most, const struct ee_client_journal *journal, const struct ee_client_event *events,
                    size_t count, struct ee_client_turn *turn);

#ifdef __cplusplus
}
#endif

#endif

/*
 * Each call runs in a world with guard bytes, of which a copy says what it is to become: whatever a call changes beyond that shows. In
 * the common part of C99 and C++.
 */
#ifndef WORLD_H
#define WORLD_H

#include "build.h"
#include "check.h"
#include "feohanna.h"

struct world {
    uint8_t guard0[64];
    struct feo_assoc a;
    uint8_t guard1[64];
    struct feo_answer r;
    uint8_t guard2[64];
    uint8_t gather[FEO_BUFFER];
    uint8_t guard3[64];
    uint8_t out[FEO_BUFFER];
    uint8_t guard4[64];
};

static struct world w, want;

static inline int timed(unsigned state)
{
    return state == 2 || state == 13;
}

/* A sound association in this state, all else filled with a pattern. */
static inline void given(unsigned state)
{
    size_t i;
    uint8_t *p = (uint8_t *)&w;
    for (i = 0; i < sizeof w; i++)
        p[i] = (uint8_t)(i * 37 + state);
    feo_fresh(&w.a);
    w.a.state = (uint8_t)state;
    w.a.artim = (uint8_t)timed(state);
}

static inline void before(void)
{
    memcpy(&want, &w, sizeof w);
}

static inline void told(int line, uint8_t got, unsigned refusal, unsigned action, size_t used, size_t sent, size_t shown)
{
    want.r.refusal = (uint8_t)refusal;
    want.r.action = (uint8_t)action;
    want.r.used = used;
    want.r.sent = sent;
    want.r.shown = shown;
    check(line, got == refusal, "the refusal that is returned");
    check(line, w.r.refusal == refusal, "refusal");
    check(line, w.r.action == action, "action");
    check(line, w.r.used == used, "used");
    check(line, w.r.sent == sent, "sent");
    check(line, w.r.shown == shown, "shown");
    check(line, memcmp(w.out, want.out, FEO_BUFFER) == 0, "out");
    check(line, memcmp(w.gather, want.gather, FEO_BUFFER) == 0, "gather");
    check(line, w.a.state == want.a.state, "state");
    check(line, memcmp(&w, &want, sizeof w) == 0, "the world, all of it");
}

/* Nothing changes, and the numbers handed out are 0. */
#define REFUSED(call, refusal) (before(), told(__LINE__, (call), (refusal), 0, 0, 0, 0))

/* The association enters a state; marks are stored as 0 or 1. */
static inline void enters(unsigned state)
{
    want.a.state = (uint8_t)state;
    want.a.deaf = want.a.deaf != 0;
    want.a.requestor = want.a.requestor != 0;
    want.a.artim = (uint8_t)timed(state);
    if (state == 1) {
        want.a.gathered = 0;
        want.a.deaf = want.a.requestor = 0;
        want.a.peer_max = 0;
    }
}

/* A local event is answered: `want` is what was before but for what is said here. */
static inline void local(int line, uint8_t got, unsigned action, unsigned state, const void *sent, size_t n)
{
    enters(state);
    if (n != 0)
        memcpy(want.out, sent, n);
    told(line, got, 0, action, 0, n, 0);
}

#define LOCAL(call, action, state, sent, count) (before(), local(__LINE__, (call), (action), (state), (sent), (count)))

/* Bytes are received. */
static inline void heard(int line, const uint8_t *piece, size_t length, unsigned action, unsigned state, size_t used, const void *sent, size_t n, size_t shown)
{
    uint8_t got;
    before();
    got = feo_receive(&w.a, w.gather, FEO_BUFFER, piece, length, w.out, FEO_BUFFER, &w.r);
    if (want.a.state != 1 && want.a.state != 4 && want.a.deaf == 0) {
        if (used != 0)
            memcpy(want.gather + want.a.gathered, piece, used);
        want.a.gathered = action != 0 ? 0 : want.a.gathered + used;
    }
    if (n != 0)
        memcpy(want.out, sent, n);
    want.a.peer_max = w.a.peer_max;
    if (used == 6 && action != 0 && length >= 6 && piece[4] == 0x40 && piece[5] == 1)
        want.a.deaf = 1;
    enters(state);
    if (state == 1)
        check(line, w.a.peer_max == 0, "peer maximum in Sta1");
    told(line, got, 0, action, used, n, shown);
}

#define HEARD(pdu, action, state, sent, count, shown) \
    heard(__LINE__, (pdu).at, (pdu).n, (action), (state), (pdu).n, (sent), (count), (shown))

/* ---- what is sent in ten bytes */

static const uint8_t ABORT_USER[] = { 7, 0, 0, 0, 0, 4, 0, 0, 0, 0 };
static const uint8_t ABORT_UNRECOGNIZED[] = { 7, 0, 0, 0, 0, 4, 0, 0, 2, 1 };
static const uint8_t ABORT_UNEXPECTED[] = { 7, 0, 0, 0, 0, 4, 0, 0, 2, 2 };
static const uint8_t ABORT_INVALID[] = { 7, 0, 0, 0, 0, 4, 0, 0, 2, 6 };
static const uint8_t REJECT_VERSION[] = { 3, 0, 0, 0, 0, 4, 0, 1, 2, 2 };
static const uint8_t RELEASE_RQ[] = { 5, 0, 0, 0, 0, 4, 0, 0, 0, 0 };
static const uint8_t RELEASE_RP[] = { 6, 0, 0, 0, 0, 4, 0, 0, 0, 0 };

/* ---- the calls with the world's buffers */

static inline uint8_t event(unsigned number, size_t gather_len, size_t out_len)
{
    return feo_event(&w.a, (uint8_t)number, w.gather, gather_len, w.out, out_len, &w.r);
}

static struct bytes called, calling, application, proposal, echoed, answers, items;
static struct feo_user user;
static unsigned result, source, reason;

static inline uint8_t confirm(size_t gather_len, size_t out_len)
{
    return feo_confirm(
        &w.a, called.at, called.n, calling.at, calling.n, application.at, application.n, &user, proposal.at, proposal.n,
        w.gather, gather_len, w.out, out_len, &w.r);
}

static inline uint8_t accept_it(size_t gather_len, size_t out_len)
{
    const struct feo_accepting c = { echoed.at, echoed.n, application.at, application.n, &user, answers.at, answers.n };
    return feo_accept(&w.a, &c, w.gather, gather_len, w.out, out_len, &w.r);
}

/* An acceptance that echoes this PDU, and has its application context name; f: what was read of it. */
static inline struct feo_accepting accepts(const uint8_t *pdu, const struct feo_associate *f, const uint8_t *sheet, size_t sheet_len)
{
    const struct feo_accepting c = {
        pdu + FEO_ECHOED_AT, FEO_ECHOED_LEN, pdu + f->application_at, f->application_len, &user, sheet, sheet_len
    };
    return c;
}

static inline uint8_t reject(size_t gather_len, size_t out_len)
{
    return feo_reject(&w.a, (uint8_t)result, (uint8_t)source, (uint8_t)reason, w.gather, gather_len, w.out, out_len, &w.r);
}

static inline uint8_t send_it(size_t gather_len, size_t out_len)
{
    return feo_send(&w.a, items.at, items.n, w.gather, gather_len, w.out, out_len, &w.r);
}

static inline uint8_t release(size_t gather_len, size_t out_len)
{
    return event(FEO_RELEASE_REQUEST, gather_len, out_len);
}

/* Contents that are good. */
static inline void good_contents(void)
{
    static const struct feo_user empty = FEO_USER;
    size_t i;
    called.n = calling.n = application.n = proposal.n = echoed.n = answers.n = items.n = 0;
    add(&called, "STORE-EQUINE    ", 16);
    add(&calling, "NIGHT-SCANNER   ", 16);
    add(&application, APPLICATION, strlen(APPLICATION));
    add_record(&proposal, 1, 0, ECHO_CLASS, IMPLICIT);
    for (i = 0; i < 64; i++)
        add_byte(&echoed, (unsigned)(i * 5 + 200));
    add_record(&answers, 1, 0, "", IMPLICIT);
    add_pdv(&items, 1, 3, "ab", 2);
    user = empty;
    user.class_uid = (const uint8_t *)CLASS_UID;
    user.class_uid_len = strlen(CLASS_UID);
    result = 1;
    source = 1;
    reason = 7;
}

/* ---- what is generated */

static uint32_t drawn = 1;

static inline unsigned draw(unsigned below)
{
    drawn = drawn * 1664525 + 1013904223;
    return (unsigned)((drawn >> 8) % below);
}

#endif

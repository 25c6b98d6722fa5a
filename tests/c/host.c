/*
 * The code of docs/HOST.md (loop.h) over a socket, as acceptor and as requestor. Signals, faults of the system's calls, the time, a
 * peer that goes, and refused calls change nothing but what they must.
 */
#define _POSIX_C_SOURCE 200809L
#include <signal.h>
#include <stdio.h>
#include <stdlib.h>
#include <sys/time.h>
#include <sys/wait.h>

#include "faults.h"
#include "loop.h"
#include "build.h"

/* ---- what a test sees */

static struct outcome {
    char seen[400], refusals[200];
    size_t fragments, lasts;
    uint32_t sum;     /* of the fragments' bytes, in order */
    int64_t due[32];  /* when ARTIM expires, after each action */
    size_t actions;
    char taken[65]; /* at AE-3: the transfer syntax in which context 1 is taken; empty: refused */
    char made[200]; /* what each request, and each acceptance, says of its sender */
    size_t filed[3]; /* bytes of data that came for each of our stores */
    size_t for_us; /* and on lines that we asked for */
    const struct store *store; /* which one the line has at its end */
    struct bytes back;
} got;

static void must(int holds, const char *what)
{
    if (holds)
        return;
    printf("host.c: not so: %s (seen: %s; refused: %s)\n", what, got.seen, got.refusals);
    exit(1);
}

/* Ticks that may still come: then it hangs. */
static volatile sig_atomic_t ticks_left;

static void tick(int number)
{
    static const char line[] = "host.c: it hangs, seen: ";
    if (number == SIGALRM && ticks_left-- > 0)
        return;
    _exit(write(1, line, sizeof line - 1) > 0 && write(1, got.seen, strlen(got.seen)) > 0 ? 1 : 2);
}

/* A signal every so many microseconds, that interrupts what waits, for 20 seconds; 0: every 10 seconds, and what waits goes on. */
static void ticking(long us)
{
    struct sigaction s;
    struct itimerval t;
    memset(&s, 0, sizeof s);
    memset(&t, 0, sizeof t);
    must(setitimer(ITIMER_REAL, &t, NULL) == 0, "the ticks stop");
    s.sa_handler = tick;
    s.sa_flags = us == 0 ? SA_RESTART : 0;
    ticks_left = us == 0 ? 1 : (sig_atomic_t)(20000000 / us);
    t.it_interval.tv_sec = us == 0 ? 10 : 0;
    t.it_interval.tv_usec = us;
    t.it_value = t.it_interval;
    must(sigaction(SIGALRM, &s, NULL) == 0 && setitimer(ITIMER_REAL, &t, NULL) == 0, "the ticks are set");
}

/* ---- the host */

/* What a test does besides, at an action. */
static void (*besides)(struct line *l, uint8_t action);

void refused(struct line *l, const char *call, uint8_t number)
{
    (void)l;
    must(strlen(got.refusals) < 100, "an end to the refusals");
    sprintf(got.refusals + strlen(got.refusals), "%s: %s. ", call, feo_refusal_name(number));
}

static uint32_t summed(uint32_t sum, const uint8_t *p, size_t n)
{
    for (; n != 0; n--)
        sum = sum * 31 + *p++;
    return sum;
}

#define CR_IMAGE "1.2.840.10008.5.1.4.1.1.1"
#define EXPLICIT "1.2.840.10008.1.2.1"
#define JPEG "1.2.840.10008.1.2.4.50"

/* Our stores, and what they take. */
enum { EXOTIC, EQUINE, AVIAN, STORES };

static const struct liked exotic[2] = { { ECHO_CLASS, IMPLICIT }, { CR_IMAGE, JPEG } };
static const struct liked equine[3] = { { ECHO_CLASS, IMPLICIT }, { CR_IMAGE, EXPLICIT }, { CR_IMAGE, IMPLICIT } };
static const struct liked avian[1] = { { CR_IMAGE, IMPLICIT } };
static uint8_t sites[STORES][3 * FEO_RECORD_LEN];
static struct store stores[STORES] = {
    { "STORE-EXOTIC", exotic, 2, sites[EXOTIC] },
    { " STORE-EQUINE", equine, 3, sites[EQUINE] },
    { "AVIAN", avian, 1, sites[AVIAN] }
};
static uint8_t titles[STORES * FEO_TITLE_LEN];

/* What we say of ourselves: a class UID alone, as the PDUs of build.h; a line may be given another. */
static const struct feo_user class_alone = { (const uint8_t *)CLASS_UID, sizeof CLASS_UID - 1, NULL, 0, 1, 1, NULL, 0 };
static const struct feo_user *our_user = &class_alone;

/* Where a test answers the roles that are proposed: this user, in place of the line's own. */
static const struct feo_user *answering_user;

void heard(struct line *l, const struct feo_associate *f, const uint8_t *roles)
{
    const char *pdu = (const char *)l->gather;
    size_t i;
    must(strlen(got.made) < 100, "an end to what is said");
    sprintf(got.made + strlen(got.made), "%.*s;%.*s;%u;%u", (int)f->class_len, pdu + f->class_at, (int)f->version_name_len, pdu + f->version_name_at,
        f->invoked, f->performed);
    for (i = 0; i < f->roles; i++, roles += FEO_ROLE_LEN)
        sprintf(got.made + strlen(got.made), ";%.*s %d %d", roles[FEO_ROLE_UID_LEN_AT], (const char *)roles + FEO_ROLE_UID_AT,
            roles[FEO_ROLE_SCU_AT], roles[FEO_ROLE_SCP_AT]);
    strcat(got.made, ". ");
    if (answering_user != NULL)
        l->user = answering_user;
}

/* What the peer's acceptance says of itself, and of context 1. */
static void hears(struct line *l, size_t shown)
{
    uint8_t sheet[FEO_ANSWER_ROOM], roles[FEO_ROLES_ROOM];
    struct feo_associate f;
    const uint8_t *name;
    size_t n;
    must(feo_read_accept(l->gather, shown, sheet, sizeof sheet, roles, sizeof roles, &f) == FEO_NOT_REFUSED, "an acceptance that is shown is read");
    heard(l, &f, roles);
    name = taken(sheet, f.records, 1, &n);
    if (name != NULL)
        memcpy(got.taken, name, n);
}

void act(struct line *l, const struct feo_answer *r)
{
    uint8_t id, control;
    size_t at, start, length;
    strcat(strcat(got.seen, feo_action_name(r->action)), " ");
    must(got.actions < 32, "an end to the actions");
    got.due[got.actions++] = l->due;
    if (besides != NULL)
        besides(l, r->action);
    if (r->action == FEO_AE_3)
        hears(l, r->shown);
    if (r->action == FEO_AE_6 && l->a.state == FEO_STA_3)
        answer_request(l, r->shown, titles, stores, STORES);
    if (r->action == FEO_AE_7)
        must(l->store != NULL, "the store that was called is known when the association stands");
    if (r->action == FEO_DT_2)
        for (at = FEO_HEADER_LEN; feo_pdv_at(l->gather, r->shown, at, &id, &control, &start, &length) == 0; at = start + length) {
            got.fragments += length;
            *(l->store != NULL ? &got.filed[l->store - stores] : &got.for_us) += length;
            got.lasts += (control & FEO_PDV_LAST) != 0;
            got.sum = summed(got.sum, l->gather + start, length);
        }
    if (r->action == FEO_AR_2)
        tell(l, FEO_RELEASE_RESPONSE);
}

/* ---- the peer */

/* How the peer behaves. */
struct peer {
    size_t piece;    /* it writes so many bytes at a time, 0 all at once, with 5 milliseconds between */
    size_t waits_at; /* here it waits for bytes to come back; 0 nowhere */
    enum { STAYS, SHUTS, CLOSES } end; /* whether the connection is still there when all is written */
};

static const struct peer AT_ONCE = { 0, 0, SHUTS };

static void writes(int fd, const struct bytes *bytes, struct peer peer)
{
    static const struct timespec pause = { 0, 5000000 };
    struct pollfd back = { fd, POLLIN, 0 };
    size_t at, n;
    for (at = 0; at < bytes->n; at += n) {
        if (at == peer.waits_at && at != 0)
            must(poll(&back, 1, 20000) == 1, "bytes come back");
        n = peer.piece != 0 && peer.piece < bytes->n - at ? peer.piece : bytes->n - at;
        if (at < peer.waits_at && peer.waits_at < at + n)
            n = peer.waits_at - at;
        must(write(fd, bytes->at + at, n) == (ssize_t)n, "the bytes are written");
        if (peer.piece != 0)
            nanosleep(&pause, NULL);
    }
    if (peer.end != STAYS)
        must(shutdown(fd, SHUT_WR) == 0, "the peer's end is shut");
}

/* Serves a peer that writes these bytes, and reads what comes back; us: a signal so often. */
static void talk(const struct bytes *bytes, struct peer peer, long us)
{
    static struct line l;
    int ends[2], status, apart = peer.piece != 0 || peer.waits_at != 0;
    pid_t child = 0;
    ssize_t n;
    memset(&got, 0, sizeof got);
    faults.polls = faults.recvs = faults.sends = faults.signals = 0;
    faults.ms = 1000000;
    must(socketpair(AF_UNIX, SOCK_STREAM, 0, ends) == 0, "a pair of sockets");
    if (apart && (child = fork()) == 0) {
        close(ends[1]);
        writes(ends[0], bytes, peer);
        _exit(0);
    }
    must(child >= 0, "a child");
    if (!apart)
        writes(ends[0], bytes, peer);
    if (peer.end == CLOSES)
        close(ends[0]);
    ticking(us);
    l.fd = ends[1];
    l.user = our_user;
    l.store = &stores[AVIAN]; /* the line was that store's before */
    serve(&l);
    got.store = l.store;
    ticking(0);
    if (peer.end == CLOSES)
        return;
    while ((n = read(ends[0], got.back.at + got.back.n, sizeof got.back.at - got.back.n)) > 0)
        got.back.n += (size_t)n;
    close(ends[0]);
    if (apart)
        must(waitpid(child, &status, 0) == child && status == 0, "the peer wrote it all");
}

/* A requestor, whose peer is a host of our own in another process. */
static void asks(const char *called, const uint8_t *command, size_t n, int connects)
{
    static struct line l;
    int ends[2], status;
    pid_t child;
    memset(&got, 0, sizeof got);
    must(socketpair(AF_UNIX, SOCK_STREAM, 0, ends) == 0 && (child = fork()) >= 0, "a pair of sockets, a child");
    l.fd = ends[child != 0];
    l.user = our_user;
    close(ends[child == 0]);
    ticking(1500);
    if (child == 0) {
        serve(&l);
        must(got.fragments == n && got.lasts == (n != 0) && got.sum == summed(0, command, n), "the peer has it all");
        _exit(0);
    }
    if (!connects) {
        close(l.fd);
        l.fd = -1;
    }
    l.store = &stores[AVIAN];
    deliver(&l, called, "NIGHT-SCANNER   ", command, n);
    must(l.store == NULL, "a line that asks is no store's");
    ticking(0);
    must(waitpid(child, &status, 0) == child && status == 0, "the peer is content");
}

static int told(const char *actions, const char *refusals)
{
    return strcmp(got.seen, actions) == 0 && strcmp(got.refusals, refusals) == 0;
}

static int sees(const char *actions)
{
    return told(actions, "");
}

static int comes_back(const struct bytes *b)
{
    return got.back.n == b->n && memcmp(got.back.at, b->at, b->n) == 0;
}

/* ---- the tests */

static struct bytes rq, all, back, pdu;

/* A request, data of 5,000 and 17 bytes, a release; and what is to come back. */
static void association(void)
{
    request(&rq, 1, APPLICATION, ECHO_CLASS, IMPLICIT);
    all.n = 0;
    add(&all, rq.at, rq.n);
    data(&pdu, 1, 3, 5000);
    add(&all, pdu.at, pdu.n);
    data(&pdu, 1, 2, 17);
    add(&all, pdu.at, pdu.n);
    ten(&pdu, 5, 0, 0, 0, 0);
    add(&all, pdu.at, pdu.n);
    acceptance(&back, 1, 0, 16384);
    ten(&pdu, 6, 0, 0, 0, 0);
    add(&back, pdu.at, pdu.n);
}

static void is_served(const char *how)
{
    must(sees("AE-5 AE-6 AE-7 DT-2 DT-2 AR-2 AR-4 AR-5 ") && got.fragments == 5017 && comes_back(&back), how);
    must(strcmp(got.made, CLASS_UID ";;1;1. ") == 0, how);
    must(got.filed[EQUINE] == 5017 && got.store == &stores[EQUINE], how);
}

static void served(void)
{
    static const struct peer slow = { 150, 0, SHUTS };
    talk(&all, AT_ONCE, 0);
    is_served("an association");
    talk(&all, slow, 0);
    is_served("piece by piece");
    talk(&all, slow, 1500);
    is_served("piece by piece, with signals");
    must(faults.signals >= 10, "the signals interrupted poll");
    faults.interrupt = 1;
    faults.most_in = faults.most_out = 7;
    talk(&all, AT_ONCE, 0);
    is_served("every call interrupted and cut short");
    must(faults.polls > 1000 && faults.recvs > 1000 && faults.sends > 20, "they were");
    faults.interrupt = 0;
    faults.most_in = faults.most_out = 0;
}

/* Data that comes in the same read as the request is taken as data that comes in a later one is. */
static void in_one_read(void)
{
    const struct peer later = { 0, rq.n, SHUTS };
    static struct outcome once;
    all.n = 0;
    add(&all, rq.at, rq.n);
    data(&pdu, 1, 3, 100);
    add(&all, pdu.at, pdu.n);
    ten(&pdu, 5, 0, 0, 0, 0);
    add(&all, pdu.at, pdu.n);
    data(&pdu, 1, 3, 100);
    add(&all, pdu.at, pdu.n);
    talk(&all, AT_ONCE, 0);
    must(sees("AE-5 AE-6 AE-7 DT-2 AR-2 AR-4 AA-6 AR-5 ") && got.fragments == 100, "request, data, release, data in one read");
    once = got;
    talk(&all, later, 0);
    must(sees(once.seen) && got.fragments == 100 && comes_back(&once.back), "data in a later read");
    faults.most_in = 1;
    talk(&all, AT_ONCE, 0);
    must(sees(once.seen) && got.fragments == 100 && comes_back(&once.back), "a byte in each read");
    faults.most_in = 0;
    association();
}

/* Contexts are taken and refused by the site's sheet; another application context or title is rejected. */
static void answered(void)
{
    static struct bytes proposal, answer;
    proposal.n = answer.n = 0;
    add_record(&proposal, 1, 0, ECHO_CLASS, EXPLICIT);
    add_record(&proposal, 1, 0, ECHO_CLASS, IMPLICIT);
    add_record(&answer, 1, 0, "", IMPLICIT);
    add_record(&proposal, 255, 0, "1.2.840.10008.5.1.4.1.1.1.1", EXPLICIT);
    add_record(&proposal, 255, 0, "1.2.840.10008.5.1.4.1.1.1.1", IMPLICIT);
    add_record(&answer, 255, FEO_CONTEXT_ABSTRACT_NOT_SUPPORTED, "", "");
    add_record(&proposal, 7, 0, CR_IMAGE, JPEG);
    add_record(&answer, 7, FEO_CONTEXT_TRANSFER_NOT_SUPPORTED, "", "");
    add_record(&proposal, 3, 0, CR_IMAGE, IMPLICIT);
    add_record(&proposal, 3, 0, CR_IMAGE, EXPLICIT);
    add_record(&answer, 3, 0, "", EXPLICIT);
    of_sheet(&all, 1, &proposal);
    of_sheet(&pdu, 2, &answer);
    talk(&all, AT_ONCE, 0);
    must(sees("AE-5 AE-6 AE-7 AA-4 ") && comes_back(&pdu), "four contexts, two of them taken");
    proposal.n = answer.n = 0;
    add_record(&proposal, 1, 0, CR_IMAGE, JPEG);
    add_record(&answer, 1, FEO_CONTEXT_TRANSFER_NOT_SUPPORTED, "", "");
    of_sheet(&all, 1, &proposal);
    of_sheet(&pdu, 2, &answer);
    talk(&all, AT_ONCE, 0);
    must(sees("AE-5 AE-6 AE-7 AA-4 ") && comes_back(&pdu), "one context, refused");
    stores[EQUINE].n = 0;
    talk(&rq, AT_ONCE, 0);
    must(told("AE-5 AE-6 AA-1 AR-5 ", "feo_choose: bad contents. "), "with a bad sheet of the site it is aborted");
    request(&all, 1, "1.2.840.10008.3.1.1.2", ECHO_CLASS, IMPLICIT);
    talk(&all, AT_ONCE, 0);
    ten(&pdu, 3, 0, 1, 1, 2);
    must(sees("AE-5 AE-6 AE-8 AR-5 ") && comes_back(&pdu), "another application context");
    all = rq;
    memcpy(all.at + FEO_CALLED_AT, "STORE-EXOTICS   ", FEO_TITLE_LEN);
    talk(&all, AT_ONCE, 0);
    ten(&pdu, 3, 0, 1, 1, 7);
    must(sees("AE-5 AE-6 AE-8 AR-5 ") && comes_back(&pdu) && got.store == NULL, "another called title");
    stores[EQUINE].n = 3;
    titles[AVIAN * FEO_TITLE_LEN] = 0x5C;
    talk(&rq, AT_ONCE, 0);
    titles[AVIAN * FEO_TITLE_LEN] = 'A';
    must(told("AE-5 AE-6 AA-1 AR-5 ", "feo_title_place: bad contents. "), "where it cannot be answered it is aborted");
    must(got.store == NULL, "and no store was called");
    association();
}

/* A request that calls this title, for both classes. */
static void calls(struct bytes *bytes, const char *title)
{
    static struct bytes proposal;
    proposal.n = 0;
    add_record(&proposal, 1, 0, ECHO_CLASS, IMPLICIT);
    add_record(&proposal, 3, 0, CR_IMAGE, IMPLICIT);
    add_record(&proposal, 3, 0, CR_IMAGE, JPEG);
    add_record(&proposal, 3, 0, CR_IMAGE, EXPLICIT);
    of_sheet(bytes, 1, &proposal);
    memcpy(bytes->at + FEO_CALLED_AT, title, FEO_TITLE_LEN);
}

/* The same, with data in context 3 and a release behind it. */
static void calls_and_sends(struct bytes *bytes, const char *title, size_t n)
{
    calls(bytes, title);
    data(&pdu, 3, 0, n);
    add(bytes, pdu.at, pdu.n);
    ten(&pdu, 5, 0, 0, 0, 0);
    add(bytes, pdu.at, pdu.n);
}

/* What comes back to it: the answer by a store's sheet, then the release. */
static void answers(struct bytes *bytes, const char *title, unsigned echo, const char *name)
{
    static struct bytes answer;
    answer.n = 0;
    add_record(&answer, 1, echo, "", echo == FEO_CONTEXT_ACCEPTED ? IMPLICIT : "");
    add_record(&answer, 3, 0, "", name);
    of_sheet(bytes, 2, &answer);
    memcpy(bytes->at + FEO_CALLED_AT, title, FEO_TITLE_LEN);
    ten(&pdu, 6, 0, 0, 0, 0);
    add(bytes, pdu.at, pdu.n);
}

/* The store that is called answers by its own sheet and has the data, however its title is written. */
static void called(void)
{
    static const struct {
        const char *title;
        size_t store;
        unsigned echo;
        const char *name;
    } rows[] = {
        { "STORE-EXOTIC    ", EXOTIC, FEO_CONTEXT_ACCEPTED, JPEG },
        { "STORE-EQUINE    ", EQUINE, FEO_CONTEXT_ACCEPTED, EXPLICIT },
        { "AVIAN           ", AVIAN, FEO_CONTEXT_ABSTRACT_NOT_SUPPORTED, IMPLICIT },
        { "    STORE-EXOTIC", EXOTIC, FEO_CONTEXT_ACCEPTED, JPEG },
        { "           AVIAN", AVIAN, FEO_CONTEXT_ABSTRACT_NOT_SUPPORTED, IMPLICIT },
        { "  STORE-EQUINE  ", EQUINE, FEO_CONTEXT_ACCEPTED, EXPLICIT },
        { "STORE-EXOTIC    ", EXOTIC, FEO_CONTEXT_ACCEPTED, JPEG }
    };
    static const char *const others[] = { "STORE           ", "STORE-EXOTI     ", "AVIAN 1         ", "avian           ", "STORE EQUINE    " };
    size_t i, k;
    for (i = 0; i < sizeof rows / sizeof *rows; i++) {
        calls_and_sends(&all, rows[i].title, 100 + i);
        answers(&back, rows[i].title, rows[i].echo, rows[i].name);
        talk(&all, AT_ONCE, 0);
        must(sees("AE-5 AE-6 AE-7 DT-2 AR-2 AR-4 AR-5 ") && comes_back(&back), "a store answers by its own sheet");
        must(got.store == &stores[rows[i].store], "the line has the store that was called");
        for (k = 0; k < STORES; k++)
            must(got.filed[k] == (k == rows[i].store ? 100 + i : 0), "the data is in the store that was called, and in no other");
    }
    for (i = 0; i < sizeof others / sizeof *others; i++) {
        calls_and_sends(&all, others[i], 100);
        ten(&back, 3, 0, 1, 1, 7);
        talk(&all, AT_ONCE, 0);
        must(sees("AE-5 AE-6 AE-8 AA-6 AA-6 AR-5 ") && comes_back(&back), "a title that is none of ours is rejected");
        must(got.store == NULL && got.fragments == 0, "and nothing is filed");
    }
    all.n = 0;
    talk(&all, AT_ONCE, 0);
    must(sees("AE-5 AA-5 ") && got.store == NULL, "without a request no store is called");
    association();
}

/* Two lines at a time, for two stores: what comes on each is for its own. */
static void two_lines(void)
{
    static const char *const names[2] = { "AVIAN           ", "STORE-EXOTIC    " };
    static struct line lines[2];
    int ends[2][2], i, k;
    memset(&got, 0, sizeof got);
    for (i = 0; i < 2; i++) {
        must(socketpair(AF_UNIX, SOCK_STREAM, 0, ends[i]) == 0, "a pair of sockets");
        lines[i].fd = ends[i][1];
        lines[i].user = our_user;
        feo_fresh(&lines[i].a);
        tell(&lines[i], FEO_TRANSPORT_INDICATION);
    }
    for (i = 0; i < 2; i++) {
        calls(&all, names[i]);
        must(write(ends[i][0], all.at, all.n) == (ssize_t)all.n && step(&lines[i]), "a request");
    }
    for (k = 0; k < 3; k++)
        for (i = 0; i < 2; i++) {
            data(&pdu, 3, 0, (size_t)(i == 0 ? 1 : 1000));
            must(write(ends[i][0], pdu.at, pdu.n) == (ssize_t)pdu.n && step(&lines[i]), "data");
        }
    must(sees("AE-5 AE-5 AE-6 AE-7 AE-6 AE-7 DT-2 DT-2 DT-2 DT-2 DT-2 DT-2 "), "two lines");
    must(got.filed[AVIAN] == 3 && got.filed[EXOTIC] == 3000 && got.filed[EQUINE] == 0, "each line files in its own store");
    for (i = 0; i < 2; i++) {
        close(ends[i][0]);
        close(ends[i][1]);
    }
    association();
}

/* The site's sheet is tested when it is written. */
static void site_written(void)
{
    static const struct liked no_name = { ECHO_CLASS, "1.02" }, too_long = { SIXTY_FOUR "0", IMPLICIT };
    uint8_t one[FEO_RECORD_LEN];
    must(write_site(sites[EQUINE], equine, 3) == FEO_NOT_REFUSED, "the site's sheet");
    must(write_site(one, &no_name, 1) == FEO_BAD_CONTENTS && write_site(one, &too_long, 1) == FEO_BAD_CONTENTS, "a name that is none");
    must(write_site(one, equine, 0) == FEO_BAD_CONTENTS, "a sheet without a record");
}

/* So are the stores: up to 8, with a good sheet each, and titles that are found at their own place. */
static void stores_written(void)
{
    static const char *const bad[] = { "", "   ", "SEVENTEEN LETTERS", "BACK\\SLASH", "TAB\t", "G", " G", "G               " };
    static const char *const good[8] = { "A", " B", "C", "D E", "D  E", "d e", "OF SIXTEEN CHARS", "G" };
    static uint8_t sheet[9][FEO_RECORD_LEN], own[9 * FEO_TITLE_LEN];
    struct store some[9];
    size_t i, k;
    for (i = 0; i < 9; i++) {
        some[i].title = i < 8 ? good[i] : "NINTH";
        some[i].liked = equine;
        some[i].n = 1;
        some[i].site = sheet[i];
    }
    for (i = 0; i <= 8; i++)
        must(write_stores(own, some, i) == FEO_NOT_REFUSED, "up to eight stores");
    must(memcmp(own, "A                B              C               D E             ", 64) == 0, "their titles, one behind the other");
    must(memcmp(sheet[0], sites[EQUINE], FEO_RECORD_LEN) == 0 && memcmp(sheet[7], sheet[0], FEO_RECORD_LEN) == 0, "and their sheets");
    must(write_stores(own, some, 9) == FEO_BAD_CONTENTS, "nine stores");
    for (i = 0; i < 7; i++) {
        for (k = 0; k < sizeof bad / sizeof *bad; k++) {
            some[i].title = bad[k];
            must(write_stores(own, some, 8) == FEO_BAD_CONTENTS, "a title that is none, or there twice");
        }
        some[i].title = good[i];
        some[i].n = 0;
        must(write_stores(own, some, 8) == FEO_BAD_CONTENTS, "a store with a bad sheet");
        some[i].n = 1;
    }
    for (k = 0; k < 5; k++) {
        some[7].title = bad[k];
        must(write_stores(own, some, 8) == FEO_BAD_CONTENTS, "the last title is none");
    }
    some[7].title = good[7];
    must(write_stores(own, some, 8) == FEO_NOT_REFUSED, "eight stores again");
    must(write_stores(titles, stores, STORES) == FEO_NOT_REFUSED, "our stores");
}

/* A request or an acceptance, whose last item, the 50H, has these sub-items in place of its own. */
static void says(struct bytes *bytes, const struct bytes *subs)
{
    struct bytes b;
    b.n = 0;
    add(&b, bytes->at + FEO_HEADER_LEN, bytes->n - FEO_HEADER_LEN - USER_LEN);
    add_item(&b, 0x50, subs->at, subs->n);
    whole(bytes, bytes->at[0], &b);
}

/* What we say of ourselves is tested before it is sent; what a peer says is heard, also where it is rejected. */
static void made(void)
{
    static const struct feo_user empty = FEO_USER, zero;
    static uint8_t roles[2 * FEO_ROLE_LEN], many[2000 * FEO_ROLE_LEN];
    static struct bytes subs;
    struct feo_user some = class_alone;
    char uid[8];
    size_t i;
    must(test_user(&class_alone) == FEO_NOT_REFUSED, "a class UID is enough");
    must(test_user(NULL) == FEO_BAD_CONTENTS && test_user(&empty) == FEO_BAD_CONTENTS && test_user(&zero) == FEO_BAD_CONTENTS, "and without one there is none");
    some.version_name = (const uint8_t *)"OF SIXTEEN CHARS+";
    some.version_name_len = 16;
    must(test_user(&some) == FEO_NOT_REFUSED, "a version name of 16 characters");
    some.version_name_len = 17;
    must(test_user(&some) == FEO_BAD_CONTENTS, "one of 17");
    some.version_name_len = 2;
    feo_put_role(roles, ECHO_CLASS, strlen(ECHO_CLASS), 1, 0);
    feo_put_role(roles + FEO_ROLE_LEN, CR_IMAGE, strlen(CR_IMAGE), 0, 1);
    some.roles = roles;
    some.roles_len = sizeof roles;
    some.invoked = 0;
    must(test_user(&some) == FEO_NOT_REFUSED, "two roles");
    feo_put_role(roles + FEO_ROLE_LEN, ECHO_CLASS, strlen(ECHO_CLASS), 0, 1);
    must(test_user(&some) == FEO_BAD_CONTENTS, "two for one UID");
    feo_put_role(roles + FEO_ROLE_LEN, CR_IMAGE, strlen(CR_IMAGE), 0, 1);
    for (i = 0; i < 2000; i++) {
        sprintf(uid, "%u", (unsigned)i);
        feo_put_role(many + i * FEO_ROLE_LEN, uid, strlen(uid), 1, 1);
    }
    some.roles = many;
    some.roles_len = sizeof many;
    must(test_user(&some) == FEO_LONG_PDU, "more roles than a PDU can have");
    some.roles = roles;
    some.roles_len = sizeof roles;

    /* a peer that says much, taken and rejected; and our answer, by a user of the line's own */
    subs.n = 0;
    add_maximum(&subs, 16384);
    add_name(&subs, 0x52, "2.999.7");
    add_item(&subs, 0x53, "\0\3\0\0", 4);
    add_role(&subs, ECHO_CLASS, 1, 1);
    add_role(&subs, CR_IMAGE, 0, 1);
    add_name(&subs, 0x55, "A PEER 1.0");
    all = rq;
    says(&all, &subs);
    acceptance(&back, 1, 0, 16384);
    talk(&all, AT_ONCE, 0);
    must(sees("AE-5 AE-6 AE-7 AA-4 ") && comes_back(&back), "a request that says all that PS3.7 has");
    must(strcmp(got.made, "2.999.7;A PEER 1.0;3;0;" ECHO_CLASS " 1 1;" CR_IMAGE " 0 1. ") == 0, "it is heard");
    subs.n = 0;
    add_maximum(&subs, 16384);
    add_name(&subs, 0x52, CLASS_UID);
    add_item(&subs, 0x53, "\0\0\0\1", 4);
    add_role(&subs, ECHO_CLASS, 1, 0);
    add_role(&subs, CR_IMAGE, 0, 1);
    add_name(&subs, 0x55, "OF");
    says(&back, &subs);
    answering_user = &some;
    talk(&all, AT_ONCE, 0);
    must(sees("AE-5 AE-6 AE-7 AA-4 ") && comes_back(&back), "roles are answered");
    answering_user = NULL;
    memcpy(all.at + FEO_CALLED_AT, "NOBODY          ", FEO_TITLE_LEN);
    talk(&all, AT_ONCE, 0);
    must(sees("AE-5 AE-6 AE-8 AR-5 ") && strncmp(got.made, "2.999.7;", 8) == 0, "who is rejected is heard too");

    /* one that says nothing but its maximum */
    subs.n = 0;
    add_maximum(&subs, 16384);
    all = rq;
    says(&all, &subs);
    acceptance(&back, 1, 0, 16384);
    talk(&all, AT_ONCE, 0);
    must(sees("AE-5 AE-6 AE-7 AA-4 ") && comes_back(&back) && strcmp(got.made, ";;1;1. ") == 0, "a request without names");

    /* one that repeats a role */
    add_role(&subs, ECHO_CLASS, 1, 0);
    add_role(&subs, ECHO_CLASS, 1, 0);
    all = rq;
    says(&all, &subs);
    ten(&back, 7, 0, 0, 0, 0);
    talk(&all, AT_ONCE, 0);
    must(sees("AE-5 AA-1 AR-5 ") && comes_back(&back) && got.made[0] == 0, "two roles for one UID: an abort in Sta2, and nothing is heard");

    /* without a user nothing is accepted or asked */
    our_user = NULL;
    talk(&rq, AT_ONCE, 0);
    must(told("AE-5 AE-6 AA-1 AR-5 ", "feo_accept: bad contents. "), "no user: it is told, and aborted");
    our_user = &class_alone;
    association();
}

static uint8_t sleeps_at;

static void sleeps(struct line *l, uint8_t action)
{
    (void)l;
    faults.ms += action == sleeps_at ? ARTIM_MS + 5000 : 0;
}

static void a_second(struct line *l, uint8_t action)
{
    (void)l;
    (void)action;
    faults.ms += 1000;
}

static void times(void)
{
    static const struct peer stays = { 0, 0, STAYS };
    static const int64_t due[6] = { 30, 31, 31, 31, 31, 31 };
    size_t i;
    faults.own_clock = 1;
    all.n = 0;
    talk(&all, AT_ONCE, 0);
    must(sees("AE-5 AA-5 ") && got.back.n == 0, "nothing comes, and it is closed");
    add(&all, "\1\0\0", 3);
    talk(&all, stays, 0);
    must(sees("AE-5 AA-2 ") && got.back.n == 0 && faults.ms == 1000000 + ARTIM_MS, "the timer expires");
    faults.interrupt = 1;
    talk(&all, stays, 0);
    must(sees("AE-5 AA-2 ") && faults.ms == 1000000 + ARTIM_MS, "the timer expires, with interrupted calls");
    faults.interrupt = 0;
    all.n = 0;
    faults.wakes = 1;
    talk(&all, stays, 0);
    must(sees("AE-5 AA-2 ") && faults.ms == 1000000 + ARTIM_MS, "the timer expires, though poll woke for nothing");
    besides = sleeps;
    sleeps_at = FEO_AE_5;
    talk(&all, stays, 0);
    must(sees("AE-5 AA-2 ") && faults.ms == 1000000 + ARTIM_MS + 5000, "the timer has expired long ago");
    besides = a_second;
    /* in Sta2 a release: AA-1; in Sta13 two more and an unknown type: AA-6, AA-6, AA-7. The timer starts at AE-5 and AA-1 alone. */
    all.n = 0;
    ten(&pdu, 5, 0, 0, 0, 0);
    for (i = 0; i < 3; i++)
        add(&all, pdu.at, pdu.n);
    ten(&pdu, 8, 0, 0, 0, 0);
    add(&all, pdu.at, pdu.n);
    talk(&all, stays, 0);
    must(sees("AE-5 AA-1 AA-6 AA-6 AA-7 AA-2 ") && got.back.n == 20, "bytes in Sta13");
    for (i = 0; i < 6; i++)
        must(got.due[i] == 1000000 + due[i] * 1000, "the timer starts where it is to");
    /* a peer that goes on sending is not heard for ever */
    besides = sleeps;
    sleeps_at = FEO_AA_1;
    faults.most_in = 10;
    talk(&all, stays, 0);
    must(sees("AE-5 AA-1 AA-2 "), "the timer comes before bytes that are there");
    besides = NULL;
    faults.most_in = 0;
    talk(&rq, stays, 0);
    must(sees("AE-5 AE-6 AE-7 AA-1 AA-2 ") && faults.ms == 1000000 + QUIET_MS + ARTIM_MS, "a peer that is silent");
    faults.own_clock = 0;
    association();
}

static void sends_much(struct line *l, uint8_t action)
{
    static const uint8_t zero[100000];
    int room = 5000;
    if (action != FEO_AE_7)
        return;
    must(setsockopt(l->fd, SOL_SOCKET, SO_SNDBUF, &room, sizeof room) == 0, "little room");
    must(send_set(l, 1, 0, zero, sizeof zero), "data is sent");
}

/* The peer goes, or does not read, while we send. SIGPIPE would end the test. */
static void goes(void)
{
    static const struct peer closes = { 0, 0, CLOSES }, stays = { 0, 0, STAYS };
    talk(&rq, closes, 0);
    must(sees("AE-5 AE-6 AE-7 AA-4 "), "the peer has gone when the AC is sent");
    all = rq;
    ten(&pdu, 7, 0, 0, 0, 0);
    add(&all, pdu.at, pdu.n);
    faults.most_in = 100;
    talk(&all, closes, 0);
    must(sees("AE-5 AE-6 AE-7 AA-3 "), "its abort is still read");
    faults.most_in = 0;
    faults.own_clock = 1;
    besides = sends_much;
    talk(&rq, stays, 0);
    must(sees("AE-5 AE-6 AE-7 DT-1 DT-1 DT-1 DT-1 DT-1 DT-1 DT-1 AA-4 ") && faults.ms == 1000000 + SEND_MS, "the peer does not read");
    besides = NULL;
    faults.own_clock = 0;
    association();
}

static void requestor(void)
{
    static uint8_t command[40000];
    size_t i;
    for (i = 0; i < sizeof command; i++)
        command[i] = (uint8_t)(i * i >> 3);
    asks("STORE-EQUINE    ", command, sizeof command, 1);
    must(sees("AE-1 AE-2 AE-3 DT-1 DT-1 DT-1 AR-1 AR-3 ") && strcmp(got.taken, IMPLICIT) == 0, "a requestor");
    asks("STORE-EQUINE    ", command, 1, 1);
    must(sees("AE-1 AE-2 AE-3 DT-1 AR-1 AR-3 "), "a command of one byte");
    asks("STORE-EQUUS     ", command, 0, 1);
    must(sees("AE-1 AE-2 AE-4 "), "a requestor that is rejected");
    asks("STORE-EQUINE    ", command, 0, 0);
    must(sees("AE-1 AA-4 "), "a connection that is not there");
    asks("BACK\\SLASH      ", command, 0, 1);
    must(told("AE-1 AA-2 ", "feo_confirm: bad contents. "), "a title that may not be sent is told, and ends it");
    our_user = NULL;
    asks("STORE-EQUINE    ", command, 0, 1);
    must(told("AE-1 AA-2 ", "feo_confirm: bad contents. "), "so is no user");
    our_user = &class_alone;
}

/* A requestor whose peer has written an AC, perhaps more, and closes. */
static void answered_by(const struct bytes *bytes)
{
    static struct line l;
    int ends[2];
    memset(&got, 0, sizeof got);
    must(socketpair(AF_UNIX, SOCK_STREAM, 0, ends) == 0 && write(ends[0], bytes->at, bytes->n) == (ssize_t)bytes->n, "an AC is there");
    must(shutdown(ends[0], SHUT_WR) == 0, "and nothing behind");
    l.fd = ends[1];
    l.user = our_user;
    l.store = &stores[AVIAN];
    deliver(&l, "STORE-EQUINE    ", "NIGHT-SCANNER   ", (const uint8_t *)"x", 1);
    close(ends[0]);
}

/* It takes no byte of data, and takes context 1 in this transfer syntax; empty: refuses it. */
static void accepted_by(const struct bytes *ac, const char *name)
{
    answered_by(ac);
    must(told("AE-1 AE-2 AE-3 AA-1 AR-5 ", "feo_fragment_max: PDU too long. "), "no room for data is told, and ends it");
    must(strcmp(got.taken, name) == 0 && strcmp(got.made, CLASS_UID ";;1;1. ") == 0, "the acceptance says what is taken, and by whom");
}

/* A context that is taken, and one that is refused: with an empty name, a good one, a part of one, and none. */
static void acceptances(void)
{
    static const char name[] = "\x40\0\0\x11" IMPLICIT;
    static const size_t lengths[] = { sizeof name - 1, 4, 1, 0 };
    static struct bytes contexts;
    size_t i;
    acceptance(&pdu, 1, FEO_CONTEXT_ACCEPTED, 6);
    accepted_by(&pdu, IMPLICIT);
    acceptance(&pdu, 1, FEO_CONTEXT_ABSTRACT_NOT_SUPPORTED, 6);
    accepted_by(&pdu, "");
    for (i = 0; i < sizeof lengths / sizeof *lengths; i++) {
        contexts.n = 0;
        add_context(&contexts, 0x01000000 | FEO_CONTEXT_TRANSFER_NOT_SUPPORTED << 8, name, lengths[i]);
        accepting(&pdu, 1, &contexts, 6);
        accepted_by(&pdu, "");
    }
}

/* It sends data: that is for us, and for none of our stores. */
static void sends_data(void)
{
    static const size_t none[STORES];
    static struct bytes bytes;
    acceptance(&bytes, 1, FEO_CONTEXT_ACCEPTED, 0);
    data(&pdu, 1, FEO_PDV_COMMAND | FEO_PDV_LAST, 100);
    add(&bytes, pdu.at, pdu.n);
    answered_by(&bytes);
    must(sees("AE-1 AE-2 AE-3 DT-2 DT-1 AR-1 AA-4 "), "a requestor is sent data");
    must(got.for_us == 100 && memcmp(got.filed, none, sizeof none) == 0, "which is for no store");
}

static void fails_at_once(void)
{
    static struct line l;
    int ends[2];
    faults.poll_error = ENOMEM;
    talk(&rq, AT_ONCE, 0);
    must(sees("AE-5 AA-5 "), "poll fails");
    faults.poll_error = 0;
    faults.recv_error = ECONNRESET;
    talk(&rq, AT_ONCE, 0);
    must(sees("AE-5 AA-5 "), "recv fails");
    faults.recv_error = 0;
    memset(&got, 0, sizeof got);
    must(socketpair(AF_UNIX, SOCK_STREAM, 0, ends) == 0 && close(ends[0]) == 0 && close(ends[1]) == 0, "a socket that is closed");
    l.fd = ends[1];
    serve(&l);
    must(sees("AE-5 AA-5 "), "the socket is none");
}

static void too_early(struct line *l, uint8_t action)
{
    if (action == FEO_AE_7)
        must(!tell(l, FEO_RELEASE_RESPONSE) && l->a.state == FEO_STA_6, "a response to nothing is refused");
}

/* A fault of the host's memory: deaf is for Sta13 alone. */
static uint8_t breaks_at;

static void breaks(struct line *l, uint8_t action)
{
    if (action == breaks_at)
        l->a.deaf = 1;
}

/* A refusal is told, and where the box cannot go on the loop ends. */
static void refusals(void)
{
    besides = too_early;
    talk(&all, AT_ONCE, 0);
    must(strcmp(got.refusals, "feo_event: blank cell of Table 9-10. ") == 0, "a refused event is told");
    got.refusals[0] = 0;
    is_served("an association with a refused event");
    besides = breaks;
    breaks_at = FEO_AE_7;
    talk(&all, AT_ONCE, 0);
    must(strcmp(got.refusals, "feo_receive: broken record. ") == 0, "refused bytes are told, and end it");
    talk(&rq, AT_ONCE, 0);
    must(strcmp(got.refusals, "feo_event: broken record. ") == 0, "so is a refused end");
    breaks_at = FEO_AE_6;
    talk(&rq, AT_ONCE, 0);
    must(
        strcmp(got.refusals, "feo_accept: broken record. feo_event: broken record. feo_event: broken record. ") == 0,
        "and a refused answer, with the abort in its place");
    besides = NULL;
}

int main(void)
{
    site_written();
    stores_written();
    association();
    served();
    in_one_read();
    answered();
    called();
    two_lines();
    made();
    times();
    goes();
    requestor();
    acceptances();
    sends_data();
    fails_at_once();
    refusals();
    printf("the loop of docs/HOST.md serves an association, with signals, faults and refusals\n");
    return 0;
}

/*
 * Calls every function of include/feohanna.h, good and refused; user.c has what a request and an acceptance say by PS3.7, ids.c the
 * IDs that come twice. Expected values are those of documents 01 and 02. In the common part of C99 and C++.
 */
#include "world.h"

/* ---- Table 9-10 of PS3.8, and the next states of Tables 9-6 to 9-9 */

static const char *const table[19] = {
    /*       Sta1 Sta2 Sta3 Sta4 Sta5 Sta6 Sta7 Sta8 Sta9 Sta10 Sta11 Sta12 Sta13 */
    "AE-1 .    .    .    .    .    .    .    .    .     .    .    .   ",
    ".    .    .    AE-2 .    .    .    .    .    .     .    .    .   ",
    ".    AA-1 AA-8 .    AE-3 AA-8 AA-8 AA-8 AA-8 AA-8  AA-8 AA-8 AA-6",
    ".    AA-1 AA-8 .    AE-4 AA-8 AA-8 AA-8 AA-8 AA-8  AA-8 AA-8 AA-6",
    "AE-5 .    .    .    .    .    .    .    .    .     .    .    .   ",
    ".    AE-6 AA-8 .    AA-8 AA-8 AA-8 AA-8 AA-8 AA-8  AA-8 AA-8 AA-7",
    ".    .    AE-7 .    .    .    .    .    .    .     .    .    .   ",
    ".    .    AE-8 .    .    .    .    .    .    .     .    .    .   ",
    ".    .    .    .    .    DT-1 .    AR-7 .    .     .    .    .   ",
    ".    AA-1 AA-8 .    AA-8 DT-2 AR-6 AA-8 AA-8 AA-8  AA-8 AA-8 AA-6",
    ".    .    .    .    .    AR-1 .    .    .    .     .    .    .   ",
    ".    AA-1 AA-8 .    AA-8 AR-2 AR-8 AA-8 AA-8 AA-8  AA-8 AA-8 AA-6",
    ".    AA-1 AA-8 .    AA-8 AA-8 AR-3 AA-8 AA-8 AR-10 AR-3 AA-8 AA-6",
    ".    .    .    .    .    .    .    AR-4 AR-9 .     .    AR-4 .   ",
    ".    .    AA-1 AA-2 AA-1 AA-1 AA-1 AA-1 AA-1 AA-1  AA-1 AA-1 .   ",
    ".    AA-2 AA-3 .    AA-3 AA-3 AA-3 AA-3 AA-3 AA-3  AA-3 AA-3 AA-2",
    ".    AA-5 AA-4 AA-4 AA-4 AA-4 AA-4 AA-4 AA-4 AA-4  AA-4 AA-4 AR-5",
    ".    AA-2 .    .    .    .    .    .    .    .     .    .    AA-2",
    ".    AA-1 AA-8 .    AA-8 AA-8 AA-8 AA-8 AA-8 AA-8  AA-8 AA-8 AA-7"
};

static unsigned cell(unsigned number, unsigned state)
{
    const char *p = table[number - 1];
    size_t n;
    unsigned action;
    for (;; p += n, p += strspn(p, " ")) {
        n = strcspn(p, " ");
        if (--state == 0)
            break;
    }
    for (action = 1; action < 29; action++)
        if (strlen(feo_action_name((uint8_t)action)) == n && memcmp(feo_action_name((uint8_t)action), p, n) == 0)
            return action;
    return 0;
}

static unsigned next_state(unsigned action, int requestor)
{
    static const uint8_t next[29] = { 0, 4, 5, 6, 1, 2, 3, 6, 13, 6, 6, 7, 8, 1, 13, 1, 7, 8, 10, 11, 12, 13, 1, 1, 1, 1, 13, 13, 13 };
    return action == FEO_AR_8 && requestor ? 9 : next[action];
}

/* ---- the tests */

static void header(void)
{
    static const struct feo_assoc fresh = FEO_FRESH;
    struct feo_assoc a;
    size_t i;
    uint8_t *p = (uint8_t *)&a;
    for (i = 0; i < sizeof a; i++)
        p[i] = 0xEE;
    feo_fresh(&a);
    CHECK(a.state == 1 && a.gathered == 0 && a.deaf == 0 && a.artim == 0 && a.requestor == 0 && a.peer_max == 0);
    CHECK(fresh.state == 1 && fresh.gathered == 0 && fresh.deaf == 0 && fresh.artim == 0 && fresh.requestor == 0 && fresh.peer_max == 0);
    CHECK(FEO_BUFFER == 16390 && FEO_CALLED_AT == 10 && FEO_CALLING_AT == 26 && FEO_TITLE_LEN == 16);
    CHECK(FEO_ECHOED_AT == 10 && FEO_ECHOED_LEN == 64 && FEO_HEADER_LEN == 6 && FEO_LONGEST == 16384 && FEO_PDV_HEADER_LEN == 6);
    CHECK(FEO_RECORD_LEN == 132 && FEO_RECORD_ID_AT == 0 && FEO_RECORD_RESULT_AT == 1 && FEO_RECORD_ABSTRACT_LEN_AT == 2);
    CHECK(FEO_RECORD_TRANSFER_LEN_AT == 3 && FEO_RECORD_ABSTRACT_AT == 4 && FEO_RECORD_TRANSFER_AT == 68 && FEO_NAME_MAX == 64);
    CHECK(FEO_ROLE_LEN == 68 && FEO_ROLE_UID_LEN_AT == 0 && FEO_ROLE_SCU_AT == 1 && FEO_ROLE_SCP_AT == 2 && FEO_ROLE_UID_AT == 4);
    CHECK(FEO_PROPOSAL_ROOM == 429924 && FEO_ANSWER_ROOM == 16896 && FEO_ROLES_ROOM == 123080);
    CHECK(FEO_PROPOSAL_ROOM / FEO_PROPOSAL_ROOM == 1 && FEO_ANSWER_ROOM / FEO_ANSWER_ROOM == 1 && FEO_ROLES_ROOM / FEO_ROLES_ROOM == 1);
    CHECK(strcmp(FEO_APPLICATION_CONTEXT, APPLICATION) == 0 && FEO_APPLICATION_CONTEXT_LEN == strlen(APPLICATION));
    CHECK(FEO_CONTEXT_ACCEPTED == 0 && FEO_CONTEXT_USER_REJECTION == 1 && FEO_CONTEXT_NO_REASON == 2);
    CHECK(FEO_CONTEXT_ABSTRACT_NOT_SUPPORTED == 3 && FEO_CONTEXT_TRANSFER_NOT_SUPPORTED == 4);
    CHECK(FEO_REJECTED_PERMANENT == 1 && FEO_REJECTED_TRANSIENT == 2);
    CHECK(FEO_REJECTED_BY_USER == 1 && FEO_REJECTED_BY_ACSE == 2 && FEO_REJECTED_BY_PRESENTATION == 3);
    CHECK(FEO_REJECTED_USER_NO_REASON == 1 && FEO_REJECTED_USER_APPLICATION_CONTEXT == 2);
    CHECK(FEO_REJECTED_USER_CALLING_TITLE == 3 && FEO_REJECTED_USER_CALLED_TITLE == 7);
    CHECK(FEO_REJECTED_ACSE_NO_REASON == 1 && FEO_REJECTED_ACSE_VERSION == 2);
    CHECK(FEO_REJECTED_PRESENTATION_CONGESTION == 1 && FEO_REJECTED_PRESENTATION_LOCAL_LIMIT == 2);
    CHECK(FEO_ABORTED_BY_USER == 0 && FEO_ABORTED_BY_PROVIDER == 2);
    CHECK(FEO_ABORTED_NOT_SPECIFIED == 0 && FEO_ABORTED_UNRECOGNIZED_PDU == 1 && FEO_ABORTED_UNEXPECTED_PDU == 2);
    CHECK(FEO_ABORTED_UNRECOGNIZED_PARAMETER == 4 && FEO_ABORTED_UNEXPECTED_PARAMETER == 5 && FEO_ABORTED_INVALID_PARAMETER == 6);
    CHECK(FEO_PDV_COMMAND == 1 && FEO_PDV_LAST == 2);
    CHECK(FEO_ASSOCIATE_REQUEST == 1 && FEO_TRANSPORT_INDICATION == 5 && FEO_RELEASE_REQUEST == 11 && FEO_RELEASE_RESPONSE == 14);
    CHECK(FEO_ABORT_REQUEST == 15 && FEO_TRANSPORT_CLOSED == 17 && FEO_ARTIM_EXPIRED == 18 && FEO_INVALID_RECEIVED == 19);
    CHECK(FEO_AC_RECEIVED == 3 && FEO_RJ_RECEIVED == 4 && FEO_RQ_RECEIVED == 6 && FEO_DATA_RECEIVED == 10);
    CHECK(FEO_RELEASE_RQ_RECEIVED == 12 && FEO_RELEASE_RP_RECEIVED == 13 && FEO_ABORT_RECEIVED == 16);
    CHECK(FEO_AE_8 == 8 && FEO_DT_1 == 9 && FEO_AR_1 == 11 && FEO_AR_10 == 20 && FEO_AA_1 == 21 && FEO_AA_8 == 28);
    CHECK(strcmp(feo_action_name(FEO_AE_6), "AE-6") == 0 && strcmp(feo_action_name(FEO_AR_10), "AR-10") == 0);
    CHECK(strcmp(feo_action_name(FEO_AA_8), "AA-8") == 0 && strcmp(feo_action_name(0), "") == 0 && strcmp(feo_action_name(29), "?") == 0);
    CHECK(strcmp(feo_refusal_name(1), "blank cell of Table 9-10") == 0 && strcmp(feo_refusal_name(7), "no whole valid PDU of this kind") == 0);
    CHECK(strcmp(feo_refusal_name(0), "") == 0 && strcmp(feo_refusal_name(8), "?") == 0);
}

/* The names, of all numbers. */
static void names(void)
{
    static const struct {
        unsigned number;
        const char *name;
    } rows[] = {
        { FEO_ASSOCIATE_REQUEST, "A-ASSOCIATE request" },
        { FEO_TRANSPORT_CONFIRM, "transport connection confirm" },
        { FEO_AC_RECEIVED, "A-ASSOCIATE-AC received" },
        { FEO_RJ_RECEIVED, "A-ASSOCIATE-RJ received" },
        { FEO_TRANSPORT_INDICATION, "transport connection indication" },
        { FEO_RQ_RECEIVED, "A-ASSOCIATE-RQ received" },
        { FEO_ACCEPT_RESPONSE, "A-ASSOCIATE response (accept)" },
        { FEO_REJECT_RESPONSE, "A-ASSOCIATE response (reject)" },
        { FEO_DATA_REQUEST, "P-DATA request" },
        { FEO_DATA_RECEIVED, "P-DATA-TF received" },
        { FEO_RELEASE_REQUEST, "A-RELEASE request" },
        { FEO_RELEASE_RQ_RECEIVED, "A-RELEASE-RQ received" },
        { FEO_RELEASE_RP_RECEIVED, "A-RELEASE-RP received" },
        { FEO_RELEASE_RESPONSE, "A-RELEASE response" },
        { FEO_ABORT_REQUEST, "A-ABORT request" },
        { FEO_ABORT_RECEIVED, "A-ABORT received" },
        { FEO_TRANSPORT_CLOSED, "transport connection closed" },
        { FEO_ARTIM_EXPIRED, "ARTIM timer expired" },
        { FEO_INVALID_RECEIVED, "unrecognized or invalid PDU received" }
    };
    char state[16];
    unsigned n;
    CHECK(sizeof rows / sizeof *rows == 19);
    for (n = 0; n < 256; n++) {
        sprintf(state, "Sta%u", n);
        CHECK(strcmp(feo_state_name((uint8_t)n), n >= FEO_STA_1 && n <= FEO_STA_13 ? state : "?") == 0);
        CHECK(n < 1 || n > 19 || rows[n - 1].number == n);
        CHECK(strcmp(feo_event_name((uint8_t)n), n >= 1 && n <= 19 ? rows[n - 1].name : "?") == 0);
        CHECK((strcmp(feo_action_name((uint8_t)n), "?") == 0) == (n > FEO_AA_8));
        CHECK((strcmp(feo_refusal_name((uint8_t)n), "?") == 0) == (n > FEO_NO_SUCH_PDU));
    }
}

/* Cases 1 and 2: Sta6, an unknown type of length 16,384 at byte 16,390; of length 16,385 at byte 6, deaf. */
static void cases_1_2(void)
{
    static struct bytes pdu;
    size_t at;
    pdu.n = 0;
    add_four(&pdu, 0x08000000);
    add_two(&pdu, 16384);
    memset(pdu.at + 6, 0xAB, 16384);
    pdu.n = 16390;
    given(6);
    HEARD(pdu, FEO_AA_8, 13, ABORT_UNRECOGNIZED, 10, 0);
    given(6);
    for (at = 0; at < 16389; at++)
        heard(__LINE__, pdu.at + at, 1, 0, 6, 1, 0, 0, 0);
    heard(__LINE__, pdu.at + at, 1, FEO_AA_8, 13, 1, ABORT_UNRECOGNIZED, 10, 0);

    pdu.at[5] = 1;
    given(6);
    heard(__LINE__, pdu.at, pdu.n, FEO_AA_8, 13, 6, ABORT_INVALID, 10, 0);
    CHECK(w.a.deaf == 1);
    heard(__LINE__, pdu.at, pdu.n, 0, 13, pdu.n, 0, 0, 0);
    LOCAL(event(FEO_TRANSPORT_CLOSED, 0, 0), FEO_AR_5, 1, 0, 0);
    CHECK(w.a.deaf == 0);
}

/* Case 3: the RQ has PDU-length 155 and 161 bytes, its AC 134 and 140, and by E4 both so many more as the 52H has; both read back. */
static void case_3(void)
{
    static struct bytes rq, ac;
    static uint8_t sheet[FEO_RECORD_LEN + 64];
    struct feo_associate f;
    good_contents();
    request(&rq, 1, APPLICATION, ECHO_CLASS, IMPLICIT);
    CHECK(rq.n == 161 + 11 && rq.at[5] == 155 + 11);
    given(4);
    w.a.requestor = 1;
    LOCAL(confirm(FEO_BUFFER, FEO_BUFFER), FEO_AE_2, 5, rq.at, 172);

    acceptance(&ac, 1, 0, 16384);
    memcpy(ac.at + 10, echoed.at, 64);
    CHECK(ac.n == 140 + 11 && ac.at[5] == 134 + 11);
    given(3);
    LOCAL(accept_it(FEO_BUFFER, FEO_BUFFER), FEO_AE_7, 6, ac.at, 151);

    CHECK(feo_read_request(rq.at, rq.n, sheet, FEO_RECORD_LEN, NULL, 0, &f) == 0 && f.records == 1 && memcmp(sheet, proposal.at, FEO_RECORD_LEN) == 0);
    CHECK(feo_read_accept(ac.at, ac.n, sheet, FEO_RECORD_LEN, NULL, 0, &f) == 0 && f.records == 1 && memcmp(sheet, answers.at, FEO_RECORD_LEN) == 0);
}

/* ---- the title check */

/* What is lent to it, between guard bytes. Behind the list and behind the sought title stands what is not theirs. */
struct checked {
    uint8_t guard0[64];
    uint8_t own[18 * FEO_TITLE_LEN];
    uint8_t guard1[64];
    uint8_t sought[3 * FEO_TITLE_LEN];
    uint8_t guard2[64];
    uint8_t known;
    uint8_t guard3[64];
    uint8_t place;
    uint8_t guard4[64];
};

/* It, and a copy from before the call. */
static struct checked t, lent;

#define OWN(i) (t.own + (size_t)(i) * FEO_TITLE_LEN)
#define OTHERS_TITLE "BEHIND THE LIST "

/* Writes a title with so many spaces before it, and spaces behind it. */
static void put_title(uint8_t *to, size_t before_it, const char *title)
{
    memset(to, ' ', FEO_TITLE_LEN);
    memcpy(to + before_it, title, strlen(title));
}

/* Eight different titles, some with spaces before them; behind them stands one that is not of the list. */
static const char *const eight[8] = { "A", "B", "STORE-EQUINE", "STORE-EXOTIC", "store-equine", "STORE", "A B", "A  B" };

static void good_titles(void)
{
    size_t i;
    memset(&t, 0xA5, sizeof t);
    for (i = 0; i < sizeof t.own / FEO_TITLE_LEN; i++)
        put_title(OWN(i), 0, OTHERS_TITLE);
    for (i = 0; i < 8; i++)
        put_title(OWN(i), i % 5, eight[i]);
    for (i = 0; i < sizeof t.sought / FEO_TITLE_LEN; i++)
        put_title(t.sought + i * FEO_TITLE_LEN, 0, "A");
}

/* The answer with these lengths is the one that is said, and nothing else changes. */
static void answers_place(int line, size_t own_len, size_t sought_len, unsigned refusal, unsigned known, unsigned place)
{
    uint8_t got;
    t.known = t.place = 0xEE;
    memcpy(&lent, &t, sizeof t);
    got = feo_title_place(own_len != 0 ? t.own : NULL, own_len, sought_len != 0 ? t.sought : NULL, sought_len, &t.known, &t.place);
    check(line, got == refusal, "the title check's refusal");
    check(line, t.known == known, "known");
    check(line, t.place == place, "place");
    lent.known = t.known;
    lent.place = t.place;
    check(line, memcmp(&t, &lent, sizeof t) == 0, "what is lent to the title check");
}

#define FOUND(titles, place) answers_place(__LINE__, (titles) * FEO_TITLE_LEN, FEO_TITLE_LEN, 0, 1, (unsigned)(place))
#define NOT_FOUND(titles) answers_place(__LINE__, (titles) * FEO_TITLE_LEN, FEO_TITLE_LEN, 0, 0, 0)
#define NOT_TAKEN(own_len, sought_len) answers_place(__LINE__, (own_len), (sought_len), FEO_BAD_CONTENTS, 0, 0)

/* Case 4; what counts in a title. */
static void case_4_titles(void)
{
    static const char own[] = "STORE-EXOTIC     STORE-EQUINE   ";
    const uint8_t *o = (const uint8_t *)own;
    uint8_t known = 9, place = 9;
    size_t i;
    CHECK(feo_title_place(o + 16, 16, (const uint8_t *)"STORE-EQUINE    ", 16, &known, &place) == 0 && known == 1 && place == 0);
    CHECK(feo_title_place(o, 16, (const uint8_t *)"STORE-EQUINE    ", 16, &known, &place) == 0 && known == 0 && place == 0);
    CHECK(feo_title_place(o, 32, (const uint8_t *)"   STORE-EQUINE ", 16, &known, &place) == 0 && known == 1 && place == 1);
    CHECK(feo_title_place(o, 32, (const uint8_t *)"store-equine    ", 16, &known, &place) == 0 && known == 0 && place == 0);
    known = place = 9;
    CHECK(feo_title_place(NULL, 0, (const uint8_t *)"STORE-EQUINE    ", 16, &known, &place) == 0 && known == 0 && place == 0);
    known = place = 9;
    CHECK(feo_title_place(o, 32, (const uint8_t *)"                ", 16, &known, &place) == 0 && known == 0 && place == 0);
    /* the sought title may be a part of the list: both are only read */
    CHECK(feo_title_place(o, 32, o + 16, 16, &known, &place) == 0 && known == 1 && place == 1);
    CHECK(feo_title_place(o, 32, o, 16, &known, &place) == 0 && known == 1 && place == 0);

    /* a title of sixteen characters is compared in each of them, inner spaces too */
    good_titles();
    put_title(OWN(7), 0, "0123456 89ABCDEF");
    put_title(t.sought, 0, "0123456 89ABCDEF");
    FOUND(8, 7);
    for (i = 0; i < FEO_TITLE_LEN; i++) {
        t.sought[i] ^= 1;
        NOT_FOUND(8);
        t.sought[i] ^= 1;
        t.own[7 * FEO_TITLE_LEN + i] ^= 1;
        NOT_FOUND(8);
        t.own[7 * FEO_TITLE_LEN + i] ^= 1;
    }
    /* what is no title is none of ours: only its length is tested */
    put_title(t.sought, 0, "");
    NOT_FOUND(8);
    NOT_FOUND(0);
    put_title(t.sought, 0, "A\\");
    NOT_FOUND(8);
    memset(t.sought, 0, FEO_TITLE_LEN);
    NOT_FOUND(8);
    t.sought[0] = 'A';
    NOT_FOUND(8);
    put_title(t.sought, 0, "A\t");
    NOT_FOUND(8);
}

/* The place of each title in lists of each length, however it is written; none where the list ends before it. */
static void title_places(void)
{
    size_t n, i, before_it;
    good_titles();
    for (i = 0; i < 8; i++)
        for (before_it = 0; before_it + strlen(eight[i]) <= FEO_TITLE_LEN; before_it++) {
            put_title(t.sought, before_it, eight[i]);
            for (n = 0; n <= 8; n++)
                if (i < n)
                    FOUND(n, i);
                else
                    NOT_FOUND(n);
        }
    put_title(t.sought, 0, OTHERS_TITLE);
    for (n = 0; n <= 8; n++)
        NOT_FOUND(n);
}

/* Of equal titles the first: of two at each pair of places, equal bytewise or but for outer spaces, and of eight. */
static void first_place(void)
{
    size_t i, j, form;
    for (i = 0; i < 8; i++)
        for (j = i + 1; j < 8; j++)
            for (form = 0; form < 4; form++) {
                good_titles();
                put_title(OWN(i), form & 1, "TWICE");
                put_title(OWN(j), form >> 1, "TWICE");
                memcpy(t.sought, OWN(i), FEO_TITLE_LEN);
                FOUND(8, i);
                FOUND(j + 1, i);
                FOUND(j, i);
                /* the later one's very bytes */
                memcpy(t.sought, OWN(j), FEO_TITLE_LEN);
                FOUND(8, i);
                FOUND(j + 1, i);
                FOUND(j, i);
                put_title(t.sought, 11, "TWICE");
                FOUND(8, i);
            }
    good_titles();
    for (i = 0; i < 8; i++)
        put_title(OWN(i), 0, "EIGHT TIMES");
    for (i = 0; i < 8; i++) {
        memcpy(t.sought, OWN(i), FEO_TITLE_LEN);
        for (j = 1; j <= 8; j++)
            FOUND(j, 0);
    }
    for (i = 0; i < 8; i++)
        put_title(OWN(i), 5 - i % 6, "EIGHT TIMES");
    for (i = 0; i < 8; i++) {
        memcpy(t.sought, OWN(i), FEO_TITLE_LEN);
        for (j = 1; j <= 8; j++)
            FOUND(j, 0);
    }
}

/* A list is tested whole before it is searched; lengths that are none. */
static void titles_refused(void)
{
    static const char bad[][FEO_TITLE_LEN + 1] = {
        "                ", "BACK\\SLASH      ", "TAB\tTAB         ", "\177               ", "               \200", "A              \0"
    };
    static uint8_t many[65536 + FEO_TITLE_LEN];
    size_t i, k, n;
    unsigned byte;
    uint8_t known, place;
    /* one that is none, at each place, though the first is the sought one; it is the sought one itself */
    for (i = 0; i < 8; i++)
        for (k = 0; k < sizeof bad / sizeof *bad; k++) {
            good_titles();
            memcpy(OWN(i), bad[k], FEO_TITLE_LEN);
            NOT_TAKEN(128, FEO_TITLE_LEN);
            NOT_TAKEN((i + 1) * FEO_TITLE_LEN, FEO_TITLE_LEN);
            if (i > 0)
                FOUND(i, 0);
            memcpy(t.sought, OWN(i), FEO_TITLE_LEN);
            NOT_TAKEN(128, FEO_TITLE_LEN);
            if (i > 0)
                NOT_FOUND(i);
        }
    /* each byte at the first and the last character of the last title: 20H to 7EH without 5CH are title characters */
    good_titles();
    for (byte = 0; byte < 256; byte++)
        for (k = 0; k < FEO_TITLE_LEN; k += FEO_TITLE_LEN - 1) {
            put_title(OWN(7), 1, "OF FOURTEEN 14");
            OWN(7)[k] = (uint8_t)byte;
            if (byte >= 0x20 && byte <= 0x7E && byte != 0x5C)
                FOUND(8, 0);
            else
                NOT_TAKEN(128, FEO_TITLE_LEN);
        }
    /* each length */
    good_titles();
    for (n = 0; n <= 17 * FEO_TITLE_LEN; n++)
        if (n % FEO_TITLE_LEN != 0 || n > 128)
            NOT_TAKEN(n, FEO_TITLE_LEN);
        else if (n == 0)
            NOT_FOUND(0);
        else
            FOUND(n / FEO_TITLE_LEN, 0);
    for (n = 0; n <= 33; n++)
        if (n != FEO_TITLE_LEN) {
            NOT_TAKEN(128, n);
            NOT_TAKEN(0, n);
            NOT_TAKEN(17, n);
        }
    /* lengths of which a byte or two would be good */
    for (n = 0; n < sizeof many; n += FEO_TITLE_LEN)
        put_title(many + n, 0, "A");
    for (n = 256; n <= sizeof many; n = n < 65536 ? n * 2 : n + FEO_TITLE_LEN)
        for (k = n; k <= n + FEO_TITLE_LEN && k <= sizeof many; k += FEO_TITLE_LEN) {
            known = place = 0xEE;
            CHECK(feo_title_place(many, k, many, FEO_TITLE_LEN, &known, &place) == 4 && known == 0 && place == 0);
            known = place = 0xEE;
            CHECK(feo_title_place(many, FEO_TITLE_LEN, many, k, &known, &place) == 4 && known == 0 && place == 0);
        }
}

/* The answer to generated lists, as documents 01 and 02 have it. */

/* The characters of a title without its outer spaces: where they begin, and how many they are. */
static size_t inner(const uint8_t *title, size_t *from)
{
    size_t end = FEO_TITLE_LEN;
    *from = 0;
    while (*from < end && title[*from] == ' ')
        ++*from;
    while (end > *from && title[end - 1] == ' ')
        end--;
    return end - *from;
}

static int is_title(const uint8_t *title)
{
    size_t i, from;
    for (i = 0; i < FEO_TITLE_LEN; i++)
        if (title[i] < 0x20 || title[i] > 0x7E || title[i] == 0x5C)
            return 0;
    return inner(title, &from) != 0;
}

static int same_title(const uint8_t *x, const uint8_t *y)
{
    size_t x_from, y_from, n = inner(x, &x_from);
    return n == inner(y, &y_from) && memcmp(x + x_from, y + y_from, n) == 0;
}

/* A title of few characters, so that equal ones come; seldom one that is none. */
static void draw_title(uint8_t *to)
{
    static const char good[] = "  AAB- a~", bad[] = "\\\177\37\200\377\t";
    size_t i, from = draw(FEO_TITLE_LEN), n = draw(2) == 0 ? 1 + draw(3) : 1 + draw(FEO_TITLE_LEN);
    memset(to, ' ', FEO_TITLE_LEN);
    for (i = from; i < from + n && i < FEO_TITLE_LEN; i++)
        to[i] = (uint8_t)good[draw(sizeof good - 1)];
    to[from] = (uint8_t)good[2 + draw(3)];
    if (draw(40) == 0)
        to[draw(FEO_TITLE_LEN)] = (uint8_t)bad[draw(sizeof bad)];
    if (draw(60) == 0)
        memset(to, ' ', FEO_TITLE_LEN);
}

/* One of our titles once more, its outer spaces laid out anew. */
static void draw_again(uint8_t *to, const uint8_t *title)
{
    size_t from, n = inner(title, &from);
    uint8_t kept[FEO_TITLE_LEN];
    memcpy(kept, title, FEO_TITLE_LEN);
    memset(to, ' ', FEO_TITLE_LEN);
    memcpy(to + draw((unsigned)(FEO_TITLE_LEN - n + 1)), kept + from, n);
}

static void generated_titles(void)
{
    size_t round, i, n, own_len, sought_len, bad;
    long places[8] = { 0, 0, 0, 0, 0, 0, 0, 0 }, none = 0, refused_lists = 0, refused_though_found = 0;
    good_titles();
    for (round = 0; round < 40000; round++) {
        n = draw(20) == 0 ? 9 : draw(3) == 0 ? 8 : draw(9);
        for (i = 0; i < 9; i++)
            draw_title(OWN(i));
        if (n > 1 && draw(2) == 0)
            draw_again(OWN(draw((unsigned)n)), OWN(draw((unsigned)n)));
        draw_title(t.sought);
        if (n > 0 && draw(4) != 0)
            draw_again(t.sought, OWN(draw((unsigned)n)));
        if (draw(6) == 0)
            t.sought[draw(FEO_TITLE_LEN)] = (uint8_t)draw(256);
        own_len = n * FEO_TITLE_LEN + (draw(30) == 0 ? 1 + draw(15) : 0);
        sought_len = draw(30) == 0 ? draw(33) : FEO_TITLE_LEN;

        bad = own_len % FEO_TITLE_LEN != 0 || own_len > 8 * FEO_TITLE_LEN || sought_len != FEO_TITLE_LEN;
        for (i = 0; i < n; i++)
            bad |= !is_title(OWN(i));
        for (i = 0; i < n && !same_title(OWN(i), t.sought); i++)
            continue;
        if (bad) {
            answers_place(__LINE__, own_len, sought_len, FEO_BAD_CONTENTS, 0, 0);
            refused_lists++;
            refused_though_found += i < n && is_title(OWN(i)) && sought_len == FEO_TITLE_LEN;
        } else {
            answers_place(__LINE__, own_len, sought_len, 0, i < n, i < n ? (unsigned)i : 0);
            if (i < n)
                places[i]++;
            else
                none++;
        }
    }
    for (i = 0; i < 8; i++)
        CHECK(places[i] > 200);
    CHECK(none > 2000 && refused_lists > 2000 && refused_though_found > 1000);
}

static void cases_5_to_9(void)
{
    static struct bytes pdu;
    uint8_t id = 9, control = 9, from = 9, why = 9;
    size_t start = 9, length = 9;
    /* 5: a release collision */
    ten(&pdu, 5, 0, 0, 0, 0);
    given(7);
    w.a.requestor = 1;
    HEARD(pdu, FEO_AR_8, 9, 0, 0, 0);
    given(7);
    HEARD(pdu, FEO_AR_8, 10, 0, 0, 0);
    /* 6: data after a release request */
    data(&pdu, 1, 3, 4);
    given(7);
    HEARD(pdu, FEO_AR_6, 7, 0, 0, pdu.n);
    given(8);
    HEARD(pdu, FEO_AA_8, 13, ABORT_UNEXPECTED, 10, 0);
    /* 7: an RQ in Sta13 */
    request(&pdu, 1, APPLICATION, ECHO_CLASS, IMPLICIT);
    given(13);
    HEARD(pdu, FEO_AA_7, 13, ABORT_UNEXPECTED, 10, 0);
    /* 8: ABORT source 1, and source 0 with reason 9 */
    ten(&pdu, 7, 0, 0, 1, 0);
    given(6);
    HEARD(pdu, FEO_AA_8, 13, ABORT_INVALID, 10, 0);
    CHECK(feo_read_abort(pdu.at, pdu.n, &from, &why) == 7 && from == 0 && why == 0);
    ten(&pdu, 7, 0, 0, 0, 9);
    given(6);
    HEARD(pdu, FEO_AA_3, 1, 0, 0, 10);
    CHECK(feo_read_abort(w.gather, w.r.shown, &from, &why) == 0 && from == 0 && why == 9);
    /* 9: PDV length 1, PDV length 2, P-DATA-TF length 0 */
    pdu.n = 0;
    add(&pdu, "\x04\x00\x00\x00\x00\x05\x00\x00\x00\x01\x01", 11);
    CHECK(feo_read_data(pdu.at, pdu.n, 0, &id, &control, &start, &length) == 7 && id == 0 && control == 0 && start == 0 && length == 0);
    given(6);
    HEARD(pdu, FEO_AA_8, 13, ABORT_INVALID, 10, 0);
    pdu.n = 0;
    add(&pdu, "\x04\x00\x00\x00\x00\x06\x00\x00\x00\x02\x01\xFF", 12);
    CHECK(feo_read_data(pdu.at, pdu.n, 0, &id, &control, &start, &length) == 0);
    CHECK(id == 1 && control == 0xFF && start == 12 && length == 0);
    given(6);
    HEARD(pdu, FEO_DT_2, 6, 0, 0, 12);
    pdu.n = 0;
    add(&pdu, "\x04\x00\x00\x00\x00\x00", 6);
    CHECK(feo_read_data(pdu.at, pdu.n, 0, &id, &control, &start, &length) == 7);
    given(6);
    HEARD(pdu, FEO_AA_8, 13, ABORT_INVALID, 10, 0);
}

/* Case 10: names, each tried in the three places of an RQ. */
static void case_10(void)
{
    static const char sixty_five[] = "1.2345678901234567890123456789012345678901234567890123456789012.9";
    static const struct {
        const char *name;
        int valid;
    } names[] = { { "1.0", 1 }, { "0", 1 }, { "1.02", 0 }, { "1.2.", 0 }, { "", 0 }, { SIXTY_FOUR, 1 }, { sixty_five, 0 }, { ".1", 0 }, { "1..2", 0 }, { "1.a", 0 } };
    static struct bytes pdu;
    static uint8_t sheet[FEO_RECORD_LEN];
    struct feo_associate f;
    size_t i;
    CHECK(sizeof SIXTY_FOUR == 65 && sizeof sixty_five == 66);
    for (i = 0; i < sizeof names / sizeof *names; i++) {
        unsigned refusal = names[i].valid ? 0 : 7;
        request(&pdu, 1, names[i].name, ECHO_CLASS, IMPLICIT);
        CHECK(feo_read_request(pdu.at, pdu.n, sheet, FEO_RECORD_LEN, NULL, 0, &f) == refusal);
        request(&pdu, 1, APPLICATION, names[i].name, IMPLICIT);
        CHECK(feo_read_request(pdu.at, pdu.n, sheet, FEO_RECORD_LEN, NULL, 0, &f) == refusal);
        request(&pdu, 1, APPLICATION, ECHO_CLASS, names[i].name);
        CHECK(feo_read_request(pdu.at, pdu.n, sheet, FEO_RECORD_LEN, NULL, 0, &f) == refusal);
        given(2);
        if (names[i].valid)
            HEARD(pdu, FEO_AE_6, 3, 0, 0, pdu.n);
        else
            HEARD(pdu, FEO_AA_1, 13, ABORT_USER, 10, 0);
    }
}

/* Case 11: version 2 is rejected, 3 accepted. */
static void case_11(void)
{
    static struct bytes pdu;
    request(&pdu, 2, APPLICATION, ECHO_CLASS, IMPLICIT);
    given(2);
    HEARD(pdu, FEO_AE_6, 13, REJECT_VERSION, 10, 0);
    request(&pdu, 3, APPLICATION, ECHO_CLASS, IMPLICIT);
    given(2);
    HEARD(pdu, FEO_AE_6, 3, 0, 0, pdu.n);
    CHECK(w.a.peer_max == 16384);
}

/* Every number as an event in every state. */
static void local_events(void)
{
    unsigned state, number, requestor;
    for (state = 1; state <= 13; state++)
        for (number = 0; number < 256; number++)
            for (requestor = 0; requestor < 2; requestor++) {
                unsigned known = number >= 1 && number <= 19, action = known ? cell(number, state) : 0;
                const uint8_t *sent = action == FEO_AR_1 ? RELEASE_RQ : action == FEO_AA_1 ? ABORT_USER : RELEASE_RP;
                size_t n = action == FEO_AR_1 || action == FEO_AR_4 || action == FEO_AR_9 || action == FEO_AA_1 ? 10 : 0;
                given(state);
                w.a.requestor = state == 1 ? 0 : (uint8_t)requestor;
                if (number == FEO_TRANSPORT_CONFIRM || number == FEO_ACCEPT_RESPONSE || number == FEO_REJECT_RESPONSE || number == FEO_DATA_REQUEST)
                    REFUSED(event(number, 0, 0), action != 0 ? 4 : 1);
                else if (action == 0 || strstr(feo_event_name((uint8_t)number), "received") != NULL)
                    REFUSED(event(number, 0, 0), 1);
                else {
                    if (n != 0)
                        REFUSED(event(number, 0, 9), 2);
                    before();
                    if (action == FEO_AE_1)
                        want.a.requestor = 1;
                    local(__LINE__, event(number, 0, n), action, next_state(action, (int)requestor), sent, n);
                }
            }
}

static int shows(unsigned action)
{
    return action == FEO_AE_3 || action == FEO_AE_4 || action == FEO_AE_6 || action == FEO_DT_2 || action == FEO_AR_6 || action == FEO_AA_3;
}

/* Every kind of PDU in every state. */
static void received(void)
{
    static struct bytes pdus[11];
    static const uint8_t rows[11] = {
        FEO_RQ_RECEIVED, FEO_AC_RECEIVED, FEO_RJ_RECEIVED, FEO_DATA_RECEIVED, FEO_RELEASE_RQ_RECEIVED, FEO_RELEASE_RP_RECEIVED,
        FEO_ABORT_RECEIVED, FEO_AC_RECEIVED, FEO_INVALID_RECEIVED, FEO_INVALID_RECEIVED, FEO_INVALID_RECEIVED
    };
    unsigned state, requestor, k;
    request(&pdus[0], 1, APPLICATION, ECHO_CLASS, IMPLICIT);
    acceptance(&pdus[1], 1, 0, 5000);
    ten(&pdus[2], 3, 0xFF, 2, 3, 1);
    data(&pdus[3], 255, 0xFF, 7);
    ten(&pdus[4], 5, 0xDE, 0xAD, 0xBE, 0xEF);
    ten(&pdus[5], 6, 1, 2, 3, 4);
    ten(&pdus[6], 7, 9, 9, 2, 6);
    /* an AC with an empty name: its context refused, and accepted; its result is byte 105 */
    acceptance(&pdus[7], 1, 3, 5000);
    acceptance(&pdus[8], 1, 3, 5000);
    CHECK(pdus[8].at[105] == 3);
    pdus[8].at[105] = 0;
    ten(&pdus[9], 5, 0, 0, 0, 0);
    pdus[9].at[5] = 3;
    pdus[9].n = 9;
    ten(&pdus[10], 0, 0, 0, 0, 0);
    for (state = 1; state <= 13; state++)
        for (requestor = 0; requestor < 2; requestor++)
            for (k = 0; k < 11; k++) {
                unsigned action = cell(rows[k], state);
                const uint8_t *sent = action == FEO_AA_1 ? ABORT_USER : k < 8 ? ABORT_UNEXPECTED : k < 10 ? ABORT_INVALID : ABORT_UNRECOGNIZED;
                size_t n = action == FEO_AA_1 || action == FEO_AA_7 || action == FEO_AA_8 ? 10 : 0;
                given(state);
                w.a.requestor = state == 1 ? 0 : (uint8_t)(requestor * 0x80);
                w.a.peer_max = state == 1 ? 0 : 77;
                if (action == 0)
                    heard(__LINE__, pdus[k].at, pdus[k].n, 0, state, pdus[k].n, 0, 0, 0);
                else
                    HEARD(pdus[k], action, next_state(action, (int)requestor), sent, n, shows(action) ? pdus[k].n : 0);
                if (w.a.state != 1)
                    CHECK(w.a.peer_max == (action == FEO_AE_3 ? 5000U : action == FEO_AE_6 ? 16384U : state == 1 ? 0U : 77U));
            }
}

/* Receiving: its refusals in their order, the empty piece, marks above 1. */
static void receiving(void)
{
    static const uint8_t piece[] = { 5, 0, 0 };
    size_t got, room;
    unsigned state;
    for (state = 1; state <= 13; state++) {
        given(state);
        heard(__LINE__, NULL, 0, 0, state, 0, 0, 0, 0);
        heard(__LINE__, piece, 3, 0, state, 3, 0, 0, 0);
        for (room = 0; room < 10; room++)
            REFUSED(feo_receive(&w.a, w.gather, FEO_BUFFER, piece, 0, w.out, room, &w.r), 2);
        REFUSED(feo_receive(&w.a, w.gather, FEO_BUFFER, NULL, 0, NULL, 0, &w.r), 2);
        REFUSED(feo_receive(&w.a, w.gather, FEO_BUFFER - 1, piece, 3, w.out, 0, &w.r), 3);
        REFUSED(feo_receive(&w.a, NULL, 0, NULL, 0, NULL, 0, &w.r), 3);
        w.a.artim = !w.a.artim;
        REFUSED(feo_receive(&w.a, w.gather, FEO_BUFFER - 1, piece, 3, w.out, 0, &w.r), 6);
    }
    /* the gathered length field: after 3, before 2 */
    for (got = 6; got < 11; got++) {
        given(6);
        memcpy(w.gather, RELEASE_RQ, 10);
        w.a.gathered = got;
        if (got < 10)
            heard(__LINE__, NULL, 0, 0, 6, 0, 0, 0, 0);
        else
            REFUSED(feo_receive(&w.a, w.gather, FEO_BUFFER, piece, 3, w.out, 0, &w.r), 6);
        w.gather[4] = 0x40;
        w.gather[5] = 1;
        REFUSED(feo_receive(&w.a, w.gather, FEO_BUFFER, piece, 3, w.out, 0, &w.r), 6);
        REFUSED(feo_receive(&w.a, w.gather, FEO_BUFFER - 1, piece, 3, w.out, 0, &w.r), 3);
    }
    /* a longer gather buffer is right, and its rest stays */
    given(6);
    before();
    CHECK(feo_receive(&w.a, w.gather, FEO_BUFFER + 64, piece, 3, w.out, 10, &w.r) == 0 && w.r.used == 3 && w.a.gathered == 3);
    CHECK(memcmp(w.guard3, want.guard3, 64) == 0 && memcmp(w.out, want.out, FEO_BUFFER) == 0);
    /* marks above 1: kept by a refused call, stored as 1 by an answered one */
    given(13);
    w.a.artim = 0x80;
    w.a.deaf = 2;
    w.a.requestor = 255;
    REFUSED(feo_receive(&w.a, w.gather, FEO_BUFFER, piece, 3, w.out, 9, &w.r), 2);
    heard(__LINE__, piece, 3, 0, 13, 3, 0, 0, 0);
    CHECK(w.a.artim == 1 && w.a.deaf == 1 && w.a.requestor == 1);
}

/* Broken records, at receiving and at each local call: 6 before all else. */
static void broken(void)
{
    static const struct feo_assoc bad[] = {
        { 0, 0, 0, 0, 0, 0 },     { 14, 0, 0, 0, 0, 0 },    { 77, 0, 0, 0, 0, 0 },    { 255, 0, 0, 0, 0, 0 },
        { 6, 0, 0, 0, 0, 16390 }, { 1, 0, 0, 0, 0, 1 },     { 4, 0, 0, 0, 0, 1 },     { 13, 1, 1, 0, 0, 1 },
        { 6, 1, 0, 0, 0, 0 },     { 2, 255, 1, 0, 0, 0 },   { 6, 0, 1, 0, 0, 0 },     { 2, 0, 0, 0, 0, 0 },
        { 13, 0, 0, 0, 0, 0 },    { 3, 0, 9, 0, 0, 0 },     { 1, 0, 0, 1, 0, 0 },     { 1, 0, 0, 0, 1, 0 },
        { 6, 0, 0, 0, 0, (size_t)-1 }
    };
    static uint8_t (*const calls[])(size_t, size_t) = { release, confirm, accept_it, reject, send_it };
    size_t i, k;
    for (i = 0; i < sizeof bad / sizeof *bad; i++) {
        given(6);
        w.a = bad[i];
        called.n = echoed.n = items.n = 0;
        REFUSED(feo_receive(&w.a, w.gather, FEO_BUFFER, w.guard0, 5, w.out, FEO_BUFFER, &w.r), 6);
        REFUSED(feo_receive(&w.a, NULL, 0, NULL, 0, NULL, 0, &w.r), 6);
        for (k = 0; k < sizeof calls / sizeof *calls; k++) {
            REFUSED(calls[k](FEO_BUFFER, FEO_BUFFER), 6);
            REFUSED(calls[k](0, 0), 6);
        }
        REFUSED(event(200, 0, 0), 6);
    }
    good_contents();
}

/* The five local calls: 3, 6 for the gathered length, 1 before 4, 2 by need; the count gathered stays. */
static void local_refusals(void)
{
    static const struct {
        uint8_t (*call)(size_t, size_t);
        unsigned number, state, action, next;
        size_t sent;
    } calls[] = {
        { release, FEO_RELEASE_REQUEST, 6, FEO_AR_1, 7, 10 },
        { accept_it, FEO_ACCEPT_RESPONSE, 3, FEO_AE_7, 6, 151 },
        { reject, FEO_REJECT_RESPONSE, 3, FEO_AE_8, 13, 10 },
        { send_it, FEO_DATA_REQUEST, 6, FEO_DT_1, 6, 14 },
        { send_it, FEO_DATA_REQUEST, 8, FEO_AR_7, 8, 14 },
        { confirm, FEO_TRANSPORT_CONFIRM, 4, FEO_AE_2, 5, 172 }
    };
    size_t i;
    unsigned state;
    for (i = 0; i < sizeof calls / sizeof *calls; i++) {
        good_contents();
        for (state = 1; state <= 13; state++) {
            if (cell(calls[i].number, state) != 0)
                continue;
            given(state);
            REFUSED(calls[i].call(0, 0), 1);
            REFUSED(calls[i].call(FEO_BUFFER, FEO_BUFFER), 1);
        }
        given(calls[i].state);
        REFUSED(calls[i].call(0, calls[i].sent - 1), 2);
        REFUSED(calls[i].call(FEO_BUFFER, 0), 2);
        if (calls[i].state != 4) {
            memcpy(w.gather, RELEASE_RQ, 10);
            w.a.gathered = 9;
            REFUSED(calls[i].call(8, 0), 3);
            w.gather[5] = 3;
            REFUSED(calls[i].call(8, 0), 3);
            REFUSED(calls[i].call(9, 0), 6);
            w.gather[4] = 0x40;
            REFUSED(calls[i].call(9, FEO_BUFFER), 6);
            w.gather[4] = 0x40, w.gather[5] = 0;
            REFUSED(calls[i].call(9, 0), 2);
        }
        w.a.requestor = 3;
        before();
        CHECK(calls[i].call(w.a.gathered, calls[i].sent) == 0 && w.r.sent == calls[i].sent);
        memcpy(want.out, w.out, calls[i].sent);
        local(__LINE__, 0, calls[i].action, calls[i].next, w.out, calls[i].sent);
        CHECK(w.a.requestor == 1 && w.a.gathered == (calls[i].state == 4 ? 0U : 9U));
    }
}

static void bad_confirm(unsigned refusal)
{
    given(4);
    REFUSED(confirm(0, 0), refusal);
    REFUSED(confirm(0, FEO_BUFFER), refusal);
    good_contents();
}

static void bad_accept(unsigned refusal)
{
    given(3);
    REFUSED(accept_it(0, 0), refusal);
    REFUSED(accept_it(0, FEO_BUFFER), refusal);
    good_contents();
}

/* Contents of the confirmation and of the accept response: 4, then 5, then 2. */
static void contents(void)
{
    unsigned i;
    good_contents();
    called.n = 15;
    bad_confirm(4);
    calling.n = 17;
    bad_confirm(4);
    memset(called.at, ' ', 16);
    bad_confirm(4);
    calling.at[3] = 0x5C;
    bad_confirm(4);
    calling.at[15] = 0;
    bad_confirm(4);
    application.at[4] = '0';
    bad_confirm(4);
    application.n = 0;
    bad_confirm(4);
    proposal.n = 0;
    bad_confirm(4);
    proposal.n = 131;
    bad_confirm(4);
    proposal.at[0] = 2;
    bad_confirm(4);
    proposal.at[1] = 1;
    bad_confirm(4);
    proposal.at[2] = 65;
    bad_confirm(4);
    proposal.at[67] = 1;
    bad_confirm(4);
    proposal.at[131] = 1;
    bad_confirm(4);
    add_record(&proposal, 1, 0, "1.2", IMPLICIT);
    bad_confirm(4);
    add_record(&proposal, 3, 0, ECHO_CLASS, IMPLICIT);
    add_record(&proposal, 1, 0, ECHO_CLASS, IMPLICIT);
    bad_confirm(4);
    echoed.n = 63;
    bad_accept(4);
    echoed.n = 65;
    bad_accept(4);
    echoed.n = 0;
    bad_accept(4);
    application.at[0] = '.';
    bad_accept(4);
    answers.at[0] = 128;
    bad_accept(4);
    answers.at[1] = 5;
    bad_accept(4);
    answers.at[2] = 1;
    bad_accept(4);
    answers.at[3] = 0;
    bad_accept(4);
    answers.at[4] = 1;
    bad_accept(4);
    add_record(&answers, 1, 0, "", IMPLICIT);
    bad_accept(4);
    answers.n = 0;
    bad_accept(4);
    add_record(&answers, 3, 0, "", "");
    bad_accept(4);
    /* 128 contexts of 64-byte names are too long for one PDU; with one bad record at the end 4 comes first */
    proposal.n = 0;
    for (i = 0; i < 128; i++)
        add_record(&proposal, 2 * i + 1, 0, SIXTY_FOUR, SIXTY_FOUR);
    bad_confirm(5);
    proposal.n = 0;
    for (i = 0; i < 128; i++)
        add_record(&proposal, 2 * i + 1, 0, SIXTY_FOUR, SIXTY_FOUR);
    add_record(&proposal, 2, 0, ECHO_CLASS, IMPLICIT);
    bad_confirm(4);
}

/* 40,000 good records get 5, with one bad last record 4. */
static void long_sheet(void)
{
    size_t n = (size_t)40000 * FEO_RECORD_LEN, i;
    uint8_t *sheet = (uint8_t *)malloc(n);
    CHECK(sheet != NULL);
    good_contents();
    for (i = 0; i < 40000; i++)
        memcpy(sheet + i * FEO_RECORD_LEN, proposal.at, FEO_RECORD_LEN);
    given(4);
    REFUSED(feo_confirm(&w.a, called.at, 16, calling.at, 16, application.at, application.n, &user, sheet, n, NULL, 0, w.out, 0, &w.r), 5);
    sheet[n - FEO_RECORD_LEN + FEO_RECORD_ID_AT] = 4;
    REFUSED(feo_confirm(&w.a, called.at, 16, calling.at, 16, application.at, application.n, &user, sheet, n, NULL, 0, w.out, 0, &w.r), 4);
    free(sheet);
}

/* A reject's values: all triples around the lists. */
static void rejects(void)
{
    static const char *const reasons[] = { "", "\1\2\3\7", "\1\2", "\1\2" };
    uint8_t sent[10] = { 3, 0, 0, 0, 0, 4, 0, 0, 0, 0 };
    for (result = 0; result < 4; result++)
        for (source = 0; source < 5; source++)
            for (reason = 0; reason < 10; reason++) {
                int good = result >= 1 && result <= 2 && source >= 1 && source <= 3 && reason != 0 && strchr(reasons[source], (int)reason) != NULL;
                given(3);
                sent[7] = (uint8_t)result;
                sent[8] = (uint8_t)source;
                sent[9] = (uint8_t)reason;
                if (good)
                    LOCAL(reject(0, 10), FEO_AE_8, 13, sent, 10);
                else
                    REFUSED(reject(0, 10), 4);
            }
    good_contents();
}

/* PDV items, the peer maximum, and the greatest PDU. */
static void sending(void)
{
    static const uint8_t fragment[FEO_LONGEST] = { 1 };
    static struct bytes pdu;
    uint32_t peer;
    items.n = 0;
    given(6);
    REFUSED(send_it(0, FEO_BUFFER), 4);
    REFUSED(feo_send(&w.a, NULL, 0, NULL, 0, NULL, 0, &w.r), 4);
    add(&items, "\x00\x00\x00\x01\x01", 5);
    REFUSED(send_it(0, FEO_BUFFER), 4);
    items.n = 0;
    add_pdv(&items, 2, 0, "ab", 2);
    REFUSED(send_it(0, FEO_BUFFER), 4);
    items.n = 0;
    add_pdv(&items, 1, 4, "ab", 2);
    REFUSED(send_it(0, FEO_BUFFER), 4);
    items.n = 0;
    add_pdv(&items, 1, 0, "ab", 2);
    items.n--;
    REFUSED(send_it(0, FEO_BUFFER), 4);
    items.n += 2;
    REFUSED(send_it(0, FEO_BUFFER), 4);
    add_four(&items, 0xFFFFFFFFUL);
    add_two(&items, 0x0100);
    REFUSED(send_it(0, FEO_BUFFER), 4);
    /* two items of 16,384 in all, then one byte more */
    items.n = 0;
    add_pdv(&items, 1, 1, "ab", 2);
    add_pdv(&items, 3, 2, fragment, FEO_LONGEST - 8 - FEO_PDV_HEADER_LEN);
    whole(&pdu, 4, &items);
    CHECK(pdu.n == FEO_BUFFER);
    LOCAL(send_it(0, FEO_BUFFER), FEO_DT_1, 6, pdu.at, pdu.n);
    REFUSED(send_it(0, FEO_BUFFER - 1), 2);
    items.n = 0;
    add_pdv(&items, 1, 0, fragment, FEO_LONGEST - FEO_PDV_HEADER_LEN + 1);
    REFUSED(send_it(0, FEO_BUFFER), 5);
    items.at[4] = 2;
    REFUSED(send_it(0, FEO_BUFFER), 4);
    /* a peer maximum */
    items.n = 0;
    add_pdv(&items, 1, 0, fragment, 10);
    whole(&pdu, 4, &items);
    for (peer = 0; peer < 20; peer++) {
        w.a.peer_max = peer;
        if (peer != 0 && peer < 16)
            REFUSED(send_it(0, 0), 5);
        else
            LOCAL(send_it(0, 22), FEO_DT_1, 6, pdu.at, 22);
    }
    w.a.peer_max = 0xFFFFFFFFU;
    LOCAL(send_it(0, 22), FEO_DT_1, 6, pdu.at, 22);
    good_contents();
}

/* A read that is refused hands out zeros and leaves the sheet. */
static void unread(int line, uint8_t got, unsigned refusal, const struct feo_associate *f, const uint8_t *sheet, size_t n)
{
    size_t i;
    check(line, got == refusal, "the refusal");
    check(line, f->version == 0 && f->application_at == 0 && f->application_len == 0 && f->maximum == 0 && f->records == 0, "zeros");
    check(line, f->class_at == 0 && f->class_len == 0 && f->version_name_at == 0 && f->version_name_len == 0, "zeros of the names");
    check(line, f->invoked == 0 && f->performed == 0 && f->roles == 0, "zeros of operations and roles");
    for (i = 0; i < n; i++)
        check(line, sheet[i] == 0xEE, "the sheet stays");
}

static void reading(void)
{
    static struct bytes b, context, pdu, sheet;
    static uint8_t room[FEO_RECORD_LEN * 5];
    struct feo_associate f;
    size_t n;
    uint8_t x = 9, y = 9, z = 9;
    size_t start, length;
    /* an RQ of two contexts with skipped items, three transfer syntaxes */
    b.n = context.n = sheet.n = 0;
    add_fixed(&b, 0xFF01);
    add_item(&b, 0x99, "", 0);
    add_name(&b, 0x10, APPLICATION);
    add_four(&context, 0x05FFFFFF);
    add_item(&context, 0x33, "zz", 2);
    add_name(&context, 0x30, ECHO_CLASS);
    add_name(&context, 0x40, IMPLICIT);
    add_name(&context, 0x40, "1.2");
    add_item(&b, 0x20, context.at, context.n);
    add_item(&b, 0x21, "rubbish", 7);
    context.n = 0;
    add_four(&context, 0x03000000);
    add_name(&context, 0x30, "0");
    add_name(&context, 0x40, IMPLICIT);
    add_item(&b, 0x20, context.at, context.n);
    add_user(&b, 0xFFFFFFFFUL);
    whole(&pdu, 1, &b);
    add_record(&sheet, 5, 0, ECHO_CLASS, IMPLICIT);
    add_record(&sheet, 5, 0, ECHO_CLASS, "1.2");
    add_record(&sheet, 3, 0, "0", IMPLICIT);
    memset(room, 0xEE, sizeof room);
    for (n = 0; n < 3 * FEO_RECORD_LEN; n += FEO_RECORD_LEN - 1) {
        memset(&f, 0xEE, sizeof f);
        unread(__LINE__, feo_read_request(pdu.at, pdu.n, room, n, NULL, 0, &f), 2, &f, room, sizeof room);
    }
    memset(&f, 0xEE, sizeof f);
    unread(__LINE__, feo_read_request(pdu.at, pdu.n, NULL, 0, NULL, 0, &f), 2, &f, room, sizeof room);
    memset(&f, 0xEE, sizeof f);
    unread(__LINE__, feo_read_request(pdu.at, pdu.n - 1, room, sizeof room, NULL, 0, &f), 7, &f, room, sizeof room);
    memset(&f, 0xEE, sizeof f);
    unread(__LINE__, feo_read_accept(pdu.at, pdu.n, room, sizeof room, NULL, 0, &f), 7, &f, room, sizeof room);
    memset(&f, 0xEE, sizeof f);
    unread(__LINE__, feo_read_request(NULL, 0, NULL, 0, NULL, 0, &f), 7, &f, room, sizeof room);
    CHECK(feo_read_request(pdu.at, pdu.n, room, sizeof room, NULL, 0, &f) == 0);
    CHECK(f.version == 0xFF01 && f.maximum == 0xFFFFFFFFU && f.records == 3);
    CHECK(f.application_len == strlen(APPLICATION) && memcmp(pdu.at + f.application_at, APPLICATION, f.application_len) == 0);
    CHECK(memcmp(room, sheet.at, 3 * FEO_RECORD_LEN) == 0 && room[3 * FEO_RECORD_LEN] == 0xEE && room[5 * FEO_RECORD_LEN - 1] == 0xEE);
    CHECK(memcmp(pdu.at + FEO_CALLED_AT, "STORE-EQUINE    ", FEO_TITLE_LEN) == 0);
    CHECK(memcmp(pdu.at + FEO_CALLING_AT, "NIGHT-SCANNER   ", FEO_TITLE_LEN) == 0);
    /* the greatest sheet: 3,257 records */
    b.n = context.n = 0;
    add_fixed(&b, 1);
    add_name(&b, 0x10, "0");
    add_four(&context, 0x01000000);
    add_name(&context, 0x30, "0");
    for (n = 0; n < 3257; n++)
        add_name(&context, 0x40, "0");
    add_item(&b, 0x20, context.at, context.n);
    context.n = 0;
    add_maximum(&context, 0);
    add_item(&b, 0x50, context.at, context.n);
    whole(&pdu, 1, &b);
    CHECK(pdu.n <= FEO_BUFFER && pdu.n + 5 > FEO_BUFFER);
    {
        uint8_t *great = (uint8_t *)malloc(FEO_PROPOSAL_ROOM);
        CHECK(great != NULL);
        CHECK(feo_read_request(pdu.at, pdu.n, great, FEO_PROPOSAL_ROOM - 1, NULL, 0, &f) == 2 && f.records == 0);
        CHECK(feo_read_request(pdu.at, pdu.n, great, FEO_PROPOSAL_ROOM, NULL, 0, &f) == 0 && f.records == 3257 && f.maximum == 0);
        CHECK(great[FEO_PROPOSAL_ROOM - FEO_RECORD_LEN] == 1 && great[FEO_PROPOSAL_ROOM - FEO_RECORD_LEN + FEO_RECORD_TRANSFER_AT] == '0');
        free(great);
    }
    /* an AC */
    acceptance(&pdu, 1, 4, 7);
    memset(room, 0xEE, sizeof room);
    memset(&f, 0xEE, sizeof f);
    unread(__LINE__, feo_read_accept(pdu.at, pdu.n, room, FEO_RECORD_LEN - 1, NULL, 0, &f), 2, &f, room, sizeof room);
    memset(&f, 0xEE, sizeof f);
    unread(__LINE__, feo_read_request(pdu.at, pdu.n, room, FEO_RECORD_LEN, NULL, 0, &f), 7, &f, room, sizeof room);
    CHECK(feo_read_accept(pdu.at, pdu.n, room, FEO_RECORD_LEN, NULL, 0, &f) == 0 && f.version == 1 && f.maximum == 7 && f.records == 1);
    CHECK(memcmp(pdu.at + f.application_at, APPLICATION, f.application_len) == 0 && f.application_len == strlen(APPLICATION));
    sheet.n = 0;
    add_record(&sheet, 1, 4, "", "");
    CHECK(memcmp(room, sheet.at, FEO_RECORD_LEN) == 0 && room[FEO_RECORD_LEN] == 0xEE);
    acceptance(&pdu, 2, 0, 7);
    memset(&f, 0xEE, sizeof f);
    CHECK(feo_read_accept(pdu.at, pdu.n, room, FEO_RECORD_LEN, NULL, 0, &f) == 7 && f.maximum == 0);
    /* an RJ, an ABORT */
    ten(&pdu, 3, 0xFF, 2, 1, 7);
    CHECK(feo_read_reject(pdu.at, pdu.n, &x, &y, &z) == 0 && x == 2 && y == 1 && z == 7);
    pdu.at[9] = 4;
    CHECK(feo_read_reject(pdu.at, pdu.n, &x, &y, &z) == 7 && x == 0 && y == 0 && z == 0);
    CHECK(feo_read_reject(NULL, 0, &x, &y, &z) == 7);
    ten(&pdu, 7, 1, 2, 2, 5);
    CHECK(feo_read_abort(pdu.at, pdu.n, &x, &y) == 0 && x == 2 && y == 5);
    pdu.at[9] = 3;
    CHECK(feo_read_abort(pdu.at, pdu.n, &x, &y) == 7 && x == 0 && y == 0);
    CHECK(feo_read_abort(pdu.at, 9, &x, &y) == 7 && feo_read_abort(NULL, 0, &x, &y) == 7);
    /* PDVs by number */
    b.n = 0;
    add_pdv(&b, 1, 0xF3, "abc", 3);
    add_pdv(&b, 255, 2, "", 0);
    whole(&pdu, 4, &b);
    CHECK(feo_read_data(pdu.at, pdu.n, 0, &x, &y, &start, &length) == 0 && x == 1 && y == 0xF3 && start == 12 && length == 3);
    CHECK(memcmp(pdu.at + start, "abc", 3) == 0);
    CHECK(feo_read_data(pdu.at, pdu.n, 1, &x, &y, &start, &length) == 0 && x == 255 && y == 2 && start == pdu.n && length == 0);
    for (n = 2; n != 1; n = n > 2 ? 1 : (size_t)-1) {
        x = y = 9;
        start = length = 9;
        CHECK(feo_read_data(pdu.at, pdu.n, n, &x, &y, &start, &length) == 4 && x == 0 && y == 0 && start == 0 && length == 0);
    }
    CHECK(feo_read_data(pdu.at, pdu.n - 1, 9, &x, &y, &start, &length) == 7);
    CHECK(feo_read_data(NULL, 0, 0, &x, &y, &start, &length) == 7);
}

/* What feo_pdv_at hands out, among guard bytes. */
struct item {
    uint8_t guard0[8];
    uint8_t id;
    uint8_t guard1[8];
    uint8_t control;
    uint8_t guard2[8];
    size_t start;
    uint8_t guard3[8];
    size_t length;
    uint8_t guard4[8];
};

static void placed(int line, const uint8_t *pdu, size_t n, size_t at, unsigned refusal, unsigned id, unsigned control, size_t start, size_t length)
{
    struct item got, item;
    memset(&got, 0xEE, sizeof got);
    memset(&item, 0xEE, sizeof item);
    item.id = (uint8_t)id;
    item.control = (uint8_t)control;
    item.start = start;
    item.length = length;
    check(line, feo_pdv_at(pdu, n, at, &got.id, &got.control, &got.start, &got.length) == refusal, "the refusal of feo_pdv_at");
    check(line, memcmp(&got, &item, sizeof got) == 0, "the PDV at a place, and the guard bytes");
}

#define PLACED(place, id, control, start, length) placed(__LINE__, pdu.at, pdu.n, (place), 0, (id), (control), (start), (length))
#define NO_PDV(count, place) placed(__LINE__, pdu.at, (count), (place), 4, 0, 0, 0, 0)

/* PDVs by their places. */
static void places(void)
{
    static struct bytes pdu, b;
    uint8_t id, control, id_n, control_n;
    size_t at, n, start, length, start_n, length_n;
    b.n = 0;
    add_pdv(&b, 1, 0xF3, "abc", 3);
    add_pdv(&b, 3, 0, "", 0);
    add_pdv(&b, 255, 2, "d", 1);
    whole(&pdu, 4, &b);
    CHECK(pdu.n == 28);
    PLACED(6, 1, 0xF3, 12, 3);
    PLACED(15, 3, 0, 21, 0);
    PLACED(21, 255, 2, 27, 1);
    /* behind the last, past the end, in the header, within an item */
    NO_PDV(28, 28);
    for (n = 0; n < 32; n++) {
        NO_PDV(28, 29 + n);
        NO_PDV(28, (size_t)-1 - n);
    }
    for (n = 0; n < 6; n++)
        NO_PDV(28, n);
    NO_PDV(28, 7);
    NO_PDV(28, 22);
    /* the last one not whole, the first still given */
    for (n = 21; n < 28; n++)
        NO_PDV(n, 21);
    placed(__LINE__, pdu.at, 27, 6, 0, 1, 0xF3, 12, 3);
    placed(__LINE__, NULL, 0, 6, 4, 0, 0, 0, 0);
    placed(__LINE__, NULL, 0, 0, 4, 0, 0, 0, 0);
    /* what would be an item in the header is none: its length at 2 is 2, its ID 1 */
    pdu.n = 0;
    add(&pdu, "\x04\x00\x00\x00\x00\x02\x01\x03", 8);
    NO_PDV(8, 2);
    /* an even ID; lengths 1, one too much, and the greatest; an item alone, whatever the header says */
    pdu.n = 0;
    add(&pdu, "\x07\xFF\xFF\xFF\xFF\xFF\x00\x00\x00\x03\x01\xFF\x09", 13);
    PLACED(6, 1, 0xFF, 12, 1);
    pdu.at[10] = 2;
    NO_PDV(13, 6);
    pdu.at[10] = 0;
    NO_PDV(13, 6);
    pdu.at[10] = 1;
    pdu.at[9] = 1;
    NO_PDV(13, 6);
    pdu.at[9] = 2;
    PLACED(6, 1, 0xFF, 12, 0);
    pdu.at[9] = 4;
    NO_PDV(13, 6);
    memset(pdu.at + 6, 0xFF, 4);
    NO_PDV(13, 6);
    /* the most that a PDU can hold, 2,730 empty ones, each as by its number; none where they end */
    b.n = 0;
    for (n = 0; n < 2730; n++)
        add_pdv(&b, (unsigned)(2 * n + 1) & 255, (unsigned)n & 3, "", 0);
    whole(&pdu, 4, &b);
    for (n = 0, at = 6; feo_pdv_at(pdu.at, pdu.n, at, &id, &control, &start, &length) == 0; n++, at = start + length) {
        CHECK(at == 6 + 6 * n && id == ((2 * n + 1) & 255) && control == (n & 3) && start == at + 6 && length == 0);
        if (n % 91 == 0) {
            CHECK(feo_read_data(pdu.at, pdu.n, n, &id_n, &control_n, &start_n, &length_n) == 0);
            CHECK(id == id_n && control == control_n && start == start_n && length == length_n);
        }
    }
    CHECK(n == 2730 && at == pdu.n);
}

/* What a call is to do to a part of the world's out: `want` is what was before but for these bytes. */
static void put(int line, uint8_t got, unsigned refusal, const void *bytes, size_t n)
{
    if (n != 0)
        memcpy(want.out + 64, bytes, n);
    check(line, got == refusal, "the refusal that is returned");
    check(line, memcmp(&w, &want, sizeof w) == 0, "the world, all of it");
}

#define PUT(call, bytes, count) (before(), put(__LINE__, (call), 0, (bytes), (count)))
#define NOT_PUT(call, refusal) (before(), put(__LINE__, (call), (refusal), NULL, 0))

/* A record of a sheet: each length of each name, any ID and result; then in a proposal and in an answer. */
static void records(void)
{
    static const size_t too_long[] = { 65, 66, 255, 256, 257, 256 + 64, 65536, 65536 + 17, ((size_t)1 << 32) + 17, (size_t)-1 };
    static const uint8_t results[] = {
        FEO_CONTEXT_ACCEPTED, FEO_CONTEXT_USER_REJECTION, FEO_CONTEXT_NO_REASON, FEO_CONTEXT_ABSTRACT_NOT_SUPPORTED, FEO_CONTEXT_TRANSFER_NOT_SUPPORTED
    };
    static struct bytes record, pdu, b, context;
    static uint8_t sheet[FEO_ANSWER_ROOM];
    struct feo_associate f;
    uint8_t name[64];
    size_t i, k;
    unsigned id;
    given(6);
    for (i = 0; i < 64; i++)
        name[i] = (uint8_t)(255 - i);
    for (i = 0; i <= 64; i++)
        for (k = 0; k <= 64; k++) {
            record.n = 0;
            add_byte(&record, 7);
            add_byte(&record, 9);
            add_byte(&record, (unsigned)i);
            add_byte(&record, (unsigned)k);
            memset(record.at + 4, 0, 128);
            memcpy(record.at + 4, name, i);
            memcpy(record.at + 68, name + 64 - k, k);
            PUT(feo_put_record(w.out + 64, 7, 9, name, i, name + 64 - k, k), record.at, 132);
        }
    for (i = 0; i < 256; i++) {
        memset(record.at, 0, 132);
        record.at[0] = (uint8_t)i;
        record.at[1] = (uint8_t)(255 - i);
        PUT(feo_put_record(w.out + 64, (uint8_t)i, (uint8_t)(255 - i), NULL, 0, NULL, 0), record.at, 132);
    }
    for (i = 0; i < sizeof too_long / sizeof *too_long; i++) {
        NOT_PUT(feo_put_record(w.out + 64, 1, 0, name, too_long[i], name, 3), 4);
        NOT_PUT(feo_put_record(w.out + 64, 1, 0, name, 3, name, too_long[i]), 4);
        NOT_PUT(feo_put_record(w.out + 64, 1, 0, name, too_long[i], name, too_long[i]), 4);
    }
    /* a proposal */
    good_contents();
    application.n = proposal.n = 0;
    add(&application, FEO_APPLICATION_CONTEXT, FEO_APPLICATION_CONTEXT_LEN);
    CHECK(feo_put_record(proposal.at, 1, 0, SIXTY_FOUR, 64, SIXTY_FOUR, 64) == 0);
    proposal.n = FEO_RECORD_LEN;
    request(&pdu, 1, APPLICATION, SIXTY_FOUR, SIXTY_FOUR);
    given(4);
    w.a.requestor = 1;
    LOCAL(confirm(0, FEO_BUFFER), FEO_AE_2, 5, pdu.at, pdu.n);
    CHECK(feo_put_record(proposal.at, 1, 0, ECHO_CLASS, strlen(ECHO_CLASS), IMPLICIT, strlen(IMPLICIT)) == 0);
    request(&pdu, 1, APPLICATION, ECHO_CLASS, IMPLICIT);
    given(4);
    w.a.requestor = 1;
    LOCAL(confirm(0, FEO_BUFFER), FEO_AE_2, 5, pdu.at, pdu.n);
    /* what is left to feo_confirm: an even ID, a result, a name that is none */
    given(4);
    CHECK(feo_put_record(proposal.at, 2, 0, ECHO_CLASS, strlen(ECHO_CLASS), IMPLICIT, strlen(IMPLICIT)) == 0);
    REFUSED(confirm(0, FEO_BUFFER), 4);
    CHECK(feo_put_record(proposal.at, 1, 3, ECHO_CLASS, strlen(ECHO_CLASS), IMPLICIT, strlen(IMPLICIT)) == 0);
    REFUSED(confirm(0, FEO_BUFFER), 4);
    CHECK(feo_put_record(proposal.at, 1, 0, "1.", 2, IMPLICIT, strlen(IMPLICIT)) == 0);
    REFUSED(confirm(0, FEO_BUFFER), 4);
    /* an answer, by each result: the refused ones without a name; one with a name is left to feo_accept */
    for (i = 0; i < sizeof results; i++) {
        answers.n = FEO_RECORD_LEN;
        CHECK(feo_put_record(answers.at, 1, results[i], NULL, 0, i == 0 ? IMPLICIT : NULL, i == 0 ? strlen(IMPLICIT) : 0) == 0);
        acceptance(&pdu, 1, (unsigned)i, 16384);
        memcpy(pdu.at + 10, echoed.at, 64);
        given(3);
        LOCAL(accept_it(0, FEO_BUFFER), FEO_AE_7, 6, pdu.at, pdu.n);
        CHECK(feo_put_record(answers.at, 1, results[i], NULL, 0, i == 0 ? NULL : IMPLICIT, i == 0 ? 0 : strlen(IMPLICIT)) == 0);
        given(3);
        REFUSED(accept_it(0, FEO_BUFFER), 4);
    }
    /* the greatest answer: 128 contexts */
    b.n = answers.n = 0;
    add_two(&b, 1);
    add_two(&b, 0);
    add(&b, echoed.at, 64);
    add_name(&b, 0x10, APPLICATION);
    for (id = 1; id < 256; id += 2) {
        CHECK(feo_put_record(answers.at + answers.n, (uint8_t)id, FEO_CONTEXT_ACCEPTED, NULL, 0, SIXTY_FOUR, 64) == 0);
        answers.n += FEO_RECORD_LEN;
        context.n = 0;
        add_four(&context, (size_t)id << 24);
        add_name(&context, 0x40, SIXTY_FOUR);
        add_item(&b, 0x21, context.at, context.n);
    }
    CHECK(answers.n == FEO_ANSWER_ROOM);
    add_user(&b, 16384);
    whole(&pdu, 2, &b);
    given(3);
    LOCAL(accept_it(0, FEO_BUFFER), FEO_AE_7, 6, pdu.at, pdu.n);
    CHECK(feo_read_accept(pdu.at, pdu.n, sheet, FEO_ANSWER_ROOM - 1, NULL, 0, &f) == 2 && f.records == 0);
    CHECK(feo_read_accept(pdu.at, pdu.n, sheet, FEO_ANSWER_ROOM, NULL, 0, &f) == 0 && f.records == 128 && memcmp(sheet, answers.at, FEO_ANSWER_ROOM) == 0);
    good_contents();
}

/* ---- refused contexts (document 02, E2) */

#define NAMED "\x40\x00\x00\x11" IMPLICIT
#define BEHIND(bytes, taken) { bytes, sizeof(bytes) - 1, taken }

/* What stands behind the four fixed bytes of a 21H, and whether an accepted context is taken with it, as IMPLICIT; a refused one is with all. */
static const struct {
    const char *bytes;
    size_t n;
    int taken;
} behind[] = {
    BEHIND(NAMED, 1),
    BEHIND("\x33\xFF\x00\x01z" NAMED "\x30\x00\x00\x00", 1), /* among types that are skipped */
    BEHIND("", 0),
    BEHIND("\x40\x00\x00\x00", 0),
    BEHIND("\x40\x00\x00\x04" "1.02", 0),
    BEHIND("\x40\x00\x00\x41" "1" SIXTY_FOUR, 0),
    BEHIND(NAMED NAMED, 0),
    BEHIND(NAMED "\x40\x00\x00\x00", 0),
    BEHIND("\x30\x00\x00\x11" IMPLICIT, 0),
    /* not filled: a name that passes the end, remainders */
    BEHIND("\x40\x00\x00\x12" IMPLICIT, 0),
    BEHIND("\x40\x00\xFF\xFF", 0),
    BEHIND("\x40", 0),
    BEHIND("\x40\x00", 0),
    BEHIND("\x40\x00\x00", 0),
    BEHIND(NAMED "\x00", 0),
    BEHIND(NAMED "\x33\x00\x00", 0),
    BEHIND("\xFF\xFE\xFD\xFC\xFB\xFA\xF9", 0),
    /* what would be a second 50H, or an ID that comes again, at the top */
    BEHIND("\x50\x00\x00\x08\x51\x00\x00\x04\x00\x00\x00\x07", 0),
    BEHIND("\x21\x00\x00\x04\x01\x00\x03\x00", 0)
};

#define BEHIND_COUNT (sizeof behind / sizeof *behind)

/*
 * This AC, of maximum 5,000, reads into this sheet, and is taken in Sta5. From the sheet it is written again, at most 4 bytes longer
 * for each refused context, and reads so again.
 */
static void is_read(int line, const struct bytes *ac, const struct bytes *sheet)
{
    static uint8_t room[FEO_ANSWER_ROOM + 64];
    static struct bytes again;
    struct feo_associate f;
    struct feo_accepting c;
    size_t i, refused = 0;
    uint8_t got;
    memset(room, 0xEE, sizeof room);
    memset(&f, 0xEE, sizeof f);
    unread(line, feo_read_accept(ac->at, ac->n, room, sheet->n - 1, NULL, 0, &f), 2, &f, room, sheet->n);
    check(line, feo_read_accept(ac->at, ac->n, room, sheet->n, NULL, 0, &f) == 0, "the AC is read");
    check(line, f.version == 1 && f.maximum == 5000 && f.records * FEO_RECORD_LEN == sheet->n, "version, maximum, count of records");
    check(line, f.application_len == strlen(APPLICATION) && memcmp(ac->at + f.application_at, APPLICATION, f.application_len) == 0, "the application context name");
    check(line, memcmp(room, sheet->at, sheet->n) == 0, "the sheet");
    for (i = 0; i < 64; i++)
        check(line, room[sheet->n + i] == 0xEE, "behind the sheet nothing is written");
    given(5);
    w.a.requestor = 1;
    heard(line, ac->at, ac->n, FEO_AE_3, 6, ac->n, 0, 0, ac->n);
    check(line, w.a.peer_max == 5000, "the peer's maximum");
    of_sheet(&again, 2, sheet);
    for (i = 0; i < sheet->n; i += FEO_RECORD_LEN)
        refused += sheet->at[i + FEO_RECORD_RESULT_AT] != FEO_CONTEXT_ACCEPTED;
    check(line, again.n <= ac->n + 4 * refused, "written again it is little longer");
    given(3);
    before();
    c = accepts(ac->at, &f, room, sheet->n);
    got = feo_accept(&w.a, &c, w.gather, FEO_BUFFER, w.out, FEO_BUFFER, &w.r);
    local(line, got, FEO_AE_7, 6, again.at, again.n);
    memset(room, 0xEE, sizeof room);
    check(line, feo_read_accept(w.out, w.r.sent, room, sheet->n, NULL, 0, &f) == 0 && memcmp(room, sheet->at, sheet->n) == 0, "it reads as before");
}

/* An AC with these contexts is none: it is not read, and in Sta5 it is an invalid PDU. */
static void is_none(int line, const struct bytes *contexts)
{
    static struct bytes ac;
    uint8_t room[3 * FEO_RECORD_LEN];
    struct feo_associate f;
    accepting(&ac, 1, contexts, 5000);
    memset(room, 0xEE, sizeof room);
    memset(&f, 0xEE, sizeof f);
    unread(line, feo_read_accept(ac.at, ac.n, room, sizeof room, NULL, 0, &f), 7, &f, room, sizeof room);
    given(5);
    heard(line, ac.at, ac.n, FEO_AA_8, 13, ac.n, ABORT_INVALID, 10, 0);
}

/* Context 1 with this result and this behind it: in an AC by itself, before an accepted context, and behind one. */
static void behind_it(unsigned answered, size_t k)
{
    static struct bytes contexts, ac, sheet;
    unsigned place;
    for (place = 0; place < 3; place++) {
        contexts.n = sheet.n = 0;
        if (place == 2) {
            add_context(&contexts, 0x03000000, NAMED, sizeof NAMED - 1);
            add_record(&sheet, 3, 0, "", IMPLICIT);
        }
        add_context(&contexts, 0x01FF00FF | (size_t)answered << 8, behind[k].bytes, behind[k].n);
        add_record(&sheet, 1, answered, "", answered == 0 ? IMPLICIT : "");
        if (place == 1) {
            add_context(&contexts, 0x05000000, NAMED, sizeof NAMED - 1);
            add_record(&sheet, 5, 0, "", IMPLICIT);
        }
        accepting(&ac, 1, &contexts, 5000);
        if (answered <= 4 && (answered != 0 || behind[k].taken))
            is_read(__LINE__, &ac, &sheet);
        else
            is_none(__LINE__, &contexts);
    }
}

/* A refused context: what stands behind its four fixed bytes is not tested, and its record has no name; all else is as with an accepted one. */
static void refused_read(void)
{
    static const uint8_t lengths[] = { 4, 8 + USER_LEN, 8 + USER_LEN + 1 }, rubbish[16283 - USER_LEN] = { 0x40, 0, 0xFF };
    static struct bytes contexts, ac, sheet;
    unsigned answered, id, k;
    size_t i;
    for (answered = 0; answered < 7; answered++)
        for (i = 0; i < BEHIND_COUNT; i++)
            behind_it(answered, i);
    behind_it(128 + 3, 3);
    behind_it(255, 0);
    /* received in two pieces, cut at each place */
    acceptance(&ac, 1, 3, 5000);
    for (i = 1; i < ac.n; i++) {
        given(5);
        heard(__LINE__, ac.at, i, 0, 5, i, 0, 0, 0);
        heard(__LINE__, ac.at + i, ac.n - i, FEO_AE_3, 6, ac.n - i, 0, 0, ac.n);
    }
    /* a 21H of less than four bytes, by itself and with another context */
    for (i = 0; i < 4; i++)
        for (k = 0; k < 2; k++) {
            contexts.n = 0;
            add_item(&contexts, 0x21, "\x01\x00\x03", i);
            if (k == 1)
                add_context(&contexts, 0x03000400, "", 0);
            is_none(__LINE__, &contexts);
        }
    /* IDs: each even one; each that comes again, next to the first and not, with every two results */
    for (id = 0; id < 256; id++) {
        contexts.n = sheet.n = 0;
        add_context(&contexts, (size_t)id << 24 | 0x200, "", 0);
        add_record(&sheet, id, 2, "", "");
        accepting(&ac, 1, &contexts, 5000);
        if (id % 2 == 1)
            is_read(__LINE__, &ac, &sheet);
        else
            is_none(__LINE__, &contexts);
    }
    for (answered = 0; answered < 25; answered++)
        for (k = 0; k < 2; k++) {
            contexts.n = 0;
            add_context(&contexts, 0x07000000 | (size_t)(answered / 5) << 8, NAMED, sizeof NAMED - 1);
            if (k == 1)
                add_context(&contexts, 0x09000100, "", 0);
            add_context(&contexts, 0x07000000 | (size_t)(answered % 5) << 8, NAMED, sizeof NAMED - 1);
            is_none(__LINE__, &contexts);
        }
    /* its length is the way to the next item: into a 40H that is skipped, over the 50H, past the PDU's end */
    for (i = 0; i < sizeof lengths; i++) {
        contexts.n = sheet.n = 0;
        add_context(&contexts, 0x01000300, "\x40\x00\x00\x00", 4);
        contexts.at[3] = lengths[i];
        add_record(&sheet, 1, 3, "", "");
        accepting(&ac, 1, &contexts, 5000);
        if (i == 0)
            is_read(__LINE__, &ac, &sheet);
        else
            is_none(__LINE__, &contexts);
    }
    /* the greatest AC, with one context; the most contexts, all without a sub-item, and with the longest names */
    contexts.n = sheet.n = 0;
    add_context(&contexts, 0x01000100, rubbish, sizeof rubbish);
    add_record(&sheet, 1, 1, "", "");
    accepting(&ac, 1, &contexts, 5000);
    CHECK(ac.n == FEO_BUFFER);
    is_read(__LINE__, &ac, &sheet);
    for (k = 0; k < 2; k++) {
        contexts.n = sheet.n = 0;
        for (id = 1; id < 256; id += 2) {
            int refuses = k == 0 || id == 255;
            add_context(&contexts, (size_t)id << 24 | (refuses ? 0x400 : 0), "\x40\x00\x00\x40" SIXTY_FOUR, refuses ? 0 : 68);
            add_record(&sheet, id, refuses ? 4 : 0, "", refuses ? "" : SIXTY_FOUR);
        }
        accepting(&ac, 1, &contexts, 5000);
        is_read(__LINE__, &ac, &sheet);
        CHECK(w.r.sent == ac.n + (k == 0 ? 4 * 128 : 4));
    }
    good_contents();
}

/* This record among good ones, at each place. */
static void bad_among(const uint8_t *record)
{
    unsigned place;
    for (place = 0; place < 3; place++) {
        answers.n = 0;
        add_record(&answers, 1, 0, "", IMPLICIT);
        add_record(&answers, 3, 1, "", "");
        add_record(&answers, 5, 4, "", "");
        memcpy(answers.at + place * FEO_RECORD_LEN, record, FEO_RECORD_LEN);
        bad_accept(4);
    }
}

/* A refused record to be sent has no transfer name, and goes out with an empty sub-item; else 4, and nothing changes. */
static void refused_sent(void)
{
    static const char *const names[] = { "0", IMPLICIT, SIXTY_FOUR, "1.02", "." };
    static struct bytes pdu, record;
    unsigned answered, v;
    size_t i;
    for (answered = 1; answered <= 4; answered++) {
        uint8_t item[12] = { 0x21, 0, 0, 8, 9, 0, 0, 0, 0x40, 0, 0, 0 };
        item[6] = (uint8_t)answered;
        answers.n = 0;
        add_record(&answers, 9, answered, "", "");
        of_sheet(&pdu, 2, &answers);
        memcpy(pdu.at + FEO_ECHOED_AT, echoed.at, FEO_ECHOED_LEN);
        CHECK(pdu.n == 134 && memcmp(pdu.at + 99, item, 12) == 0);
        given(3);
        REFUSED(accept_it(0, 133), 2);
        LOCAL(accept_it(0, 134), FEO_AE_7, 6, pdu.at, 134);
        REFUSED(accept_it(0, FEO_BUFFER), 1);
        /* with a name */
        for (i = 0; i < sizeof names / sizeof *names; i++) {
            record.n = 0;
            add_record(&record, 9, answered, "", names[i]);
            bad_among(record.at);
        }
        /* a length without a name, each; a byte of the field without a length, each */
        for (v = 1; v < 256; v++) {
            record.n = 0;
            add_record(&record, 9, answered, "", "");
            record.at[FEO_RECORD_TRANSFER_LEN_AT] = (uint8_t)v;
            answers = record;
            bad_accept(4);
        }
        for (i = FEO_RECORD_TRANSFER_AT; i < FEO_RECORD_LEN; i++) {
            record.n = 0;
            add_record(&record, 9, answered, "", "");
            record.at[i] = (uint8_t)(i % 2 == 0 ? 1 : 0x80);
            bad_among(record.at);
        }
        /* the abstract name, and the ID, as with an accepted one */
        record.n = 0;
        add_record(&record, 9, answered, ECHO_CLASS, "");
        bad_among(record.at);
        record.at[FEO_RECORD_ABSTRACT_LEN_AT] = 0;
        bad_among(record.at);
        record.n = 0;
        add_record(&record, 8, answered, "", "");
        bad_among(record.at);
        answers.n = 0;
        add_record(&answers, 9, answered, "", "");
        add_record(&answers, 9, answered, "", "");
        bad_accept(4);
        /* where the cell is blank, 1 is told first */
        answers.n = 0;
        add_record(&answers, 9, answered, "", IMPLICIT);
        given(6);
        REFUSED(accept_it(0, 0), 1);
        good_contents();
    }
    answers.n = 0;
    add_record(&answers, 9, 5, "", "");
    bad_accept(4);
}

/*
 * A sheet by letters, capitals for abstract names, small ones for transfer names. A proposal has ID, abstract name and transfer
 * names of each context, "5:Aab 3:Bc"; a site's sheet both names, "Aa Ab"; an answer ID, result and, where that is 0, transfer name,
 * "5:0a 3:4".
 */
static void lettered(struct bytes *sheet, const char *p)
{
    /* B begins C, a begins b, c and d, d begins c; A and F differ in their first byte, D and E, e and f in their 64th */
    static const char *const abstracts[] = {
        ECHO_CLASS, "1.2.840.10008.5.1.4.1.1.1", "1.2.840.10008.5.1.4.1.1.1.1", SIXTY_FOUR, OTHER_SIXTY_FOUR, "2.2.840.10008.1.1"
    };
    static const char *const transfers[] = {
        IMPLICIT, "1.2.840.10008.1.2.1", "1.2.840.10008.1.2.4.50", "1.2.840.10008.1.2.4.5", SIXTY_FOUR, OTHER_SIXTY_FOUR
    };
    for (sheet->n = 0; *p != 0; p += *p == ' ') {
        char *end;
        unsigned id = (unsigned)strtoul(p, &end, 10), answered = 0;
        const char *abstract = "";
        p = end + (*end == ':');
        if (*p >= 'A')
            abstract = abstracts[*p++ - 'A'];
        else
            answered = (unsigned)(*p++ - '0');
        if (answered != 0)
            add_record(sheet, id, answered, abstract, "");
        for (; *p >= 'a'; p++)
            add_record(sheet, id, answered, abstract, transfers[*p - 'a']);
    }
}

static struct bytes site;
static const struct bytes nothing = { 0, { 0 } };

/* What feo_choose hands out, among guard bytes. */
struct choice {
    uint8_t guard0[64];
    uint8_t answer[FEO_ANSWER_ROOM];
    uint8_t guard1[64];
    size_t records;
    uint8_t guard2[64];
};

/* This answer of the site to the proposal, in so much room; where it is refused, nothing. */
static void chosen(int line, size_t room, unsigned refusal, const struct bytes *answer)
{
    static struct choice got, choice;
    static struct bytes sheets[2];
    memset(&got, 0xEE, sizeof got);
    memset(&choice, 0xEE, sizeof choice);
    memcpy(choice.answer, answer->at, answer->n);
    choice.records = answer->n / FEO_RECORD_LEN;
    memcpy(sheets[0].at, proposal.at, proposal.n);
    memcpy(sheets[1].at, site.at, site.n);
    check(
        line, feo_choose(proposal.at, proposal.n, site.at, site.n, got.answer, room, &got.records) == refusal,
        "the refusal of feo_choose");
    check(line, got.records == choice.records, "the records of the answer");
    check(line, memcmp(&got, &choice, sizeof got) == 0, "the answer, and the guard bytes");
    check(line, memcmp(sheets[0].at, proposal.at, proposal.n) == 0, "the proposal stays");
    check(line, memcmp(sheets[1].at, site.at, site.n) == 0, "the site's sheet stays");
}

/* From the request's bytes to those of its acceptance, with no answer written by hand. */
static void chained(int line, const struct bytes *answer)
{
    static struct bytes rq, ac;
    static uint8_t sheet[FEO_PROPOSAL_ROOM], own[FEO_ANSWER_ROOM], back[FEO_ANSWER_ROOM];
    struct feo_associate f;
    struct feo_accepting c;
    uint8_t got;
    size_t n;
    of_sheet(&rq, 1, &proposal);
    of_sheet(&ac, 2, answer);
    memset(sheet, 0xEE, sizeof sheet);
    memset(own, 0xEE, sizeof own);
    given(2);
    heard(line, rq.at, rq.n, FEO_AE_6, 3, rq.n, 0, 0, rq.n);
    check(line, feo_read_request(w.gather, w.r.shown, sheet, sizeof sheet, NULL, 0, &f) == 0, "the request is read");
    check(line, feo_choose(sheet, f.records * FEO_RECORD_LEN, site.at, site.n, own, sizeof own, &n) == 0, "its answer is chosen");
    before();
    c = accepts(w.gather, &f, own, n * FEO_RECORD_LEN);
    got = feo_accept(&w.a, &c, w.gather, FEO_BUFFER, w.out, FEO_BUFFER, &w.r);
    local(line, got, FEO_AE_7, 6, ac.at, ac.n);
    check(line, w.r.sent <= rq.n, "it is no longer than the request, which says as much of its sender");
    check(line, feo_read_accept(w.out, w.r.sent, back, sizeof back, NULL, 0, &f) == 0 && f.records == n, "what is sent is read");
    check(line, n * FEO_RECORD_LEN == answer->n && memcmp(back, answer->at, answer->n) == 0, "it is the answer");
    check(line, feo_choose(sheet, sizeof sheet, site.at, site.n, own, sizeof own, &n) == 4 && n == 0, "the whole buffer is none");
}

/* This answer, by its letters: into exact room, more and less; and on the way from the request to its acceptance. */
static void chooses(int line, const char *from_peer, const char *of_site, const char *to_peer)
{
    static struct bytes answer;
    size_t records = 9;
    lettered(&proposal, from_peer);
    lettered(&site, of_site);
    lettered(&answer, to_peer);
    chosen(line, answer.n, 0, &answer);
    chosen(line, answer.n + 1, 0, &answer);
    chosen(line, FEO_ANSWER_ROOM, 0, &answer);
    chosen(line, answer.n - 1, 2, &nothing);
    chosen(line, answer.n - FEO_RECORD_LEN, 2, &nothing);
    chosen(line, 0, 2, &nothing);
    check(line, feo_choose(proposal.at, proposal.n, site.at, site.n, NULL, 0, &records) == 2 && records == 0, "no room at all");
    chained(line, &answer);
}

#define CHOOSES(from_peer, of_site, to_peer) chooses(__LINE__, from_peer, of_site, to_peer)

static void choosing(void)
{
    static struct bytes answer, ac;
    unsigned id;
    /* each result, in the proposal's order */
    CHOOSES("5:Aab 3:Bcb 255:Cba 1:Ab", "Ba Aa", "5:0a 3:4 255:3 1:4");
    CHOOSES("1:Aab", "Aa", "1:0a");
    CHOOSES("1:Aab", "Ac", "1:4");
    CHOOSES("1:Aab", "Ba", "1:3");
    /* the first of several, in the site's order and not in the proposal's */
    CHOOSES("1:Aabc", "Ac Ab Aa", "1:0c");
    CHOOSES("1:Acba", "Aa Ab Ac", "1:0a");
    CHOOSES("1:Aab", "Ac Ab Aa", "1:0b");
    CHOOSES("1:Aabc 3:Babc", "Bc Ab Ac Ba", "1:0b 3:0c");
    /* repeated records of the site, and of the proposal */
    CHOOSES("1:Aab", "Ab Ab Aa Ab", "1:0b");
    CHOOSES("1:Aab", "Ac Ac", "1:4");
    CHOOSES("1:Aabab", "Ab Aa", "1:0b");
    CHOOSES("1:Acc", "Aa", "1:4");
    /* contexts with one abstract name */
    CHOOSES("1:Aa 3:Aa 5:Aab", "Ab Aa", "1:0a 3:0a 5:0b");
    CHOOSES("7:Ab 9:Ac 11:Aa", "Aa", "7:4 9:4 11:0a");
    /* a transfer name of another context, and one that the site has with another abstract name */
    CHOOSES("1:Aa 3:Ab", "Ab", "1:4 3:0b");
    CHOOSES("1:Aa 3:Ba", "Ab Ba", "1:4 3:0a");
    CHOOSES("1:Ca", "Aa Ba", "1:3");
    /* names that begin others, and that differ in one byte */
    CHOOSES("1:Ba 3:Ca", "Ba", "1:0a 3:3");
    CHOOSES("1:Ba 3:Ca", "Ca", "1:3 3:0a");
    CHOOSES("1:Aa 3:Abc 5:Ad", "Ac Ab", "1:4 3:0c 5:4");
    CHOOSES("1:Ab 3:Ac", "Aa Ad", "1:4 3:4");
    CHOOSES("1:Aa 3:Fa", "Fa", "1:3 3:0a");
    CHOOSES("1:De 3:Ee", "De", "1:0e 3:3");
    CHOOSES("1:De 3:Df 5:Dfe", "De", "1:0e 3:4 5:0e");
    /* a refused answer is ID, result and zeros */
    lettered(&proposal, "7:Aa 9:Ba");
    lettered(&site, "Ab");
    memset(answer.at, 0, 2 * FEO_RECORD_LEN);
    memcpy(answer.at, "\7\4", 2);
    memcpy(answer.at + FEO_RECORD_LEN, "\11\3", 2);
    answer.n = 2 * FEO_RECORD_LEN;
    chosen(__LINE__, FEO_ANSWER_ROOM, 0, &answer);
    /* a chosen context that is refused after all: by its result alone it is not sent, written anew it is */
    lettered(&answers, "1:0a 3:3");
    answers.at[FEO_RECORD_RESULT_AT] = FEO_CONTEXT_USER_REJECTION;
    given(3);
    REFUSED(accept_it(0, FEO_BUFFER), 4);
    CHECK(feo_put_record(answers.at, 1, FEO_CONTEXT_USER_REJECTION, NULL, 0, NULL, 0) == 0);
    of_sheet(&ac, 2, &answers);
    memcpy(ac.at + FEO_ECHOED_AT, echoed.at, FEO_ECHOED_LEN);
    LOCAL(accept_it(0, FEO_BUFFER), FEO_AE_7, 6, ac.at, ac.n);
    /* the most contexts, in a request */
    proposal.n = answer.n = site.n = 0;
    add_record(&site, 0, 0, "0", "1.0");
    for (id = 255; id < 256; id -= 2) {
        add_record(&proposal, id, 0, "0", id == 77 ? "1" : "1.0");
        add_record(&answer, id, id == 77 ? 4 : 0, "", id == 77 ? "" : "1.0");
    }
    CHECK(answer.n == FEO_ANSWER_ROOM);
    chained(__LINE__, &answer);
    chosen(__LINE__, FEO_ANSWER_ROOM, 0, &answer);
    chosen(__LINE__, FEO_ANSWER_ROOM - 1, 2, &nothing);
    /* and with names that no request has room for */
    proposal.n = answer.n = 0;
    lettered(&site, "De");
    for (id = 1; id < 256; id += 2) {
        add_record(&proposal, id, 0, SIXTY_FOUR, SIXTY_FOUR);
        add_record(&answer, id, 0, "", SIXTY_FOUR);
    }
    given(4);
    REFUSED(confirm(0, FEO_BUFFER), 5);
    chosen(__LINE__, FEO_ANSWER_ROOM, 0, &answer);
    good_contents();
}

/* Refused with 4, whatever the room; or answered. */
static void judged(int line, unsigned refusal)
{
    size_t records;
    if (refusal != 0) {
        chosen(line, FEO_ANSWER_ROOM, refusal, &nothing);
        chosen(line, 0, refusal, &nothing);
    } else
        check(line, feo_choose(proposal.at, proposal.n, site.at, site.n, w.out, FEO_BUFFER, &records) == 0, "it is answered");
}

/* This sheet as a proposal, and without its IDs as the site's: refused with 4 exactly where feo_confirm refuses it so. */
static void either_way(int line, const struct bytes *sheet)
{
    unsigned refusal;
    size_t i;
    proposal = *sheet;
    given(4);
    refusal = confirm(0, FEO_BUFFER);
    check(line, refusal == 0 || refusal == 4, "the refusal of feo_confirm");
    lettered(&site, "Aa");
    judged(line, refusal);
    site = *sheet;
    for (i = 0; i < site.n; i += FEO_RECORD_LEN)
        site.at[i] = 0;
    lettered(&proposal, "1:Aa");
    judged(line, refusal);
}

#define MANY ((size_t)40000 * FEO_RECORD_LEN)

/* 40,000 records: the first of these two, and at the end the second. */
static uint8_t *many(const char *two)
{
    static struct bytes sheet;
    uint8_t *to = (uint8_t *)malloc(MANY);
    size_t i;
    CHECK(to != NULL);
    lettered(&sheet, two);
    for (i = 0; i < MANY; i += FEO_RECORD_LEN)
        memcpy(to + i, sheet.at + (i == MANY - FEO_RECORD_LEN ? FEO_RECORD_LEN : 0), FEO_RECORD_LEN);
    return to;
}

/* Bad proposals and bad sheets of a site. */
static void not_choosing(void)
{
    static const char *const names[] = { "", "0", "00", "1.0", "1.", ".1", "1..2", "1.02", "1.a", "1.2 ", "-1", "1.2" };
    static const char *const proposals[] = { "1:Aa 1:Ba", "1:Aa 3:Ba 1:Aa", "1:Aa 3:Aa 1:Aa", "1:Aa 3:Ba 4:Aa", "Aa", "1:0a" };
    static const uint8_t values[] = { 0, 1, '-', '.', '/', '0', '9', ':', 0xFF };
    /* a place of a site record, and a byte there: ID, result; a name that is empty, too long, cut, or none; unused bytes */
    static const uint8_t faults[][2] = {
        { 0, 1 }, { 0, 255 }, { 1, 3 }, { 2, 0 }, { 2, 65 }, { 2, 16 }, { 3, 0 }, { 3, 65 }, { 3, 16 },
        { 4, 'a' }, { 20, '.' }, { 68, 0 }, { 84, '.' }, { 21, 1 }, { 67, '0' }, { 85, '0' }, { 131, 1 }
    };
    static struct bytes sheet, answer;
    uint8_t *great;
    size_t i, k, records;
    unsigned v;
    lettered(&proposal, "1:Aa");
    for (i = 0; i < sizeof faults / sizeof *faults; i++)
        for (k = 0; k < 2; k++) {
            lettered(&site, "Aa Aa");
            site.at[k * FEO_RECORD_LEN + faults[i][0]] = faults[i][1];
            judged(__LINE__, 4);
        }
    /* each byte of two records, of which the second is not needed for an answer; then their lengths */
    for (i = 0; i < 2 * FEO_RECORD_LEN; i++)
        for (v = 0; i % FEO_RECORD_LEN != FEO_RECORD_ID_AT && v < sizeof values; v++) {
            lettered(&sheet, "1:Aa 3:Bb");
            sheet.at[i] = values[v];
            either_way(__LINE__, &sheet);
        }
    for (v = 0; v < 256; v++)
        for (i = FEO_RECORD_RESULT_AT; i <= FEO_RECORD_TRANSFER_LEN_AT; i++) {
            lettered(&sheet, "1:Aa 3:Bb");
            sheet.at[FEO_RECORD_LEN + i] = (uint8_t)v;
            either_way(__LINE__, &sheet);
        }
    for (i = 0; i < sizeof names / sizeof *names; i++)
        for (k = 0; k < 2; k++) {
            lettered(&sheet, "1:Aa");
            add_record(&sheet, 3, 0, k == 0 ? names[i] : ECHO_CLASS, k == 0 ? IMPLICIT : names[i]);
            either_way(__LINE__, &sheet);
        }
    lettered(&sheet, "1:Aa 1:Aa 1:Aa");
    for (sheet.n = 0; sheet.n < 2 * FEO_RECORD_LEN + 2; sheet.n++)
        either_way(__LINE__, &sheet);
    /* IDs */
    for (v = 0; v < 256; v++)
        for (k = 0; k < 2; k++) {
            lettered(&proposal, "1:Aa");
            lettered(&site, "Aa Bb");
            site.at[k * FEO_RECORD_LEN] = (uint8_t)v;
            judged(__LINE__, v == 0 ? 0 : 4);
            lettered(&proposal, "1:Aa 3:Bb");
            lettered(&site, "Aa Bb");
            proposal.at[k * FEO_RECORD_LEN] = (uint8_t)v;
            judged(__LINE__, v % 2 == 1 && v != (k == 0 ? 3 : 1) ? 0 : 4);
        }
    for (i = 0; i < sizeof proposals / sizeof *proposals; i++) {
        lettered(&proposal, proposals[i]);
        given(4);
        REFUSED(confirm(0, FEO_BUFFER), 4);
        judged(__LINE__, 4);
        site.n = 0;
        judged(__LINE__, 4);
        lettered(&site, "Aa Bb");
    }
    /* no sheet at all */
    lettered(&proposal, "1:Aa");
    records = 9;
    CHECK(feo_choose(proposal.at, proposal.n, NULL, 0, NULL, 0, &records) == 4 && records == 0);
    records = 9;
    CHECK(feo_choose(NULL, 0, site.at, site.n, NULL, 0, &records) == 4 && records == 0);
    records = 9;
    CHECK(feo_choose(NULL, 0, NULL, 0, NULL, 0, &records) == 4 && records == 0);
    /* 40,000 records of one context, then of the site, the last of them chosen; then that one is bad */
    lettered(&answer, "1:0b");
    lettered(&site, "Ab");
    great = many("1:Aab");
    CHECK(feo_choose(great, MANY, site.at, site.n, w.out, FEO_RECORD_LEN, &records) == 0 && records == 1);
    CHECK(memcmp(w.out, answer.at, FEO_RECORD_LEN) == 0);
    great[MANY - 1] = 1;
    CHECK(feo_choose(great, MANY, site.at, site.n, w.out, FEO_RECORD_LEN, &records) == 4 && records == 0);
    free(great);
    lettered(&proposal, "1:Ab");
    great = many("Aa Ab");
    CHECK(feo_choose(proposal.at, proposal.n, great, MANY, w.out, FEO_RECORD_LEN, &records) == 0 && records == 1);
    CHECK(memcmp(w.out, answer.at, FEO_RECORD_LEN) == 0);
    great[MANY - 1] = 1;
    CHECK(feo_choose(proposal.at, proposal.n, great, MANY, w.out, FEO_RECORD_LEN, &records) == 4 && records == 0);
    free(great);
    /* records that feo_put_record writes */
    CHECK(feo_put_record(site.at, 0, 0, ECHO_CLASS, strlen(ECHO_CLASS), IMPLICIT, strlen(IMPLICIT)) == 0);
    lettered(&sheet, "Aa");
    CHECK(memcmp(site.at, sheet.at, FEO_RECORD_LEN) == 0);
    good_contents();
}

/* The bytes in front of a fragment: each length, any ID and control byte; then as items of feo_send. */
static void pdvs(void)
{
    static const size_t too_long[] = { 16379, 16380, 16384, 65534, 65536, (size_t)1 << 32, ((size_t)1 << 32) + 17, (size_t)-6, (size_t)-2, (size_t)-1 };
    static const uint8_t fragment[FEO_LONGEST] = { 0xF1 };
    static struct bytes pdu;
    struct bytes six;
    size_t i;
    given(6);
    for (i = 0; i <= 16378; i++) {
        six.n = 0;
        add_four(&six, i + 2);
        add_byte(&six, (unsigned)(i & 255));
        add_byte(&six, (unsigned)(i * 7 & 255));
        PUT(feo_put_pdv(w.out + 64, (uint8_t)(i & 255), (uint8_t)(i * 7 & 255), i), six.at, 6);
    }
    for (i = 0; i < sizeof too_long / sizeof *too_long; i++)
        NOT_PUT(feo_put_pdv(w.out + 64, 1, 3, too_long[i]), 5);
    /* a command and the beginning of its data set */
    items.n = 0;
    add_pdv(&items, 1, 3, "command", 7);
    add_pdv(&items, 1, 0, fragment, 300);
    whole(&pdu, 4, &items);
    memset(items.at, 0xEE, items.n);
    CHECK(feo_put_pdv(items.at, 1, FEO_PDV_COMMAND | FEO_PDV_LAST, 7) == 0);
    memcpy(items.at + FEO_PDV_HEADER_LEN, "command", 7);
    CHECK(feo_put_pdv(items.at + FEO_PDV_HEADER_LEN + 7, 1, 0, 300) == 0);
    memcpy(items.at + FEO_PDV_HEADER_LEN + 7 + FEO_PDV_HEADER_LEN, fragment, 300);
    LOCAL(send_it(0, FEO_BUFFER), FEO_DT_1, 6, pdu.at, pdu.n);
    /* what is left to feo_send: an even ID, another bit */
    items.n = FEO_PDV_HEADER_LEN;
    CHECK(feo_put_pdv(items.at, 2, FEO_PDV_LAST, 0) == 0);
    REFUSED(send_it(0, FEO_BUFFER), 4);
    CHECK(feo_put_pdv(items.at, 1, 4, 0) == 0);
    REFUSED(send_it(0, FEO_BUFFER), 4);
    good_contents();
}

/* One PDV of this length, alone, in this state. */
static void alone(size_t n, unsigned action, unsigned state)
{
    static struct bytes pdu;
    data(&pdu, 1, 2, n);
    items.n = 0;
    add(&items, pdu.at + FEO_HEADER_LEN, pdu.n - FEO_HEADER_LEN);
    if (n <= FEO_LONGEST - FEO_PDV_HEADER_LEN)
        CHECK(feo_put_pdv(items.at, 1, FEO_PDV_LAST, n) == 0);
    if (action != 0)
        LOCAL(send_it(0, FEO_BUFFER), action, state, pdu.at, pdu.n);
    else
        REFUSED(send_it(0, FEO_BUFFER), 5);
}

/* The longest fragment that a peer takes, by the maximum in its AC or RQ: feo_send takes it, and none that is longer. */
static void fragment_max(void)
{
    static const struct {
        uint32_t peer_max;
        size_t longest;
    } peers[] = {
        { 0, 16378 }, { 1, 0 }, { 5, 0 }, { 6, 0 }, { 7, 1 }, { 8, 2 }, { 261, 255 }, { 4096, 4090 }, { 16383, 16377 },
        { 16384, 16378 }, { 16385, 16378 }, { 65536, 16378 }, { 0x80000000U, 16378 }, { 0xFFFFFFFFU, 16378 }
    };
    static struct bytes pdu;
    size_t i, most;
    unsigned side, k;
    for (i = 0; i < sizeof peers / sizeof *peers; i++)
        for (side = 0; side < 2; side++) {
            good_contents();
            if (side == 0) {
                acceptance(&pdu, 1, 0, peers[i].peer_max);
                given(5);
                w.a.requestor = 1;
                HEARD(pdu, FEO_AE_3, 6, 0, 0, pdu.n);
            } else {
                request(&pdu, 1, APPLICATION, ECHO_CLASS, IMPLICIT);
                pdu.n -= USER_LEN;
                add_user(&pdu, peers[i].peer_max);
                given(2);
                HEARD(pdu, FEO_AE_6, 3, 0, 0, pdu.n);
                CHECK(accept_it(0, FEO_BUFFER) == 0);
            }
            for (k = 0; k < 2; k++) {
                unsigned state = k == 0 ? 6 : 8, action = k == 0 ? FEO_DT_1 : FEO_AR_7;
                CHECK(w.a.state == state && w.a.peer_max == peers[i].peer_max);
                before();
                most = feo_fragment_max(&w.a);
                CHECK(most == peers[i].longest && memcmp(&w, &want, sizeof w) == 0);
                alone(most, peers[i].peer_max == 0 || peers[i].peer_max > 5 ? action : 0, state);
                alone(most + 1, 0, state);
                ten(&pdu, 5, 0, 0, 0, 0);
                if (k == 0)
                    HEARD(pdu, FEO_AR_2, 8, 0, 0, 0);
            }
        }
    good_contents();
}

/* What a reject and an abort say, by name: sent, and read again. */
static void reasons(void)
{
    static const uint8_t rejected[][2] = {
        { FEO_REJECTED_BY_USER, FEO_REJECTED_USER_NO_REASON },
        { FEO_REJECTED_BY_USER, FEO_REJECTED_USER_APPLICATION_CONTEXT },
        { FEO_REJECTED_BY_USER, FEO_REJECTED_USER_CALLING_TITLE },
        { FEO_REJECTED_BY_USER, FEO_REJECTED_USER_CALLED_TITLE },
        { FEO_REJECTED_BY_ACSE, FEO_REJECTED_ACSE_NO_REASON },
        { FEO_REJECTED_BY_ACSE, FEO_REJECTED_ACSE_VERSION },
        { FEO_REJECTED_BY_PRESENTATION, FEO_REJECTED_PRESENTATION_CONGESTION },
        { FEO_REJECTED_BY_PRESENTATION, FEO_REJECTED_PRESENTATION_LOCAL_LIMIT }
    };
    static const uint8_t aborted[] = {
        FEO_ABORTED_NOT_SPECIFIED, FEO_ABORTED_UNRECOGNIZED_PDU, FEO_ABORTED_UNEXPECTED_PDU,
        FEO_ABORTED_UNRECOGNIZED_PARAMETER, FEO_ABORTED_UNEXPECTED_PARAMETER, FEO_ABORTED_INVALID_PARAMETER
    };
    static struct bytes pdu;
    size_t i;
    uint8_t x, y, z;
    for (i = 0; i < sizeof rejected / sizeof *rejected; i++)
        for (result = FEO_REJECTED_PERMANENT; result <= FEO_REJECTED_TRANSIENT; result++) {
            source = rejected[i][0];
            reason = rejected[i][1];
            ten(&pdu, 3, 0, result, source, reason);
            given(3);
            LOCAL(reject(0, 10), FEO_AE_8, 13, pdu.at, 10);
            CHECK(feo_read_reject(w.out, w.r.sent, &x, &y, &z) == 0 && x == result && y == source && z == reason);
        }
    for (i = 0; i < sizeof aborted; i++) {
        ten(&pdu, 7, 0, 0, FEO_ABORTED_BY_PROVIDER, aborted[i]);
        given(6);
        HEARD(pdu, FEO_AA_3, 1, 0, 0, 10);
        CHECK(feo_read_abort(w.gather, w.r.shown, &x, &y) == 0 && x == FEO_ABORTED_BY_PROVIDER && y == aborted[i]);
    }
    CHECK(feo_read_abort(ABORT_USER, 10, &x, &y) == 0 && x == FEO_ABORTED_BY_USER && y == 0);
    CHECK(feo_read_abort(ABORT_UNRECOGNIZED, 10, &x, &y) == 0 && x == FEO_ABORTED_BY_PROVIDER && y == FEO_ABORTED_UNRECOGNIZED_PDU);
    CHECK(feo_read_abort(ABORT_UNEXPECTED, 10, &x, &y) == 0 && x == FEO_ABORTED_BY_PROVIDER && y == FEO_ABORTED_UNEXPECTED_PDU);
    CHECK(feo_read_abort(ABORT_INVALID, 10, &x, &y) == 0 && x == FEO_ABORTED_BY_PROVIDER && y == FEO_ABORTED_INVALID_PARAMETER);
    CHECK(feo_read_reject(REJECT_VERSION, 10, &x, &y, &z) == 0);
    CHECK(x == FEO_REJECTED_PERMANENT && y == FEO_REJECTED_BY_ACSE && z == FEO_REJECTED_ACSE_VERSION);
    good_contents();
}

int main(void)
{
    good_contents();
    header();
    names();
    cases_1_2();
    case_3();
    case_4_titles();
    title_places();
    first_place();
    titles_refused();
    generated_titles();
    cases_5_to_9();
    case_10();
    case_11();
    local_events();
    received();
    receiving();
    broken();
    local_refusals();
    contents();
    long_sheet();
    rejects();
    sending();
    reading();
    places();
    records();
    refused_read();
    refused_sent();
    choosing();
    not_choosing();
    pdvs();
    fragment_max();
    reasons();
    printf("%ld checks through the header hold\n", checks);
    return 0;
}

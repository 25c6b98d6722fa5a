/*
 * No ID comes twice: of the contexts in an RQ or AC that is received or read, of the runs in a proposal and of the records in an answer
 * that are to be sent (document 01; document 02, E5). The papers' rule comes first, as a model that compares all pairs; every call is held
 * to it, and both to verdicts written by hand. In the common part of C99 and C++.
 */
#include "world.h"

/* ---- the papers' rule */

/* An ID is odd; one that comes twice makes the PDU invalid, and the sheet bad. */
static int are_ids(const uint8_t *ids, size_t n)
{
    size_t i, k;
    for (i = 0; i < n; i++) {
        if (ids[i] % 2 == 0)
            return 0;
        for (k = i + 1; k < n; k++)
            if (ids[i] == ids[k])
                return 0;
    }
    return 1;
}

/* The item behind the one at this place of the PDU. */
static size_t behind(const struct bytes *b, size_t at)
{
    return at + 4 + ((size_t)b->at[at + 2] << 8) + b->at[at + 3];
}

/* Those of 20H in an RQ, of 21H in an AC; every other type is skipped, that of the other PDU too. */
static size_t ids_of_pdu(const struct bytes *b, uint8_t *ids)
{
    size_t at, n = 0;
    for (at = 74; at < b->n; at = behind(b, at))
        if (b->at[at] == (b->at[0] == 1 ? 0x20 : 0x21))
            ids[n++] = b->at[at + 4];
    return n;
}

/* A context of a proposal is a run of records with equal ID and abstract name, one of an answer is a record. */
static int starts(unsigned type, const struct bytes *b, size_t at)
{
    const uint8_t *record = b->at + at;
    return type == 2 || at == 0 || record[0] != record[-132] || record[2] != record[2 - 132] || memcmp(record + 4, record + 4 - 132, 64) != 0;
}

static size_t ids_of_sheet(unsigned type, const struct bytes *b, uint8_t *ids)
{
    size_t at, n = 0;
    for (at = 0; at < b->n; at += 132)
        if (starts(type, b, at))
            ids[n++] = b->at[at];
    return n;
}

/* ---- contexts in a PDU and in a sheet */

#define MOST 150

static const char *const abstracts[2] = { "1.2", "1.3" };
static const char *const transfers[3] = { "0", "1", "2" };

/* An RQ or AC, and the sheet that says the same: each context's records, and its ID in the PDU, also in the skipped item before it. */
static struct bytes pdu, *sheet;
static size_t record_at[MOST + 1], id_at[MOST], skipped_at[MOST];

static void add_proposed(struct bytes *b, unsigned id, const char *abstract, size_t syntaxes)
{
    struct bytes context;
    size_t i;
    context.n = 0;
    add_four(&context, (size_t)id << 24);
    add_name(&context, 0x30, abstract);
    for (i = 0; i < syntaxes; i++)
        add_name(&context, 0x40, transfers[i]);
    add_item(b, 0x20, context.at, context.n);
}

/* An answered context; behind a result that refuses it stands anything. */
static void add_answered(struct bytes *b, unsigned id, unsigned answered)
{
    static const char *const follows[4] = { "", "\x40\x00\x00\x00", "\x40\x00\x00\x01" "0", "\x21\x00\x00\x04\x01\x00\x00\x00" };
    static const size_t lengths[4] = { 0, 4, 5, 8 };
    const size_t k = answered == 0 ? 2 : draw(4);
    add_context(b, (size_t)id << 24 | (size_t)answered << 8, follows[k], lengths[k]);
}

/*
 * Type 1, an RQ of n contexts with 1 to 3 transfer syntaxes and so many abstract names in turn; or 2, an AC with results at random. IDs
 * are 1, 3, .. Where `skips` is set, an item of the other PDU's contexts, with the same ID, comes before each context.
 */
static void built(unsigned type, size_t n, size_t names, int skips)
{
    static struct bytes b;
    size_t k, i;
    sheet = type == 1 ? &proposal : &answers;
    sheet->n = b.n = 0;
    add_fixed(&b, 1);
    add_name(&b, 0x10, APPLICATION);
    for (k = 0; k < n; k++) {
        const unsigned id = (unsigned)(2 * k + 1) & 255, answered = draw(2) == 0 ? 0 : draw(5);
        const char *abstract = abstracts[k % names];
        skipped_at[k] = 6 + b.n + 4;
        if (skips && type == 1)
            add_answered(&b, id, answered);
        else if (skips)
            add_proposed(&b, id, abstract, 1);
        record_at[k] = sheet->n;
        id_at[k] = 6 + b.n + 4;
        if (type == 1) {
            add_proposed(&b, id, abstract, 1 + k % 3);
            for (i = 0; i <= k % 3; i++)
                add_record(sheet, id, 0, abstract, transfers[i]);
        } else {
            add_answered(&b, id, answered);
            add_record(sheet, id, answered, "", answered == 0 ? transfers[0] : "");
        }
    }
    record_at[n] = sheet->n;
    add_user(&b, 5000);
    whole(&pdu, type, &b);
}

static void put_id(size_t k, unsigned id)
{
    size_t at;
    for (at = record_at[k]; at < record_at[k + 1]; at += 132)
        sheet->at[at] = (uint8_t)id;
    pdu.at[skipped_at[k]] = pdu.at[id_at[k]] = (uint8_t)id;
}

static void put_ids(const uint8_t *ids, size_t n)
{
    size_t k;
    for (k = 0; k < n; k++)
        put_id(k, ids[k]);
}

/* As given(), with one byte all over the world, at each call another: what is written shows, and it is quicker. */
static void given_quickly(unsigned state)
{
    static unsigned byte;
    memset(&w, (int)(++byte & 255), sizeof w);
    feo_fresh(&w.a);
    w.a.state = (uint8_t)state;
    w.a.artim = (uint8_t)timed(state);
}

/* ---- received and read */

static void is_received(int line, unsigned type, int good)
{
    given_quickly(type == 1 ? 2 : 5);
    w.a.requestor = type == 2;
    w.a.peer_max = 4321;
    if (good)
        heard(line, pdu.at, pdu.n, type == 1 ? FEO_AE_6 : FEO_AE_3, type == 1 ? 3 : 6, pdu.n, 0, 0, pdu.n);
    else if (type == 1)
        heard(line, pdu.at, pdu.n, FEO_AA_1, 13, pdu.n, ABORT_USER, 10, 0);
    else
        heard(line, pdu.at, pdu.n, FEO_AA_8, 13, pdu.n, ABORT_INVALID, 10, 0);
    check(line, w.a.peer_max == (good ? 5000 : 4321), "the peer's maximum");
}

/* Reads the PDU into a sheet of so much room. */
static void is_read(int line, unsigned type, size_t room, unsigned refusal)
{
    static uint8_t lent[40000 + 128], becomes[sizeof lent];
    struct {
        uint8_t guard0[16];
        struct feo_associate f;
        uint8_t guard1[16];
    } got, all;
    const size_t n = 64 + room + 64;
    uint8_t *to = room == 0 ? NULL : lent + 64;
    memset(lent, 0xEE, n);
    memset(becomes, 0xEE, n);
    memset(&got, 0xEE, sizeof got);
    memset(&all, 0xEE, sizeof all);
    all.f.version = 0;
    all.f.application_at = all.f.application_len = all.f.records = all.f.class_at = all.f.class_len = 0;
    all.f.version_name_at = all.f.version_name_len = all.f.roles = 0;
    all.f.maximum = 0;
    all.f.invoked = all.f.performed = 0;
    if (refusal == 0) {
        memcpy(becomes + 64, sheet->at, sheet->n);
        all.f.version = 1;
        for (all.f.application_at = 74; pdu.at[all.f.application_at] != 0x10;)
            all.f.application_at = behind(&pdu, all.f.application_at);
        all.f.application_at += 4;
        all.f.application_len = strlen(APPLICATION);
        all.f.maximum = 5000;
        all.f.records = sheet->n / 132;
        all.f.class_at = pdu.n - strlen(CLASS_UID);
        all.f.class_len = strlen(CLASS_UID);
        all.f.invoked = all.f.performed = 1;
    }
    check(
        line, (type == 1 ? feo_read_request : feo_read_accept)(pdu.at, pdu.n, to, room, NULL, 0, &got.f) == refusal,
        "the refusal of reading");
    check(line, got.f.records == all.f.records, "the count of records");
    check(line, memcmp(&got, &all, sizeof got) == 0, "all that is told of the PDU");
    check(line, memcmp(lent, becomes, n) == 0, "the sheet, and what is around it");
}

/* The PDU as it stands: taken and read as its sheet says, or an invalid one. */
static void is_judged(int line, unsigned type, int good)
{
    uint8_t ids[2 * MOST];
    check(line, are_ids(ids, ids_of_pdu(&pdu, ids)) == good, "the model's verdict on the PDU is that by hand");
    is_received(line, type, good);
    is_read(line, type, sheet->n, good ? 0 : 7);
}

/* ---- sent */

/* What a site that takes abstracts[0] in transfers[0] answers to the proposal. */
static void add_answers(struct bytes *answer)
{
    size_t at, run = 0;
    answer->n = 0;
    for (at = 0; at < sheet->n; at += 132) {
        const int liked = memcmp(sheet->at + at + 4, abstracts[0], 3) == 0;
        if (starts(1, sheet, at)) {
            run = answer->n;
            add_record(answer, sheet->at[at], liked ? 4 : 3, "", "");
        }
        if (liked && sheet->at[at + 68] == transfers[0][0]) {
            answer->n = run;
            add_record(answer, sheet->at[at], 0, "", transfers[0]);
        }
    }
}

static void is_answered(int line, int good)
{
    static struct bytes answer, of_site, kept;
    static struct {
        uint8_t guard0[64], at[FEO_ANSWER_ROOM], guard1[64];
        size_t records;
        uint8_t guard2[64];
    } got, all;
    memset(&got, 0xEE, sizeof got);
    memset(&all, 0xEE, sizeof all);
    of_site.n = kept.n = answer.n = 0;
    add_record(&of_site, 0, 0, abstracts[0], transfers[0]);
    add(&kept, sheet->at, sheet->n);
    if (good)
        add_answers(&answer);
    memcpy(all.at, answer.at, answer.n);
    all.records = answer.n / 132;
    check(
        line, feo_choose(sheet->at, sheet->n, of_site.at, of_site.n, got.at, sizeof got.at, &got.records) == (good ? 0 : 4),
        "the refusal of feo_choose");
    check(line, got.records == all.records, "the count of answers");
    check(line, memcmp(&got, &all, sizeof got) == 0, "the answer, and what is around it");
    check(line, memcmp(kept.at, sheet->at, sheet->n) == 0, "the proposal stays");
}

/* The sheet as it stands: sent, and a proposal also answered; or refused with 4. */
static void is_sent(int line, unsigned type, int good)
{
    static struct bytes sent;
    uint8_t ids[40000 / 132], got;
    uint8_t (*const call)(size_t, size_t) = type == 1 ? confirm : accept_it;
    check(line, are_ids(ids, ids_of_sheet(type, sheet, ids)) == good, "the model's verdict on the sheet is that by hand");
    given_quickly(type == 1 ? 4 : 3);
    before();
    got = call(0, FEO_BUFFER);
    if (good) {
        of_sheet(&sent, type, sheet);
        if (type == 2)
            memcpy(sent.at + FEO_ECHOED_AT, echoed.at, FEO_ECHOED_LEN);
        local(line, got, type == 1 ? FEO_AE_2 : FEO_AE_7, type == 1 ? 5 : 6, sent.at, sent.n);
    } else
        told(line, got, 4, 0, 0, 0, 0);
    if (type == 1)
        is_answered(line, good);
}

/* With too little room: 7 and 4 come before 2. */
static void in_less_room(int line, unsigned type, int good)
{
    uint8_t got;
    is_read(line, type, sheet->n - 1, good ? 2 : 7);
    is_read(line, type, 0, good ? 2 : 7);
    is_read(line, type, sheet->n + 131, good ? 0 : 7);
    given_quickly(type == 1 ? 4 : 3);
    before();
    got = (type == 1 ? confirm : accept_it)(0, 9);
    told(line, got, good ? 2 : 4, 0, 0, 0, 0);
}

/* ---- every pair of places */

enum order { RISING, FALLING, SHUFFLED };

static void all_ids(uint8_t ids[128], enum order order)
{
    unsigned k, other;
    uint8_t id;
    for (k = 0; k < 128; k++)
        ids[k] = (uint8_t)(order == FALLING ? 255 - 2 * k : 2 * k + 1);
    for (k = 128; order == SHUFFLED && k > 1; k--) {
        other = draw(k);
        id = ids[k - 1];
        ids[k - 1] = ids[other];
        ids[other] = id;
    }
}

/*
 * 128 contexts with all odd IDs; then each later one has the ID of each earlier one; of the falling ones only each fourth pair. The shuffled ones have
 * skipped items among them.
 */
static void all_places(unsigned type, enum order order)
{
    const size_t step = order == FALLING ? 4 : 1;
    uint8_t ids[128];
    size_t i, j;
    built(type, 128, 2, order == SHUFFLED);
    all_ids(ids, order);
    put_ids(ids, 128);
    is_judged(__LINE__, type, 1);
    is_sent(__LINE__, type, 1);
    in_less_room(__LINE__, type, 1);
    for (j = 1; j < 128; j++) {
        for (i = (j - 1) % step; i < j; i += step) {
            put_id(j, ids[i]);
            is_judged(__LINE__, type, 0);
            if (order == SHUFFLED)
                is_sent(__LINE__, type, 0);
        }
        in_less_room(__LINE__, type, 0);
        /* a good one behind refused ones */
        put_id(j, ids[j]);
        is_judged(__LINE__, type, 1);
        is_sent(__LINE__, type, 1);
    }
}

/* With one abstract name for all, neighbours of one ID are one run of a proposal; in an RQ they are two contexts all the same. */
static void one_abstract_name(void)
{
    uint8_t ids[128];
    size_t i, j;
    built(1, 128, 1, 0);
    all_ids(ids, SHUFFLED);
    put_ids(ids, 128);
    is_judged(__LINE__, 1, 1);
    is_sent(__LINE__, 1, 1);
    for (j = 1; j < 128; j++) {
        for (i = j % 4; i < j; i += 4) {
            put_id(j, ids[i]);
            is_sent(__LINE__, 1, 0);
        }
        put_id(j, ids[j - 1]);
        is_sent(__LINE__, 1, 1);
        is_judged(__LINE__, 1, 0);
        put_id(j, ids[j]);
    }
    /* all but the last one are one run of 254 records */
    for (j = 0; j < 127; j++)
        put_id(j, 255);
    put_id(127, 1);
    is_sent(__LINE__, 1, 1);
    /* that ID again at the end, and in the midst of another run */
    put_id(126, 1);
    put_id(127, 255);
    is_sent(__LINE__, 1, 0);
    put_id(127, 1);
    is_sent(__LINE__, 1, 1);
    sheet->at[record_at[127]] = 255;
    is_sent(__LINE__, 1, 0);
}

/* ---- every pair of values */

/* Two contexts; of even IDs, which are none, some. */
static void all_values(unsigned type)
{
    unsigned a, b, good;
    for (a = 0; a < 256; a++)
        for (b = 0; b < 256; b++) {
            if ((a % 2 == 0 && a % 64 > 2) || (b % 2 == 0 && b % 64 > 2))
                continue;
            good = a % 2 == 1 && b % 2 == 1 && a != b;
            built(type, 2, 2, b % 4 == 1);
            put_id(0, a);
            put_id(1, b);
            is_judged(__LINE__, type, (int)good);
            is_sent(__LINE__, type, (int)good);
        }
}

/* ---- by hand */

/*
 * IDs that are all taken, and refused with any one of them again at either end or beside itself: 255 and 1, one in each 64, both sides of
 * 64, 128 and 192.
 */
static const struct {
    size_t n;
    uint8_t ids[16];
} taken[] = {
    { 1, { 1 } },
    { 1, { 255 } },
    { 2, { 255, 1 } },
    { 2, { 1, 255 } },
    { 2, { 63, 65 } },
    { 2, { 129, 127 } },
    { 3, { 1, 3, 5 } },
    { 4, { 1, 65, 129, 193 } },
    { 4, { 193, 129, 65, 1 } },
    { 4, { 63, 127, 191, 255 } },
    { 8, { 1, 63, 65, 127, 129, 191, 193, 255 } },
    { 8, { 1, 3, 5, 9, 17, 33, 65, 129 } },
    { 8, { 255, 253, 251, 247, 239, 223, 191, 127 } },
    { 16, { 61, 63, 65, 67, 125, 127, 129, 131, 189, 191, 193, 195, 253, 255, 1, 3 } }
};

static void by_hand(unsigned type)
{
    size_t i, k, n, place;
    uint8_t ids[17];
    for (i = 0; i < sizeof taken / sizeof *taken; i++) {
        n = taken[i].n;
        built(type, n, 2, 0);
        put_ids(taken[i].ids, n);
        is_judged(__LINE__, type, 1);
        in_less_room(__LINE__, type, 1);
        is_sent(__LINE__, type, 1);
        for (k = 0; k < n; k++)
            for (place = 0; place < 3; place++) {
                const size_t at = place == 0 ? 0 : place == 1 ? k : n;
                memcpy(ids, taken[i].ids, at);
                ids[at] = taken[i].ids[k];
                memcpy(ids + at + 1, taken[i].ids + at, n - at);
                built(type, n + 1, 2, 0);
                put_ids(ids, n + 1);
                is_judged(__LINE__, type, 0);
                in_less_room(__LINE__, type, 0);
                is_sent(__LINE__, type, 0);
            }
    }
    /* more contexts than there are IDs */
    for (n = 128; n <= MOST; n++) {
        built(type, n, 2, 0);
        is_judged(__LINE__, type, n == 128);
        is_sent(__LINE__, type, n == 128);
    }
}

/* A proposal by its records: IDs, and a letter for the abstract name of each. */
static void runs(int line, const char *ids, const char *letters, int good)
{
    size_t i;
    sheet = &proposal;
    sheet->n = 0;
    for (i = 0; letters[i] != 0; i++)
        add_record(sheet, (uint8_t)ids[i], 0, abstracts[letters[i] - 'A'], transfers[i % 3]);
    is_sent(line, 1, good);
}

#define RUNS(ids, letters, good) runs(__LINE__, ids, letters, good)

static void runs_by_hand(void)
{
    RUNS("\1", "A", 1);
    RUNS("\1\1\1", "AAA", 1);
    RUNS("\1\1\1\3\3\5", "AAAAAA", 1);
    RUNS("\1\1\3\3\3", "AABBB", 1);
    RUNS("\1\3", "AA", 1);
    /* 1, 3, 1, of equal names and of others, as single records and as runs */
    RUNS("\1\3\1", "AAA", 0);
    RUNS("\1\3\1", "ABA", 0);
    RUNS("\1\3\1", "AAB", 0);
    RUNS("\1\1\3\3\1\1", "AAAAAA", 0);
    RUNS("\1\1\1\3\1", "AAAAA", 0);
    RUNS("\1\3\3\3\1", "AAAAA", 0);
    RUNS("\3\1\3\3\3", "AAAAA", 0);
    /* another name starts a second run of the ID */
    RUNS("\1\1", "AB", 0);
    RUNS("\1\1\1", "ABA", 0);
    RUNS("\1\1\1", "AAB", 0);
    RUNS("\1\1\1\3", "ABBB", 0);
    RUNS("\3\1\1", "AAB", 0);
    RUNS("\xFF\1\xFF", "AAA", 0);
    RUNS("\xFF\1", "AA", 1);
    RUNS("\x01\x41\x81\xC1\x41", "AAAAA", 0);
    RUNS("\x01\x41\x81\xC1\xC1", "AAAAA", 1);
}

/* Too long to be sent: 5, and with an ID that comes twice 4. */
static void too_long(void)
{
    unsigned k;
    proposal.n = 0;
    for (k = 0; k < 128; k++)
        add_record(&proposal, 2 * k + 1, 0, SIXTY_FOUR, SIXTY_FOUR);
    given(4);
    REFUSED(confirm(0, FEO_BUFFER), 5);
    for (k = 0; k < 127; k++) {
        proposal.at[127 * 132] = (uint8_t)(2 * k + 1);
        REFUSED(confirm(0, FEO_BUFFER), k == 126 ? 5 : 4);
    }
    good_contents();
}

/* A site's sheet has ID 0 in all of its records. */
static void of_a_site(void)
{
    static struct bytes of_site, answer;
    uint8_t got[2 * FEO_RECORD_LEN];
    size_t n, bad, records;
    proposal.n = answer.n = of_site.n = 0;
    add_record(&proposal, 1, 0, "1.2", "0");
    add_record(&proposal, 255, 0, "1.3", "0");
    add_record(&answer, 1, 0, "", "0");
    add_record(&answer, 255, 4, "", "");
    for (n = 1; n <= 300; n++) {
        /* runs of 1 to 3 records of one name; the first that is liked comes again and again */
        add_record(&of_site, 0, 0, abstracts[n / 3 % 2], transfers[n / 3 % 2]);
        memset(got, 0xEE, sizeof got);
        CHECK(feo_choose(proposal.at, proposal.n, of_site.at, of_site.n, got, sizeof got, &records) == 0 && records == 2);
        answer.at[132 + 1] = n < 3 ? 3 : 4;
        CHECK(memcmp(got, answer.at, sizeof got) == 0);
        /* one ID that is not 0 is bad, whatever it is */
        bad = 132 * draw((unsigned)n);
        of_site.at[bad] = (uint8_t)(1 + draw(255));
        CHECK(feo_choose(proposal.at, proposal.n, of_site.at, of_site.n, got, sizeof got, &records) == 4 && records == 0);
        CHECK(memcmp(got, answer.at, sizeof got) == 0);
        of_site.at[bad] = 0;
    }
    good_contents();
}

/* ---- what is skipped has no ID */

static void skipped(void)
{
    static struct bytes b, nested;
    static const unsigned in[4] = { 1, 5, 5, 1 };
    size_t place, k;
    unsigned type, again;
    for (type = 1; type <= 2; type++)
        for (again = 0; again < 2; again++)
            for (place = 0; place < 64; place++) {
                built(type, 2, 2, 0);
                put_id(1, again ? 1 : 5);
                /* items of the other type, with IDs of contexts and with one ID twice, at each of the six places at the top */
                b.n = 0;
                add_fixed(&b, 1);
                for (k = 0; k < 6; k++) {
                    if (place >> k & 1) {
                        if (type == 1)
                            add_answered(&b, in[k % 4], 0);
                        else
                            add_proposed(&b, in[k % 4], abstracts[0], 1);
                    }
                    if (k == 0)
                        add_name(&b, 0x10, APPLICATION);
                    else if (k == 1 || k == 3)
                        add(&b, pdu.at + id_at[k / 2] - 4, 4 + pdu.at[id_at[k / 2] - 1]);
                    else if (k == 2 || k == 4)
                        add_item(&b, type == 1 ? 0x21 : 0x20, "\1\0\0", place >> k & 3);
                }
                add_user(&b, 5000);
                whole(&pdu, type, &b);
                is_judged(__LINE__, type, !again);
            }
    /* a 20H and a 21H inside a context, and inside the user information */
    for (type = 1; type <= 2; type++) {
        built(type, 2, 2, 0);
        b.n = nested.n = 0;
        add_fixed(&b, 1);
        add_name(&b, 0x10, APPLICATION);
        add_four(&nested, 0x01000000);
        add_answered(&nested, 1, 0);
        add_proposed(&nested, 3, "1.2", 1);
        if (type == 1)
            add_name(&nested, 0x30, abstracts[0]);
        add_answered(&nested, 3, 0);
        add_name(&nested, 0x40, transfers[0]);
        add_proposed(&nested, 1, "1.2", 1);
        add_item(&b, type == 1 ? 0x20 : 0x21, nested.at, nested.n);
        add(&b, pdu.at + id_at[1] - 4, 4 + pdu.at[id_at[1] - 1]);
        nested.n = 0;
        add_proposed(&nested, 1, "1.2", 1);
        add_answered(&nested, 1, 0);
        add_maximum(&nested, 5000);
        add_proposed(&nested, 3, "1.2", 1);
        add_name(&nested, 0x52, CLASS_UID);
        add_item(&b, 0x50, nested.at, nested.n);
        whole(&pdu, type, &b);
        if (type == 2) {
            answers.n = 0;
            add_record(&answers, 1, 0, "", transfers[0]);
            answers.n = record_at[2];
        }
        is_judged(__LINE__, type, 1);
    }
}

/* ---- one PDU behind another */

/* What comes in Sta13, in one association: reason 2 for a good RQ, nothing for a good AC, reason 6 for either with an ID twice. */
static void behind_another(void)
{
    static struct bytes pdus[4];
    size_t i, k, n;
    uint8_t ids[128];
    unsigned round;
    all_ids(ids, SHUFFLED);
    for (k = 0; k < 4; k++) {
        built(1 + (unsigned)k % 2, 128, 2, 0);
        put_ids(ids, 128);
        if (k >= 2)
            put_id(127, ids[0]);
        pdus[k] = pdu;
    }
    given(13);
    for (round = 0; round < 200; round++) {
        k = round < 8 ? round / 2 : draw(4);
        if (k == 1)
            HEARD(pdus[k], FEO_AA_6, 13, 0, 0, 0);
        else
            HEARD(pdus[k], FEO_AA_7, 13, k == 0 ? ABORT_UNEXPECTED : ABORT_INVALID, 10, 0);
    }
    /* one association behind another: the request is refused where it has an ID twice, and only there */
    given(1);
    for (round = 0; round < 60; round++) {
        LOCAL(event(FEO_TRANSPORT_INDICATION, FEO_BUFFER, 0), FEO_AE_5, 2, 0, 0);
        if (round % 3 == 1) {
            HEARD(pdus[2], FEO_AA_1, 13, ABORT_USER, 10, 0);
            LOCAL(event(FEO_TRANSPORT_CLOSED, FEO_BUFFER, 0), FEO_AR_5, 1, 0, 0);
        } else {
            HEARD(pdus[0], FEO_AE_6, 3, 0, 0, pdus[0].n);
            LOCAL(event(FEO_TRANSPORT_CLOSED, FEO_BUFFER, 0), FEO_AA_4, 1, 0, 0);
        }
    }
    /* two in one piece */
    for (i = 0; i < 4; i += 2)
        for (k = 0; k < 4; k += 2) {
            pdu = pdus[i];
            n = pdu.n;
            add(&pdu, pdus[k].at, pdus[k].n);
            given(13);
            heard(__LINE__, pdu.at, pdu.n, FEO_AA_7, 13, n, i == 0 ? ABORT_UNEXPECTED : ABORT_INVALID, 10, 0);
            heard(__LINE__, pdu.at + n, pdu.n - n, FEO_AA_7, 13, pdu.n - n, k == 0 ? ABORT_UNEXPECTED : ABORT_INVALID, 10, 0);
        }
}

/* In every state, and however the PDU is cut; and where the version is not ours. */
static void in_every_state(void)
{
    unsigned type, state;
    int good;
    size_t i;
    for (type = 1; type <= 2; type++)
        for (good = 0; good < 2; good++) {
            const unsigned own = type == 1 ? 2 : 5;
            built(type, 6, 2, 0);
            put_id(5, good ? 255 : 1);
            for (state = 1; state <= 13; state++) {
                given(state);
                if (state == 1 || state == 4)
                    HEARD(pdu, 0, state, 0, 0, 0);
                else if (state == own && good)
                    HEARD(pdu, type == 1 ? FEO_AE_6 : FEO_AE_3, type == 1 ? 3 : 6, 0, 0, pdu.n);
                else if (state == 2)
                    HEARD(pdu, FEO_AA_1, 13, ABORT_USER, 10, 0);
                else if (state == 13 && type == 2 && good)
                    HEARD(pdu, FEO_AA_6, 13, 0, 0, 0);
                else
                    HEARD(pdu, state == 13 ? FEO_AA_7 : FEO_AA_8, 13, good ? ABORT_UNEXPECTED : ABORT_INVALID, 10, 0);
            }
            for (i = 1; i < pdu.n; i++) {
                const size_t rest = pdu.n - i;
                given(own);
                heard(__LINE__, pdu.at, i, 0, own, i, 0, 0, 0);
                if (good)
                    heard(__LINE__, pdu.at + i, rest, type == 1 ? FEO_AE_6 : FEO_AE_3, type == 1 ? 3 : 6, rest, 0, 0, pdu.n);
                else if (type == 1)
                    heard(__LINE__, pdu.at + i, rest, FEO_AA_1, 13, rest, ABORT_USER, 10, 0);
                else
                    heard(__LINE__, pdu.at + i, rest, FEO_AA_8, 13, rest, ABORT_INVALID, 10, 0);
            }
            pdu.at[7] = 2;
            given(own);
            if (type == 1 && good)
                HEARD(pdu, FEO_AE_6, 13, REJECT_VERSION, 10, 0);
            else if (type == 1)
                HEARD(pdu, FEO_AA_1, 13, ABORT_USER, 10, 0);
            else
                HEARD(pdu, FEO_AA_8, 13, ABORT_INVALID, 10, 0);
        }
}

/* ---- generated */

/* A record behind the others of the sheet: one more of the last run, or with this ID; now and then with any. */
static void add_drawn(unsigned type, unsigned next)
{
    const unsigned answered = draw(5);
    unsigned id = next, name = draw(2);
    if (type == 1 && sheet->n != 0 && draw(5) < 2) {
        const uint8_t *last = sheet->at + sheet->n - 132;
        id = last[0];
        if (draw(50) != 0)
            name = memcmp(last + 4, abstracts[1], 3) == 0;
    }
    if (draw(100) == 0)
        id = 2 * draw(128) + 1;
    if (type == 1)
        add_record(sheet, id, 0, abstracts[name], transfers[draw(3)]);
    else
        add_record(sheet, id, answered, "", answered == 0 ? transfers[0] : "");
}

static void generated(void)
{
    uint8_t order[128], ids[128];
    size_t n, k, round;
    unsigned type, faults;
    int good;
    long goods[3] = { 0, 0, 0 }, bads[3] = { 0, 0, 0 };
    for (round = 0; round < 6000; round++) {
        type = 1 + draw(2);
        all_ids(order, SHUFFLED);
        /* a PDU */
        n = 1 + draw(draw(2) == 0 ? 8 : 128);
        built(type, n, 2, draw(2) == 0);
        memcpy(ids, order, n);
        for (faults = draw(2) == 0 ? 0 : 1 + draw(3); faults > 0; faults--) {
            k = draw((unsigned)n);
            ids[k] = (uint8_t)(draw(20) == 0 ? draw(256) : ids[draw((unsigned)n)]);
        }
        put_ids(ids, n);
        good = are_ids(ids, n);
        is_judged(__LINE__, type, good);
        *(good ? &goods[0] : &bads[0]) += 1;
        /* a sheet */
        n = 1 + draw(draw(2) == 0 ? 6 : 128);
        sheet->n = 0;
        for (k = 0; k < n; k++)
            add_drawn(type, order[k]);
        good = are_ids(ids, ids_of_sheet(type, sheet, ids));
        is_sent(__LINE__, type, good);
        *(good ? &goods[type] : &bads[type]) += 1;
    }
    for (k = 0; k < 3; k++)
        CHECK(goods[k] > 500 && bads[k] > 300);
    good_contents();
}

int main(void)
{
    unsigned type;
    good_contents();
    for (type = 1; type <= 2; type++) {
        all_places(type, RISING);
        all_places(type, FALLING);
        all_places(type, SHUFFLED);
        all_values(type);
        by_hand(type);
    }
    one_abstract_name();
    runs_by_hand();
    too_long();
    of_a_site();
    skipped();
    behind_another();
    in_every_state();
    generated();
    printf("%ld checks of repeated IDs\n", checks);
    return 0;
}

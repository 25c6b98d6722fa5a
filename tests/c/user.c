/*
 * What an RQ and an AC say by PS3.7 (document 02, E4): implementation class UID (52H), operation counts (53H), roles (54H) and version
 * name (55H), read and sent. The papers' rules come first, as a model; every call is held to it, and both to verdicts written by hand.
 * In the common part of C99 and C++.
 */
#include "world.h"

/* ---- the papers' rules */

/* A name: 1 to 64 bytes of digits and dots; components non-empty, no leading zero unless the component is "0". */
static int is_name(const uint8_t *p, size_t n)
{
    size_t i, from = 0;
    for (i = 0; i <= n; i++)
        if (i < n && p[i] >= '0' && p[i] <= '9')
            continue;
        else if ((i < n && p[i] != '.') || i == from || (p[from] == '0' && i != from + 1))
            return 0;
        else
            from = i + 1;
    return n >= 1 && n <= 64;
}

/* A version name: 1 to 16 title characters. */
static int is_version_name(const uint8_t *p, size_t n)
{
    size_t i;
    for (i = 0; i < n; i++)
        if (p[i] < 0x20 || p[i] > 0x7E || p[i] == 0x5C)
            return 0;
    return n >= 1 && n <= 16;
}

static size_t two(const uint8_t *p)
{
    return (size_t)p[0] << 8 | p[1];
}

/* A record of a role sheet. */
static void role_record(uint8_t *to, const uint8_t *uid, size_t n, unsigned scu, unsigned scp)
{
    memset(to, 0, 68);
    to[0] = (uint8_t)n;
    to[1] = (uint8_t)scu;
    to[2] = (uint8_t)scp;
    memcpy(to + 4, uid, n);
}

/* The sub-items of a 50H keep the rules, or break this one. */
enum rule { KEPT, FILLING, ONE_MAXIMUM, CLASS, COUNTS, ROLE, SAME_ROLE, VERSION_NAME, TWICE, RULES };

/* What they say; places are from the 50H's body on. */
static struct said {
    uint32_t maximum;
    size_t class_at, class_len, version_name_at, version_name_len;
    unsigned invoked, performed;
    size_t roles;
    uint8_t sheet[FEO_ROLES_ROOM];
} said;

static enum rule role_said(const uint8_t *p, size_t n)
{
    size_t i, uid = n < 2 ? 0 : two(p);
    uint8_t *to = said.sheet + 68 * said.roles;
    if (n != 2 + uid + 2 || !is_name(p + 2, uid) || p[2 + uid] > 1 || p[3 + uid] > 1)
        return ROLE;
    role_record(to, p + 2, uid, p[2 + uid], p[3 + uid]);
    for (i = 0; i < said.roles; i++)
        if (to[0] == said.sheet[68 * i] && memcmp(to + 4, said.sheet + 68 * i + 4, 64) == 0)
            return SAME_ROLE;
    said.roles++;
    return KEPT;
}

static enum rule says(const uint8_t *p, size_t n)
{
    size_t at, k, times[256] = { 0 };
    said.class_at = said.class_len = said.version_name_at = said.version_name_len = said.roles = 0;
    said.invoked = said.performed = 1;
    for (at = 0; at < n; at += 4 + k) {
        const uint8_t *body = p + at + 4;
        k = n - at < 4 ? n : two(p + at + 2);
        if (n - at < 4 || k > n - at - 4)
            return FILLING;
        times[p[at]]++;
        if (p[at] == 0x51) {
            if (k != 4)
                return ONE_MAXIMUM;
            said.maximum = (uint32_t)(two(body) << 16 | two(body + 2));
        } else if (p[at] == 0x52) {
            if (!is_name(body, k))
                return CLASS;
            said.class_at = at + 4;
            said.class_len = k;
        } else if (p[at] == 0x53) {
            if (k != 4)
                return COUNTS;
            said.invoked = (unsigned)two(body);
            said.performed = (unsigned)two(body + 2);
        } else if (p[at] == 0x54) {
            enum rule role = role_said(body, k);
            if (role != KEPT)
                return role;
        } else if (p[at] == 0x55) {
            if (!is_version_name(body, k))
                return VERSION_NAME;
            said.version_name_at = at + 4;
            said.version_name_len = k;
        }
    }
    if (times[0x52] > 1 || times[0x53] > 1 || times[0x55] > 1)
        return TWICE;
    return times[0x51] == 1 ? KEPT : ONE_MAXIMUM;
}

/* A role sheet to be sent. */
static int is_role_sheet(const uint8_t *p, size_t n)
{
    static const uint8_t zero[64] = { 0 };
    size_t i, k;
    if (n % 68 != 0)
        return 0;
    for (i = 0; i < n; i += 68) {
        const uint8_t *r = p + i;
        if (r[0] > 64 || !is_name(r + 4, r[0]) || r[1] > 1 || r[2] > 1 || r[3] != 0 || memcmp(r + 4 + r[0], zero, (size_t)64 - r[0]) != 0)
            return 0;
        for (k = 0; k < i; k += 68)
            if (p[k] == r[0] && memcmp(p + k + 4, r + 4, 64) == 0)
                return 0;
    }
    return 1;
}

/* What is to be sent of a user. */
static int is_user(const struct feo_user *u)
{
    return is_name(u->class_uid, u->class_uid_len) && (u->version_name_len == 0 || is_version_name(u->version_name, u->version_name_len))
        && is_role_sheet(u->roles, u->roles_len);
}

/* Its bytes in a 50H, behind that one's own four. */
static size_t user_length(const struct feo_user *u)
{
    size_t i, n = 8 + 4 + u->class_uid_len + (u->invoked == 1 && u->performed == 1 ? 0 : 8);
    for (i = 0; i < u->roles_len; i += 68)
        n += 4 + 2 + u->roles[i] + 2;
    return n + (u->version_name_len == 0 ? 0 : 4 + u->version_name_len);
}

static void user_form(struct bytes *b, const struct feo_user *u)
{
    size_t i;
    char uid[65];
    add_maximum(b, 16384);
    add_item(b, 0x52, u->class_uid, u->class_uid_len);
    if (u->invoked != 1 || u->performed != 1) {
        add_byte(b, 0x53);
        add_byte(b, 0);
        add_two(b, 4);
        add_two(b, u->invoked);
        add_two(b, u->performed);
    }
    for (i = 0; i < u->roles_len; i += 68) {
        memcpy(uid, u->roles + i + 4, u->roles[i]);
        uid[u->roles[i]] = 0;
        add_role(b, uid, u->roles[i + 1], u->roles[i + 2]);
    }
    if (u->version_name_len != 0)
        add_item(b, 0x55, u->version_name, u->version_name_len);
}

/* ---- PDUs around a 50H */

/* Type 1, an RQ, or 2, an AC. */
static const struct {
    unsigned reads_in, event, sends_in;
} of_type[3] = { { 0, 0, 0 }, { 2, FEO_TRANSPORT_CONFIRM, 4 }, { 5, FEO_ACCEPT_RESPONSE, 3 } };

/* The items before the 50H, as they are received and as they are written again, and the sheet of both. */
static struct bytes front, front_again, sheet;

/* One context, ID 1: of the usual names, of the shortest ones; in an AC the latter is refused, and has no sub-item when received. */
static void in_front(unsigned type, int shortest)
{
    struct bytes context;
    front.n = front_again.n = sheet.n = context.n = 0;
    add_name(&front, 0x10, shortest ? "0" : APPLICATION);
    if (type == 1) {
        add_four(&context, 0x01000000);
        add_name(&context, 0x30, shortest ? "0" : ECHO_CLASS);
        add_name(&context, 0x40, shortest ? "0" : IMPLICIT);
        add_item(&front, 0x20, context.at, context.n);
        add_record(&sheet, 1, 0, shortest ? "0" : ECHO_CLASS, shortest ? "0" : IMPLICIT);
        front_again = front;
    } else {
        add_name(&context, 0x40, shortest ? "" : IMPLICIT);
        front_again = front;
        add_context(&front, shortest ? 0x01000300 : 0x01000000, context.at, shortest ? 0 : context.n);
        add_context(&front_again, shortest ? 0x01000300 : 0x01000000, context.at, context.n);
        add_record(&sheet, 1, shortest ? 3 : 0, "", shortest ? "" : IMPLICIT);
    }
}

/* These items, and a 50H of these sub-items, which are then the PDU's last bytes. */
static void around(struct bytes *pdu, unsigned type, const struct bytes *items_before, const struct bytes *subs)
{
    struct bytes b;
    b.n = 0;
    add_fixed(&b, 1);
    add(&b, items_before->at, items_before->n);
    add_item(&b, 0x50, subs->at, subs->n);
    whole(pdu, type, &b);
}

/* ---- reading */

/* The two sheets that are lent, one behind the other, guard bytes before, between and behind them; and what they are to become. */
static uint8_t lent[4 * FEO_RECORD_LEN + FEO_ROLES_ROOM + 1000], becomes[sizeof lent];

#define SHEET_AT 64

static uint8_t reads(unsigned type, const uint8_t *pdu, size_t n, size_t sheet_len, size_t roles_len, struct feo_associate *f)
{
    uint8_t *roles = roles_len == 0 ? NULL : lent + SHEET_AT + sheet_len + 64;
    return (type == 1 ? feo_read_request : feo_read_accept)(
        pdu, n, sheet_len == 0 ? NULL : lent + SHEET_AT, sheet_len, roles, roles_len, f);
}

/* Reading this PDU into so much room gives what `said` and `sheet` have, or is refused; nothing else is written. */
static void is_told(int line, unsigned type, const struct bytes *pdu, size_t user_at, size_t sheet_len, size_t roles_len, unsigned refusal)
{
    struct {
        uint8_t guard0[64];
        struct feo_associate f;
        uint8_t guard1[64];
    } got, told_all;
    size_t roles_at = SHEET_AT + sheet_len + 64, n = roles_at + roles_len + 64;
    struct feo_associate *f = &told_all.f;
    memset(lent, 0xEE, n);
    memset(becomes, 0xEE, n);
    memset(&got, 0xEE, sizeof got);
    memset(&told_all, 0xEE, sizeof told_all);
    f->version = 0;
    f->application_at = f->application_len = f->records = f->class_at = f->class_len = f->version_name_at = f->version_name_len = f->roles = 0;
    f->maximum = 0;
    f->invoked = f->performed = 0;
    if (refusal == 0) {
        memcpy(becomes + SHEET_AT, sheet.at, sheet.n);
        memcpy(becomes + roles_at, said.sheet, 68 * said.roles);
        f->version = 1;
        f->application_at = 78;
        f->application_len = two(front.at + 2);
        f->maximum = said.maximum;
        f->records = 1;
        f->class_at = said.class_len == 0 ? 0 : user_at + said.class_at;
        f->class_len = said.class_len;
        f->version_name_at = said.version_name_len == 0 ? 0 : user_at + said.version_name_at;
        f->version_name_len = said.version_name_len;
        f->invoked = (uint16_t)said.invoked;
        f->performed = (uint16_t)said.performed;
        f->roles = said.roles;
    }
    check(line, reads(type, pdu->at, pdu->n, sheet_len, roles_len, &got.f) == refusal, "the refusal of reading");
    check(line, got.f.class_at == f->class_at && got.f.class_len == f->class_len, "the class UID");
    check(line, got.f.version_name_at == f->version_name_at && got.f.version_name_len == f->version_name_len, "the version name");
    check(line, got.f.invoked == f->invoked && got.f.performed == f->performed, "the operation counts");
    check(line, got.f.roles == f->roles, "the count of roles");
    check(line, memcmp(&got, &told_all, sizeof got) == 0, "all that is told of the PDU");
    check(line, memcmp(lent, becomes, n) == 0, "the sheets");
}

static void not_read(int line, unsigned type, const struct bytes *pdu)
{
    is_told(line, type, pdu, 0, 2 * FEO_RECORD_LEN, 3 * 68, 7);
    given(of_type[type].reads_in);
    if (type == 1)
        heard(line, pdu->at, pdu->n, FEO_AA_1, 13, pdu->n, ABORT_USER, 10, 0);
    else
        heard(line, pdu->at, pdu->n, FEO_AA_8, 13, pdu->n, ABORT_INVALID, 10, 0);
}

/* What was read is written again with the same fields and the class UID of `user` where there was none: 5 exactly where that is too long. */
static void written_again(int line, unsigned type, const struct bytes *pdu)
{
    static struct bytes again, subs;
    struct feo_associate f;
    struct feo_accepting c;
    uint8_t got;
    size_t n;
    const uint8_t *own_class = user.class_uid;
    const size_t own_len = user.class_uid_len;
    check(line, reads(type, pdu->at, pdu->n, sheet.n, 68 * said.roles, &f) == 0, "the PDU is read");
    if (f.class_len != 0) {
        user.class_uid = pdu->at + f.class_at;
        user.class_uid_len = f.class_len;
    }
    user.version_name = pdu->at + f.version_name_at;
    user.version_name_len = f.version_name_len;
    user.invoked = f.invoked;
    user.performed = f.performed;
    user.roles = lent + SHEET_AT + sheet.n + 64;
    user.roles_len = 68 * f.roles;
    check(line, is_user(&user) && memcmp(user.roles, said.sheet, user.roles_len) == 0, "what was read is good contents");
    n = 6 + 68 + front_again.n + 4 + user_length(&user);
    given(of_type[type].sends_in);
    before();
    c = accepts(pdu->at, &f, lent + SHEET_AT, sheet.n);
    if (type == 1)
        got = feo_confirm(
            &w.a, pdu->at + FEO_CALLED_AT, FEO_TITLE_LEN, pdu->at + FEO_CALLING_AT, FEO_TITLE_LEN, pdu->at + f.application_at, f.application_len,
            &user, lent + SHEET_AT, sheet.n, w.gather, FEO_BUFFER, w.out, FEO_BUFFER, &w.r);
    else
        got = feo_accept(&w.a, &c, w.gather, FEO_BUFFER, w.out, FEO_BUFFER, &w.r);
    if (n > FEO_BUFFER)
        told(line, got, 5, 0, 0, 0, 0);
    else {
        subs.n = 0;
        user_form(&subs, &user);
        around(&again, type, &front_again, &subs);
        check(line, again.n == n, "its length");
        local(line, got, type == 1 ? FEO_AE_2 : FEO_AE_7, type == 1 ? 5 : 6, again.at, again.n);
        check(line, says(subs.at, subs.n) == KEPT, "what is sent keeps the rules");
        is_told(line, type, &again, again.n - subs.n, sheet.n, 68 * said.roles, 0);
        check(line, said.maximum == 16384 && said.class_len == user.class_uid_len, "maximum and class UID");
        check(line, said.invoked == user.invoked && said.performed == user.performed, "operation counts");
        check(line, said.version_name_len == user.version_name_len && 68 * said.roles == user.roles_len, "version name and roles");
    }
    good_contents();
    user.class_uid = own_class;
    user.class_uid_len = own_len;
}

/* A 50H of these sub-items in an RQ or AC: read, received and written again as the rules say. Which rule it breaks, or that they are kept. */
static enum rule is_judged(int line, unsigned type, const struct bytes *subs)
{
    static struct bytes pdu;
    enum rule rule = says(subs->at, subs->n);
    size_t at, roles = 68 * said.roles;
    around(&pdu, type, &front, subs);
    at = pdu.n - subs->n;
    if (rule != KEPT) {
        not_read(line, type, &pdu);
        return rule;
    }
    /* either sheet too short, or both: nothing is written to either */
    is_told(line, type, &pdu, at, sheet.n - 1, roles, 2);
    is_told(line, type, &pdu, at, 0, roles, 2);
    is_told(line, type, &pdu, at, sheet.n - 1, roles + 68, 2);
    if (roles != 0) {
        is_told(line, type, &pdu, at, sheet.n, roles - 1, 2);
        is_told(line, type, &pdu, at, sheet.n, roles - 68, 2);
        is_told(line, type, &pdu, at, sheet.n, 0, 2);
        is_told(line, type, &pdu, at, sheet.n + FEO_RECORD_LEN, roles - 1, 2);
        is_told(line, type, &pdu, at, sheet.n - 1, roles - 1, 2);
    }
    is_told(line, 3 - type, &pdu, at, sheet.n, roles, 7);
    is_told(line, 3 - type, &pdu, at, 0, 0, 7);
    is_told(line, type, &pdu, at, sheet.n + 1, roles + 67, 0);
    is_told(line, type, &pdu, at, sheet.n, roles, 0);
    given(of_type[type].reads_in);
    heard(line, pdu.at, pdu.n, type == 1 ? FEO_AE_6 : FEO_AE_3, type == 1 ? 3 : 6, pdu.n, 0, 0, pdu.n);
    check(line, w.a.peer_max == said.maximum, "the peer's maximum");
    written_again(line, type, &pdu);
    return KEPT;
}

/* ---- verdicts written by hand */

#define MAXIMUM "\x51\x00\x00\x04\x00\x00\x40\x00"
#define CLASS_1 "\x52\x00\x00\x01" "1"
#define COUNTS_5_0 "\x53\x00\x00\x04\x00\x05\x00\x00"
#define ROLE_1_2 "\x54\x00\x00\x07\x00\x03" "1.2\x00\x01"
#define VERSION_V "\x55\x00\x00\x01V"
#define SUBS(subs, kept) { subs, sizeof(subs) - 1, kept, __LINE__ }

static const struct {
    const char *bytes;
    size_t n;
    int kept, line;
} verdicts[] = {
    SUBS(MAXIMUM, 1),
    SUBS(MAXIMUM CLASS_1, 1),
    SUBS(MAXIMUM COUNTS_5_0, 1),
    SUBS(MAXIMUM ROLE_1_2, 1),
    SUBS(MAXIMUM VERSION_V, 1),
    SUBS(MAXIMUM CLASS_1 COUNTS_5_0 ROLE_1_2 VERSION_V, 1),
    /* what real senders say: DCMTK's echoscu, odil's findscu */
    SUBS(MAXIMUM "\x52\x00\x00\x1B" "1.2.276.0.7230010.3.0.3.6.7" "\x55\x00\x00\x0FOFFIS_DCMTK_367", 1),
    SUBS(MAXIMUM "\x52\x00\x00\x1D" "1.2.826.0.1.3680043.9.55600.0" "\x54\x00\x00\x1F\x00\x1B" "1.2.840.10008.5.1.4.1.2.2.1\x01\x00" "\x55\x00\x00\x06Odil 0", 1),
    /* any order, reserved bytes, other types between */
    SUBS(VERSION_V ROLE_1_2 COUNTS_5_0 CLASS_1 MAXIMUM, 1),
    SUBS(ROLE_1_2 MAXIMUM "\x54\x00\x00\x05\x00\x01" "0\x01\x01" CLASS_1 "\x54\x00\x00\x05\x00\x01" "9\x00\x00", 1),
    SUBS("\x52\xFF\x00\x01" "1" "\x53\xFF\x00\x04\xFF\xFF\x00\x01" "\x54\xFF\x00\x05\x00\x01" "7\x00\x00" "\x55\xFF\x00\x01 " "\x51\xFF\x00\x04\xFF\xFF\xFF\xFF", 1),
    SUBS("\x56\x00\x00\x00" MAXIMUM "\x57\x00\x00\x03zzz" "\x58\x00\x00\x01\x00" CLASS_1 "\x59\x00\x00\x00", 1),
    SUBS("\x50\x00\x00\x02zz" MAXIMUM "\x5A\x00\x00\x00" "\x10\x00\x00\x00" "\x20\x00\x00\x00" "\x21\x00\x00\x00", 1),
    SUBS(MAXIMUM "\x56\x00\x00\x05\x00\x01" "0\x02\x02" "\x56\x00\x00\x05\x00\x01" "0\x02\x02" "\x00\x00\x00\x00" "\xFF\x00\x00\x00", 1),
    /* none of 51H, two of it, of another length */
    SUBS("", 0),
    SUBS(CLASS_1 COUNTS_5_0 ROLE_1_2 VERSION_V, 0),
    SUBS(MAXIMUM CLASS_1 MAXIMUM, 0),
    SUBS(CLASS_1 "\x51\x00\x00\x03\x00\x00\x40", 0),
    /* 52H: a second, equal or not, apart or not; one that is no name */
    SUBS(MAXIMUM CLASS_1 CLASS_1, 0),
    SUBS(CLASS_1 MAXIMUM ROLE_1_2 "\x52\x00\x00\x01" "2", 0),
    SUBS(MAXIMUM "\x52\x00\x00\x00", 0),
    SUBS(MAXIMUM "\x52\x00\x00\x00" CLASS_1, 0),
    SUBS(MAXIMUM "\x52\x00\x00\x04" "1.02", 0),
    SUBS(MAXIMUM "\x52\x00\x00\x02" "1.", 0),
    SUBS(MAXIMUM "\x52\x00\x00\x03" "1.a", 0),
    SUBS(MAXIMUM "\x52\x00\x00\x02" "1\x00", 0),
    SUBS(MAXIMUM "\x52\x00\x00\x40" SIXTY_FOUR, 1),
    SUBS(MAXIMUM "\x52\x00\x00\x41" SIXTY_FOUR "0", 0),
    /* 53H: of any counts, once, of four bytes */
    SUBS(MAXIMUM "\x53\x00\x00\x04\x00\x00\x00\x00", 1),
    SUBS(MAXIMUM "\x53\x00\x00\x04\x00\x01\x00\x01", 1),
    SUBS(MAXIMUM "\x53\x00\x00\x04\x12\x34\x56\x78", 1),
    SUBS(MAXIMUM "\x53\x00\x00\x04\xFF\xFF\xFF\xFE", 1),
    SUBS(MAXIMUM "\x53\x00\x00\x00", 0),
    SUBS(MAXIMUM "\x53\x00\x00\x02\x00\x05", 0),
    SUBS(MAXIMUM "\x53\x00\x00\x03\x00\x05\x00", 0),
    SUBS(MAXIMUM "\x53\x00\x00\x05\x00\x05\x00\x00\x00", 0),
    SUBS(MAXIMUM "\x53\x00\x00\x08\x00\x05\x00\x00\x00\x05\x00\x00", 0),
    SUBS(MAXIMUM COUNTS_5_0 COUNTS_5_0, 0),
    SUBS(COUNTS_5_0 MAXIMUM VERSION_V "\x53\x00\x00\x04\x00\x01\x00\x01", 0),
    /* 54H: roles of 0 and 1; a UID that fills it but for them */
    SUBS(MAXIMUM "\x54\x00\x00\x05\x00\x01" "1\x00\x00", 1),
    SUBS(MAXIMUM "\x54\x00\x00\x05\x00\x01" "1\x01\x00", 1),
    SUBS(MAXIMUM "\x54\x00\x00\x05\x00\x01" "1\x02\x00", 0),
    SUBS(MAXIMUM "\x54\x00\x00\x05\x00\x01" "1\x00\x02", 0),
    SUBS(MAXIMUM "\x54\x00\x00\x05\x00\x01" "1\xFF\x01", 0),
    SUBS(MAXIMUM "\x54\x00\x00\x05\x00\x01" "1\x01\x80", 0),
    SUBS(MAXIMUM "\x54\x00\x00\x05\x00\x02" "1\x01\x01", 0),
    SUBS(MAXIMUM "\x54\x00\x00\x05\x00\x03" "1\x01\x01", 0),
    SUBS(MAXIMUM "\x54\x00\x00\x05\x00\x05" "1\x01\x01", 0),
    SUBS(MAXIMUM "\x54\x00\x00\x05\xFF\xFF" "1\x01\x01", 0),
    SUBS(MAXIMUM "\x54\x00\x00\x05\x00\x00" "1\x01\x01", 0),
    SUBS(MAXIMUM "\x54\x00\x00\x04\x00\x00\x01\x01", 0),
    SUBS(MAXIMUM "\x54\x00\x00\x04\x00\x01" "1\x01", 0),
    SUBS(MAXIMUM "\x54\x00\x00\x06\x00\x01" "1\x01\x01\x00", 0),
    SUBS(MAXIMUM "\x54\x00\x00\x06\x00\x02" "11\x01\x01", 1),
    SUBS(MAXIMUM "\x54\x00\x00\x06\x01\x02" "11\x01\x01", 0),
    SUBS(MAXIMUM "\x54\x00\x00\x03\x00\x01" "1", 0),
    SUBS(MAXIMUM "\x54\x00\x00\x02\x00\x00", 0),
    SUBS(MAXIMUM "\x54\x00\x00\x01\x00", 0),
    SUBS(MAXIMUM "\x54\x00\x00\x00", 0),
    SUBS(MAXIMUM "\x54\x00\x00\x08\x00\x04" "1.02\x01\x01", 0),
    SUBS(MAXIMUM "\x54\x00\x00\x06\x00\x02" "1.\x01\x01", 0),
    SUBS(MAXIMUM "\x54\x00\x00\x44\x00\x40" SIXTY_FOUR "\x01\x00", 1),
    SUBS(MAXIMUM "\x54\x00\x00\x45\x00\x41" SIXTY_FOUR "0\x01\x00", 0),
    SUBS("\x54\x00\x00\x44\x00\x40" SIXTY_FOUR "\x01\x00" MAXIMUM "\x54\x00\x00\x44\x00\x40" OTHER_SIXTY_FOUR "\x01\x00", 1),
    SUBS("\x54\x00\x00\x44\x00\x40" SIXTY_FOUR "\x01\x00" MAXIMUM "\x54\x00\x00\x44\x00\x40" SIXTY_FOUR "\x01\x00", 0),
    /* a UID that runs past it, into what would make it good */
    SUBS(MAXIMUM "\x54\x00\x00\x03\x00\x01" "1\x00\x00", 0),
    SUBS(MAXIMUM "\x54\x00\x00\x02\x00\x05" "1.2.3\x00\x00", 0),
    /* the same UID twice: next to each other, apart, of other roles; one that begins the other */
    SUBS(MAXIMUM ROLE_1_2 ROLE_1_2, 0),
    SUBS(ROLE_1_2 MAXIMUM CLASS_1 ROLE_1_2, 0),
    SUBS(MAXIMUM ROLE_1_2 "\x54\x00\x00\x07\x00\x03" "1.2\x01\x00", 0),
    SUBS(MAXIMUM ROLE_1_2 "\x54\x00\x00\x05\x00\x01" "5\x00\x00" VERSION_V "\x54\x00\x00\x05\x00\x01" "6\x00\x00" ROLE_1_2, 0),
    SUBS(MAXIMUM ROLE_1_2 "\x54\x00\x00\x08\x00\x04" "1.20\x00\x01", 1),
    SUBS(MAXIMUM "\x54\x00\x00\x08\x00\x04" "1.20\x00\x01" ROLE_1_2, 1),
    SUBS(MAXIMUM ROLE_1_2 "\x54\x00\x00\x07\x00\x03" "1.3\x00\x01", 1),
    SUBS(MAXIMUM ROLE_1_2 "\x54\x00\x00\x07\x00\x03" "2.2\x00\x01", 1),
    SUBS(MAXIMUM "\x52\x00\x00\x03" "1.2" ROLE_1_2, 1),
    /* 55H: 1 to 16 title characters, spaces alone too */
    SUBS(MAXIMUM "\x55\x00\x00\x10" "0123456789ABCDEF", 1),
    SUBS(MAXIMUM "\x55\x00\x00\x10" "                ", 1),
    SUBS(MAXIMUM "\x55\x00\x00\x01 ", 1),
    SUBS(MAXIMUM "\x55\x00\x00\x00", 0),
    SUBS(MAXIMUM "\x55\x00\x00\x11" "0123456789ABCDEFG", 0),
    SUBS(MAXIMUM "\x55\x00\x00\x11" "0123456789ABCDEF ", 0),
    SUBS(MAXIMUM "\x55\x00\x00\x03" "A\\B", 0),
    SUBS(MAXIMUM "\x55\x00\x00\x02" "A\x00", 0),
    SUBS(MAXIMUM "\x55\x00\x00\x02" "A\x7F", 0),
    SUBS(MAXIMUM "\x55\x00\x00\x02" "\xC3\x84", 0),
    SUBS(MAXIMUM VERSION_V VERSION_V, 0),
    SUBS(VERSION_V MAXIMUM "\x55\x00\x00\x01W", 0),
    SUBS(MAXIMUM VERSION_V "\x55\x00\x00\x00", 0),
    /* not filled: remainders, and items that pass the end */
    SUBS(MAXIMUM "\x52", 0),
    SUBS(MAXIMUM CLASS_1 "\x00\x00", 0),
    SUBS(MAXIMUM CLASS_1 "\x55\x00\x00", 0),
    SUBS(MAXIMUM "\x52\x00\x00\x02" "1", 0),
    SUBS(MAXIMUM "\x53\x00\x00\x04\x00\x01\x00", 0),
    SUBS(MAXIMUM "\x54\x00\x00\x06\x00\x01" "1\x00\x00", 0),
    SUBS(MAXIMUM "\x55\x00\x00\x02V", 0),
    SUBS(MAXIMUM "\x56\x00\x00\x01", 0)
};

static void by_hand(void)
{
    static struct bytes subs;
    size_t i;
    unsigned type;
    for (type = 1; type <= 2; type++) {
        in_front(type, 0);
        for (i = 0; i < sizeof verdicts / sizeof *verdicts; i++) {
            subs.n = 0;
            add(&subs, verdicts[i].bytes, verdicts[i].n);
            check(verdicts[i].line, (is_judged(verdicts[i].line, type, &subs) == KEPT) == verdicts[i].kept, "the model's verdict is that by hand");
        }
    }
}

/* Every field by its value, and where it stands. */
static void fields(void)
{
    static const char subs[] = VERSION_V "\x53\x00\x00\x04\x01\x02\x03\x04" MAXIMUM ROLE_1_2 "\x52\x00\x00\x03" "9.8" "\x54\x00\x00\x06\x00\x02" "77\x01\x00";
    static struct bytes pdu, b;
    uint8_t room[FEO_RECORD_LEN], roles[3 * FEO_ROLE_LEN];
    struct feo_associate f;
    unsigned type;
    for (type = 1; type <= 2; type++) {
        in_front(type, 0);
        b.n = 0;
        add(&b, subs, sizeof subs - 1);
        around(&pdu, type, &front, &b);
        memset(roles, 0xEE, sizeof roles);
        CHECK((type == 1 ? feo_read_request : feo_read_accept)(pdu.at, pdu.n, room, sizeof room, roles, sizeof roles, &f) == 0);
        CHECK(f.version_name_len == 1 && f.version_name_at == pdu.n - sizeof subs + 1 + 4 && pdu.at[f.version_name_at] == 'V');
        CHECK(f.class_len == 3 && memcmp(pdu.at + f.class_at, "9.8", 3) == 0 && f.class_at == pdu.n - 10 - 3);
        CHECK(f.invoked == 0x0102 && f.performed == 0x0304 && f.roles == 2 && f.maximum == 16384 && f.records == 1);
        CHECK(roles[FEO_ROLE_UID_LEN_AT] == 3 && roles[FEO_ROLE_SCU_AT] == 0 && roles[FEO_ROLE_SCP_AT] == 1 && roles[3] == 0);
        CHECK(memcmp(roles + FEO_ROLE_UID_AT, "1.2\0", 4) == 0 && roles[FEO_ROLE_LEN - 1] == 0);
        CHECK(memcmp(roles + FEO_ROLE_LEN, "\2\1\0\0" "77\0", 7) == 0 && roles[2 * FEO_ROLE_LEN - 1] == 0);
        CHECK(roles[2 * FEO_ROLE_LEN] == 0xEE && roles[3 * FEO_ROLE_LEN - 1] == 0xEE);
        /* nothing of all this: 0 and 0, but 1 and 1 operations */
        b.n = 0;
        add_maximum(&b, 7);
        around(&pdu, type, &front, &b);
        memset(&f, 0xEE, sizeof f);
        CHECK((type == 1 ? feo_read_request : feo_read_accept)(pdu.at, pdu.n, room, sizeof room, NULL, 0, &f) == 0);
        CHECK(f.class_at == 0 && f.class_len == 0 && f.version_name_at == 0 && f.version_name_len == 0);
        CHECK(f.invoked == 1 && f.performed == 1 && f.roles == 0 && f.maximum == 7);
    }
}

/* Every byte at the places where it is tested, and every length. */
static void every_byte(void)
{
    static struct bytes subs, body;
    unsigned type, v;
    size_t n, i;
    for (type = 1; type <= 2; type++) {
        in_front(type, 0);
        for (v = 0; v < 256; v++) {
            /* a version name's first, middle and last character */
            for (i = 0; i < 3; i++) {
                subs.n = body.n = 0;
                add(&body, "0123456789ABCDEF", 16);
                body.at[i * 15 / 2] = (uint8_t)v;
                add_maximum(&subs, 0);
                add_item(&subs, 0x55, body.at, 16);
                CHECK((is_judged(__LINE__, type, &subs) == KEPT) == (v >= 0x20 && v <= 0x7E && v != 0x5C));
            }
            /* the role bytes, and the two of the UID's length */
            for (i = 0; i < 4; i++) {
                subs.n = 0;
                add_maximum(&subs, 0);
                add_role(&subs, "1.2", 1, 0);
                subs.at[i < 2 ? subs.n - 1 - i : 8 + 4 + i - 2] = (uint8_t)v;
                CHECK((is_judged(__LINE__, type, &subs) == KEPT) == (i < 2 ? v <= 1 : v == (i == 2 ? 0 : 3)));
            }
            /* the type: 51H to 55H alone are tested, each by its own rule */
            subs.n = 0;
            add_maximum(&subs, 0);
            add_item(&subs, v, "zz\\", 3);
            CHECK((is_judged(__LINE__, type, &subs) == KEPT) == (v < 0x51 || v > 0x55));
            /* reserved bytes */
            subs.n = 0;
            add_maximum(&subs, 0);
            add_name(&subs, 0x52, "1");
            subs.at[1] = subs.at[9] = (uint8_t)v;
            CHECK(is_judged(__LINE__, type, &subs) == KEPT);
        }
        for (n = 0; n < 70; n++) {
            subs.n = 0;
            add_maximum(&subs, 0);
            add_item(&subs, 0x52, SIXTY_FOUR "12345", n);
            CHECK((is_judged(__LINE__, type, &subs) == KEPT) == (n >= 1 && n <= 64 && n != 2 && n != 63));
            subs.n = 0;
            add_maximum(&subs, 0);
            add_item(&subs, 0x53, SIXTY_FOUR "12345", n);
            CHECK((is_judged(__LINE__, type, &subs) == KEPT) == (n == 4));
            subs.n = 0;
            add_maximum(&subs, 0);
            add_item(&subs, 0x55, SIXTY_FOUR "12345", n);
            CHECK((is_judged(__LINE__, type, &subs) == KEPT) == (n >= 1 && n <= 16));
        }
    }
}

/* Outside a 50H these types are skipped, malformed or good, beside a 50H with a class UID or without: at the top before and behind each item, and inside a context. */
static void elsewhere(void)
{
    static const char *const outside[] = {
        "\x52\x00\x00\x00", "\x53\x00\x00\x05zzzzz", "\x54\x00\x00\x01z", "\x55\x00\x00\x00",
        "\x52\x00\x00\x01\x31", "\x53\x00\x00\x04\x00\x07\x00\x07", "\x54\x00\x00\x05\x00\x01" "1\x01\x01", "\x55\x00\x00\x01V"
    };
    static const size_t lengths[] = { 4, 9, 5, 4, 5, 8, 9, 5 };
    static struct bytes pdu, b, context, subs;
    uint8_t room[FEO_RECORD_LEN];
    struct feo_associate f;
    size_t i, place;
    unsigned type, bare;
    for (type = 1; type <= 2; type++)
        for (i = 0; i < sizeof lengths / sizeof *lengths; i++)
            for (place = 0; place < 12; place++) {
                bare = place >= 6;
                b.n = context.n = subs.n = 0;
                add_fixed(&b, 1);
                if (place % 6 == 0)
                    add(&b, outside[i], lengths[i]);
                add_name(&b, 0x10, APPLICATION);
                if (place % 6 == 1)
                    add(&b, outside[i], lengths[i]);
                add_four(&context, 0x01000000);
                if (place % 6 == 2)
                    add(&context, outside[i], lengths[i]);
                if (type == 1)
                    add_name(&context, 0x30, ECHO_CLASS);
                add_name(&context, 0x40, IMPLICIT);
                if (place % 6 == 3)
                    add(&context, outside[i], lengths[i]);
                add_item(&b, type == 1 ? 0x20 : 0x21, context.at, context.n);
                if (place % 6 == 4)
                    add(&b, outside[i], lengths[i]);
                if (bare) {
                    add_maximum(&subs, 5000);
                    add_item(&b, 0x50, subs.at, subs.n);
                } else
                    add_user(&b, 5000);
                if (place % 6 == 5)
                    add(&b, outside[i], lengths[i]);
                whole(&pdu, type, &b);
                memset(&f, 0xEE, sizeof f);
                CHECK((type == 1 ? feo_read_request : feo_read_accept)(pdu.at, pdu.n, room, sizeof room, NULL, 0, &f) == 0);
                CHECK(bare ? f.class_at == 0 && f.class_len == 0 : f.class_len == strlen(CLASS_UID) && memcmp(pdu.at + f.class_at, CLASS_UID, f.class_len) == 0);
                CHECK(f.version_name_at == 0 && f.version_name_len == 0 && f.invoked == 1 && f.performed == 1 && f.roles == 0 && f.maximum == 5000);
                given(of_type[type].reads_in);
                HEARD(pdu, type == 1 ? FEO_AE_6 : FEO_AE_3, type == 1 ? 3 : 6, 0, 0, pdu.n);
            }
}

/* A good 50H and a malformed one in every state; and however the PDU is cut. */
static void in_every_state(void)
{
    static const char good[] = MAXIMUM CLASS_1 COUNTS_5_0 ROLE_1_2 VERSION_V, bad[] = MAXIMUM CLASS_1 COUNTS_5_0 ROLE_1_2 ROLE_1_2 VERSION_V;
    static struct bytes pdus[2], subs;
    unsigned type, state, k;
    size_t i;
    for (type = 1; type <= 2; type++) {
        in_front(type, 0);
        for (k = 0; k < 2; k++) {
            subs.n = 0;
            add(&subs, k == 0 ? good : bad, (k == 0 ? sizeof good : sizeof bad) - 1);
            around(&pdus[k], type, &front, &subs);
            for (state = 2; state <= 13; state++) {
                given(state);
                w.a.requestor = 1;
                if (state == 4)
                    heard(__LINE__, pdus[k].at, pdus[k].n, 0, 4, pdus[k].n, 0, 0, 0);
                else if (state == of_type[type].reads_in && k == 0)
                    HEARD(pdus[k], type == 1 ? FEO_AE_6 : FEO_AE_3, type == 1 ? 3 : 6, 0, 0, pdus[k].n);
                else if (state == 2)
                    HEARD(pdus[k], FEO_AA_1, 13, ABORT_USER, 10, 0);
                else if (state == 13 && type == 2 && k == 0)
                    HEARD(pdus[k], FEO_AA_6, 13, 0, 0, 0);
                else
                    HEARD(pdus[k], state == 13 ? FEO_AA_7 : FEO_AA_8, 13, k == 0 ? ABORT_UNEXPECTED : ABORT_INVALID, 10, 0);
            }
            for (i = 1; i < pdus[k].n; i++) {
                given(of_type[type].reads_in);
                heard(__LINE__, pdus[k].at, i, 0, of_type[type].reads_in, i, 0, 0, 0);
                if (k == 0)
                    heard(__LINE__, pdus[k].at + i, pdus[k].n - i, type == 1 ? FEO_AE_6 : FEO_AE_3, type == 1 ? 3 : 6, pdus[k].n - i, 0, 0, pdus[k].n);
                else
                    heard(
                        __LINE__, pdus[k].at + i, pdus[k].n - i, type == 1 ? FEO_AA_1 : FEO_AA_8, 13, pdus[k].n - i,
                        type == 1 ? ABORT_USER : ABORT_INVALID, 10, 0);
            }
        }
    }
}

/* ---- many roles */

/* The shortest names, each different: 10 of one byte, 90 of two, 1,000 of three, the rest of four. */
static void short_name(char *to, size_t k)
{
    if (k < 1000)
        sprintf(to, "%u", (unsigned)k);
    else if (k < 1100)
        sprintf(to, "%u.%u", (unsigned)(k - 1000) / 10, (unsigned)(k - 1000) % 10);
    else
        sprintf(to, "%u", (unsigned)(k - 100));
}

/* So many 54Hs of different names; where `again` is below their number, the last has the name of that one. */
static void many_roles(struct bytes *subs, size_t n, size_t again)
{
    size_t i;
    char name[16];
    subs->n = 0;
    add_maximum(subs, 1);
    for (i = 0; i < n; i++) {
        short_name(name, i + 1 == n && again < n ? again : i);
        add_role(subs, name, (unsigned)(i & 1), (unsigned)(i >> 1 & 1));
    }
}

/* The most that an RQ has room for, 1,457, and an AC, 1,458. */
static void crowds(void)
{
    static const size_t counts[] = { 1, 2, 3, 300 };
    static struct bytes subs, pdu;
    char name[16];
    size_t i, k, n;
    unsigned type;
    for (i = 0; i < 2000; i++) {
        short_name(name, i);
        CHECK(is_name((const uint8_t *)name, strlen(name)) && strlen(name) == (i < 10 ? 1U : i < 100 ? 2U : i < 1100 ? 3U : 4U));
    }
    for (type = 1; type <= 2; type++) {
        in_front(type, 0);
        for (i = 0; i < sizeof counts / sizeof *counts; i++) {
            many_roles(&subs, counts[i], counts[i]);
            CHECK(is_judged(__LINE__, type, &subs) == KEPT && said.roles == counts[i]);
            for (k = 0; k + 1 < counts[i]; k++) {
                many_roles(&subs, counts[i], k);
                CHECK(is_judged(__LINE__, type, &subs) == SAME_ROLE);
            }
        }
        in_front(type, 1);
        n = type == 1 ? 1457 : 1458;
        user.class_uid = (const uint8_t *)"0";
        user.class_uid_len = 1;
        many_roles(&subs, n, n);
        around(&pdu, type, &front, &subs);
        CHECK(pdu.n <= FEO_BUFFER && pdu.n + 12 > FEO_BUFFER);
        CHECK(is_judged(__LINE__, type, &subs) == KEPT);
        CHECK(says(subs.at, subs.n) == KEPT && said.roles == n);
        is_told(__LINE__, type, &pdu, pdu.n - subs.n, FEO_RECORD_LEN, FEO_ROLES_ROOM, 0);
        is_told(__LINE__, type, &pdu, pdu.n - subs.n, FEO_RECORD_LEN, 68 * n - 1, 2);
        for (k = 0; k < n - 1; k += 91) {
            many_roles(&subs, n, k);
            CHECK(is_judged(__LINE__, type, &subs) == SAME_ROLE);
        }
        many_roles(&subs, n, n - 2);
        CHECK(is_judged(__LINE__, type, &subs) == SAME_ROLE);
        /* with one more it is too long for a PDU */
        many_roles(&subs, n + 1, n + 1);
        around(&pdu, type, &front, &subs);
        is_told(__LINE__, type, &pdu, 0, FEO_RECORD_LEN, 68 * (n + 1), 7);
        good_contents();
    }
    /* written again, an RQ of 1,457 has room for a class UID of 3 bytes, and gets 5 with one of 4; an AC has 4 bytes less, for its sub-item */
    for (type = 1; type <= 2; type++) {
        in_front(type, 1);
        n = type == 1 ? 1457 : 1458;
        many_roles(&subs, n, n);
        around(&pdu, type, &front, &subs);
        CHECK(pdu.n == (type == 1 ? 16377U : 16379U) + 6);
        for (i = 1; i <= 64; i++) {
            user.class_uid = (const uint8_t *)"1.23456789012345678901234567890123456789012345678901234567890123";
            user.class_uid_len = i == 2 ? 3 : i;
            CHECK(says(subs.at, subs.n) == KEPT);
            written_again(__LINE__, type, &pdu);
            CHECK(w.r.refusal == (type == 1 && i <= 3 ? 0 : 5));
        }
        good_contents();
    }
}

/* ---- generated sub-items */

static const char *const drawn_names[] = { "0", "1", "1.2", "1.2.3", "1.20", "12", ECHO_CLASS, SIXTY_FOUR, OTHER_SIXTY_FOUR, "2.999" };

/* A sub-item, more often good than not. */
static void draw_sub(struct bytes *subs, unsigned type)
{
    static const char *const bad_names[] = { "", "01", "1.", ".", "1..2", "1.a", "1.2 ", SIXTY_FOUR "1" };
    const char *name = draw(12) == 0 ? bad_names[draw(8)] : drawn_names[draw(10)];
    size_t from = subs->n, i, n;
    struct bytes body;
    unsigned v;
    body.n = 0;
    switch (type) {
    case 0x51:
        add_maximum(subs, draw(65536));
        break;
    case 0x52:
        add_name(subs, 0x52, name);
        break;
    case 0x53:
        n = draw(12) == 0 ? draw(9) : 4;
        for (i = 0; i < n; i++)
            add_byte(&body, draw(3));
        add_item(subs, 0x53, body.at, n);
        break;
    case 0x54:
        v = draw(4);
        add_role(subs, name, v & 1, v >> 1);
        v = draw(12 * 512);
        if (v < 512)
            subs->at[subs->n - 1 - v % 2] = (uint8_t)(v / 2);
        v = draw(24 * 16);
        if (v < 16)
            subs->at[from + 4 + v % 2] ^= (uint8_t)(1 << v / 2);
        break;
    case 0x55:
        n = draw(10) == 0 ? draw(20) : 1 + draw(16);
        for (i = 0; i < n; i++) {
            v = draw(80 * 256);
            add_byte(&body, v < 256 ? v : 0x20 + v % 0x3C);
        }
        add_item(subs, 0x55, body.at, n);
        break;
    default:
        add_item(subs, type, "\\zz", draw(4));
    }
    if (draw(60) == 0)
        subs->at[from + 3] ^= (uint8_t)(1 << draw(8));
    subs->at[from + 1] = (uint8_t)draw(256);
}

static void generated_subs(void)
{
    static const char mostly[] = "QRRRSSSUUUTTTTTTTTTTTT"; /* 51H to 55H */
    static struct bytes subs;
    long found[RULES] = { 0 };
    size_t round, i, n, place;
    unsigned type;
    for (round = 0; round < 8000; round++) {
        type = 1 + draw(2);
        in_front(type, 0);
        subs.n = 0;
        n = draw(9);
        place = draw(40) == 0 ? n + 1 : draw((unsigned)n + 1);
        for (i = 0; i <= n; i++)
            draw_sub(&subs, i == place ? 0x51 : draw(8) == 0 ? draw(256) : (unsigned)mostly[draw(sizeof mostly - 1)]);
        if (draw(80) == 0)
            subs.n -= draw((unsigned)subs.n);
        found[is_judged(__LINE__, type, &subs)]++;
    }
    CHECK(found[KEPT] > 1500);
    for (i = KEPT + 1; i < RULES; i++)
        CHECK(found[i] > 40);
}

/* ---- sending */

/* The contents with `user` are sent in an RQ and in an AC, or refused: 4 for a bad part, then 5, then 2. */
static void is_sent(int line, unsigned refusal)
{
    static struct bytes subs, pdu;
    unsigned type;
    size_t n;
    check(line, (refusal == 4) == !is_user(&user), "the model refuses it with 4, or not");
    for (type = 1; type <= 2; type++) {
        uint8_t (*const call)(size_t, size_t) = type == 1 ? confirm : accept_it;
        in_front(type, 0);
        n = refusal == 4 ? 0 : 6 + 68 + front.n + 4 + user_length(&user);
        check(line, (refusal == 5) == (n > FEO_BUFFER), "the model refuses it with 5, or not");
        given(of_type[type].sends_in);
        if (refusal != 0) {
            before();
            told(line, call(0, 0), refusal, 0, 0, 0, 0);
            before();
            told(line, call(FEO_BUFFER, FEO_BUFFER), refusal, 0, 0, 0, 0);
            continue;
        }
        subs.n = 0;
        user_form(&subs, &user);
        around(&pdu, type, &front, &subs);
        if (type == 2)
            memcpy(pdu.at + FEO_ECHOED_AT, echoed.at, FEO_ECHOED_LEN);
        check(line, pdu.n == n, "the length");
        before();
        told(line, call(0, n - 1), 2, 0, 0, 0, 0);
        before();
        told(line, call(0, 0), 2, 0, 0, 0, 0);
        before();
        local(line, call(0, n), type == 1 ? FEO_AE_2 : FEO_AE_7, type == 1 ? 5 : 6, pdu.at, n);
        check(line, says(subs.at, subs.n) == KEPT, "what is sent keeps the rules");
        is_told(line, type, &pdu, n - subs.n, FEO_RECORD_LEN, user.roles_len, 0);
        check(line, said.invoked == user.invoked && said.performed == user.performed && said.roles == user.roles_len / 68, "it reads as it was given");
    }
}

#define SENT() is_sent(__LINE__, 0)
#define NOT_SENT(refusal) is_sent(__LINE__, (refusal))

static void class_uid(const void *p, size_t n)
{
    user.class_uid = (const uint8_t *)p;
    user.class_uid_len = n;
}

static void version_name(const void *p, size_t n)
{
    user.version_name = (const uint8_t *)p;
    user.version_name_len = n;
}

static void roles(const void *p, size_t n)
{
    user.roles = (const uint8_t *)p;
    user.roles_len = n;
}

/* Case 3's lengths, with what E4 adds. */
static void lengths(void)
{
    uint8_t two_roles[2 * FEO_ROLE_LEN];
    size_t i;
    unsigned type;
    CHECK(feo_put_role(two_roles, "1.2", 3, 1, 0) == 0 && feo_put_role(two_roles + FEO_ROLE_LEN, SIXTY_FOUR, 64, 0, 1) == 0);
    for (type = 1; type <= 2; type++)
        for (i = 1; i <= 64; i++) {
            const size_t plain = type == 1 ? 161 : 140, n = i == 2 ? 3 : i == 63 ? 62 : i;
            uint8_t (*const call)(size_t, size_t) = type == 1 ? confirm : accept_it;
            class_uid(SIXTY_FOUR, n);
            given(of_type[type].sends_in);
            CHECK(call(0, FEO_BUFFER) == 0 && w.r.sent == plain + 4 + n && w.out[4] == 0 && w.out[5] == plain - 6 + 4 + n);
            version_name("V 1", 3);
            given(of_type[type].sends_in);
            CHECK(call(0, FEO_BUFFER) == 0 && w.r.sent == plain + 4 + n + 7);
            user.performed = 0;
            given(of_type[type].sends_in);
            CHECK(call(0, FEO_BUFFER) == 0 && w.r.sent == plain + 4 + n + 7 + 8);
            roles(two_roles, sizeof two_roles);
            given(of_type[type].sends_in);
            CHECK(call(0, FEO_BUFFER) == 0 && w.r.sent == plain + 4 + n + 7 + 8 + 11 + 72);
            good_contents();
        }
}

/* The parts but for the roles, good and bad. */
static void parts(void)
{
    static const struct {
        const char *name;
        int good;
    } names[] = {
        { "0", 1 }, { "1.0", 1 }, { CLASS_UID, 1 }, { SIXTY_FOUR, 1 }, { "", 0 }, { "00", 0 }, { "1.02", 0 }, { "1.", 0 }, { ".1", 0 }, { "1..2", 0 },
        { "1.a", 0 }, { "1.2 ", 0 }, { " 1.2", 0 }, { "-1", 0 }, { SIXTY_FOUR "1", 0 }
    };
    static const uint16_t counts[] = { 0, 1, 2, 255, 256, 257, 0x0100, 0x7FFF, 0x8000, 65535 };
    static const size_t too_long[] = { 17, 18, 32, 255, 256, 257, 272, 4096, 65536, 65536 + 5 };
    static uint8_t spaces[65536 + 16];
    char text[18] = "0123456789ABCDEFG";
    uint8_t *many;
    size_t i, k;
    unsigned v;
    good_contents();
    SENT();
    for (i = 0; i < sizeof names / sizeof *names; i++) {
        good_contents();
        class_uid(names[i].name, strlen(names[i].name));
        is_sent(__LINE__, names[i].good ? 0 : 4);
    }
    good_contents();
    class_uid(NULL, 0);
    NOT_SENT(4);
    class_uid("1.2\0", 4);
    NOT_SENT(4);
    many = (uint8_t *)malloc(65536 + 1);
    CHECK(many != NULL);
    memset(many, '1', 65536 + 1);
    for (i = 256; i <= 65536; i *= 256)
        for (k = 0; k < 2; k++) {
            class_uid(many, i + k);
            NOT_SENT(4);
        }
    free(many);
    /* a version name of each length; of each byte at its first, middle and last place */
    good_contents();
    for (i = 0; i <= 17; i++) {
        version_name(i == 0 ? NULL : text, i);
        is_sent(__LINE__, i <= 16 ? 0 : 4);
    }
    version_name(text, 0);
    SENT();
    memset(spaces, ' ', sizeof spaces);
    for (i = 1; i <= 16; i++) {
        version_name(spaces, i);
        SENT();
    }
    for (i = 0; i < sizeof too_long / sizeof *too_long; i++) {
        version_name(spaces, too_long[i]);
        NOT_SENT(4);
    }
    for (v = 0; v < 256; v++)
        for (i = 0; i < 16; i += i == 0 ? 7 : 8) {
            memcpy(text, "0123456789ABCDEF", 16);
            text[i] = (char)v;
            version_name(text, 16);
            is_sent(__LINE__, v >= 0x20 && v <= 0x7E && v != 0x5C ? 0 : 4);
        }
    /* a 53H is sent exactly where the counts are not 1 and 1 */
    good_contents();
    for (i = 0; i < sizeof counts / sizeof *counts; i++)
        for (k = 0; k < sizeof counts / sizeof *counts; k++) {
            user.invoked = counts[i];
            user.performed = counts[k];
            SENT();
            CHECK(w.r.sent == (counts[i] == 1 && counts[k] == 1 ? 151U : 159U));
        }
    good_contents();
}

/* A good role sheet, of these names, each with other roles. */
static uint8_t role_sheet[4 * FEO_ROLE_LEN];

static void good_roles(void)
{
    static const char *const of[4] = { "1.2", "1.2.3", SIXTY_FOUR, "0" };
    size_t i;
    for (i = 0; i < 4; i++)
        role_record(role_sheet + 68 * i, (const uint8_t *)of[i], strlen(of[i]), (unsigned)(i & 1), (unsigned)(i >> 1));
    roles(role_sheet, sizeof role_sheet);
}

static void role_sheets(void)
{
    static const char *const bad_names[] = { "", "00", "1.02", "1.", ".1", "1..2", "1.a", "1.2 ", "1.2\t" };
    size_t i, k, place;
    unsigned v;
    good_contents();
    good_roles();
    SENT();
    /* each length: no part of a record */
    for (i = 0; i <= sizeof role_sheet; i++) {
        roles(i == 0 ? NULL : role_sheet, i);
        is_sent(__LINE__, i % 68 == 0 ? 0 : 4);
    }
    for (place = 0; place < 4; place++) {
        uint8_t *record = role_sheet + 68 * place;
        /* each value of the two roles, of the fourth byte and of the length */
        for (v = 0; v < 256; v++) {
            for (i = 1; i <= 3; i++) {
                good_roles();
                record[i] = (uint8_t)v;
                is_sent(__LINE__, i == 3 ? (v == 0 ? 0 : 4) : v <= 1 ? 0 : 4);
            }
            good_roles();
            k = record[0];
            record[0] = (uint8_t)v;
            is_sent(__LINE__, v == k ? 0 : 4);
        }
        /* each unused byte, and each of the name */
        for (i = 4; i < 68; i++) {
            good_roles();
            if (i >= 4U + record[0]) {
                record[i] = (uint8_t)(i % 2 == 0 ? 1 : '0');
                NOT_SENT(4);
            } else {
                record[i] = 'a';
                NOT_SENT(4);
                record[i] = 0;
                NOT_SENT(4);
            }
        }
        for (i = 0; i < sizeof bad_names / sizeof *bad_names; i++) {
            good_roles();
            role_record(record, (const uint8_t *)bad_names[i], strlen(bad_names[i]), 1, 1);
            NOT_SENT(4);
        }
        /* the name of another record, with its roles and with others */
        for (k = 0; k < 4; k++) {
            if (k == place)
                continue;
            good_roles();
            memcpy(record, role_sheet + 68 * k, 68);
            NOT_SENT(4);
            record[1] ^= 1;
            NOT_SENT(4);
            record[2] ^= 1;
            NOT_SENT(4);
        }
    }
    good_contents();
}

/* NULL for a user or for all that is accepted, and users that were never filled, in every state: 1 where the cell is blank, else 4. */
static void nothing_given(void)
{
    static const struct feo_user empty = FEO_USER;
    struct feo_user zero;
    struct feo_accepting none, some;
    const struct feo_user *users[3];
    unsigned state, k;
    memset(&zero, 0, sizeof zero);
    memset(&none, 0, sizeof none);
    CHECK(empty.class_uid == NULL && empty.class_uid_len == 0 && empty.version_name == NULL && empty.version_name_len == 0);
    CHECK(empty.invoked == 1 && empty.performed == 1 && empty.roles == NULL && empty.roles_len == 0);
    users[0] = NULL;
    users[1] = &empty;
    users[2] = &zero;
    good_contents();
    for (state = 1; state <= 13; state++) {
        for (k = 0; k < 3; k++) {
            given(state);
            REFUSED(
                feo_confirm(
                    &w.a, called.at, called.n, calling.at, calling.n, application.at, application.n, users[k], proposal.at, proposal.n,
                    w.gather, FEO_BUFFER, w.out, FEO_BUFFER, &w.r),
                state == 4 ? 4 : 1);
            REFUSED(feo_confirm(&w.a, NULL, 0, NULL, 0, NULL, 0, users[k], NULL, 0, NULL, 0, NULL, 0, &w.r), state == 4 ? 4 : 1);
            some.echoed = echoed.at;
            some.echoed_len = echoed.n;
            some.application = application.at;
            some.application_len = application.n;
            some.user = users[k];
            some.sheet = answers.at;
            some.sheet_len = answers.n;
            REFUSED(feo_accept(&w.a, &some, w.gather, FEO_BUFFER, w.out, FEO_BUFFER, &w.r), state == 3 ? 4 : 1);
            REFUSED(feo_accept(&w.a, &some, NULL, 0, NULL, 0, &w.r), state == 3 ? 4 : 1);
        }
        REFUSED(feo_accept(&w.a, NULL, w.gather, FEO_BUFFER, w.out, FEO_BUFFER, &w.r), state == 3 ? 4 : 1);
        REFUSED(feo_accept(&w.a, NULL, NULL, 0, NULL, 0, &w.r), state == 3 ? 4 : 1);
        REFUSED(feo_accept(&w.a, &none, w.gather, FEO_BUFFER, w.out, FEO_BUFFER, &w.r), state == 3 ? 4 : 1);
        none.user = &user;
        REFUSED(feo_accept(&w.a, &none, w.gather, FEO_BUFFER, w.out, FEO_BUFFER, &w.r), state == 3 ? 4 : 1);
        none.user = NULL;
        /* a part that is bad, where the cell is blank: it is not looked at */
        if (state != 3 && state != 4) {
            class_uid("1.02", 4);
            REFUSED(confirm(0, 0), 1);
            REFUSED(accept_it(0, 0), 1);
            good_contents();
        }
        /* a broken record, and a gather buffer that is too short, come before all that */
        w.a.artim = !w.a.artim;
        REFUSED(feo_confirm(&w.a, NULL, 0, NULL, 0, NULL, 0, NULL, NULL, 0, NULL, 0, NULL, 0, &w.r), 6);
        REFUSED(feo_accept(&w.a, NULL, NULL, 0, NULL, 0, &w.r), 6);
        w.a.artim = !w.a.artim;
        if (state != 1 && state != 4) {
            w.a.gathered = 3;
            REFUSED(feo_confirm(&w.a, NULL, 0, NULL, 0, NULL, 0, NULL, NULL, 0, w.gather, 2, NULL, 0, &w.r), 3);
            REFUSED(feo_accept(&w.a, NULL, w.gather, 2, NULL, 0, &w.r), 3);
        }
    }
    /* a zeroed user with a class UID offers 0 and 0 operations, FEO_USER 1 and 1, and so sends no 53H */
    user = zero;
    class_uid(CLASS_UID, strlen(CLASS_UID));
    SENT();
    CHECK(w.r.sent == 159);
    user = empty;
    class_uid(CLASS_UID, strlen(CLASS_UID));
    SENT();
    CHECK(w.r.sent == 151);
    good_contents();
}

/* The longest PDU, and one byte more: 5. A bad part comes before it, and it comes before 2. */
static void boundaries(void)
{
    enum { MOST = 2000 };
    static uint8_t many[MOST * FEO_ROLE_LEN];
    static const char name[] = SIXTY_FOUR;
    char text[16];
    size_t i, n, left;
    unsigned type;
    good_contents();
    for (i = 0; i < MOST; i++) {
        short_name(text, i);
        CHECK(feo_put_role(many + i * FEO_ROLE_LEN, text, strlen(text), 1, 1) == 0);
    }
    for (type = 1; type <= 2; type++) {
        uint8_t (*const call)(size_t, size_t) = type == 1 ? confirm : accept_it;
        /* as many as fit, then the class UID fills the PDU to 16,384, but for lengths that would end in a dot */
        in_front(type, 0);
        class_uid("0", 1);
        for (n = 0; roles(many, n * FEO_ROLE_LEN), 68 + front.n + 4 + user_length(&user) <= FEO_LONGEST; n++)
            continue;
        roles(many, (n - 1) * FEO_ROLE_LEN);
        left = FEO_LONGEST - (68 + front.n + 4 + user_length(&user));
        CHECK(left < 12);
        for (i = 0; i < 40; i++) {
            unsigned refusal = i <= left ? 0 : 5;
            class_uid("123456789012345678901234567890123456789012345678901234567890", 1 + i);
            given(of_type[type].sends_in);
            if (refusal == 0)
                CHECK(call(0, FEO_BUFFER) == 0 && w.r.sent == FEO_BUFFER - left + i);
            else {
                REFUSED(call(0, FEO_BUFFER), 5);
                REFUSED(call(0, 0), 5);
            }
        }
        class_uid("1", 1);
        roles(many, n * FEO_ROLE_LEN);
        given(of_type[type].sends_in);
        REFUSED(call(0, FEO_BUFFER), 5);
        /* one less, and the others fill it: 55H to the byte, 53H by its eight */
        roles(many, (n - 2) * FEO_ROLE_LEN);
        left += 12;
        for (i = 1; i <= 16; i++) {
            version_name(name, i);
            given(of_type[type].sends_in);
            if (4 + i <= left)
                CHECK(call(0, FEO_BUFFER) == 0 && w.r.sent == FEO_BUFFER - left + 4 + i);
            else
                REFUSED(call(0, FEO_BUFFER), 5);
        }
        for (i = 1; i <= 16; i++) {
            version_name(name, i);
            user.invoked = 0;
            given(of_type[type].sends_in);
            if (8 + 4 + i <= left)
                CHECK(call(0, FEO_BUFFER) == 0 && w.r.sent == FEO_BUFFER - left + 12 + i);
            else
                REFUSED(call(0, FEO_BUFFER), 5);
        }
        good_contents();
    }
    /* 2,000 roles: 5, with one bad at the end 4 */
    roles(many, sizeof many);
    NOT_SENT(5);
    many[sizeof many - FEO_ROLE_LEN + FEO_ROLE_SCP_AT] = 2;
    NOT_SENT(4);
    many[sizeof many - FEO_ROLE_LEN + FEO_ROLE_SCP_AT] = 1;
    memcpy(many + sizeof many - FEO_ROLE_LEN, many + 1000 * FEO_ROLE_LEN, FEO_ROLE_LEN);
    NOT_SENT(4);
    good_contents();
    /* the part that is bad is found also where another one makes it too long */
    roles(many, sizeof many - FEO_ROLE_LEN);
    NOT_SENT(5);
    version_name("\\", 1);
    NOT_SENT(4);
    version_name(NULL, 0);
    class_uid("", 0);
    NOT_SENT(4);
    good_contents();
    roles(many, sizeof many - FEO_ROLE_LEN);
    proposal.n = answers.n = FEO_RECORD_LEN - 1;
    given(4);
    REFUSED(confirm(0, 0), 4);
    given(3);
    REFUSED(accept_it(0, 0), 4);
    good_contents();
}

/* Generated users: sent, or refused, as the rules say. */
static void generated_users(void)
{
    static uint8_t some[6 * FEO_ROLE_LEN + 1];
    static const char *const classes[] = { "0", "1.2", CLASS_UID, SIXTY_FOUR, "", "1.02", "1." };
    char text[20];
    size_t round, i, n;
    unsigned v;
    long good = 0, bad = 0;
    for (round = 0; round < 6000; round++) {
        const char *name = classes[draw(10) == 0 ? 4 + draw(3) : draw(4)];
        good_contents();
        class_uid(name, strlen(name));
        n = draw(3) == 0 ? 0 : draw(20) == 0 ? 17 : 1 + draw(16);
        for (i = 0; i < n; i++) {
            v = draw(100 * 256);
            text[i] = (char)(v < 256 ? v : 0x20 + v % 0x3C);
        }
        version_name(text, n);
        user.invoked = (uint16_t)(draw(2) == 0 ? 1 : draw(65536));
        user.performed = (uint16_t)(draw(2) == 0 ? 1 : draw(3));
        n = draw(7);
        for (i = 0; i < n; i++) {
            name = drawn_names[(round + i + (draw(12) == 0)) % 10];
            v = draw(4);
            role_record(some + 68 * i, (const uint8_t *)name, strlen(name), v & 1, v >> 1);
        }
        v = draw(6 * 8);
        if (n != 0 && v < 8)
            some[draw((unsigned)(68 * n))] ^= (uint8_t)(1 << v);
        roles(some, 68 * n + (draw(40) == 0));
        is_sent(__LINE__, is_user(&user) ? 0 : 4);
        *(is_user(&user) ? &good : &bad) += 1;
    }
    CHECK(good > 2000 && bad > 1000);
    good_contents();
}

/* A record by feo_put_role: each length, any role byte; nothing is written for a UID that is too long. */
static void put_roles(void)
{
    static const size_t too_long[] = { 65, 66, 127, 128, 255, 256, 257, 256 + 64, 65536, 65536 + 17, ((size_t)1 << 32) + 17, (size_t)-1 };
    uint8_t got[FEO_ROLE_LEN + 128], record[sizeof got], name[64];
    size_t i;
    unsigned v;
    for (i = 0; i < 64; i++)
        name[i] = (uint8_t)(255 - i);
    for (i = 0; i <= 64; i++) {
        memset(got, 0xEE, sizeof got);
        memset(record, 0xEE, sizeof record);
        role_record(record + 64, name + 64 - i, i, 7, 9);
        CHECK(feo_put_role(got + 64, i == 0 ? NULL : name + 64 - i, i, 7, 9) == 0 && memcmp(got, record, sizeof got) == 0);
        CHECK(got[64 + FEO_ROLE_UID_LEN_AT] == i && got[64 + FEO_ROLE_SCU_AT] == 7 && got[64 + FEO_ROLE_SCP_AT] == 9);
        CHECK(memcmp(got + 64 + FEO_ROLE_UID_AT, name + 64 - i, i) == 0);
    }
    for (v = 0; v < 256; v++) {
        memset(got, 0xEE, sizeof got);
        memset(record, 0xEE, sizeof record);
        role_record(record + 64, name, 5, v, 255 - v);
        CHECK(feo_put_role(got + 64, name, 5, (uint8_t)v, (uint8_t)(255 - v)) == 0 && memcmp(got, record, sizeof got) == 0);
    }
    memset(record, 0xEE, sizeof record);
    for (i = 0; i < sizeof too_long / sizeof *too_long; i++) {
        memset(got, 0xEE, sizeof got);
        CHECK(feo_put_role(got + 64, name, too_long[i], 1, 1) == 4 && memcmp(got, record, sizeof got) == 0);
    }
    /* what is left to the calls: a name that is none, a role above 1 */
    good_contents();
    CHECK(feo_put_role(got, "1.2", 3, 1, 0) == 0);
    roles(got, FEO_ROLE_LEN);
    SENT();
    CHECK(feo_put_role(got, "1.", 2, 1, 0) == 0);
    NOT_SENT(4);
    CHECK(feo_put_role(got, "1.2", 3, 2, 0) == 0);
    NOT_SENT(4);
    CHECK(feo_put_role(got, NULL, 0, 1, 0) == 0);
    NOT_SENT(4);
    good_contents();
}

int main(void)
{
    good_contents();
    by_hand();
    fields();
    every_byte();
    elsewhere();
    in_every_state();
    crowds();
    generated_subs();
    lengths();
    parts();
    role_sheets();
    nothing_given();
    boundaries();
    generated_users();
    put_roles();
    printf("%ld checks of what is said by PS3.7\n", checks);
    return 0;
}

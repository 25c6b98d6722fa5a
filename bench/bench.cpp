// Feohanna measured in one process and on the same bytes: receiving against memcpy and a plain copy, the PDVs of a PDU against receiving it, an RQ read and written against the second program and
// against DCMTK, one with roles also against receiving it, its answers chosen against reading it, its called title found among our own against the second program and against reading an RQ of one context.
//     bench [GROUP]             a line for each measurement, or for each of one group: its group, what, against what, ns per call of both, their ratio
//     bench WHAT WHO TIMES      runs one of them so often, for an instruction counter; a wrong WHAT lists them
#include "feohanna.h"
#include "peers.h"
#include <algorithm>
#include <chrono>
#include <cstdio>
#include <cstdlib>
#include <cstring>
#include <functional>
#include <string>
#include <vector>

typedef std::vector<uint8_t> Bytes;

struct Contender {
    std::string who;
    std::function<size_t()> call;
};

// The first contender is feohanna.
struct Measured {
    std::string group, what;
    std::vector<Contender> contenders;
};

static void must(bool good, const char *what)
{
    if (good)
        return;
    std::fprintf(stderr, "bench: %s\n", what);
    std::exit(1);
}

// ---- receiving

static const size_t PDUS = 64;

// PDUS P-DATA-TF PDUs of PDU-length 16,384, each with one PDV.
static Bytes stream()
{
    Bytes s;
    for (size_t k = 0; k < PDUS; k++) {
        const uint8_t head[12] = { 4, 0, 0, 0, 0x40, 0, 0, 0, 0x3F, 0xFC, 1, 0 };
        s.insert(s.end(), head, head + 12);
        for (size_t i = 0; i < 16378; i++)
            s.push_back((uint8_t)(i * 7 + k));
    }
    return s;
}

// Receives s in pieces of n bytes: the PDUs that were shown.
static size_t receive(const Bytes &s, size_t n, uint8_t *gather)
{
    struct feo_assoc a = FEO_FRESH;
    a.state = FEO_STA_6;
    struct feo_answer r;
    uint8_t out[10];
    size_t shown = 0;
    for (size_t from = 0; from < s.size(); from += n) {
        size_t end = std::min(from + n, s.size());
        for (size_t at = from; at < end; at += r.used) {
            if (feo_receive(&a, gather, FEO_BUFFER, &s[at], end - at, out, sizeof out, &r) != 0)
                return 0;
            shown += r.shown != 0;
        }
    }
    return shown;
}

typedef void *(*Copy)(void *, const void *, size_t);

static volatile Copy library = std::memcpy;

typedef uint8_t Sixteen __attribute__((vector_size(16), aligned(1), may_alias));

// A copy by the instructions that every machine of this kind has, which are all that feohanna uses: two registers of 16 bytes a turn.
static void *plain(void *to, const void *from, size_t n)
{
    uint8_t *t = (uint8_t *)to;
    const uint8_t *f = (const uint8_t *)from;
    size_t i = 0;
    for (; i + 32 <= n; i += 32) {
        Sixteen a = *(const Sixteen *)(f + i), b = *(const Sixteen *)(f + i + 16);
        *(Sixteen *)(t + i) = a;
        *(Sixteen *)(t + i + 16) = b;
    }
    for (; i < n; i++)
        t[i] = f[i];
    return to;
}

// Copies s in the same pieces, each PDU to the start of the buffer.
static size_t copies(Copy copy, const Bytes &s, size_t n, uint8_t *gather)
{
    size_t have = 0, whole = 0;
    for (size_t from = 0; from < s.size(); from += n) {
        size_t end = std::min(from + n, s.size());
        for (size_t at = from; at < end;) {
            size_t take = std::min(end - at, FEO_BUFFER - have);
            copy(gather + have, &s[at], take);
            at += take;
            have += take;
            if (have == FEO_BUFFER) {
                have = 0;
                whole++;
            }
        }
    }
    return whole;
}

// ---- the PDVs of a PDU

static const size_t PDVS = 2730;

// A P-DATA-TF of PDVS empty PDVs, the most that one can have.
static Bytes empty_pdvs()
{
    const uint8_t head[6] = { 4, 0, 0, 0, 0x3F, 0xFC }, item[6] = { 0, 0, 0, 2, 1, 0 };
    Bytes s(head, head + 6);
    for (size_t k = 0; k < PDVS; k++)
        s.insert(s.end(), item, item + 6);
    return s;
}

// Goes over them by their numbers: how many there are.
static size_t by_number(const Bytes &pdu)
{
    uint8_t id, control;
    size_t start, length, n = 0;
    while (feo_read_data(pdu.data(), pdu.size(), n, &id, &control, &start, &length) == 0)
        n++;
    return n;
}

// And by their places.
static size_t by_place(const Bytes &pdu)
{
    uint8_t id, control;
    size_t start, length, n = 0;
    for (size_t at = 6; feo_pdv_at(pdu.data(), pdu.size(), at, &id, &control, &start, &length) == 0; at = start + length)
        n++;
    return n;
}

// ---- an RQ

static const char TITLES[33] = "STORE-EQUINE    CART 1          ";

static const uint8_t *bytes(const char *text) { return (const uint8_t *)text; }

static void add_record(Bytes &sheet, unsigned id, const std::string &abstract, const std::string &transfer)
{
    uint8_t record[FEO_RECORD_LEN];
    must(feo_put_record(record, (uint8_t)id, 0, abstract.data(), abstract.size(), transfer.data(), transfer.size()) == 0, "a record is refused");
    sheet.insert(sheet.end(), record, record + FEO_RECORD_LEN);
}

// A proposal of so many contexts with so many transfer syntaxes each.
static Bytes sheet_of(unsigned contexts, unsigned transfers)
{
    Bytes s;
    for (unsigned k = 0; k < contexts; k++)
        for (unsigned t = 0; t < transfers; t++)
            add_record(s, 2 * k + 1, ABSTRACT, TRANSFERS[t]);
    return s;
}

// What an RQ says of its sender: its class UID, and these.
static struct feo_user user_of(const char *version_name, const Bytes &roles)
{
    struct feo_user u = FEO_USER;
    u.class_uid = bytes(CLASS_UID);
    u.class_uid_len = std::strlen(CLASS_UID);
    u.version_name = bytes(version_name);
    u.version_name_len = std::strlen(version_name);
    u.roles = roles.data();
    u.roles_len = roles.size();
    return u;
}

// Writes the RQ of a proposal in Sta4: its length.
static size_t request(const struct feo_user &user, const Bytes &sheet, uint8_t *out, size_t out_len)
{
    struct feo_assoc a = FEO_FRESH;
    a.state = FEO_STA_4;
    a.requestor = 1;
    struct feo_answer r;
    feo_confirm(
        &a, bytes(TITLES), 16, bytes(TITLES) + 16, 16, bytes(APPLICATION), std::strlen(APPLICATION), &user, sheet.data(), sheet.size(),
        NULL, 0, out, out_len, &r);
    return r.sent;
}

static size_t request(const Bytes &sheet, uint8_t *out, size_t out_len)
{
    return request(user_of("", Bytes()), sheet, out, out_len);
}

// Reads it: the records of both sheets.
static size_t records(const Bytes &pdu, Bytes &sheet)
{
    static uint8_t roles[FEO_ROLES_ROOM];
    struct feo_associate f;
    return feo_read_request(pdu.data(), pdu.size(), sheet.data(), sheet.size(), roles, sizeof roles, &f) == 0 ? f.records + f.roles : 0;
}

// Receives it in one piece, in Sta2, and so judges it: whether it is a request.
static size_t requested(const Bytes &pdu, uint8_t *gather)
{
    struct feo_assoc a = FEO_FRESH;
    a.state = FEO_STA_2;
    a.artim = 1;
    struct feo_answer r;
    uint8_t out[10];
    return feo_receive(&a, gather, FEO_BUFFER, pdu.data(), pdu.size(), out, sizeof out, &r) == 0 && r.action == FEO_AE_6;
}

// ---- the roles that it selects

// The k-th of the shortest names, each different: 10 of one byte, 90 of two, 1,000 of three, the rest of four.
static std::string short_name(size_t k)
{
    if (k < 1000)
        return std::to_string(k);
    return k < 1100 ? std::to_string((k - 1000) / 10) + "." + std::to_string(k % 10) : std::to_string(k - 100);
}

// Roles for so many of them.
static Bytes roles_of(size_t n)
{
    Bytes s(n * FEO_ROLE_LEN);
    for (size_t k = 0; k < n; k++)
        must(feo_put_role(&s[k * FEO_ROLE_LEN], short_name(k).data(), short_name(k).size(), 1, k % 2) == 0, "a role is refused");
    return s;
}

// The most of them for which this proposal's RQ has room, 8 bytes and the name for each: a peer can send them.
static size_t most_roles(const Bytes &sheet)
{
    Bytes out(FEO_BUFFER);
    size_t n = 0, left = FEO_BUFFER - request(sheet, out.data(), out.size());
    for (; left >= 8 + short_name(n).size(); n++)
        left -= 8 + short_name(n).size();
    return n;
}

// 1452 as 1,452
static std::string with_comma(size_t n)
{
    std::string digits = std::to_string(n);
    return digits.size() > 3 ? digits.insert(digits.size() - 3, ",") : digits;
}

// ---- the answers to it

static const size_t SITE = 200;

// A name as long as this one, that differs from it in its last digits.
static std::string near_to(std::string name, size_t k)
{
    const std::string digits = std::to_string(111 + k);
    return name.replace(name.size() - 3, 3, digits);
}

// A site of SITE records. Either none but the last has the abstract name, or all have it with transfer names that nobody proposes, but the last; the last one matches.
static Bytes site_of(bool same_abstract)
{
    Bytes s;
    for (size_t k = 0; k + 1 < SITE; k++)
        add_record(s, 0, same_abstract ? ABSTRACT : near_to(ABSTRACT, k), same_abstract ? near_to(TRANSFERS[2], k) : TRANSFERS[2]);
    add_record(s, 0, ABSTRACT, TRANSFERS[2]);
    return s;
}

// Chooses the answers: how many are accepted.
static size_t choose(const Bytes &proposal, const Bytes &site, Bytes &answer)
{
    size_t n, accepted = 0;
    if (feo_choose(proposal.data(), proposal.size(), site.data(), site.size(), answer.data(), answer.size(), &n) != 0)
        return 0;
    for (size_t k = 0; k < n; k++)
        accepted += answer[k * FEO_RECORD_LEN + FEO_RECORD_RESULT_AT] == FEO_CONTEXT_ACCEPTED;
    return accepted;
}

// ---- the title that it calls

// Eight own titles, which differ in their last character alone.
static Bytes own_titles()
{
    Bytes s;
    for (char k = '1'; k <= '8'; k++) {
        const std::string title = std::string("STORE-EQUINE-00") + k;
        s.insert(s.end(), title.begin(), title.end());
    }
    return s;
}

// Its place among them, 8 where there is none.
static size_t place(const Bytes &own, const Bytes &sought)
{
    uint8_t known, at;
    must(feo_title_place(own.data(), own.size(), sought.data(), sought.size(), &known, &at) == 0, "the title check is refused");
    return known ? at : 8;
}

// ---- the measurements

static std::vector<Measured> all()
{
    static Bytes s = stream();
    static uint8_t gather[FEO_BUFFER];
    static std::vector<std::vector<Bytes> > kept;
    std::vector<Measured> m;
    const size_t pieces[4] = { 1, 100, 1460, 16390 };
    for (size_t k = 0; k < 4; k++) {
        size_t n = pieces[k];
        must(receive(s, n, gather) == PDUS && copies(library, s, n, gather) == PDUS && copies(plain, s, n, gather) == PDUS, "the stream is not received");
        Measured x = { "receive", "pieces of " + std::to_string(n), { { "feohanna", [n] { return receive(s, n, gather); } }, { "memcpy", [n] { return copies(library, s, n, gather); } }, { "plain", [n] { return copies(plain, s, n, gather); } } } };
        m.push_back(x);
    }
    static Bytes pdvs = empty_pdvs();
    must(receive(pdvs, pdvs.size(), gather) == 1 && by_number(pdvs) == PDVS && by_place(pdvs) == PDVS, "the PDVs are not all there");
    Contender received = { "receiving", [] { return receive(pdvs, pdvs.size(), gather); } };
    m.push_back({ "go over", "2,730 PDVs by place", { { "feohanna", [] { return by_place(pdvs); } }, received } });
    m.push_back({ "go over", "2,730 PDVs by number", { { "feohanna", [] { return by_number(pdvs); } }, received } });
    struct Size {
        unsigned contexts, transfers;
    };
    const std::vector<Size> sizes[2] = { { { 1, 1 }, { 1, 3 }, { 8, 1 }, { 8, 3 }, { 32, 1 }, { 32, 3 }, { 128, 1 }, { 128, 3 } }, { { 1, 1 }, { 1, 3 }, { 128, 1 }, { 128, 3 } } };
    for (int writes = 0; writes < 2; writes++)
        for (const Size &size : sizes[writes]) {
            const unsigned contexts = size.contexts, transfers = size.transfers;
            Bytes sheet = sheet_of(contexts, transfers), out(FEO_BUFFER), lent(sheet.size(), 0xC3);
            out.resize(request(sheet, out.data(), out.size()));
            must(out.size() != 0 && records(out, lent) == contexts * transfers && lent == sheet, "an RQ is not read back");
            must(second_read(out.data(), out.size(), lent.data(), lent.size(), NULL, 0) == contexts * transfers, "the second program does not read it");
            must(second_write(bytes(TITLES), bytes(APPLICATION), std::strlen(APPLICATION), bytes(CLASS_UID), std::strlen(CLASS_UID), sheet.data(), sheet.size()) == out.size(), "the second program does not write it");
            std::string what = std::to_string(contexts) + (contexts == 1 ? " context x " : " contexts x ") + std::to_string(transfers);
            Measured x = { writes ? "write" : "read", what, {} };
            Bytes *pdu = new Bytes(out), *given = new Bytes(sheet), *room = new Bytes(lent), *sent = new Bytes(20000);
            if (!writes) {
                x.contenders.push_back({ "feohanna", [=] { return records(*pdu, *room); } });
                x.contenders.push_back({ "second", [=] { return second_read(pdu->data(), pdu->size(), room->data(), room->size(), NULL, 0); } });
            } else {
                x.contenders.push_back({ "feohanna", [=] { return request(*given, sent->data(), FEO_BUFFER); } });
                x.contenders.push_back({ "second", [=] { return second_write(bytes(TITLES), bytes(APPLICATION), std::strlen(APPLICATION), bytes(CLASS_UID), std::strlen(CLASS_UID), given->data(), given->size()); } });
            }
#ifdef WITH_DCMTK
            void *proposal = dcmtk_proposal(contexts, transfers);
            must(dcmtk_read(pdu->data(), pdu->size()) == contexts, "DCMTK does not read it");
            must(dcmtk_write(proposal, sent->data(), sent->size()) != 0, "DCMTK does not write it");
            if (!writes)
                x.contenders.push_back({ "dcmtk", [=] { return dcmtk_read(pdu->data(), pdu->size()); } });
            else
                x.contenders.push_back({ "dcmtk", [=] { return dcmtk_write(proposal, sent->data(), sent->size()); } });
#endif
            m.push_back(x);
        }
    for (int most = 0; most < 2; most++) {
        const Bytes sheet = sheet_of(1, 1), selected = roles_of(most ? most_roles(sheet) : 1);
        const size_t n = selected.size() / FEO_ROLE_LEN;
        Bytes *pdu = new Bytes(FEO_BUFFER), *room = new Bytes(FEO_RECORD_LEN), *roles = new Bytes(selected.size());
        pdu->resize(request(user_of(most ? "" : "CART 1", selected), sheet, pdu->data(), pdu->size()));
        must(records(*pdu, *room) == 1 + n && *room == sheet && requested(*pdu, gather) == 1, "an RQ with roles is not read back");
        must(second_read(pdu->data(), pdu->size(), room->data(), room->size(), roles->data(), roles->size()) == 1 + n, "the second program does not read its roles");
        Measured x = { "roles", most ? with_comma(n) + " roles" : "1 role, version name", { { "feohanna", [=] { return records(*pdu, *room); } }, { "receiving", [=] { return requested(*pdu, gather); } }, { "second", [=] { return second_read(pdu->data(), pdu->size(), room->data(), room->size(), roles->data(), roles->size()); } } } };
#ifdef WITH_DCMTK
        must(dcmtk_read(pdu->data(), pdu->size()) == 1, "DCMTK does not read an RQ with roles");
        x.contenders.push_back({ "dcmtk", [=] { return dcmtk_read(pdu->data(), pdu->size()); } });
#endif
        m.push_back(x);
    }
    for (int same = 0; same < 2; same++) {
        Bytes *proposal = new Bytes(sheet_of(128, 3)), *site = new Bytes(site_of(same != 0)), *answer = new Bytes(FEO_ANSWER_ROOM), *room = new Bytes(proposal->size());
        Bytes *pdu = new Bytes(FEO_BUFFER);
        pdu->resize(request(*proposal, pdu->data(), pdu->size()));
        must(choose(*proposal, *site, *answer) == 128, "the answers are not chosen");
        m.push_back({ "choose", same ? "200 records, one abstract name" : "200 records, 200 abstract names", { { "feohanna", [=] { return choose(*proposal, *site, *answer); } }, { "reading", [=] { return records(*pdu, *room); } } } });
    }
    const struct {
        const char *what, *title;
        size_t at;
    } called[3] = { { "the first of 8", "STORE-EQUINE-001", 0 }, { "the last of 8", "STORE-EQUINE-008", 7 }, { "none of 8", "STORE-EQUINE-009", 8 } };
    for (const auto &c : called) {
        Bytes *own = new Bytes(own_titles()), *sought = new Bytes(bytes(c.title), bytes(c.title) + FEO_TITLE_LEN);
        Bytes *pdu = new Bytes(FEO_BUFFER), *room = new Bytes(FEO_RECORD_LEN);
        pdu->resize(request(sheet_of(1, 1), pdu->data(), pdu->size()));
        must(place(*own, *sought) == c.at && second_place(own->data(), own->size(), sought->data(), sought->size()) == c.at, "the title is not found at its place");
        m.push_back({ "find", c.what, { { "feohanna", [=] { return place(*own, *sought); } }, { "second", [=] { return second_place(own->data(), own->size(), sought->data(), sought->size()); } }, { "reading", [=] { return records(*pdu, *room); } } } });
    }
    return m;
}

static volatile size_t sink;

// The time of a call, over so many; one before them, which finds the caches as another left them, is not timed.
static double batch(const std::function<size_t()> &call, size_t times)
{
    sink = call();
    auto from = std::chrono::steady_clock::now();
    for (size_t i = 0; i < times; i++)
        sink = call();
    return std::chrono::duration<double, std::nano>(std::chrono::steady_clock::now() - from).count() / (double)times;
}

// How many calls take a millisecond or more.
static size_t calls(const std::function<size_t()> &call)
{
    size_t n = 1;
    while (batch(call, n) * (double)n < 1e6)
        n *= 2;
    return n;
}

// The least time of a call of each contender of each row, in batches of a millisecond or two that take turns, so that rows can be compared too.
static std::vector<std::vector<double> > times(const std::vector<Measured> &rows)
{
    std::vector<std::vector<double> > best;
    std::vector<std::vector<size_t> > often;
    for (const Measured &m : rows) {
        best.push_back(std::vector<double>(m.contenders.size(), 1e18));
        often.push_back({});
        for (const Contender &c : m.contenders)
            often.back().push_back(calls(c.call));
    }
    for (int round = 0; round < 200; round++)
        for (size_t i = 0; i < rows.size(); i++)
            for (size_t k = 0; k < best[i].size(); k++)
                best[i][k] = std::min(best[i][k], batch(rows[i].contenders[k].call, often[i][k]));
    return best;
}

int main(int argc, char **argv)
{
    std::vector<Measured> ms = all();
    if (argc == 4) {
        for (const Measured &m : ms)
            for (const Contender &c : m.contenders)
                if (m.group + " " + m.what == argv[1] && c.who == argv[2]) {
                    for (long n = std::atol(argv[3]); n > 0; n--)
                        sink = c.call();
                    return 0;
                }
        for (const Measured &m : ms)
            for (const Contender &c : m.contenders)
                std::printf("%s %s\t%s\n", m.group.c_str(), m.what.c_str(), c.who.c_str());
        return 1;
    }
    bool measured = false;
    for (size_t from = 0, to; from < ms.size(); from = to) {
        std::vector<Measured> rows;
        for (to = from; to < ms.size() && ms[to].group == ms[from].group; to++)
            rows.push_back(ms[to]);
        if (argc == 2 && ms[from].group != argv[1])
            continue;
        measured = true;
        const std::vector<std::vector<double> > t = times(rows);
        for (size_t i = 0; i < rows.size(); i++)
            for (size_t k = 1; k < t[i].size(); k++)
                std::printf("%s\t%s\t%s\t%.1f\t%.1f\t%.2f\n", rows[i].group.c_str(), rows[i].what.c_str(), rows[i].contenders[k].who.c_str(), t[i][0], t[i][k], t[i][0] / t[i][k]);
        std::fflush(stdout);
    }
    if (!measured)
        std::fprintf(stderr, "there is no group %s\n", argv[1]);
    return measured ? 0 : 1;
}

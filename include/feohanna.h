/*
 * Feohanna: the DICOM upper layer (PS3.8) for a host in C. Link with libfeohanna.a (x86-64 Linux).
 *
 * The host has the sockets and the clock; docs/HOST.md of the sources says what each action asks of it. No call keeps state or
 * allocates: all memory is the host's and is lent for the call alone.
 *
 * The host's duties: pointers are valid for the lengths passed with them, and the buffers of one call, the association and the
 * answer among them, do not overlap, but for two that the call only reads. NULL with length 0 is an empty buffer. Whatever else a
 * host passes, the call is defined.
 *
 * The calls that return uint8_t return their refusal, 0 for none. A refused call stores nothing in *a nor in any buffer, and the
 * numbers that it hands out are 0. An answered call writes what is to be sent at the start of out and changes no byte beyond it.
 */
#ifndef FEOHANNA_H
#define FEOHANNA_H

#include <stddef.h>
#include <stdint.h>
#include <string.h>

/* The version. While it begins with 0 its second number grows with every change of a call, a name or what a record holds; where only the third
   grows, all answers are the same. */
#define FEO_VERSION "0.8.3"

/* Room for any PDU that is received or sent. feo_receive asks it of its gather buffer. */
#define FEO_BUFFER 16390

/* A PDU's header (type, reserved byte, four length bytes), and the greatest PDU-length: what may stand behind it. */
#define FEO_HEADER_LEN 6
#define FEO_LONGEST 16384

/* The called and the calling title in an A-ASSOCIATE-RQ, and its bytes that the accept response gives back. */
#define FEO_CALLED_AT 10
#define FEO_CALLING_AT 26
#define FEO_TITLE_LEN 16
#define FEO_ECHOED_AT 10
#define FEO_ECHOED_LEN 64

/* A record of a sheet, its places, and the longest name; what a name leaves of its field is zero. feo_put_record writes one. */
#define FEO_RECORD_LEN 132
#define FEO_RECORD_ID_AT 0
#define FEO_RECORD_RESULT_AT 1
#define FEO_RECORD_ABSTRACT_LEN_AT 2
#define FEO_RECORD_TRANSFER_LEN_AT 3
#define FEO_RECORD_ABSTRACT_AT 4
#define FEO_RECORD_TRANSFER_AT 68
#define FEO_NAME_MAX 64

/* A record of a role sheet and its places; byte 3, and what the name leaves of its field, are zero. feo_put_role writes one. */
#define FEO_ROLE_LEN 68
#define FEO_ROLE_UID_LEN_AT 0
#define FEO_ROLE_SCU_AT 1
#define FEO_ROLE_SCP_AT 2
#define FEO_ROLE_UID_AT 4

/* Room for the sheet of any A-ASSOCIATE-RQ (a valid one has at most 3,257 transfer syntaxes) and for any answer (128 contexts). */
#define FEO_PROPOSAL_ROOM (FEO_RECORD_LEN * 3257)
#define FEO_ANSWER_ROOM (FEO_RECORD_LEN * 128)

/* Room for the role sheet of any A-ASSOCIATE-RQ or -AC: a role takes 9 bytes of the PDU or more, so it has no more than 1,810. */
#define FEO_ROLES_ROOM (FEO_ROLE_LEN * 1810)

/* What stands in front of a fragment in a PDV item: four-byte length, ID, control byte. feo_put_pdv writes it. */
#define FEO_PDV_HEADER_LEN 6

/* The application context name of DICOM, for feo_confirm, and to be compared with that of a request. */
#define FEO_APPLICATION_CONTEXT "1.2.840.10008.3.1.1.1"
#define FEO_APPLICATION_CONTEXT_LEN 21

/* The rows of Table 9-10. L: a local event; C: one whose contents have a call of their own; R: received. */
enum feo_event_number {
    FEO_ASSOCIATE_REQUEST = 1,     /* L */
    FEO_TRANSPORT_CONFIRM = 2,     /* C feo_confirm */
    FEO_AC_RECEIVED = 3,           /* R */
    FEO_RJ_RECEIVED = 4,           /* R */
    FEO_TRANSPORT_INDICATION = 5,  /* L */
    FEO_RQ_RECEIVED = 6,           /* R */
    FEO_ACCEPT_RESPONSE = 7,       /* C feo_accept */
    FEO_REJECT_RESPONSE = 8,       /* C feo_reject */
    FEO_DATA_REQUEST = 9,          /* C feo_send */
    FEO_DATA_RECEIVED = 10,        /* R */
    FEO_RELEASE_REQUEST = 11,      /* L */
    FEO_RELEASE_RQ_RECEIVED = 12,  /* R */
    FEO_RELEASE_RP_RECEIVED = 13,  /* R */
    FEO_RELEASE_RESPONSE = 14,     /* L */
    FEO_ABORT_REQUEST = 15,        /* L */
    FEO_ABORT_RECEIVED = 16,       /* R */
    FEO_TRANSPORT_CLOSED = 17,     /* L */
    FEO_ARTIM_EXPIRED = 18,        /* L */
    FEO_INVALID_RECEIVED = 19      /* R */
};

/* The actions of Tables 9-6 to 9-9. */
enum feo_action_number {
    FEO_NO_ACTION = 0,
    FEO_AE_1 = 1, FEO_AE_2 = 2, FEO_AE_3 = 3, FEO_AE_4 = 4, FEO_AE_5 = 5, FEO_AE_6 = 6, FEO_AE_7 = 7, FEO_AE_8 = 8,
    FEO_DT_1 = 9, FEO_DT_2 = 10,
    FEO_AR_1 = 11, FEO_AR_2 = 12, FEO_AR_3 = 13, FEO_AR_4 = 14, FEO_AR_5 = 15, FEO_AR_6 = 16, FEO_AR_7 = 17, FEO_AR_8 = 18,
    FEO_AR_9 = 19, FEO_AR_10 = 20,
    FEO_AA_1 = 21, FEO_AA_2 = 22, FEO_AA_3 = 23, FEO_AA_4 = 24, FEO_AA_5 = 25, FEO_AA_6 = 26, FEO_AA_7 = 27, FEO_AA_8 = 28
};

/* The states of Tables 9-1 to 9-5. */
enum feo_state_number {
    FEO_STA_1 = 1,    /* idle */
    FEO_STA_2 = 2,    /* transport connection open, awaiting A-ASSOCIATE-RQ */
    FEO_STA_3 = 3,    /* awaiting the local accept or reject response */
    FEO_STA_4 = 4,    /* awaiting the transport connection that we asked for */
    FEO_STA_5 = 5,    /* awaiting A-ASSOCIATE-AC or -RJ */
    FEO_STA_6 = 6,    /* association established */
    FEO_STA_7 = 7,    /* awaiting A-RELEASE-RP */
    FEO_STA_8 = 8,    /* awaiting the local release response */
    FEO_STA_9 = 9,    /* release collision, requestor: awaiting the local release response */
    FEO_STA_10 = 10,  /* release collision, acceptor: awaiting A-RELEASE-RP */
    FEO_STA_11 = 11,  /* release collision, requestor: awaiting A-RELEASE-RP */
    FEO_STA_12 = 12,  /* release collision, acceptor: awaiting the local release response */
    FEO_STA_13 = 13   /* awaiting the close of the transport connection */
};

/* Refusals. They are tested in the order 6, 3, 6's test of a gathered length, 1, 7, 4, 5, 2, where they apply. */
enum feo_refusal_number {
    FEO_NOT_REFUSED = 0,
    FEO_BLANK_CELL = 1,     /* a local event at a blank cell of Table 9-10 */
    FEO_SHORT_OUTPUT = 2,   /* out, or a sheet that is to be filled, is too short; feo_receive always wants 10 bytes of out */
    FEO_SHORT_GATHER = 3,   /* gather is shorter than FEO_BUFFER when receiving, or than the gathered count at a local event */
    FEO_BAD_CONTENTS = 4,   /* bad contents of a local request, title list, sought title, PDV number or place, or any sheet */
    FEO_LONG_PDU = 5,       /* PDU-length to be sent above 16,384, or a P-DATA-TF's above a non-zero peer maximum */
    FEO_BROKEN_RECORD = 6,  /* no call leaves such an association, or such a PDU begun in gather: one was written to or exchanged */
    FEO_NO_SUCH_PDU = 7     /* the bytes are no whole valid PDU of the kind that is read */
};

/* Results of a context in an answer (PS3.8 Table 9-18). By 1 to 4 it is refused, and its record has no transfer name. */
enum feo_context_result_number {
    FEO_CONTEXT_ACCEPTED = 0,
    FEO_CONTEXT_USER_REJECTION = 1,
    FEO_CONTEXT_NO_REASON = 2,
    FEO_CONTEXT_ABSTRACT_NOT_SUPPORTED = 3,
    FEO_CONTEXT_TRANSFER_NOT_SUPPORTED = 4
};

/* What an A-ASSOCIATE-RJ says (PS3.8 Table 9-21): result, source, and the reasons of each source. */
enum feo_rejected_result_number {
    FEO_REJECTED_PERMANENT = 1,
    FEO_REJECTED_TRANSIENT = 2
};

enum feo_rejected_source_number {
    FEO_REJECTED_BY_USER = 1,
    FEO_REJECTED_BY_ACSE = 2,         /* the upper layer, its ACSE related function */
    FEO_REJECTED_BY_PRESENTATION = 3  /* the upper layer, its presentation related function */
};

enum feo_rejected_user_number {
    FEO_REJECTED_USER_NO_REASON = 1,
    FEO_REJECTED_USER_APPLICATION_CONTEXT = 2,  /* its name is not supported */
    FEO_REJECTED_USER_CALLING_TITLE = 3,        /* not recognized */
    FEO_REJECTED_USER_CALLED_TITLE = 7          /* not recognized */
};

enum feo_rejected_acse_number {
    FEO_REJECTED_ACSE_NO_REASON = 1,
    FEO_REJECTED_ACSE_VERSION = 2  /* of the protocol: not supported */
};

enum feo_rejected_presentation_number {
    FEO_REJECTED_PRESENTATION_CONGESTION = 1,  /* temporary */
    FEO_REJECTED_PRESENTATION_LOCAL_LIMIT = 2  /* exceeded */
};

/* What an A-ABORT says (PS3.8 Table 9-26): source, and the reasons of the provider; a user's is not tested. */
enum feo_aborted_source_number {
    FEO_ABORTED_BY_USER = 0,
    FEO_ABORTED_BY_PROVIDER = 2  /* the upper layer */
};

enum feo_aborted_reason_number {
    FEO_ABORTED_NOT_SPECIFIED = 0,
    FEO_ABORTED_UNRECOGNIZED_PDU = 1,
    FEO_ABORTED_UNEXPECTED_PDU = 2,
    FEO_ABORTED_UNRECOGNIZED_PARAMETER = 4,
    FEO_ABORTED_UNEXPECTED_PARAMETER = 5,
    FEO_ABORTED_INVALID_PARAMETER = 6
};

/* The bits of a PDV's control byte. When sent, the others are zero; when received, they can be anything. */
enum feo_pdv_bit {
    FEO_PDV_COMMAND = 1,  /* the fragment is of a command; else of a data set */
    FEO_PDV_LAST = 2      /* it is the last one of it */
};

/*
 * An association. The host reads it; only FEO_FRESH, feo_fresh and the calls write it. In a mark any non-zero byte is set. The
 * calls take its 16 bytes, numbers low byte first: the order and the widths of the fields are fixed.
 */
struct feo_assoc {
    uint8_t state;       /* 1 to 13 */
    uint8_t deaf;        /* after a PDU of more than 16,384: bytes are used and dropped until Sta1 */
    uint8_t artim;       /* the ARTIM timer is to run: in Sta2 and Sta13 */
    uint8_t requestor;   /* we asked for the association */
    uint32_t peer_max;   /* the greatest PDU-length that the peer takes in a P-DATA-TF; 0: no limit, or not known yet */
    size_t gathered;     /* bytes of an unfinished PDU in the gather buffer */
};

/* Where a field has another place or width nothing compiles, in C99, C11 and C++ alike: an array of -1 elements. */
extern const struct feo_assoc feo_assert_widths; /* never defined: only its fields' widths are asked for */
#define FEO_FIELD(field, at, width) \
    typedef char feo_assert_##field[offsetof(struct feo_assoc, field) == (at) && sizeof feo_assert_widths.field == (width) ? 1 : -1]
FEO_FIELD(state, 0, 1);
FEO_FIELD(deaf, 1, 1);
FEO_FIELD(artim, 2, 1);
FEO_FIELD(requestor, 3, 1);
FEO_FIELD(peer_max, 4, 4);
FEO_FIELD(gathered, 8, 8);
#undef FEO_FIELD
typedef char feo_assert_size[sizeof(struct feo_assoc) == 16 ? 1 : -1];
#if defined(__BYTE_ORDER__) && __BYTE_ORDER__ != __ORDER_LITTLE_ENDIAN__
#error "struct feo_assoc has its numbers low byte first"
#endif

/* What a call did. */
struct feo_answer {
    uint8_t refusal;  /* 0 for none; also what the call returns */
    uint8_t action;   /* 1 to 28, 0 for none */
    size_t used;      /* bytes used of the piece; offer the others again */
    size_t sent;      /* bytes to be sent, at the start of out */
    size_t shown;     /* length of the PDU that the action shows, at the start of gather; else 0 */
};

/* What an A-ASSOCIATE-RQ or -AC says, but for its contexts and roles. From class_at on it is what PS3.7 adds. */
struct feo_associate {
    uint16_t version;
    size_t application_at, application_len;    /* where the application context name stands in the PDU */
    uint32_t maximum;                          /* the greatest PDU-length that the sender takes in a P-DATA-TF; 0: no limit */
    size_t records;                            /* records written to the sheet */
    size_t class_at, class_len;                /* where the sender's implementation class UID stands; 0 and 0: there is none */
    size_t version_name_at, version_name_len;  /* where its implementation version name stands; 0 and 0: there is none */
    uint16_t invoked, performed;               /* operations at a time; 0: no limit; 1 and 1 also where it says nothing of them */
    size_t roles;                              /* records written to the role sheet */
};

/*
 * What an A-ASSOCIATE-RQ or -AC of ours says by PS3.7: struct feo_user user = FEO_USER; and then what is ours. Refused by 4 where a
 * part is bad. NULL for the whole counts as empty parts, and so is refused too: a class UID is always sent.
 */
struct feo_user {
    const uint8_t *class_uid;     /* the implementation class UID: a name */
    size_t class_uid_len;
    const uint8_t *version_name;  /* the implementation version name: 1 to 16 characters of a title; empty: none is sent */
    size_t version_name_len;
    uint16_t invoked, performed;  /* operations at a time; 0: no limit; 1 and 1: nothing is sent of them, which says the same */
    const uint8_t *roles;         /* a role sheet: roles 0 or 1, no UID twice; empty: none is sent */
    size_t roles_len;
};

/* What feo_accept sends. NULL for the whole counts as empty parts. */
struct feo_accepting {
    const uint8_t *echoed;       /* the FEO_ECHOED_LEN bytes at FEO_ECHOED_AT of the RQ */
    size_t echoed_len;
    const uint8_t *application;  /* the application context name */
    size_t application_len;
    const struct feo_user *user;
    const uint8_t *sheet;        /* an answer */
    size_t sheet_len;
};

/* A fresh association: struct feo_assoc a = FEO_FRESH; */
#define FEO_FRESH { 1, 0, 0, 0, 0, 0 }

/* A user of empty parts, with one operation at a time: where all is zero, PS3.7 reads 'no limit'. */
#define FEO_USER { NULL, 0, NULL, 0, 1, 1, NULL, 0 }

/* The proved functions. They take an association as its bytes; answer: action, used, sent, shown. Hosts call the ones below. */
#ifdef __cplusplus
extern "C" {
#endif
void feo_raw_fresh(struct feo_assoc *a);
uint8_t feo_raw_receive(
    struct feo_assoc *a, uint8_t *gather, size_t gather_len, const uint8_t *piece, size_t piece_len, uint8_t *out, size_t out_len,
    size_t answer[4]);
uint8_t feo_raw_event(
    struct feo_assoc *a, uint8_t event, const uint8_t *gather, size_t gather_len, uint8_t *out, size_t out_len, size_t answer[4]);
uint8_t feo_raw_confirm(
    struct feo_assoc *a, const uint8_t *called, size_t called_len, const uint8_t *calling, size_t calling_len,
    const uint8_t *application, size_t application_len,
    const uint8_t *class_uid, size_t class_uid_len, const uint8_t *version_name, size_t version_name_len,
    uint16_t invoked, uint16_t performed, const uint8_t *roles, size_t roles_len,
    const uint8_t *sheet, size_t sheet_len,
    const uint8_t *gather, size_t gather_len, uint8_t *out, size_t out_len, size_t answer[4]);
uint8_t feo_raw_accept(
    struct feo_assoc *a, const uint8_t *echoed, size_t echoed_len, const uint8_t *application, size_t application_len,
    const uint8_t *class_uid, size_t class_uid_len, const uint8_t *version_name, size_t version_name_len,
    uint16_t invoked, uint16_t performed, const uint8_t *roles, size_t roles_len,
    const uint8_t *sheet, size_t sheet_len, const uint8_t *gather, size_t gather_len, uint8_t *out, size_t out_len,
    size_t answer[4]);
uint8_t feo_raw_reject(
    struct feo_assoc *a, uint8_t result, uint8_t source, uint8_t reason,
    const uint8_t *gather, size_t gather_len, uint8_t *out, size_t out_len, size_t answer[4]);
uint8_t feo_raw_send(
    struct feo_assoc *a, const uint8_t *items, size_t items_len,
    const uint8_t *gather, size_t gather_len, uint8_t *out, size_t out_len, size_t answer[4]);
uint8_t feo_raw_read_request(
    const uint8_t *pdu, size_t pdu_len, uint8_t *sheet, size_t sheet_len, uint8_t *roles, size_t roles_len,
    uint16_t *version, size_t *application_at, size_t *application_len, uint32_t *maximum, size_t *records,
    size_t *class_at, size_t *class_len, size_t *version_name_at, size_t *version_name_len,
    uint16_t *invoked, uint16_t *performed, size_t *role_records);
uint8_t feo_raw_read_accept(
    const uint8_t *pdu, size_t pdu_len, uint8_t *sheet, size_t sheet_len, uint8_t *roles, size_t roles_len,
    uint16_t *version, size_t *application_at, size_t *application_len, uint32_t *maximum, size_t *records,
    size_t *class_at, size_t *class_len, size_t *version_name_at, size_t *version_name_len,
    uint16_t *invoked, uint16_t *performed, size_t *role_records);
uint8_t feo_raw_read_reject(const uint8_t *pdu, size_t pdu_len, uint8_t *result, uint8_t *source, uint8_t *reason);
uint8_t feo_raw_read_abort(const uint8_t *pdu, size_t pdu_len, uint8_t *source, uint8_t *reason);
uint8_t feo_raw_read_data(
    const uint8_t *pdu, size_t pdu_len, size_t number, uint8_t *id, uint8_t *control, size_t *start, size_t *length);
uint8_t feo_raw_pdv_at(
    const uint8_t *pdu, size_t pdu_len, size_t at, uint8_t *id, uint8_t *control, size_t *start, size_t *length);
uint8_t feo_raw_title_place(
    const uint8_t *own, size_t own_len, const uint8_t *sought, size_t sought_len, uint8_t *known, uint8_t *place);
uint8_t feo_raw_choose(
    const uint8_t *proposal, size_t proposal_len, const uint8_t *site, size_t site_len, uint8_t *answer, size_t answer_len,
    size_t *records);
#ifdef __cplusplus
}
#endif

/* The proved functions want a valid pointer for an empty slice too: with length 0 they get one to a byte that is never read or written. */
static inline const uint8_t *feo_part(const uint8_t *p, size_t n)
{
    static const uint8_t none = 0;
    return n != 0 ? p : &none;
}

static inline uint8_t *feo_room(uint8_t *p, size_t n)
{
    static uint8_t none = 0;
    return n != 0 ? p : &none;
}

static inline const struct feo_user *feo_user_of(const struct feo_user *user)
{
    static const struct feo_user none = FEO_USER;
    return user != NULL ? user : &none;
}

static inline const struct feo_accepting *feo_accepting_of(const struct feo_accepting *accepting)
{
    static const struct feo_accepting none = { NULL, 0, NULL, 0, NULL, NULL, 0 };
    return accepting != NULL ? accepting : &none;
}

static inline uint8_t feo_told(struct feo_answer *r, uint8_t refusal, const size_t answer[4])
{
    r->refusal = refusal;
    r->action = answer[0] & 255;
    r->used = answer[1];
    r->sent = answer[2];
    r->shown = answer[3];
    return refusal;
}

/* Makes *a a fresh association. */
static inline void feo_fresh(struct feo_assoc *a)
{
    feo_raw_fresh(a);
}

/*
 * Bytes were received: uses them through the one that completes a PDU, or a header with a length above FEO_LONGEST, else all of
 * them, and says how many. Offer what is left again: behind what answers that PDU (accept, reject, release response, data, an
 * abort because of it), and before any other local event. gather: FEO_BUFFER bytes or more, the same ones at each call, that the
 * host leaves alone.
 */
static inline uint8_t feo_receive(
    struct feo_assoc *a, uint8_t *gather, size_t gather_len, const uint8_t *piece, size_t piece_len, uint8_t *out, size_t out_len,
    struct feo_answer *r)
{
    size_t answer[4];
    const uint8_t refusal = feo_raw_receive(
        a, feo_room(gather, gather_len), gather_len, feo_part(piece, piece_len), piece_len, feo_room(out, out_len), out_len,
        answer);
    return feo_told(r, refusal, answer);
}

/*
 * A local event without contents: 1, 5, 11, 14, 15, 17 or 18 of enum feo_event_number. gather is only read, here and in the four
 * calls below. Any other number is refused: 2, 7, 8 and 9 by 4 where their cell is filled, all else by 1.
 */
static inline uint8_t feo_event(
    struct feo_assoc *a, uint8_t event, const uint8_t *gather, size_t gather_len, uint8_t *out, size_t out_len, struct feo_answer *r)
{
    size_t answer[4];
    const uint8_t refusal = feo_raw_event(
        a, event, feo_part(gather, gather_len), gather_len, feo_room(out, out_len), out_len, answer);
    return feo_told(r, refusal, answer);
}

/*
 * The transport connection that we asked for is there: sends an A-ASSOCIATE-RQ. Titles of 16 bytes; the sheet is a proposal, and so
 * are the user's roles.
 */
static inline uint8_t feo_confirm(
    struct feo_assoc *a, const uint8_t *called, size_t called_len, const uint8_t *calling, size_t calling_len,
    const uint8_t *application, size_t application_len, const struct feo_user *user, const uint8_t *sheet, size_t sheet_len,
    const uint8_t *gather, size_t gather_len, uint8_t *out, size_t out_len, struct feo_answer *r)
{
    const struct feo_user *const u = feo_user_of(user);
    size_t answer[4];
    const uint8_t refusal = feo_raw_confirm(
        a, feo_part(called, called_len), called_len, feo_part(calling, calling_len), calling_len,
        feo_part(application, application_len), application_len, feo_part(u->class_uid, u->class_uid_len), u->class_uid_len,
        feo_part(u->version_name, u->version_name_len), u->version_name_len, u->invoked, u->performed,
        feo_part(u->roles, u->roles_len), u->roles_len, feo_part(sheet, sheet_len), sheet_len,
        feo_part(gather, gather_len), gather_len, feo_room(out, out_len), out_len, answer);
    return feo_told(r, refusal, answer);
}

/*
 * Accepts: sends an A-ASSOCIATE-AC. A refused record goes out with an empty transfer syntax sub-item: 4 where its transfer length or
 * a byte of that field is not 0. The user's roles are those that we accept. Nothing is compared with the RQ.
 */
static inline uint8_t feo_accept(
    struct feo_assoc *a, const struct feo_accepting *accepting, const uint8_t *gather, size_t gather_len,
    uint8_t *out, size_t out_len, struct feo_answer *r)
{
    const struct feo_accepting *const c = feo_accepting_of(accepting);
    const struct feo_user *const u = feo_user_of(c->user);
    size_t answer[4];
    const uint8_t refusal = feo_raw_accept(
        a, feo_part(c->echoed, c->echoed_len), c->echoed_len, feo_part(c->application, c->application_len), c->application_len,
        feo_part(u->class_uid, u->class_uid_len), u->class_uid_len,
        feo_part(u->version_name, u->version_name_len), u->version_name_len, u->invoked, u->performed,
        feo_part(u->roles, u->roles_len), u->roles_len, feo_part(c->sheet, c->sheet_len), c->sheet_len,
        feo_part(gather, gather_len), gather_len, feo_room(out, out_len), out_len, answer);
    return feo_told(r, refusal, answer);
}

/* Rejects: sends an A-ASSOCIATE-RJ. result 1 or 2; source and reason 1: 1, 2, 3, 7; 2: 1, 2; 3: 1, 2. */
static inline uint8_t feo_reject(
    struct feo_assoc *a, uint8_t result, uint8_t source, uint8_t reason,
    const uint8_t *gather, size_t gather_len, uint8_t *out, size_t out_len, struct feo_answer *r)
{
    size_t answer[4];
    const uint8_t refusal = feo_raw_reject(
        a, result, source, reason, feo_part(gather, gather_len), gather_len, feo_room(out, out_len), out_len, answer);
    return feo_told(r, refusal, answer);
}

/* Sends data. items: PDV items as they stand in a P-DATA-TF, one or more: four-byte length, ID, control byte (0 to 3), fragment. */
static inline uint8_t feo_send(
    struct feo_assoc *a, const uint8_t *items, size_t items_len, const uint8_t *gather, size_t gather_len,
    uint8_t *out, size_t out_len, struct feo_answer *r)
{
    size_t answer[4];
    const uint8_t refusal = feo_raw_send(
        a, feo_part(items, items_len), items_len, feo_part(gather, gather_len), gather_len, feo_room(out, out_len), out_len,
        answer);
    return feo_told(r, refusal, answer);
}

/*
 * The reading calls take a whole PDU: the first r.shown bytes of gather, after a call that shows one. They know no state.
 *
 * Reads an A-ASSOCIATE-RQ and fills two sheets from their start, in the PDU's order: sheet, a record for each transfer syntax, and
 * roles, a record for each role selection. 2 where either is too short, and neither is written: lend roles also where you want none.
 */
static inline uint8_t feo_read_request(
    const uint8_t *pdu, size_t pdu_len, uint8_t *sheet, size_t sheet_len, uint8_t *roles, size_t roles_len, struct feo_associate *f)
{
    return feo_raw_read_request(
        feo_part(pdu, pdu_len), pdu_len, feo_room(sheet, sheet_len), sheet_len, feo_room(roles, roles_len), roles_len,
        &f->version, &f->application_at, &f->application_len, &f->maximum, &f->records,
        &f->class_at, &f->class_len, &f->version_name_at, &f->version_name_len, &f->invoked, &f->performed, &f->roles);
}

/*
 * Reads an A-ASSOCIATE-AC and fills sheet, a record for each context, and roles. Look at the result first: a refused one has
 * transfer length 0, also where the peer sent a name, since what stands behind its result is not tested.
 *
 * What is read here feo_accept takes, and what feo_read_request reads feo_confirm, with a class UID where the sender gave none:
 * never 4. By that UID, and by up to 4 bytes for each refused context, it may come out longer, and then be refused with 5.
 */
static inline uint8_t feo_read_accept(
    const uint8_t *pdu, size_t pdu_len, uint8_t *sheet, size_t sheet_len, uint8_t *roles, size_t roles_len, struct feo_associate *f)
{
    return feo_raw_read_accept(
        feo_part(pdu, pdu_len), pdu_len, feo_room(sheet, sheet_len), sheet_len, feo_room(roles, roles_len), roles_len,
        &f->version, &f->application_at, &f->application_len, &f->maximum, &f->records,
        &f->class_at, &f->class_len, &f->version_name_at, &f->version_name_len, &f->invoked, &f->performed, &f->roles);
}

/* Reads an A-ASSOCIATE-RJ. */
static inline uint8_t feo_read_reject(const uint8_t *pdu, size_t pdu_len, uint8_t *result, uint8_t *source, uint8_t *reason)
{
    return feo_raw_read_reject(feo_part(pdu, pdu_len), pdu_len, result, source, reason);
}

/* Reads an A-ABORT. Source 0 is the peer's user, 2 its upper layer. */
static inline uint8_t feo_read_abort(const uint8_t *pdu, size_t pdu_len, uint8_t *source, uint8_t *reason)
{
    return feo_raw_read_abort(feo_part(pdu, pdu_len), pdu_len, source, reason);
}

/* Reads a PDV of a P-DATA-TF by its number, from 0: 4 past the last. The fragment is pdu[start], length bytes. */
static inline uint8_t feo_read_data(
    const uint8_t *pdu, size_t pdu_len, size_t number, uint8_t *id, uint8_t *control, size_t *start, size_t *length)
{
    return feo_raw_read_data(feo_part(pdu, pdu_len), pdu_len, number, id, control, start, length);
}

/*
 * The PDV item at a place of a P-DATA-TF, to go over all of them once: the first is at 6, the next at *start + *length, and behind
 * the last, at pdu_len, the answer is 4. It looks at that item alone, and so is only for a PDU that a call showed: 4 below 6, and
 * where no whole item (length at least 2, odd ID) stands; never 7.
 */
static inline uint8_t feo_pdv_at(
    const uint8_t *pdu, size_t pdu_len, size_t at, uint8_t *id, uint8_t *control, size_t *start, size_t *length)
{
    return feo_raw_pdv_at(feo_part(pdu, pdu_len), pdu_len, at, id, control, start, length);
}

/*
 * Looks for the sought title, 16 bytes, among our own, 0 to 8 of 16 bytes each. Where it is one of them *known is 1, and *place,
 * 0 to 7, is that of the first that is equal; outer spaces do not count, inner ones and case do. Where it is none, and where the
 * call is refused, both are 0: look at *known before *place, since 0 is the first title's place too.
 *
 * Refused by 4 for a bad list (more than 8, a part of one, one that is no title) or a sought title of another length. The list is
 * tested whole before it is searched: a bad title refuses it also behind one that is equal. Of the sought title only the length is
 * tested: what is no title is none of ours.
 */
static inline uint8_t feo_title_place(
    const uint8_t *own, size_t own_len, const uint8_t *sought, size_t sought_len, uint8_t *known, uint8_t *place)
{
    return feo_raw_title_place(feo_part(own, own_len), own_len, feo_part(sought, sought_len), sought_len, known, place);
}

/*
 * Chooses the answer to a proposal and fills answer from its start, a record for each context, in the proposal's order; *records
 * is how many. Result 0 with the transfer name of the first site record that has the context's abstract name and one of its
 * transfer names; where there is none, no transfer name, with result 3 where its abstract name is on no site record, else 4.
 * site: one or more records, best liked first, ID and result 0, names as in a proposal.
 *
 * Refused by 4 for either bad sheet, then by 2 where answer has less than FEO_RECORD_LEN for each context; FEO_ANSWER_ROOM is
 * always enough. What feo_read_request filled is never refused: a 4 behind it is the site's. feo_choose, and then feo_accept, is
 * given FEO_RECORD_LEN times the records of the call before, not its buffer's length.
 */
static inline uint8_t feo_choose(
    const uint8_t *proposal, size_t proposal_len, const uint8_t *site, size_t site_len, uint8_t *answer, size_t answer_len,
    size_t *records)
{
    return feo_raw_choose(
        feo_part(proposal, proposal_len), proposal_len, feo_part(site, site_len), site_len,
        feo_room(answer, answer_len), answer_len, records);
}

/* An action's name in Tables 9-6 to 9-9: "" for 0, "?" for a number that is none. */
static inline const char *feo_action_name(uint8_t action)
{
    static const char *const names[29] = {
        "",
        "AE-1", "AE-2", "AE-3", "AE-4", "AE-5", "AE-6", "AE-7", "AE-8",
        "DT-1", "DT-2",
        "AR-1", "AR-2", "AR-3", "AR-4", "AR-5", "AR-6", "AR-7", "AR-8", "AR-9", "AR-10",
        "AA-1", "AA-2", "AA-3", "AA-4", "AA-5", "AA-6", "AA-7", "AA-8"
    };
    return action < 29 ? names[action] : "?";
}

/* A refusal in words: "" for 0, "?" for a number that is none. */
static inline const char *feo_refusal_name(uint8_t refusal)
{
    static const char *const names[8] = {
        "",
        "blank cell of Table 9-10", "output too short", "gather buffer too short", "bad contents",
        "PDU too long", "broken record", "no whole valid PDU of this kind"
    };
    return refusal < 8 ? names[refusal] : "?";
}

/* A state's name in Tables 9-1 to 9-5: "?" for a number that is none. */
static inline const char *feo_state_name(uint8_t state)
{
    static const char *const names[14] = {
        "?",
        "Sta1", "Sta2", "Sta3", "Sta4", "Sta5", "Sta6", "Sta7", "Sta8", "Sta9", "Sta10", "Sta11", "Sta12", "Sta13"
    };
    return state < 14 ? names[state] : "?";
}

/* An event in the words of its row in Table 9-10: "?" for a number that is none. */
static inline const char *feo_event_name(uint8_t event)
{
    static const char *const names[20] = {
        "?",
        "A-ASSOCIATE request", "transport connection confirm", "A-ASSOCIATE-AC received", "A-ASSOCIATE-RJ received",
        "transport connection indication", "A-ASSOCIATE-RQ received", "A-ASSOCIATE response (accept)", "A-ASSOCIATE response (reject)",
        "P-DATA request", "P-DATA-TF received",
        "A-RELEASE request", "A-RELEASE-RQ received", "A-RELEASE-RP received", "A-RELEASE response",
        "A-ABORT request", "A-ABORT received", "transport connection closed", "ARTIM timer expired", "unrecognized or invalid PDU received"
    };
    return event < 20 ? names[event] : "?";
}

/*
 * Writes one record of a sheet, FEO_RECORD_LEN bytes: of a proposal (result 0) for feo_confirm, of a site's sheet (ID and result 0)
 * for feo_choose, of an answer (an empty abstract name, and where it is refused an empty transfer name too) for feo_accept. 4, and
 * nothing is written, where a name is longer than FEO_NAME_MAX; all else about a record those calls test.
 */
static inline uint8_t feo_put_record(
    uint8_t *record, uint8_t id, uint8_t result, const void *abstract, size_t abstract_len, const void *transfer, size_t transfer_len)
{
    if (abstract_len > FEO_NAME_MAX || transfer_len > FEO_NAME_MAX)
        return FEO_BAD_CONTENTS;
    memset(record, 0, FEO_RECORD_LEN);
    record[FEO_RECORD_ID_AT] = id;
    record[FEO_RECORD_RESULT_AT] = result;
    record[FEO_RECORD_ABSTRACT_LEN_AT] = abstract_len & 0xFF;
    record[FEO_RECORD_TRANSFER_LEN_AT] = transfer_len & 0xFF;
    if (abstract_len != 0)
        memcpy(record + FEO_RECORD_ABSTRACT_AT, abstract, abstract_len);
    if (transfer_len != 0)
        memcpy(record + FEO_RECORD_TRANSFER_AT, transfer, transfer_len);
    return FEO_NOT_REFUSED;
}

/*
 * Writes one record of a role sheet, FEO_ROLE_LEN bytes: the UID of an abstract syntax, and 1 or 0 for the SCU and for the SCP role,
 * proposed or not by feo_confirm, accepted or not by feo_accept. 4, and nothing is written, where the UID is longer than
 * FEO_NAME_MAX; all else about a record those calls test.
 */
static inline uint8_t feo_put_role(uint8_t *record, const void *uid, size_t uid_len, uint8_t scu, uint8_t scp)
{
    if (uid_len > FEO_NAME_MAX)
        return FEO_BAD_CONTENTS;
    memset(record, 0, FEO_ROLE_LEN);
    record[FEO_ROLE_UID_LEN_AT] = uid_len & 0xFF;
    record[FEO_ROLE_SCU_AT] = scu;
    record[FEO_ROLE_SCP_AT] = scp;
    if (uid_len != 0)
        memcpy(record + FEO_ROLE_UID_AT, uid, uid_len);
    return FEO_NOT_REFUSED;
}

/*
 * Writes the FEO_PDV_HEADER_LEN bytes that stand in front of a fragment of this length in the items of feo_send. 5, and nothing is
 * written, where no PDU has room for the fragment; the ID and the control byte feo_send tests.
 */
static inline uint8_t feo_put_pdv(uint8_t *at, uint8_t id, uint8_t control, size_t fragment_len)
{
    size_t length = fragment_len + 2;  /* of ID, control byte and fragment */
    if (fragment_len > FEO_LONGEST - FEO_PDV_HEADER_LEN)
        return FEO_LONG_PDU;
    at[0] = 0;
    at[1] = 0;
    at[2] = length >> 8 & 0xFF;
    at[3] = length & 0xFF;
    at[4] = id;
    at[5] = control;
    return FEO_NOT_REFUSED;
}

/*
 * The longest fragment that feo_send takes now, as the only PDV of its items: cut a message by it. 0 where the peer leaves no room
 * for a byte of one (a->peer_max 1 to 6; with 6 an empty fragment can be sent).
 */
static inline size_t feo_fragment_max(const struct feo_assoc *a)
{
    size_t longest = a->peer_max != 0 && a->peer_max < FEO_LONGEST ? a->peer_max : FEO_LONGEST;
    return longest > FEO_PDV_HEADER_LEN ? longest - FEO_PDV_HEADER_LEN : 0;
}

#endif

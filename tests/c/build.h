/* Bytes of PDUs, items and sheets, as documents 01 and 02 describe them. */
#ifndef BUILD_H
#define BUILD_H

#include <stdint.h>
#include <string.h>

struct bytes {
    size_t n;
    uint8_t at[40000];
};

static inline void add(struct bytes *b, const void *from, size_t n)
{
    memcpy(b->at + b->n, from, n);
    b->n += n;
}

static inline void add_byte(struct bytes *b, unsigned v)
{
    b->at[b->n++] = (uint8_t)v;
}

static inline void add_two(struct bytes *b, size_t v)
{
    add_byte(b, (unsigned)(v >> 8 & 255));
    add_byte(b, (unsigned)(v & 255));
}

static inline void add_four(struct bytes *b, size_t v)
{
    add_two(b, v >> 16 & 65535);
    add_two(b, v & 65535);
}

/* An item: type, reserved, two-byte length, body. */
static inline void add_item(struct bytes *b, unsigned type, const void *body, size_t n)
{
    add_byte(b, type);
    add_byte(b, 0);
    add_two(b, n);
    add(b, body, n);
}

static inline void add_name(struct bytes *b, unsigned type, const char *name)
{
    add_item(b, type, name, strlen(name));
}

/* A PDU of this type: its header goes before what is in `body`. */
static inline void whole(struct bytes *pdu, unsigned type, const struct bytes *body)
{
    pdu->n = 0;
    add_byte(pdu, type);
    add_byte(pdu, 0);
    add_four(pdu, body->n);
    add(pdu, body->at, body->n);
}

/* A PDU of length 4. */
static inline void ten(struct bytes *pdu, unsigned type, unsigned a, unsigned b, unsigned c, unsigned d)
{
    pdu->n = 0;
    add_byte(pdu, type);
    add_byte(pdu, 0);
    add_four(pdu, 4);
    add_byte(pdu, a);
    add_byte(pdu, b);
    add_byte(pdu, c);
    add_byte(pdu, d);
}

#define APPLICATION "1.2.840.10008.3.1.1.1"
#define ECHO_CLASS "1.2.840.10008.1.1"
#define IMPLICIT "1.2.840.10008.1.2"

/* The implementation class UID of every 50H here, in an arc that is for examples. */
#define CLASS_UID "2.999.1"

/* Names of 64 bytes. */
#define SIXTY_FOUR "1.234567890123456789012345678901234567890123456789012345678901.9"
#define OTHER_SIXTY_FOUR "1.234567890123456789012345678901234567890123456789012345678901.8"

/* Version, titles and reserved bytes of an RQ or AC. */
static inline void add_fixed(struct bytes *b, unsigned version)
{
    static const uint8_t zero[32] = { 0 };
    add_two(b, version);
    add_two(b, 0);
    add(b, "STORE-EQUINE    ", 16);
    add(b, "NIGHT-SCANNER   ", 16);
    add(b, zero, 32);
}

/* A 51H with this maximum. */
static inline void add_maximum(struct bytes *b, size_t maximum)
{
    struct bytes four;
    four.n = 0;
    add_four(&four, maximum);
    add_item(b, 0x51, four.at, 4);
}

/* User information: a 51H and a 52H, so many bytes with the 50H's own four. */
#define USER_LEN (4 + 8 + 4 + sizeof CLASS_UID - 1)

static inline void add_user(struct bytes *b, size_t maximum)
{
    struct bytes user;
    user.n = 0;
    add_maximum(&user, maximum);
    add_name(&user, 0x52, CLASS_UID);
    add_item(b, 0x50, user.at, user.n);
}

/* A 54H: two-byte length of the UID, the UID, the SCU and the SCP role. */
static inline void add_role(struct bytes *b, const char *uid, unsigned scu, unsigned scp)
{
    struct bytes body;
    body.n = 0;
    add_two(&body, strlen(uid));
    add(&body, uid, strlen(uid));
    add_byte(&body, scu);
    add_byte(&body, scp);
    add_item(b, 0x54, body.at, body.n);
}

/* An RQ with one context, ID 1, of these three names. */
static inline void request(struct bytes *pdu, unsigned version, const char *application, const char *abstract, const char *transfer)
{
    struct bytes b, context;
    b.n = context.n = 0;
    add_fixed(&b, version);
    add_name(&b, 0x10, application);
    add_four(&context, 0x01000000);
    add_name(&context, 0x30, abstract);
    add_name(&context, 0x40, transfer);
    add_item(&b, 0x20, context.at, context.n);
    add_user(&b, 16384);
    whole(pdu, 1, &b);
}

/* A 21H: its four fixed bytes (ID, reserved, result, reserved), and what stands behind them. */
static inline void add_context(struct bytes *b, size_t fixed, const void *behind, size_t n)
{
    struct bytes context;
    context.n = 0;
    add_four(&context, fixed);
    add(&context, behind, n);
    add_item(b, 0x21, context.at, context.n);
}

/* An AC with these contexts, each an item. */
static inline void accepting(struct bytes *pdu, unsigned version, const struct bytes *contexts, size_t maximum)
{
    struct bytes b;
    b.n = 0;
    add_fixed(&b, version);
    add_name(&b, 0x10, APPLICATION);
    add(&b, contexts->at, contexts->n);
    add_user(&b, maximum);
    whole(pdu, 2, &b);
}

/* An AC with one context, ID 1, of this result; with an empty name where that refuses it. */
static inline void acceptance(struct bytes *pdu, unsigned version, unsigned result, size_t maximum)
{
    struct bytes contexts, name;
    contexts.n = name.n = 0;
    add_name(&name, 0x40, result == 0 ? IMPLICIT : "");
    add_context(&contexts, 0x01000000 | (size_t)result << 8, name.at, name.n);
    accepting(pdu, version, &contexts, maximum);
}

/* A PDV item: four-byte length, ID, control byte, fragment. */
static inline void add_pdv(struct bytes *b, unsigned id, unsigned control, const void *fragment, size_t n)
{
    add_four(b, n + 2);
    add_byte(b, id);
    add_byte(b, control);
    add(b, fragment, n);
}

/* A P-DATA-TF with one PDV of n bytes. */
static inline void data(struct bytes *pdu, unsigned id, unsigned control, size_t n)
{
    static const uint8_t fragment[16384] = { 0xDA, 0x7A };
    struct bytes b;
    b.n = 0;
    add_pdv(&b, id, control, fragment, n);
    whole(pdu, 4, &b);
}

/* A record of a sheet: 132 bytes, the unused ones zero. */
static inline void add_record(struct bytes *b, unsigned id, unsigned result, const char *abstract, const char *transfer)
{
    memset(b->at + b->n, 0, 132);
    b->at[b->n] = (uint8_t)id;
    b->at[b->n + 1] = (uint8_t)result;
    b->at[b->n + 2] = (uint8_t)strlen(abstract);
    b->at[b->n + 3] = (uint8_t)strlen(transfer);
    memcpy(b->at + b->n + 4, abstract, strlen(abstract));
    memcpy(b->at + b->n + 68, transfer, strlen(transfer));
    b->n += 132;
}

/* The RQ (type 1) with the contexts of this proposal, or the AC (type 2) with those of this answer. */
static inline void of_sheet(struct bytes *pdu, unsigned type, const struct bytes *sheet)
{
    struct bytes b, context;
    size_t i;
    b.n = context.n = 0;
    add_fixed(&b, 1);
    add_name(&b, 0x10, APPLICATION);
    for (i = 0; i < sheet->n; i += 132) {
        const uint8_t *record = sheet->at + i;
        if (context.n == 0) {
            add_four(&context, (size_t)record[0] << 24 | (size_t)record[1] << 8);
            if (type == 1)
                add_item(&context, 0x30, record + 4, record[2]);
        }
        add_item(&context, 0x40, record + 68, record[3]);
        if (i + 132 == sheet->n || record[132] != record[0]) {
            add_item(&b, type == 1 ? 0x20 : 0x21, context.at, context.n);
            context.n = 0;
        }
    }
    add_user(&b, 16384);
    whole(pdu, type, &b);
}

#endif

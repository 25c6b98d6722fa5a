/*
 * An association is 16 bytes: state, deaf, artim, requestor, one each; peer_max, four; gathered, eight; low byte first. What a call
 * takes from them and stores in them, byte by byte. In the common part of C99, C11 and C++.
 */
#include <string.h>

#include "check.h"
#include "feohanna.h"

/* An association between guard bytes. */
static struct {
    uint8_t before[32];
    struct feo_assoc a;
    uint8_t behind[32];
} lent;

static uint8_t gather[FEO_BUFFER], out[FEO_BUFFER];
static struct feo_answer r;

static void given(const char *bytes)
{
    memset(&lent, 0xEE, sizeof lent);
    memcpy(&lent.a, bytes, 16);
}

/* The association's bytes are these, and none beside them has changed. */
static void is(int line, const char *bytes)
{
    size_t i;
    for (i = 0; i < 16; i++)
        if (((const uint8_t *)&lent.a)[i] != (uint8_t)bytes[i]) {
            printf("line %d: byte %d is %d\n", line, (int)i, ((const uint8_t *)&lent.a)[i]);
            exit(1);
        }
    for (i = 0; i < 32; i++)
        check(line, lent.before[i] == 0xEE && lent.behind[i] == 0xEE, "a guard byte");
}

#define IS(bytes) is(__LINE__, bytes)

static uint8_t receive(size_t gather_len, size_t out_len)
{
    return feo_receive(&lent.a, gather, gather_len, 0, 0, out, out_len, &r);
}

static uint8_t event(uint8_t number)
{
    return feo_event(&lent.a, number, gather, FEO_BUFFER, out, FEO_BUFFER, &r);
}

/* Each named field has its bytes. */
static void fields(void)
{
    given("\x06\x01\x02\xFF\x04\x03\x02\x01\x0C\x0B\x0A\x09\x08\x07\x06\x05");
    CHECK(lent.a.state == 6 && lent.a.deaf == 1 && lent.a.artim == 2 && lent.a.requestor == 255);
    CHECK(lent.a.peer_max == 0x01020304u);
    CHECK((lent.a.gathered >> 32) == 0x05060708u && (lent.a.gathered & 0xFFFFFFFFu) == 0x090A0B0Cu);
    memset(&lent.a, 0xEE, 16);
    feo_fresh(&lent.a);
    IS("\1\0\0\0\0\0\0\0\0\0\0\0\0\0\0\0");
}

/* What answered calls store: marks as 0 or 1, numbers as they are, state and marks of the row. */
static void answered(void)
{
    given("\1\0\0\0\0\0\0\0\0\0\0\0\0\0\0\0");
    CHECK(event(FEO_TRANSPORT_INDICATION) == 0 && r.action == FEO_AE_5);
    IS("\2\0\1\0\0\0\0\0\0\0\0\0\0\0\0\0");
    given("\1\0\0\0\0\0\0\0\0\0\0\0\0\0\0\0");
    CHECK(event(FEO_ASSOCIATE_REQUEST) == 0 && r.action == FEO_AE_1);
    IS("\4\0\0\1\0\0\0\0\0\0\0\0\0\0\0\0");
    /* any non-zero byte is set, an even one too */
    given("\x0D\x02\xFF\x80\0\0\0\0\0\0\0\0\0\0\0\0");
    CHECK(receive(FEO_BUFFER, FEO_BUFFER) == 0 && r.action == FEO_NO_ACTION);
    IS("\x0D\1\1\1\0\0\0\0\0\0\0\0\0\0\0\0");
    given("\2\0\2\0\0\0\0\0\0\0\0\0\0\0\0\0");
    CHECK(receive(FEO_BUFFER, FEO_BUFFER) == 0 && r.action == FEO_NO_ACTION);
    IS("\2\0\1\0\0\0\0\0\0\0\0\0\0\0\0\0");
    /* every byte of the peer maximum goes in and out */
    given("\6\0\0\1\x04\x03\x02\x81\0\0\0\0\0\0\0\0");
    CHECK(receive(FEO_BUFFER, FEO_BUFFER) == 0);
    IS("\6\0\0\1\x04\x03\x02\x81\0\0\0\0\0\0\0\0");
    CHECK(event(FEO_RELEASE_REQUEST) == 0 && r.action == FEO_AR_1);
    IS("\7\0\0\1\x04\x03\x02\x81\0\0\0\0\0\0\0\0");
    /* and of the count: all bytes but one of a P-DATA-TF with a PDU-length of 16,384 are gathered */
    memcpy(gather, "\x04\0\0\0\x40\0", 6);
    given("\6\0\0\0\x00\x40\0\0\x05\x40\0\0\0\0\0\0");
    CHECK(receive(FEO_BUFFER, FEO_BUFFER) == 0 && lent.a.gathered == 16389 && lent.a.peer_max == 16384);
    IS("\6\0\0\0\x00\x40\0\0\x05\x40\0\0\0\0\0\0");
}

/* Refused calls store nothing, and tell 0. */
static void refused(int line, uint8_t got, uint8_t refusal, const char *bytes)
{
    check(line, got == refusal && r.refusal == refusal, "the refusal");
    check(line, r.action == 0 && r.used == 0 && r.sent == 0 && r.shown == 0, "the numbers");
    is(line, bytes);
}

static void refusals(void)
{
    static const char *const broken[] = {
        "\x00\0\0\0\0\0\0\0\0\0\0\0\0\0\0\0", "\x0E\0\0\0\0\0\0\0\0\0\0\0\0\0\0\0", "\xFF\0\0\0\0\0\0\0\0\0\0\0\0\0\0\0",
        "\6\2\0\0\0\0\0\0\0\0\0\0\0\0\0\0", "\6\0\2\0\0\0\0\0\0\0\0\0\0\0\0\0", "\2\0\0\0\0\0\0\0\0\0\0\0\0\0\0\0",
        "\x06\0\0\0\0\0\0\0\x06\x40\0\0\0\0\0\0", "\x06\0\0\0\0\0\0\0\0\0\1\0\0\0\0\0", "\x06\0\0\0\0\0\0\0\0\0\0\1\0\0\0\0",
        "\x06\0\0\0\0\0\0\0\0\0\0\0\1\0\0\0", "\x06\0\0\0\0\0\0\0\0\0\0\0\0\1\0\0", "\x06\0\0\0\0\0\0\0\0\0\0\0\0\0\1\0",
        "\x06\0\0\0\0\0\0\0\0\0\0\0\0\0\0\x80", "\x00\x01\x02\x03\x04\x05\x06\x07\x08\x09\x0A\x0B\x0C\x0D\x0E\x0F",
        "\xFF\xFF\xFF\xFF\xFF\xFF\xFF\xFF\xFF\xFF\xFF\xFF\xFF\xFF\xFF\xFF"
    };
    static const char odd_marks[] = "\x0D\x02\xFF\x80\0\0\0\0\0\0\0\0\0\0\0\0";
    size_t i;
    for (i = 0; i < sizeof broken / sizeof broken[0]; i++) {
        given(broken[i]);
        refused(__LINE__, receive(FEO_BUFFER, FEO_BUFFER), FEO_BROKEN_RECORD, broken[i]);
        refused(__LINE__, event(FEO_TRANSPORT_CLOSED), FEO_BROKEN_RECORD, broken[i]);
    }
    given(odd_marks);
    refused(__LINE__, receive(FEO_BUFFER, 9), FEO_SHORT_OUTPUT, odd_marks);
    refused(__LINE__, receive(FEO_BUFFER - 1, FEO_BUFFER), FEO_SHORT_GATHER, odd_marks);
    refused(__LINE__, event(FEO_RELEASE_REQUEST), FEO_BLANK_CELL, odd_marks);
}

int main(void)
{
    fields();
    answered();
    refusals();
    printf("%ld checks of an association's bytes\n", checks);
    return 0;
}

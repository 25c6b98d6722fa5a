/* What is measured beside feohanna: the second program (second.rs) and DCMTK's own parser and writer (dcmtk.cpp). */
#ifndef PEERS_H
#define PEERS_H

#include <stddef.h>
#include <stdint.h>

extern "C" {
size_t second_read(
    const uint8_t *pdu, size_t pdu_len, const uint8_t *sheet, size_t sheet_len, const uint8_t *roles, size_t roles_len);
size_t second_write(
    const uint8_t *titles, const uint8_t *application, size_t application_len, const uint8_t *class_uid, size_t class_uid_len,
    const uint8_t *sheet, size_t sheet_len);
size_t second_place(const uint8_t *own, size_t own_len, const uint8_t *sought, size_t sought_len);
}

/* Parses an RQ into DCMTK's lists and frees them, as its caller does: the number of contexts. */
size_t dcmtk_read(uint8_t *pdu, size_t pdu_len);
/* The parameters of an RQ with so many contexts of so many transfer syntaxes. */
void *dcmtk_proposal(unsigned contexts, unsigned transfers);
/* Makes the RQ of such parameters in out: its length. */
size_t dcmtk_write(void *proposal, uint8_t *out, size_t out_len);

/* The names that the proposals are made of. */
static const char *const APPLICATION = "1.2.840.10008.3.1.1.1";
static const char *const CLASS_UID = "2.999.1";
static const char *const ABSTRACT = "1.2.840.10008.1.1";
static const char *const TRANSFERS[3] = { "1.2.840.10008.1.2", "1.2.840.10008.1.2.1", "1.2.840.10008.1.2.2" };

#endif

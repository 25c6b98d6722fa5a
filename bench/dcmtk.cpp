// DCMTK's parser and writer of an A-ASSOCIATE-RQ over memory. Its shared library hides both, so dulparse.cc, dulconst.cc and helpers.cc of Debian's own source package
// are compiled beside this file.
#include "dcmtk/config/osconfig.h"
#include "dcmtk/dcmnet/assoc.h"
#include "dcmtk/dcmnet/cond.h"
#include "dcmtk/dcmnet/lst.h"
#include "dcmtk/dcmnet/dul.h"
#include "dcmtk/dcmnet/dulstruc.h"
#include "dcmtk/dcmnet/helpers.h"
#include "dulpriv.h"
#include "peers.h"
#include <cstdlib>
#include <cstring>

OFCondition parseAssociate(unsigned char *, unsigned long, PRV_ASSOCIATEPDU *);
OFCondition constructAssociatePDU(DUL_ASSOCIATESERVICEPARAMETERS *, unsigned char, PRV_ASSOCIATEPDU *);
OFCondition streamAssociatePDU(PRV_ASSOCIATEPDU *, unsigned char *, unsigned long, unsigned long *);

static void free_lists(PRV_ASSOCIATEPDU *p)
{
    destroyAssociatePDUPresentationContextList(&p->presentationContextList);
    destroyUserInformationLists(&p->userInfo);
}

size_t dcmtk_read(uint8_t *pdu, size_t pdu_len)
{
    PRV_ASSOCIATEPDU p;
    if (parseAssociate(pdu, pdu_len - 6, &p).bad())
        return 0;
    size_t n = LST_Count(&p.presentationContextList);
    free_lists(&p);
    return n;
}

void *dcmtk_proposal(unsigned contexts, unsigned transfers)
{
    T_ASC_Parameters *p = NULL;
    const char *names[3] = { TRANSFERS[0], TRANSFERS[1], TRANSFERS[2] };
    ASC_createAssociationParameters(&p, 16384);
    ASC_setAPTitles(p, "CART 1", "STORE-EQUINE", NULL);
    for (unsigned k = 0; k < contexts; k++)
        if (ASC_addPresentationContext(p, (T_ASC_PresentationContextID)(2 * k + 1), ABSTRACT, names, (int)transfers).bad())
            std::abort();
    return p;
}

size_t dcmtk_write(void *proposal, uint8_t *out, size_t out_len)
{
    PRV_ASSOCIATEPDU p;
    unsigned long length = 0;
    std::memset((void *)&p, 0, sizeof p);
    if (constructAssociatePDU(&((T_ASC_Parameters *)proposal)->DULparams, DUL_TYPEASSOCIATERQ, &p).bad())
        return 0;
    if (p.length + 6 > out_len || streamAssociatePDU(&p, out, p.length + 6, &length).bad())
        length = 0;
    free_lists(&p);
    return length;
}
